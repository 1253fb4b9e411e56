//! The names of symbols without their parameters, in place of the crate `itanium-demangle` 0.1.0: who uses it changes
//! one line. A name isn't a declaration with its parameters left out: the two are read by different grammars.
//!
//! ```
//! use cosvigle::names::{Demangler, demangle_owned};
//!
//! let mut demangler = Demangler::new();
//! assert_eq!(demangler.demangle("_ZN3Foo3barEv"), Some("Foo::bar"));
//! assert_eq!(demangler.demangle("malloc"), None);
//! assert_eq!(demangle_owned("_Z3foov.cold").as_deref(), Some("foo"));
//! ```
//!
//! Only a symbol that begins with `_Z` or `__Z` has a name. Its parameters aren't read. Bytes after what was read are
//! dropped, but for a suffix that begins with a dot: `_Z3foo.cold` is `foo.cold`. Productions of the last ten years,
//! such as constraints, aren't read, nor are names that nest more than 128 productions.

use crate::api::or_panic;
use crate::extracted::itanium_demangle as inner;
use crate::rattle::alloc::{AllocError, Global};
use crate::rattle::string;
use std::fmt;

/// Demangles symbol after symbol, and keeps its memory from one symbol to the next.
///
/// A returned text is borrowed until the next call. Earlier calls change no result.
#[derive(Default)]
pub struct Demangler {
    inner: inner::Demangler,
}

impl Demangler {
    /// Returns an empty value, which takes no memory.
    pub fn new() -> Self {
        Self::default()
    }

    /// Returns the name of a symbol, or `None` if it has none.
    ///
    /// # Panics
    ///
    /// If an allocation fails.
    #[track_caller]
    pub fn demangle(&mut self, symbol: &str) -> Option<&str> {
        or_panic(self.read(symbol))
    }

    /// Returns what [`demangle`](Self::demangle) does. The symbol may be bytes too. If these aren't UTF-8 as a whole it
    /// has no name.
    ///
    /// # Errors
    ///
    /// If an allocation fails.
    pub fn try_demangle(&mut self, symbol: impl AsRef<[u8]>) -> Result<Option<&str>, AllocError> {
        // (the empty symbol has no name)
        self.read(str::from_utf8(symbol.as_ref()).unwrap_or(""))
    }

    fn read(&mut self, symbol: &str) -> Result<Option<&str>, AllocError> {
        self.inner.prepare(Global, symbol)?;
        Ok(self.inner.text())
    }
}

impl fmt::Debug for Demangler {
    fn fmt(&self, f: &mut fmt::Formatter<'_>) -> fmt::Result {
        f.debug_struct("Demangler").finish_non_exhaustive()
    }
}

/// Returns the name of one symbol as a text of its own, or `None` if it has none. For many symbols use one
/// [`Demangler`], which takes half the time.
///
/// # Panics
///
/// If an allocation fails.
#[track_caller]
pub fn demangle_owned(symbol: &str) -> Option<String> {
    or_panic(try_demangle_owned(symbol))
}

/// Returns what [`demangle_owned`] does. The symbol may be bytes too.
///
/// # Errors
///
/// If an allocation fails.
pub fn try_demangle_owned(symbol: impl AsRef<[u8]>) -> Result<Option<String>, AllocError> {
    match Demangler::new().try_demangle(symbol)? {
        Some(text) => Ok(Some(string::String::from_str(Global, text)?.into_std())),
        None => Ok(None),
    }
}
