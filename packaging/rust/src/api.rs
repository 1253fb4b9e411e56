//! The calls of the crate. Written by hand.

use crate::extracted::cosvigle_engine::{self as engine, DeclarationReader, Failed, FilterFault, Sink, Tally};
use crate::extracted::cxx_demangle::Text;
use crate::rattle::alloc::{AllocError, Global};
use crate::rattle::vec;
use std::fmt;

/// The bytes of memory that are counted for each node that may be kept to read a symbol.
const NODE_MEMORY: usize = 256;

/// Whose texts are printed.
#[derive(Clone, Copy, Debug, Default, PartialEq, Eq)]
pub enum Style {
    /// Those of `c++filt`.
    #[default]
    Gnu,
    /// Those of `c++filt -i` and of `__cxa_demangle` of GCC: the abbreviations of `std` aren't written out.
    GnuShort,
    /// Those of LLVM.
    Llvm,
}

/// What is read, and what is printed of it. Take the default, and change what shall be otherwise:
///
/// ```
/// use cosvigle::{Demangler, Options, Style};
///
/// let options = Options { style: Style::Llvm, returns: false, ..Options::default() };
/// let mut demangler = Demangler::with(options);
/// assert_eq!(demangler.demangle("_Z3fooISt6vectorIS0_IiEEEvv"), Some("foo<std::vector<std::vector<int>>>()"));
/// ```
#[derive(Clone, Copy, Debug, PartialEq, Eq)]
pub struct Options {
    /// Whose texts are printed: those of `c++filt` unless another is chosen.
    pub style: Style,
    /// Whether the parameters of a function are printed, and all that belongs to them: its return type, and qualifiers
    /// such as `const`. They are.
    pub params: bool,
    /// Whether the return type of a function is printed. It is. Only symbols of function templates have one.
    pub returns: bool,
    /// Whether what has no symbol's prefix is read as a type: `i` is `int`. It isn't.
    pub types: bool,
    /// The bytes of memory that may be taken to read a symbol. `None` is the default, which is enough for each symbol
    /// of a program. A symbol that needs more has no declaration, and in calls that begin with `try_` an error says so.
    pub max_memory: Option<usize>,
}

impl Default for Options {
    fn default() -> Self {
        Options { style: Style::Gnu, params: true, returns: true, types: false, max_memory: None }
    }
}

impl From<Options> for engine::Printing {
    fn from(options: Options) -> Self {
        let mode = match (options.params, options.returns) {
            (false, _) => engine::Mode::Name,
            (true, false) => engine::Mode::Signature,
            (true, true) => engine::Mode::Declaration,
        };
        let limit = options.max_memory.map(|bytes| bytes / NODE_MEMORY);
        engine::Printing { types: options.types, part: engine::Part { mode, style: options.style.into(), limit } }
    }
}

impl From<Style> for engine::Style {
    fn from(style: Style) -> Self {
        match style {
            Style::Gnu => engine::Style::Gnu,
            Style::GnuShort => engine::Style::GnuShort,
            Style::Llvm => engine::Style::Llvm,
        }
    }
}

/// Why a call says nothing of a symbol.
#[derive(Clone, Copy, Debug, PartialEq, Eq)]
#[non_exhaustive]
pub enum Error {
    /// An allocation failed.
    Memory,
    /// The symbol needs more memory than [`Options::max_memory`].
    Limit,
}

impl fmt::Display for Error {
    fn fmt(&self, f: &mut fmt::Formatter<'_>) -> fmt::Result {
        match self {
            Error::Memory => fmt::Display::fmt(&AllocError, f),
            Error::Limit => f.write_str("the symbol needs more memory than the limit"),
        }
    }
}

impl std::error::Error for Error {}

impl From<AllocError> for Error {
    fn from(_: AllocError) -> Self {
        Error::Memory
    }
}

impl From<engine::DemangleError> for Error {
    fn from(error: engine::DemangleError) -> Self {
        match error {
            engine::DemangleError::Memory => Error::Memory,
            engine::DemangleError::Limit => Error::Limit,
        }
    }
}

/// What a call without `try_` does where an allocation failed.
#[track_caller]
pub(crate) fn or_panic<T>(made: Result<T, AllocError>) -> T {
    match made {
        Ok(made) => made,
        Err(error) => panic!("cosvigle: {error} (a call that begins with try_ returns this as an error)"),
    }
}

/// The same, and a symbol that needs more memory than the limit has no declaration.
#[track_caller]
fn or_none<T>(found: Result<Option<T>, Error>) -> Option<T> {
    match found {
        Ok(found) => found,
        Err(Error::Limit) => None,
        Err(Error::Memory) => or_panic(Err(AllocError)),
    }
}

/// What a symbol stands for.
#[derive(Clone, Copy, Debug, PartialEq, Eq)]
pub enum Kind {
    /// A function.
    Function,
    /// Data.
    Data,
    /// What has a special name, such as a table, a thunk or a guard variable.
    Special,
}

/// The parts of a symbol. A part that the symbol doesn't have is empty, and so are all where `kind` is `Special`.
#[derive(Clone, Debug, PartialEq, Eq)]
pub struct Parts {
    /// What the symbol stands for.
    pub kind: Kind,
    /// Whether it is a member function with qualifiers, such as `const` or `&&`.
    pub has_qualifiers: bool,
    /// The name without scopes and template arguments: `bar` of `_ZN3Foo3barIiEEvv`.
    pub base_name: String,
    /// The scopes around it, with `::` between: `Foo`.
    pub context: String,
    /// The parameters of a function, in parentheses: `()`.
    pub parameters: String,
    /// The return type of a function, if its symbol has one: `void`.
    pub return_type: String,
}

/// Demangles symbol after symbol, and keeps its memory from one symbol to the next.
///
/// A returned text is borrowed until the next call. Earlier calls change no result.
///
/// ```
/// let mut demangler = cosvigle::Demangler::new();
/// for symbol in ["_ZN3Foo3barEi", "_Z3foov.cold", "malloc"] {
///     println!("{}", demangler.demangle(symbol).unwrap_or(symbol));
/// }
/// assert_eq!(demangler.try_demangle(b"_Z3foov"), Ok(Some("foo()"))); // bytes, of an object file
/// ```
pub struct Demangler {
    reader: DeclarationReader,
    options: Options,
}

impl Demangler {
    /// Returns a value with the default options. It takes no memory yet.
    pub fn new() -> Self {
        Self::with(Options::default())
    }

    /// Returns a value with these options.
    pub fn with(options: Options) -> Self {
        Demangler { reader: DeclarationReader::new(Global), options }
    }

    /// Returns the declaration of a symbol, or `None` if it isn't read as one. A symbol begins with `_Z`, `__Z`, `___Z`
    /// or `____Z`, and is read to its end.
    ///
    /// # Panics
    ///
    /// If an allocation fails.
    #[track_caller]
    pub fn demangle(&mut self, symbol: &str) -> Option<&str> {
        or_none(self.try_demangle(symbol))
    }

    /// Returns what [`demangle`](Self::demangle) does. The symbol may be bytes too. If these aren't UTF-8 as a whole it
    /// has no declaration.
    ///
    /// # Errors
    ///
    /// If an allocation fails, or if the symbol needs more memory than the limit.
    pub fn try_demangle(&mut self, symbol: impl AsRef<[u8]>) -> Result<Option<&str>, Error> {
        self.asked(self.options, symbol.as_ref())
    }

    /// Returns a type as declarations have it, or `None` if it isn't read. A type stands alone where a program names it
    /// at run time: `P3Foo` is `Foo*`. What has a symbol's prefix is read as a symbol.
    ///
    /// ```
    /// assert_eq!(cosvigle::Demangler::new().demangle_type("PFivE"), Some("int (*)()"));
    /// ```
    ///
    /// # Panics
    ///
    /// If an allocation fails.
    #[track_caller]
    pub fn demangle_type(&mut self, text: &str) -> Option<&str> {
        or_none(self.try_demangle_type(text))
    }

    /// Returns what [`demangle_type`](Self::demangle_type) does, of bytes too.
    ///
    /// # Errors
    ///
    /// As [`try_demangle`](Self::try_demangle).
    pub fn try_demangle_type(&mut self, text: impl AsRef<[u8]>) -> Result<Option<&str>, Error> {
        self.asked(Options { types: true, ..self.options }, text.as_ref())
    }

    /// Returns the parts of a symbol, or `None` if it has no declaration.
    ///
    /// ```
    /// let parts = cosvigle::Demangler::new().parts("_ZNK3Foo3barIiEEvT_").unwrap();
    /// assert_eq!((&*parts.context, &*parts.base_name, &*parts.parameters), ("Foo", "bar", "(int)"));
    /// assert!(parts.has_qualifiers && parts.return_type == "void");
    /// ```
    ///
    /// # Panics
    ///
    /// If an allocation fails.
    #[track_caller]
    pub fn parts(&mut self, symbol: &str) -> Option<Parts> {
        or_none(self.try_parts(symbol))
    }

    /// Returns what [`parts`](Self::parts) does. The symbol may be bytes too.
    ///
    /// # Errors
    ///
    /// As [`try_demangle`](Self::try_demangle).
    pub fn try_parts(&mut self, symbol: impl AsRef<[u8]>) -> Result<Option<Parts>, Error> {
        if self.try_demangle(symbol)?.is_none() {
            return Ok(None);
        }
        let (symbol, style) = (&self.reader.demangler, self.options.style.into());
        let kind = match symbol.kind() {
            Some(engine::Kind::Function) => Kind::Function,
            Some(engine::Kind::Data) => Kind::Data,
            Some(engine::Kind::Special) => Kind::Special,
            None => return Ok(None),
        };
        Ok(Some(Parts {
            kind,
            has_qualifiers: symbol.has_qualifiers(),
            base_name: printed(|text| symbol.print_base_name(style, text))?,
            context: printed(|text| symbol.print_context(style, text))?,
            parameters: printed(|text| symbol.print_parameters(style, text))?,
            return_type: printed(|text| symbol.print_return_type(style, text))?,
        }))
    }

    /// Returns a text with the symbols in its words replaced, as the program `cosvigle` does. The text may be any
    /// bytes.
    ///
    /// A word is a maximal run of ASCII letters, digits, `_`, `$` and dots. A symbol is a word but for what stands in
    /// front of it and stays (one dot, one `$`, one `__imp_`, or the name of a section with its dots), and for the dots
    /// at its end, which stay too. With `strip` one more underscore stands in front of each symbol, and is dropped. A
    /// symbol that needs more memory than the limit stays.
    ///
    /// ```
    /// assert_eq!(cosvigle::Demangler::new().replace(b"at _Z3fooi+0x1", false), b"at foo(int)+0x1");
    /// ```
    ///
    /// # Panics
    ///
    /// If an allocation fails.
    #[track_caller]
    pub fn replace(&mut self, text: &[u8], strip: bool) -> Vec<u8> {
        or_panic(self.try_replace(text, strip))
    }

    /// Returns what [`replace`](Self::replace) does.
    ///
    /// # Errors
    ///
    /// If an allocation fails.
    pub fn try_replace(&mut self, text: &[u8], strip: bool) -> Result<Vec<u8>, AllocError> {
        let mut made = Made::default();
        let options = engine::ReplaceOptions { strip, printing: self.options.into() };
        engine::replace(Global, &mut self.reader, options, &mut Tally::new(text), &mut made)?;
        Ok(made.bytes.into_std())
    }

    /// Returns lines, with each that is a symbol replaced by its declaration. The lines may be any bytes. A line goes
    /// up to the next line feed, which stays, or to the end.
    ///
    /// ```
    /// assert_eq!(cosvigle::Demangler::new().filter(b"_Z3foov\nmalloc\n"), b"foo()\nmalloc\n");
    /// ```
    ///
    /// # Panics
    ///
    /// If an allocation fails.
    #[track_caller]
    pub fn filter(&mut self, lines: &[u8]) -> Vec<u8> {
        or_panic(self.try_filter(lines))
    }

    /// Returns what [`filter`](Self::filter) does.
    ///
    /// # Errors
    ///
    /// If an allocation fails.
    pub fn try_filter(&mut self, lines: &[u8]) -> Result<Vec<u8>, AllocError> {
        let mut made = Made::default();
        engine::filter_with(Global, &mut self.reader, self.options.into(), &mut Tally::new(lines), &mut made)?;
        Ok(made.bytes.into_std())
    }

    /// Asks for a symbol. Bytes that aren't UTF-8 are read as the empty symbol, which has no declaration.
    fn asked(&mut self, options: Options, symbol: &[u8]) -> Result<Option<&str>, Error> {
        let symbol = str::from_utf8(symbol).unwrap_or("");
        self.reader.prepare(Global, options.into(), symbol)?;
        Ok(self.reader.demangler.text())
    }
}

impl Default for Demangler {
    fn default() -> Self {
        Self::new()
    }
}

impl fmt::Debug for Demangler {
    fn fmt(&self, f: &mut fmt::Formatter<'_>) -> fmt::Result {
        f.debug_struct("Demangler").field("options", &self.options).finish_non_exhaustive()
    }
}

/// The text that a call appends. It is UTF-8, as the declaration is, whose names it has.
fn printed(print: impl FnOnce(&mut Text) -> Result<(), AllocError>) -> Result<String, AllocError> {
    let mut text = Text::new(Global);
    print(&mut text)?;
    let made = vec::Vec::from_slice(Global, text.as_slice())?.into_std();
    Ok(String::from_utf8(made).unwrap_or_default())
}

/// Returns the declaration of one symbol as a text of its own, as `c++filt` prints it, or `None` if it isn't read as
/// one. For many symbols use one [`Demangler`], which keeps its memory.
///
/// # Panics
///
/// If an allocation fails.
#[track_caller]
pub fn demangle(symbol: &str) -> Option<String> {
    or_none(try_demangle(symbol))
}

/// Returns what [`demangle`] does. The symbol may be bytes too.
///
/// # Errors
///
/// If an allocation fails.
pub fn try_demangle(symbol: impl AsRef<[u8]>) -> Result<Option<String>, Error> {
    match Demangler::new().try_demangle(symbol)? {
        Some(text) => Ok(Some(printed(|made| made.add(text.as_bytes()))?)),
        None => Ok(None),
    }
}

/// The bytes that the filter has written, and whether there was no memory for some.
struct Made {
    bytes: vec::Vec<u8>,
    failed: bool,
}

impl Default for Made {
    fn default() -> Self {
        Made { bytes: vec::Vec::new(Global), failed: false }
    }
}

impl Sink for Made {
    fn failed(&self) -> bool {
        self.failed
    }

    fn put(&mut self, bytes: &[u8]) -> Result<usize, Failed> {
        match self.bytes.extend_from_slice(bytes) {
            Ok(()) => Ok(bytes.len()),
            Err(AllocError) => {
                self.failed = true;
                Err(Failed)
            }
        }
    }
}

/// Reading from a slice doesn't fail, and writing fails only for want of memory.
impl From<FilterFault> for AllocError {
    fn from(_: FilterFault) -> Self {
        AllocError
    }
}

/// Returns the version: the major version times 1,000,000, the minor times 1,000, and the patch, added up.
pub fn version() -> u32 {
    let parts = env!("CARGO_PKG_VERSION").split('.');
    parts.fold(0, |sum, part| sum * 1000 + part.parse::<u32>().unwrap_or(0))
}
