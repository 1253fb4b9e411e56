//! Demangles C++ symbols of the Itanium C++ ABI, as `c++filt` and LLVM print them.
//!
//! ```
//! let mut demangler = cosvigle::Demangler::new();
//! assert_eq!(demangler.demangle("_ZNK3Foo3barEi"), Some("Foo::bar(int) const"));
//! assert_eq!(demangler.demangle("malloc"), None);
//! assert_eq!(demangler.replace(b"at _Z3foov+0x1", false), b"at foo()+0x1");
//! ```
//!
//! The code is that of a program in Rattle, which is Rust with contracts, without these. A machine has proved the
//! contracts: a text that a call returns is the printing of the one tree that a formal grammar reads in the symbol
//! within its limits, and `None` says that it reads none there whose printing is UTF-8. This crate itself isn't proved.
//! What made it of the sources, the modules that are written by hand, and the compiler are only tested.
//!
//! [`names`] has the names of symbols without their parameters, in place of the crate `itanium-demangle`.
//!
//! # Memory and stack
//!
//! How much memory a symbol may take is limited, by default to what each symbol of a program is far below, and by
//! [`Options::max_memory`] to less. A [`Demangler`] keeps its memory until it is dropped. A call takes at most 512 KiB
//! of its thread's stack. That was measured, in optimized builds.
//!
//! A call whose name begins with `try_` returns an error if an allocation fails. The same call without `try_` panics
//! then. After either the [`Demangler`] can be used again.
#![forbid(unsafe_code)]
#![warn(missing_docs)]

// Rattle's macros `vec!` and `eprintln!` stand in for Rust's in what follows.
#[macro_use]
#[allow(dead_code, missing_docs, unused_imports, clippy::all)]
mod rattle;
// What is extracted has more than these calls need.
#[allow(missing_docs, unused, clippy::all)]
mod extracted;
mod api;
pub mod names;

pub use api::{Demangler, Error, Kind, Options, Parts, Style, demangle, try_demangle, version};
pub use rattle::alloc::AllocError;

/// What the programs of this package call.
#[doc(hidden)]
pub mod programs {
    pub use crate::extracted::cosvigle::main as cosvigle;
    pub use crate::extracted::symfilter::main as symfilter;
    pub use crate::rattle::host::HostRuntime;
}

/// What the library for C calls: the engine itself.
#[doc(hidden)]
pub mod engine {
    pub use crate::extracted::cosvigle_engine::*;
    pub use crate::extracted::cxx_demangle::Text;
    pub use crate::rattle::alloc::{AllocError, Global};
    pub use crate::rattle::vec::Vec;
}

// The program of the page is run with the tests.
#[cfg(doctest)]
#[doc = include_str!("../README.md")]
struct Page;
