//! The names of Rattle's library that the extracted modules use, over those of Rust's. Written by hand.
//!
//! Each allocation may fail, and returns `AllocError` then. `Global` stands for the allocator.

pub mod alloc;
pub mod boxed;
pub mod env;
pub mod fs;
pub mod host;
pub mod simd;
pub mod str;
pub mod string;
pub mod vec;

pub mod fmt {
    pub use std::fmt::*;
}

pub mod io {
    pub use super::host::Stdout;
    pub use std::io::*;
}

pub mod mem {
    pub use std::mem::*;
}

pub mod process {
    pub use std::process::ExitCode;
}

/// What each file of Rattle has without an import.
pub mod prelude {
    pub use super::boxed::Box;
    pub use super::host::HostRuntime;
    pub use super::string::String;
    pub use super::vec::Vec;
}

/// `vec![in alloc; value; n]`
macro_rules! vec {
    (in $alloc:expr; $value:expr; $n:expr) => {
        $crate::rattle::vec::Vec::filled($alloc, $value, $n)
    };
}

/// `prove!(condition)`: the prover has shown the condition. A build without optimization tests it.
macro_rules! prove {
    ($($condition:tt)*) => {
        std::debug_assert!($($condition)*)
    };
}

/// `eprintln!(rt; "..")`
macro_rules! eprintln {
    ($rt:expr; $($text:tt)*) => {
        $crate::rattle::host::write_error(&$rt, std::format_args!($($text)*))
    };
}
