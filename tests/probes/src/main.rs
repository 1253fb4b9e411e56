//! Three programs in one that test the crates of the product, as `make rust` extracts them. The first argument says
//! which of them runs:
//!
//! - `probes beginnings` demangles symbols that were made to break the demangler, and their beginnings.
//! - `probes refusals` tries the crates row after row, while one allocation may fail.
//! - `probes scripts` plays scripts of calls of a buffer.
//!
//! Each program reads standard input. Its module says what it reads and what it writes. If the argument is another,
//! nothing is read, and the status is 2.

mod beginnings;
mod refusals;
mod scripts;

// The crates, and what stands in for Rattle's std below them. They come last, since the macros of the latter would
// stand in for those of Rust.
#[macro_use]
#[allow(dead_code, unused_imports, unused_macros)]
#[path = "../../../out/rust/src/rattle/mod.rs"]
mod rattle;
#[allow(unused)]
#[path = "../../../out/rust/src/extracted/mod.rs"]
mod extracted;

use std::process::ExitCode;

/// The exit status if no program has the name.
const NOT_ASKED: u8 = 2;

fn main() -> std::io::Result<ExitCode> {
    let arguments: Vec<String> = std::env::args().skip(1).collect();
    let arguments: Vec<&str> = arguments.iter().map(String::as_str).collect();
    match arguments[..] {
        ["beginnings"] => beginnings::run(),
        ["refusals"] => Ok(refusals::run()),
        ["scripts"] => scripts::run(),
        _ => Ok(ExitCode::from(NOT_ASKED)),
    }
}
