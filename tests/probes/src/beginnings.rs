//! Demangles symbols that were made to break the demangler, and the beginnings of symbols.
//!
//! A line of standard input is either a symbol or a record. Of a symbol each beginning is demangled that ends between
//! two characters. A record has tabs between its fields. The fields are a symbol and the line that the filter writes
//! for it; then `entered`, if it is tested; then `most_saved` and each component that is left, if they are tested. The
//! symbol is demangled, and its record must be the same. `\t` in a line stands for a tab.
//!
//! Each symbol is tested with a new value, and with one that has demangled all symbols before. The program writes one
//! line for each failure, and then `N passed, M failed`, which counts the symbols. If any failed, the status is 1.

mod asked;
mod record;

use crate::beginnings::asked::Asked;
use std::io;
use std::process::ExitCode;

/// Demangles what the lines of standard input say.
pub fn run() -> io::Result<ExitCode> {
    let mut asked = Asked::new();
    for line in io::stdin().lines() {
        asked.ask_line(&line?)?;
    }
    asked.end()
}
