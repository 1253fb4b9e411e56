//! Tries the demangler, a buffer and the engine of the filter, row after row, while an allocation may fail. Prints a
//! line for each row: its name, and then one of three. `answer` means that all results are right. `refused` means that
//! an allocation failed once, and that all holds which must hold then. Any other text says what is wrong. Standard
//! input names the row to try; if that is empty, all rows are tried, one after the other. Status 1 means that
//! something is wrong, or that there is no such row.
//!
//! tests/c/refuse.c, which is loaded before the C library, lets an allocation fail. It counts those of the rows alone.

mod calls;
mod engine;
mod filtering;
mod outcome;
mod scripts;
mod symbols;
mod view;
mod watch;

use crate::extracted::itanium_demangle::Demangler;
use crate::rattle::alloc::Global;
use crate::refusals::filtering::LINES;
use crate::refusals::outcome::{Memory, Wrong};
use crate::refusals::scripts::SCRIPTS;
use crate::refusals::symbols::{Call, NAMES};
use std::ffi::{c_char, c_void};
use std::io::{read_to_string, stdin, stdout};
use std::mem::transmute;
use std::process::ExitCode;
use std::ptr::null_mut;

unsafe extern "C" {
    fn dlsym(handle: *mut c_void, name: *const c_char) -> *mut c_void;
}

/// From here on allocations count, if refuse.c is loaded.
fn begin_to_refuse() {
    // SAFETY: the name ends in a NUL, and what has this name takes nothing and returns nothing.
    unsafe {
        let begin = dlsym(null_mut(), c"refuse_begin".as_ptr());
        if !begin.is_null() {
            transmute::<*mut c_void, extern "C" fn()>(begin)();
        }
    }
}

/// The rows to try, and the outcome so far.
struct Rows<'a> {
    // The name of the only row to try, or nothing if all rows are tried.
    asked: &'a str,
    any: bool,
    wrong: bool,
}

impl Rows<'_> {
    /// Returns whether to try this row. Its name is two words.
    fn has(&self, call: &str, what: &str) -> bool {
        match self.asked.split_once(' ') {
            Some((first, second)) => first == call && second == what,
            None => self.asked.is_empty(),
        }
    }

    /// Prints the line of this row.
    fn tell(&mut self, call: &str, what: &str, found: Result<Memory, Wrong>) {
        self.any = true;
        let word = match found {
            Ok(Memory::Given) => "answer",
            Ok(Memory::Refused) => "refused",
            Err(Wrong(why)) => {
                self.wrong = true;
                why
            }
        };
        println!("{call} {what}: {word}");
    }

    /// Tries the rows of these symbols with this call.
    fn ask_symbols(&mut self, demangler: &mut Demangler, call: Call, symbols: &[(&str, &str)]) {
        for (symbol, answer) in symbols {
            if self.has(call.name(), symbol) {
                self.tell(call.name(), symbol, symbols::run(call, Global, demangler, symbol, answer));
            }
        }
    }

    /// Tries all rows that are asked for.
    fn ask(&mut self) {
        let mut demangler = Demangler::new();
        self.ask_symbols(&mut demangler, Call::Demangle, &NAMES);
        self.ask_symbols(&mut demangler, Call::DemangleOwned, &NAMES);
        drop(demangler);
        for script in SCRIPTS {
            if self.has("buffer", script.name()) {
                self.tell("buffer", script.name(), scripts::run(script, Global));
            }
        }
        for lines in LINES {
            if self.has(lines.engine.name(), lines.name) {
                self.tell(lines.engine.name(), lines.name, filtering::run(Global, &lines));
            }
        }
    }
}

/// Tries the rows, and returns the exit status.
pub fn run() -> ExitCode {
    let asked = read_to_string(stdin()).unwrap_or_else(|_| "?".into());
    let mut rows = Rows { asked: asked.trim_ascii_end(), any: false, wrong: false };
    // What standard output needs is allocated before.
    let _ = stdout();
    begin_to_refuse();
    rows.ask();
    if rows.wrong || !rows.any { ExitCode::FAILURE } else { ExitCode::SUCCESS }
}
