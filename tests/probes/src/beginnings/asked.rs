//! Demangles symbols one after another, and tests the results.

use crate::beginnings::record::record;
use crate::extracted::itanium_demangle::Demangler;
use crate::rattle::alloc::{AllocError, Global};
use std::io;
use std::process::ExitCode;

/// The value that demangles all symbols, and how many tests passed and failed.
pub struct Asked {
    kept: Demangler,
    passed: u64,
    failed: u64,
}

/// What is recorded of a symbol, and in how many fields.
#[derive(Clone, Copy)]
struct Recorded<'a> {
    text: &'a str,
    fields: usize,
}

/// Returns the text with a tab for each `\t`.
fn with_tabs(text: &str) -> String {
    text.replace("\\t", "\t")
}

/// There is memory for all that is asked here.
fn given<T>(made: Result<T, AllocError>) -> T {
    made.expect("memory")
}

/// Returns what is wrong with two values that demangled the same symbol.
fn fault(new: &Demangler, kept: &Demangler, symbol: &str) -> Option<&'static str> {
    if new.text() != kept.text() {
        Some("a new value has another answer")
    } else if new.entered() != kept.entered() || new.most_saved() != kept.most_saved() {
        Some("a new value has other counts")
    } else if kept.entered() > symbol.len().saturating_mul(2) {
        Some("more than two productions are entered for each byte")
    } else if kept.most_saved() > symbol.len() {
        Some("more components are saved than it has bytes")
    } else if kept.text() == Some(symbol) {
        Some("its answer is the symbol itself")
    } else if kept.text().is_none() && kept.component(0).is_some() {
        Some("it has no answer and leaves a component")
    } else {
        None
    }
}

/// Returns what was found to be wrong, or that the record of the last symbol isn't the recorded one.
fn compared(
    asked: &Demangler,
    symbol: &str,
    recorded: Option<Recorded>,
    found: Option<&'static str>,
) -> Option<&'static str> {
    match recorded {
        Some(recorded) if record(asked, symbol, recorded.fields) != recorded.text => Some("its record is another"),
        _ => found,
    }
}

impl Asked {
    /// Returns a value that has demangled nothing.
    pub fn new() -> Self {
        Asked { kept: Demangler::new(), passed: 0, failed: 0 }
    }

    /// Demangles the symbol of a record, or each beginning of a symbol that is alone in its line.
    pub fn ask_line(&mut self, line: &str) -> io::Result<()> {
        let all = with_tabs(line);
        let Some((symbol, _)) = line.split_once('\t') else {
            return self.ask_beginnings(&all);
        };
        self.ask(&with_tabs(symbol), Some(Recorded { text: all.as_str(), fields: line.split('\t').count() }))
    }

    /// Demangles each beginning of the symbol that ends between two characters: the empty one, and so on up to the
    /// whole.
    fn ask_beginnings(&mut self, symbol: &str) -> io::Result<()> {
        for end in 0..=symbol.len() {
            if let Some(beginning) = symbol.get(..end) {
                self.ask(beginning, None)?;
            }
        }
        Ok(())
    }

    /// Demangles the symbol, which may have a record. Counts the test, and writes what is wrong, if anything is.
    fn ask(&mut self, symbol: &str, recorded: Option<Recorded>) -> io::Result<()> {
        let mut new = Demangler::new();
        given(new.prepare(Global, symbol));
        let lent = given(self.kept.demangle(Global, symbol));
        let mut found = None;
        if lent != new.text() {
            found = Some("another name is lent");
        }
        if found.is_none() {
            found = fault(&new, &self.kept, symbol);
        }
        match compared(&self.kept, symbol, recorded, found) {
            None => self.passed = self.passed.saturating_add(1),
            Some(fault) => {
                self.failed = self.failed.saturating_add(1);
                println!("{symbol}: {fault}");
            }
        }
        Ok(())
    }

    /// Writes how many tests passed and failed. Returns the exit status, which is a failure if any failed.
    pub fn end(&self) -> io::Result<ExitCode> {
        println!("{} passed, {} failed", self.passed, self.failed);
        Ok(if self.failed == 0 { ExitCode::SUCCESS } else { ExitCode::FAILURE })
    }
}
