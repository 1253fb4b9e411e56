//! Plays scripts of calls of a buffer and of the edits of its pieces, and tests what holds after them.
//!
//! Standard input has the scripts, each over a new buffer, with an empty line between two. A line that begins with `#`
//! says what the next lines show. Every other line has words, with spaces between them, and texts in quotation marks.
//!
//! - `b = append a "x"` makes the call `append` of the piece `a` with that text, and names the result `b`. After the
//!   name of a call come its pieces, then numbers or words. All calls are in `calls.rt`. Qualifiers are words, such as
//!   `const` or `&&`.
//! - `none = cut a 3` says that this call makes nothing: either it returns `None`, or its piece doesn't have the form
//!   that it needs.
//! - `save a`, `unsave`, `open_scope`, `push_arg a`, `keep_scopes 1`, `open` and `clear` have no result.
//! - `a is "x"`, `a own 0 1`, `a after 4`, `a grouped`, `a flags_none` and the like are questions about the piece `a`.
//!   All questions are in `calls.rt`. `output "x"`, `saved_len 1` and `scopes 1` are questions about the buffer.
//!
//! The pieces have the names `a`, `b` and `c`. After an edit only its result has a name. There is one exception: if a
//! mark is open, `a` is a piece that was made before the mark. That piece keeps its name, and no other can have it.
//!
//! A line is written if its question has the answer no, or if the line can't be played. The last line is `N passed, M
//! failed`. If any failed, the status is 1.

mod built;
mod calls;
mod edits;
mod line;
mod looks;
mod script;

use crate::rattle::alloc::Global;
use crate::scripts::line::Line;
use crate::scripts::script::{Outcome, Script};
use std::io;
use std::process::ExitCode;

/// The number of tests that passed and of lines that failed.
#[derive(Clone, Copy)]
struct Counts {
    passed: u64,
    failed: u64,
}

impl Counts {
    /// Counts what a line did, and writes the line if it failed.
    fn note(&mut self, line: &str, outcome: Outcome) {
        match outcome {
            Outcome::Called => {}
            Outcome::Passed => self.passed += 1,
            Outcome::Failed(why) => {
                self.failed += 1;
                println!("{line}: {why}");
            }
        }
    }
}

/// Plays the lines of a script.
fn play(lines: &str, counts: &mut Counts) {
    let mut script = Script::new(Global);
    for line in lines.lines().filter(|line| !line.starts_with('#')) {
        counts.note(line, script.play(&Line::new(line)).expect("memory"));
    }
}

/// Plays the scripts of standard input, and returns the exit status.
pub fn run() -> io::Result<ExitCode> {
    let mut counts = Counts { passed: 0, failed: 0 };
    let text = io::read_to_string(io::stdin())?;
    for lines in text.split("\n\n") {
        play(lines, &mut counts);
    }
    println!("{} passed, {} failed", counts.passed, counts.failed);
    Ok(if counts.failed == 0 { ExitCode::SUCCESS } else { ExitCode::FAILURE })
}
