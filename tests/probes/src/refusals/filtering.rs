//! The rows of the filter and of the replacement, between a source and a sink in memory that allocate nothing.

use crate::extracted::symfilter_engine::FilterFault;
use crate::rattle::alloc::Global;
use crate::refusals::engine::Engine;
use crate::refusals::outcome::{Memory, Wrong, must};
use crate::refusals::watch::{NOTHING, TextSink, TextSource, Watch};

/// Some lines, and what must be written for them.
#[derive(Clone, Copy)]
pub struct Lines {
    pub engine: Engine,
    pub name: &'static str,
    text: &'static [u8],
    filtered: &'static [u8],
}

/// The lines of each row. In the first row, the text for the third line is longer than all before it.
pub const LINES: [Lines; 4] = [
    Lines {
        engine: Engine::Filter,
        name: "lines_between_two_ends_in_memory",
        text: b"_Z3foov\nmalloc\n_Z1fI1A1BIS0_S0_ES1_IS2_S2_ES1_IS3_S3_EEvv\n\n_Z3bar",
        filtered: b"foo
malloc
f<A, B<A, A>, B<B<A, A>, B<A, A> >, B<B<B<A, A>, B<A, A> >, B<B<A, A>, B<A, A> > > >

bar",
    },
    Lines {
        engine: Engine::Filter,
        name: "short_answers_between_two_ends_in_memory",
        text: b"_Z3foov\nmalloc\n_Z1fI1AEvv\n_Z3bar",
        filtered: b"foo\nmalloc\nf<A>\nbar",
    },
    Lines {
        engine: Engine::Replace,
        name: "words_between_two_ends_in_memory",
        text: b"at _Z3foov (a.cc)\nmalloc\n(_Z3foo _Z1fI1A1BIS0_S0_ES1_IS2_S2_ES1_IS3_S3_EEvv)\n\n._Z3bar.",
        filtered: b"at foo (a.cc)
malloc
(foo f<A, B<A, A>, B<B<A, A>, B<A, A> >, B<B<B<A, A>, B<A, A> >, B<B<A, A>, B<A, A> > > >)

.bar.",
    },
    Lines {
        engine: Engine::Replace,
        name: "short_words_between_two_ends_in_memory",
        text: b"(_Z3foov)\nmalloc\n_Z1fI1AEvv _Z4foo\n_Z3bar@plt",
        filtered: b"(foo)\nmalloc\nf<A> _Z4foo\nbar@plt",
    },
];

/// Filters once, from a source that gives at most `most` bytes a call. All of the filtered text must be written, or
/// whole lines or words before the fault.
fn run_once(alloc: Global, lines: &Lines, most: usize, watch: &Watch) -> Result<Memory, Wrong> {
    let mut source = TextSource::new(lines.text, most, watch);
    let mut sink = TextSink::new(lines.filtered, watch);
    match lines.engine.run(alloc, &mut source, &mut sink) {
        Ok(()) => {
            must(sink.has_all(), "another text is written")?;
            Ok(Memory::Given)
        }
        Err(FilterFault::Memory) => {
            let is_whole = match lines.engine {
                Engine::Filter => sink.has_whole_lines(),
                Engine::Replace => sink.has_whole_words(),
            };
            must(is_whole, "what is written isn't whole lines or words")?;
            Ok(Memory::Refused)
        }
        Err(_) => Err(Wrong("another fault")),
    }
}

/// Filters from a source that gives at most `most` bytes a call, and after a fault once more. The second run makes the
/// same calls of source and sink as the first, up to where the allocation failed. The first run may call neither of
/// them after that, so at some moment the second has asked for as much as the first in all.
fn run_by(alloc: Global, lines: &Lines, most: usize, memory: &mut Memory) -> Result<(), Wrong> {
    let first = Watch::new(NOTHING);
    if run_once(alloc, lines, most, &first)? == Memory::Refused {
        *memory = Memory::Refused;
        let second = Watch::new(first.asked());
        let again = run_once(alloc, lines, most, &second)?;
        must(again == Memory::Given, "a fault after the first one")?;
        must(second.has_met(), "an end is called after memory was refused")?;
    }
    Ok(())
}

/// Tries the row of these lines: the source gives one byte a call, some, or all.
pub fn run(alloc: Global, lines: &Lines) -> Result<Memory, Wrong> {
    let mut memory = Memory::Given;
    for most in [1, 7, 1000] {
        run_by(alloc, lines, most, &mut memory)?;
    }
    Ok(memory)
}
