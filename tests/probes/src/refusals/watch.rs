//! A source and a sink that count what they are asked for, and note whether that was ever as much as in another run.
//! They allocate nothing.

use crate::extracted::symfilter_engine::{Failed, Sink, Source};
use std::cell::Cell;

/// What source and sink have been asked for: the number of calls of each, and of bytes.
#[derive(Clone, Copy, PartialEq, Eq)]
pub struct Asked {
    takes: usize,
    capacity: usize,
    puts: usize,
    offered: usize,
}

/// Nothing was asked for.
pub const NOTHING: Asked = Asked { takes: 0, capacity: 0, puts: 0, offered: 0 };

/// Returns whether the byte is a word byte.
fn is_word_byte(byte: u8) -> bool {
    byte.is_ascii_alphanumeric() || matches!(byte, b'_' | b'$' | b'.')
}

/// What the source and the sink of a run are asked for.
pub struct Watch {
    asked: Cell<Asked>,
    other: Asked,
    met: Cell<bool>,
}

impl Watch {
    /// Returns the counts of a run that hasn't begun. `other` is what another run was asked for in all.
    pub fn new(other: Asked) -> Self {
        Watch { asked: Cell::new(NOTHING), other, met: Cell::new(other == NOTHING) }
    }

    /// Returns what was asked for so far.
    pub fn asked(&self) -> Asked {
        self.asked.get()
    }

    /// Returns whether at some moment as much was asked for as in the other run.
    pub fn has_met(&self) -> bool {
        self.met.get()
    }

    /// Notes that so much has been asked for.
    fn note(&self, asked: Asked) {
        self.asked.set(asked);
        if asked == self.other {
            self.met.set(true);
        }
    }

    /// Notes that the source is asked for at most `capacity` bytes.
    fn note_take(&self, capacity: usize) {
        let mut asked = self.asked.get();
        asked.takes = asked.takes.saturating_add(1);
        asked.capacity = asked.capacity.saturating_add(capacity);
        self.note(asked);
    }

    /// Notes that the sink is offered `offered` bytes.
    fn note_put(&self, offered: usize) {
        let mut asked = self.asked.get();
        asked.puts = asked.puts.saturating_add(1);
        asked.offered = asked.offered.saturating_add(offered);
        self.note(asked);
    }
}

/// A source over a text. Each call gives at most `most` bytes, and is noted first.
pub struct TextSource<'a> {
    rest: &'a [u8],
    most: usize,
    watch: &'a Watch,
}

impl<'a> TextSource<'a> {
    pub fn new(text: &'a [u8], most: usize, watch: &'a Watch) -> Self {
        TextSource { rest: text, most, watch }
    }
}

impl Source for TextSource<'_> {
    fn failed(&self) -> bool {
        false
    }

    fn take(&mut self, into: &mut [u8]) -> Result<usize, Failed> {
        self.watch.note_take(into.len());
        let count = self.rest.len().min(into.len()).min(self.most);
        let (front, rest) = self.rest.split_at(count);
        into[..count].copy_from_slice(front);
        self.rest = rest;
        Ok(count)
    }
}

/// A sink that takes all bytes that it is offered, and compares them with an expected text. Each call is noted first.
pub struct TextSink<'a> {
    // The expected text that is left.
    rest: &'a [u8],
    differs: bool,
    is_at_line: bool,
    is_in_word: bool,
    watch: &'a Watch,
}

impl<'a> TextSink<'a> {
    pub fn new(expected: &'a [u8], watch: &'a Watch) -> Self {
        TextSink { rest: expected, differs: false, is_at_line: true, is_in_word: false, watch }
    }

    /// Returns whether the sink got the expected text, and no more.
    pub fn has_all(&self) -> bool {
        !self.differs && self.rest.is_empty()
    }

    /// Returns whether the sink got whole lines of the expected text.
    pub fn has_whole_lines(&self) -> bool {
        !self.differs && self.is_at_line
    }

    /// Returns whether the sink got whole words of the expected text, and after the last one a byte that is no word
    /// byte.
    pub fn has_whole_words(&self) -> bool {
        !self.differs && !self.is_in_word
    }

    /// Compares the bytes with the expected text that is left.
    fn compare(&mut self, bytes: &[u8]) {
        match self.rest.get(bytes.len()..) {
            Some(rest) if self.rest.starts_with(bytes) => self.rest = rest,
            _ => self.differs = true,
        }
        if let Some(byte) = bytes.last() {
            self.is_at_line = *byte == b'\n';
            self.is_in_word = is_word_byte(*byte);
        }
    }
}

impl Sink for TextSink<'_> {
    fn failed(&self) -> bool {
        false
    }

    fn put(&mut self, bytes: &[u8]) -> Result<usize, Failed> {
        self.watch.note_put(bytes.len());
        self.compare(bytes);
        Ok(bytes.len())
    }
}
