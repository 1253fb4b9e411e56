//! The two functions of the engine.

use crate::extracted::symfilter_engine::{FilterFault, NameReader, ReplaceOptions, Sink, Source, filter, replace};
use crate::rattle::alloc::Global;

/// Symbols in words are replaced by their names.
const IN_WORDS: ReplaceOptions<()> = ReplaceOptions { strip: false, printing: () };

/// The functions of the engine.
#[derive(Clone, Copy)]
pub enum Engine {
    /// `filter`: each line may be a symbol.
    Filter,
    /// `replace`: words may have symbols, and no underscore is stripped.
    Replace,
}

impl Engine {
    /// Returns the name of the function.
    pub fn name(self) -> &'static str {
        match self {
            Engine::Filter => "filter",
            Engine::Replace => "replace",
        }
    }

    /// Runs the function between a source and a sink that haven't failed.
    pub fn run<R: Source, W: Sink>(self, alloc: Global, source: &mut R, sink: &mut W) -> Result<(), FilterFault> {
        match self {
            Engine::Filter => filter(alloc, source, sink),
            Engine::Replace => replace(alloc, &mut NameReader::new(), IN_WORDS, source, sink),
        }
    }
}
