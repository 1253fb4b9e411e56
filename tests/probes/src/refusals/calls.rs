//! Makes the calls of a buffer, and repeats each if an allocation fails. Before a call is repeated, nothing must have
//! changed: two pieces that live, the substitution table, the last scope, and the length of the output. A `close` that
//! fails isn't repeated.

use crate::extracted::demangle_text::{Buffer, Mark, Piece, Place};
use crate::rattle::alloc::AllocError;
use crate::refusals::outcome::{Memory, Wrong, must};
use crate::refusals::view::{BufferView, view_of};

/// The reason why a script ends early.
#[derive(Clone, Copy)]
pub enum Stop {
    /// An allocation failed in `close`.
    Closed,
    /// Something is wrong.
    Wrong(Wrong),
}

impl From<Wrong> for Stop {
    fn from(wrong: Wrong) -> Stop {
        Stop::Wrong(wrong)
    }
}

impl From<AllocError> for Stop {
    fn from(error: AllocError) -> Stop {
        Stop::Wrong(Wrong::from(error))
    }
}

/// Notes that an allocation failed, for the first time.
fn note_refusal(memory: &mut Memory) -> Result<(), Wrong> {
    must(*memory == Memory::Given, "an error after the first one")?;
    *memory = Memory::Refused;
    Ok(())
}

/// Notes that an allocation failed in a call, and tests that the buffer and these two pieces haven't changed.
fn note_unchanged(
    buf: &Buffer,
    memory: &mut Memory,
    one: Piece,
    other: Piece,
    before: &BufferView,
) -> Result<(), Stop> {
    note_refusal(memory)?;
    let after = view_of(buf, one, other);
    must(*before == after, "something has changed after the error")?;
    Ok(())
}

/// Makes a call, and makes it again after an error, while these two pieces live.
macro_rules! repeated {
    ($buf:ident, $memory:ident, $one:expr, $other:expr, $call:expr) => {{
        let before = view_of($buf, $one, $other);
        if let Ok(answer) = $call {
            return Ok(answer);
        }
        note_unchanged($buf, $memory, $one, $other, &before)?;
        Ok($call?)
    }};
}

/// Calls `push`, while two pieces live.
pub fn push(buf: &mut Buffer, memory: &mut Memory, one: Piece, other: Piece, bytes: &[u8]) -> Result<Piece, Stop> {
    repeated!(buf, memory, one, other, buf.push(bytes))
}

/// Calls `copy` of the second piece.
pub fn copy(buf: &mut Buffer, memory: &mut Memory, beside: Piece, piece: Piece) -> Result<Piece, Stop> {
    repeated!(buf, memory, beside, piece, buf.copy(piece))
}

/// Calls `append` to the second piece.
pub fn append(buf: &mut Buffer, memory: &mut Memory, beside: Piece, piece: Piece, bytes: &[u8]) -> Result<Piece, Stop> {
    repeated!(buf, memory, beside, piece, buf.append(piece, bytes))
}

/// Calls `insert` at the start of a piece.
pub fn insert_first(buf: &mut Buffer, memory: &mut Memory, piece: Piece, bytes: &[u8]) -> Result<Piece, Stop> {
    repeated!(buf, memory, piece, piece, buf.insert(piece, Place::Start, bytes))
}

/// Calls `open_group` of the second piece.
pub fn open_group(
    buf: &mut Buffer,
    memory: &mut Memory,
    beside: Piece,
    piece: Piece,
    bytes: &[u8],
) -> Result<Piece, Stop> {
    repeated!(buf, memory, beside, piece, buf.open_group(piece, bytes))
}

/// Calls `cut` of a piece.
pub fn cut(buf: &mut Buffer, memory: &mut Memory, piece: Piece, n: usize) -> Result<Piece, Stop> {
    repeated!(buf, memory, piece, piece, buf.cut(piece, n))
}

/// Calls `join` of two pieces.
pub fn join(buf: &mut Buffer, memory: &mut Memory, first: Piece, bytes: &[u8], second: Piece) -> Result<Piece, Stop> {
    repeated!(buf, memory, first, second, buf.join(first, bytes, second))
}

/// Calls `save` of the second piece.
pub fn save(buf: &mut Buffer, memory: &mut Memory, beside: Piece, piece: Piece) -> Result<(), Stop> {
    repeated!(buf, memory, beside, piece, buf.save(piece))
}

/// Calls `open_scope`, while two pieces live.
pub fn open_scope(buf: &mut Buffer, memory: &mut Memory, one: Piece, other: Piece) -> Result<(), Stop> {
    repeated!(buf, memory, one, other, buf.open_scope())
}

/// Calls `push_arg` of the second piece.
pub fn push_arg(buf: &mut Buffer, memory: &mut Memory, beside: Piece, piece: Piece) -> Result<(), Stop> {
    if buf.scopes() == 0 {
        return Err(Stop::Wrong(Wrong("no scope is open")));
    }
    repeated!(buf, memory, beside, piece, buf.push_arg(piece))
}

/// Calls `close`, which isn't repeated.
pub fn close(buf: &mut Buffer, memory: &mut Memory, mark: Mark, piece: Piece) -> Result<Piece, Stop> {
    match buf.close(mark, piece) {
        Ok(kept) => Ok(kept),
        Err(_) => {
            note_refusal(memory)?;
            Err(Stop::Closed)
        }
    }
}
