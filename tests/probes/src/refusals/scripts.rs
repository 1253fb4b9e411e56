//! Rows of scripts over a buffer. Each tests that substitutions and arguments keep their shapes whatever is done to
//! the pieces beside them, also if an allocation failed on the way.

use crate::extracted::demangle_text::{Buffer, Kind, Piece};
use crate::rattle::alloc::Global;
use crate::refusals::calls::{
    Stop, append, close, copy, cut, insert_first, join, open_group, open_scope, push, push_arg, save,
};
use crate::refusals::outcome::{Memory, Wrong, must};

/// The output before a script begins is some of these bytes.
const FRONT: [u8; 64] = [b'-'; 64];

/// Tests that the piece has this text.
fn must_be(buf: &Buffer, piece: Piece, text: &[u8]) -> Result<(), Wrong> {
    must(buf.bytes(piece) == text, "a piece has another text")
}

/// Tests that the first entry of the substitution table has this text.
fn must_save(buf: &Buffer, text: &[u8]) -> Result<(), Wrong> {
    match buf.saved(0) {
        Some(saved) => must(buf.bytes(saved) == text, "what is saved has another text"),
        None => Err(Wrong("nothing is saved")),
    }
}

/// Tests that the first argument of the last scope has this text.
fn must_have_arg(buf: &Buffer, text: &[u8]) -> Result<(), Wrong> {
    match buf.arg(0) {
        Some(argument) => must(buf.bytes(argument) == text, "an argument has another text"),
        None => Err(Wrong("there is no argument")),
    }
}

/// Tests that the output from this byte on is this text.
fn must_end_in(buf: &Buffer, front: usize, text: &[u8]) -> Result<(), Wrong> {
    match buf.main_bytes().get(front..) {
        Some(rest) => must(rest == text, "the main text is another one"),
        None => Err(Wrong("the main text is too short")),
    }
}

/// Tests that the piece has this text, that the output from this byte on is the same text, and that the first entry of
/// the substitution table has the other text.
fn must_end(buf: &Buffer, front: usize, piece: Piece, text: &[u8], saved: &[u8]) -> Result<(), Wrong> {
    must_be(buf, piece, text)?;
    must_end_in(buf, front, text)?;
    must_save(buf, saved)
}

/// Tests that the piece is a function, with a group or without one.
fn must_be_function(buf: &Buffer, piece: Piece, group: bool) -> Result<(), Wrong> {
    let holds = matches!(buf.kind(piece), Some(Kind::Function)) && buf.has_group(piece) == group;
    must(holds, "a piece is no such function")
}

fn saved_name_under_edits_of_its_piece(buf: &mut Buffer, memory: &mut Memory) -> Result<(), Stop> {
    let front = buf.main_bytes().len();
    let none = buf.empty();
    let name = push(buf, memory, none, none, b"A")?;
    save(buf, memory, name, name)?;
    let scoped = append(buf, memory, name, name, b"::B")?;
    let address = insert_first(buf, memory, scoped, b"&")?;
    must_be(buf, buf.own(address), b"A")?;
    must_end(buf, front, address, b"&A::B", b"A")?;
    Ok(())
}

fn saved_function_under_a_pointer_to_it(buf: &mut Buffer, memory: &mut Memory) -> Result<(), Stop> {
    let front = buf.main_bytes().len();
    let none = buf.empty();
    let text = push(buf, memory, none, none, b"int ()")?;
    let function = buf.declare(text, Kind::Function, 4);
    save(buf, memory, text, function)?;
    let pointer = open_group(buf, memory, text, function, b"*")?;
    must_be_function(buf, pointer, true)?;
    must_save_function(buf)?;
    must_end(buf, front, pointer, b"int (*)()", b"int ()")?;
    Ok(())
}

/// Tests that the first entry of the substitution table is a function without a group.
fn must_save_function(buf: &Buffer) -> Result<(), Wrong> {
    match buf.saved(0) {
        Some(saved) => must_be_function(buf, saved, false),
        None => Err(Wrong("nothing is saved")),
    }
}

/// Saves a name inside a mark, and closes the mark with the name that follows. Returns the result of `close`.
fn name_that_closes_a_mark(buf: &mut Buffer, memory: &mut Memory) -> Result<Piece, Stop> {
    let mark = buf.open();
    let none = buf.empty();
    let first = push(buf, memory, none, none, b"C")?;
    let second = push(buf, memory, first, first, b"D")?;
    save(buf, memory, second, first)?;
    close(buf, memory, mark, second)
}

fn saved_name_after_a_closed_mark(buf: &mut Buffer, memory: &mut Memory) -> Result<(), Stop> {
    let front = buf.main_bytes().len();
    let kept = name_that_closes_a_mark(buf, memory)?;
    must_end(buf, front, kept, b"D", b"C")?;
    Ok(())
}

/// Closes a mark with a copy of the saved name and bytes after it. Returns the result of `close`.
fn pointer_that_closes_a_mark(buf: &mut Buffer, memory: &mut Memory, beside: Piece) -> Result<Piece, Stop> {
    let mark = buf.open();
    let Some(saved) = buf.saved(0) else {
        return Err(Stop::Wrong(Wrong("nothing is saved")));
    };
    let name = copy(buf, memory, beside, saved)?;
    let pointer = append(buf, memory, beside, name, b"*")?;
    close(buf, memory, mark, pointer)
}

fn edit_of_a_saved_name_after_a_closed_mark(buf: &mut Buffer, memory: &mut Memory) -> Result<(), Stop> {
    let front = buf.main_bytes().len();
    let kept = name_that_closes_a_mark(buf, memory)?;
    let pointer = pointer_that_closes_a_mark(buf, memory, kept)?;
    must_be(buf, pointer, b"C*")?;
    must_be(buf, kept, b"D")?;
    must_end_in(buf, front, b"DC*")?;
    must_save(buf, b"C")?;
    Ok(())
}

fn argument_in_a_text_after_a_mark(buf: &mut Buffer, memory: &mut Memory) -> Result<(), Stop> {
    let none = buf.empty();
    let name = push(buf, memory, none, none, b"A")?;
    open_scope(buf, memory, name, name)?;
    push_arg(buf, memory, name, name)?;
    let mark = buf.open();
    let junk = push(buf, memory, name, name, b"junk")?;
    let joined = join(buf, memory, junk, b"", name)?;
    let kept = close(buf, memory, mark, joined)?;
    must_be(buf, kept, b"junkA")?;
    must_have_arg(buf, b"A")?;
    must_be(buf, name, b"A")?;
    Ok(())
}

fn saved_name_that_is_cut_inside_a_mark(buf: &mut Buffer, memory: &mut Memory) -> Result<(), Stop> {
    let front = buf.main_bytes().len();
    let mark = buf.open();
    let none = buf.empty();
    let text = push(buf, memory, none, none, b"A&&")?;
    save(buf, memory, text, text)?;
    let shorter = cut(buf, memory, text, 1)?;
    let answer = close(buf, memory, mark, shorter)?;
    must_end(buf, front, answer, b"A&", b"A&&")?;
    Ok(())
}

/// Opens a scope with an argument of these bytes, while a piece lives.
fn open_scope_of(buf: &mut Buffer, memory: &mut Memory, beside: Piece, bytes: &[u8]) -> Result<Piece, Stop> {
    open_scope(buf, memory, beside, beside)?;
    let argument = push(buf, memory, beside, beside, bytes)?;
    push_arg(buf, memory, beside, argument)?;
    Ok(argument)
}

fn argument_of_the_outer_scope_after_a_closed_mark(buf: &mut Buffer, memory: &mut Memory) -> Result<(), Stop> {
    let none = buf.empty();
    let outer = open_scope_of(buf, memory, none, b"X")?;
    let inner = open_scope_of(buf, memory, outer, b"Y")?;
    let mark = buf.open();
    let text = push(buf, memory, outer, inner, b"Z")?;
    let answer = close(buf, memory, mark, text)?;
    must_be(buf, answer, b"Z")?;
    must_have_arg(buf, b"Y")?;
    keep_one_scope(buf)?;
    must_have_arg(buf, b"X")?;
    Ok(())
}

/// Drops the second of two scopes.
fn keep_one_scope(buf: &mut Buffer) -> Result<(), Wrong> {
    if buf.scopes() != 2 {
        return Err(Wrong("there aren't two scopes"));
    }
    buf.keep_scopes(1);
    must(buf.scopes() == 1, "there isn't one scope")
}

/// The scripts over a buffer.
#[derive(Clone, Copy)]
pub enum Script {
    SavedName,
    SavedFunction,
    ClosedMark,
    Argument,
    SavedNameEdited,
    SavedNameCut,
    OuterArgument,
}

/// All scripts.
pub const SCRIPTS: [Script; 7] = [
    Script::SavedName,
    Script::SavedFunction,
    Script::ClosedMark,
    Script::Argument,
    Script::SavedNameEdited,
    Script::SavedNameCut,
    Script::OuterArgument,
];

impl Script {
    pub fn name(self) -> &'static str {
        match self {
            Script::SavedName => "saved_name_under_edits_of_its_piece",
            Script::SavedFunction => "saved_function_under_a_pointer_to_it",
            Script::ClosedMark => "saved_name_after_a_closed_mark",
            Script::Argument => "argument_in_a_text_after_a_mark",
            Script::SavedNameEdited => "edit_of_a_saved_name_after_a_closed_mark",
            Script::SavedNameCut => "saved_name_that_is_cut_inside_a_mark",
            Script::OuterArgument => "argument_of_the_outer_scope_after_a_closed_mark",
        }
    }

    fn play(self, buf: &mut Buffer, memory: &mut Memory) -> Result<(), Stop> {
        match self {
            Script::SavedName => saved_name_under_edits_of_its_piece(buf, memory),
            Script::SavedFunction => saved_function_under_a_pointer_to_it(buf, memory),
            Script::ClosedMark => saved_name_after_a_closed_mark(buf, memory),
            Script::Argument => argument_in_a_text_after_a_mark(buf, memory),
            Script::SavedNameEdited => edit_of_a_saved_name_after_a_closed_mark(buf, memory),
            Script::SavedNameCut => saved_name_that_is_cut_inside_a_mark(buf, memory),
            Script::OuterArgument => argument_of_the_outer_scope_after_a_closed_mark(buf, memory),
        }
    }
}

/// Plays the script. If an allocation fails in `close`, the buffer is cleared, and the first script is played on it.
fn play_to_the_end(script: Script, buf: &mut Buffer, memory: &mut Memory) -> Result<(), Wrong> {
    let ended = match script.play(buf, memory) {
        Err(Stop::Closed) => {
            buf.clear();
            Script::SavedName.play(buf, memory)
        }
        ended => ended,
    };
    match ended {
        Ok(()) => Ok(()),
        Err(Stop::Closed) => Err(Wrong("an error after the first one")),
        Err(Stop::Wrong(wrong)) => Err(wrong),
    }
}

/// Pushes `len` bytes in front. If the allocation fails, the call is repeated.
fn put_front(buf: &mut Buffer, memory: &mut Memory, len: usize) -> Result<(), Wrong> {
    let Some(bytes) = FRONT.as_slice().get(..len) else {
        return Err(Wrong("there aren't so many bytes"));
    };
    let none = buf.empty();
    match push(buf, memory, none, none, bytes) {
        Ok(_) => Ok(()),
        Err(Stop::Closed) => Err(Wrong("no mark was open")),
        Err(Stop::Wrong(wrong)) => Err(wrong),
    }
}

/// Tries the row of a script. The script is played with 0 to 64 bytes in front of it, so that each call that appends
/// bytes finds the output full in one of these turns.
pub fn run(script: Script, alloc: Global) -> Result<Memory, Wrong> {
    let mut memory = Memory::Given;
    for len in 0..=FRONT.len() {
        let mut buf = Buffer::new(alloc);
        put_front(&mut buf, &mut memory, len)?;
        play_to_the_end(script, &mut buf, &mut memory)?;
        drop(buf);
    }
    Ok(memory)
}
