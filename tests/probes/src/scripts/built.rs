//! Calls that may make nothing, and lists at the end of the output.

use crate::extracted::demangle_edit::{
    Quals, close_arguments, collapse_ref, function_type, open_arguments, open_function, wrap_array,
    wrap_member_pointer, write_literal, write_opened_literal,
};
use crate::extracted::demangle_text::{Buffer, Piece, Place};
use crate::rattle::alloc::AllocError;
use crate::scripts::calls::{Try, Type};
use crate::scripts::line::Line;

/// Pushes a text, saves it, and appends bytes and a name to it.
pub fn save_and_name(buf: &mut Buffer, text: &[u8], between: &[u8], name: &[u8]) -> Result<Piece, AllocError> {
    let mut whole = buf.push(text)?;
    buf.save(whole)?;
    buf.append_name(&mut whole, between, name)?;
    Ok(whole)
}

/// Appends the texts of the line to the output, from the text with the index `first` on.
fn push_each(buf: &mut Buffer, line: &Line, first: usize) -> Result<(), AllocError> {
    for i in first..line.texts_len {
        buf.push(line.text(i).as_bytes())?;
    }
    Ok(())
}

/// Pushes the texts of the line, and makes one piece of them all.
pub fn up_to_end(buf: &mut Buffer, line: &Line) -> Result<Piece, AllocError> {
    let list = buf.push(line.text(0).as_bytes())?;
    push_each(buf, line, 1)?;
    Ok(buf.up_to_end(list))
}

/// Appends the texts of the line to a name as its template arguments. The list is closed if `closed` is true.
pub fn arguments(buf: &mut Buffer, name: Piece, line: &Line, closed: bool) -> Result<Piece, AllocError> {
    let opened = open_arguments(buf, name)?;
    push_each(buf, line, 0)?;
    if closed && buf.len(opened) > 0 { close_arguments(buf, opened) } else { Ok(buf.up_to_end(opened)) }
}

/// Edits a piece if it has the form that the call needs, and returns `None` otherwise.
pub fn try_form(
    buf: &mut Buffer,
    piece: Piece,
    bytes: &[u8],
    number: usize,
    call: Try,
) -> Result<Option<Piece>, AllocError> {
    let (plain, group) = (buf.kind(piece).is_none(), buf.has_group(piece));
    match call {
        Try::Cut if plain && number <= buf.len(piece) => Ok(Some(buf.cut(piece, number)?)),
        Try::InsertClose if group => Ok(Some(buf.insert(piece, Place::Close, bytes)?)),
        Try::InsertSuffix if !plain && !group => Ok(Some(buf.insert(piece, Place::Suffix, bytes)?)),
        Try::OpenGroup if !plain => Ok(Some(buf.open_group(piece, bytes)?)),
        _ => Ok(None),
    }
}

/// Edits a type or a class by a call that may make nothing.
pub fn try_type(
    buf: &mut Buffer,
    piece: Piece,
    member: Piece,
    number: usize,
    value: &str,
    call: Type,
) -> Result<Option<Piece>, AllocError> {
    match call {
        Type::CollapseRef(rvalue) => collapse_ref(buf, piece, rvalue),
        Type::OpenFunction => open_function(buf, piece),
        Type::WrapArray => wrap_array(buf, piece, Some(number as u64)),
        Type::WrapArrayOfNone => wrap_array(buf, piece, None),
        Type::WrapMemberPointer => wrap_member_pointer(buf, piece, member),
        Type::WriteLiteral => write_literal(buf, piece, value),
    }
}

/// Makes a function type with up to two parameters.
pub fn try_function(
    buf: &mut Buffer,
    ret: Piece,
    first: Piece,
    second: Piece,
    quals: Quals,
    params: u8,
) -> Result<Option<Piece>, AllocError> {
    match params {
        0 => function_type(buf, ret, &[], quals),
        1 => function_type(buf, ret, &[first], quals),
        _ => function_type(buf, ret, &[first, second], quals),
    }
}

/// Makes a literal of a type that follows its parenthesis.
pub fn opened_literal(buf: &mut Buffer, ty: &str, value: &str) -> Result<Option<Piece>, AllocError> {
    let paren = buf.push(b"(")?;
    let ty = buf.push(ty.as_bytes())?;
    write_opened_literal(buf, paren, ty, value)
}
