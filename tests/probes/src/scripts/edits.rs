//! Makes the edits of pieces.

use crate::extracted::demangle_edit::{
    Glue, Quals, Reference, address, append_leaf, append_number, append_piece, apply_name_qualifiers,
    attach_template_args, close_function, close_lambda, close_params, default_arg, expand, format_params, glue,
    open_default_arg, open_params, qualify, qualify_ctor, qualify_text, subexpr, tag, wrap_cv, wrap_pointer,
};
use crate::extracted::demangle_text::{Buffer, Piece, Place};
use crate::rattle::alloc::AllocError;
use crate::scripts::calls::{One, Several, Text, Two, Words};
use crate::scripts::line::Line;

/// Returns the qualifiers among the words.
pub fn quals(line: &Line) -> Quals {
    Quals {
        constant: line.has("const"),
        volatile: line.has("volatile"),
        restrict: line.has("restrict"),
        reference: if line.has("&&") { Some(Reference::Right) } else { None },
    }
}

/// Edits one piece.
pub fn of_one(buf: &mut Buffer, piece: Piece, call: One) -> Result<Piece, AllocError> {
    match call {
        One::Copy => buf.copy(piece),
        One::Address => address(buf, piece),
        One::Expand => expand(buf, piece),
        One::OpenParams => open_params(buf, piece),
        One::Subexpr(paren) => subexpr(buf, piece, paren),
        One::QualifyCtor(destructor) => qualify_ctor(buf, piece, destructor),
        One::WrapPointer(kind) => wrap_pointer(buf, piece, kind),
    }
}

/// Appends bytes and a name to a piece.
fn append_name(buf: &mut Buffer, piece: Piece, between: &[u8], name: &[u8]) -> Result<Piece, AllocError> {
    let mut whole = buf.append(piece, b"")?;
    buf.append_name(&mut whole, between, name)?;
    Ok(whole)
}

/// Edits one piece with a text, or with two for one of the calls.
pub fn with_text(buf: &mut Buffer, piece: Piece, bytes: &[u8], more: &[u8], call: Text) -> Result<Piece, AllocError> {
    match call {
        Text::Append => buf.append(piece, bytes),
        Text::AppendOwn => buf.append_own(piece, bytes),
        Text::AppendName => append_name(buf, piece, bytes, more),
        Text::InsertStart => buf.insert(piece, Place::Start, bytes),
        Text::QualifyText => qualify_text(buf, piece, bytes),
        Text::Tag => tag(buf, piece, bytes),
    }
}

/// Edits one piece with a number or with qualifiers.
pub fn with_words(
    buf: &mut Buffer,
    piece: Piece,
    number: usize,
    quals: Quals,
    call: Words,
) -> Result<Piece, AllocError> {
    match call {
        Words::AppendNumber => append_number(buf, piece, number as u64),
        Words::CloseLambda => close_lambda(buf, piece, number as u64),
        Words::OpenDefaultArg => open_default_arg(buf, piece, number as u64),
        Words::WrapCv => wrap_cv(buf, piece, quals),
        Words::CloseParams => close_params(buf, piece, quals),
        Words::CloseFunction => close_function(buf, piece, number, quals),
        Words::NameQualifiers(shown) => apply_name_qualifiers(buf, piece, quals, shown),
    }
}

/// Edits two pieces.
pub fn of_two(
    buf: &mut Buffer,
    first: Piece,
    second: Piece,
    bytes: &[u8],
    number: usize,
    call: Two,
) -> Result<Piece, AllocError> {
    match call {
        Two::Join => buf.join(first, bytes, second),
        Two::AppendPiece => append_piece(buf, first, bytes, second),
        Two::Qualify => qualify(buf, first, second),
        Two::CloseOpened => append_leaf(buf, first, second),
        Two::AttachTemplateArgs => attach_template_args(buf, first, second),
        Two::DefaultArg => default_arg(buf, first, number as u64, second),
    }
}

/// Edits with a list of pieces. Only a call with parameters uses the third piece.
pub fn of_several(
    buf: &mut Buffer,
    first: Piece,
    second: Piece,
    third: Piece,
    line: &Line,
    call: Several,
) -> Result<Piece, AllocError> {
    let one = Glue::Text(line.text(0).as_bytes());
    let two = Glue::Text(line.text(1).as_bytes());
    match call {
        Several::FormatNoParams => format_params(buf, first, &[], quals(line)),
        Several::FormatParams => format_params(buf, first, &[second, third], quals(line)),
        Several::GlueNothing => glue(buf, &[]),
        Several::GlueOne => glue(buf, &[one, Glue::Piece(first)]),
        Several::GlueTwo => glue(buf, &[one, Glue::Piece(first), two, Glue::Piece(second)]),
    }
}
