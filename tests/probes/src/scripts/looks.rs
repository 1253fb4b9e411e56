//! Makes the calls that change nothing, and answers the questions about a piece.

use crate::extracted::demangle_text::{Buffer, Kind, Piece};
use crate::scripts::calls::{Look, OfPiece};
use crate::scripts::line::Line;

/// Returns the piece with these bytes as its base name, or `None` if they can't be.
fn own_at(buf: &Buffer, piece: Piece, from: usize, to: usize) -> Option<Piece> {
    if from > to || to > buf.len(piece) || matches!(buf.kind(piece), Some(Kind::Function)) {
        return None;
    }
    Some(buf.own_at(piece, from, to))
}

/// Returns the piece as a declarator, or `None` if it isn't plain or is too short.
fn declare(buf: &Buffer, piece: Piece, kind: Kind, at: usize) -> Option<Piece> {
    if at > buf.len(piece) || buf.kind(piece).is_some() {
        return None;
    }
    Some(buf.declare(piece, kind, at))
}

/// Returns the piece as a declarator with a group, or `None` if it can't be.
fn declare_group(buf: &Buffer, piece: Piece, kind: Kind, from: usize, at: usize) -> Option<Piece> {
    let bytes = buf.bytes(piece);
    if buf.kind(piece).is_some() || from >= at || at - from < 2 || at > bytes.len() {
        return None;
    }
    if bytes[from] != b'(' || bytes[at - 1] != b')' {
        return None;
    }
    Some(buf.declare_group(piece, kind, from, at))
}

/// Returns a piece of a list, or the piece in another form, or `None` if there is none.
pub fn look(buf: &Buffer, piece: Piece, line: &Line, look: Look) -> Option<Piece> {
    match look {
        Look::Saved => buf.saved(line.number(3)),
        Look::Arg => buf.arg(line.number(3)),
        Look::Own => Some(buf.own(piece)),
        Look::Whole => Some(buf.whole(piece)),
        Look::WithFlags => Some(buf.with_flags(piece, line.has("templ"), line.has("ctor"))),
        Look::OwnAt => own_at(buf, piece, line.number(4), line.number(5)),
        Look::Declare(kind) => declare(buf, piece, kind, line.number(4)),
        Look::DeclareGroup(kind) => declare_group(buf, piece, kind, line.number(4), line.number(5)),
    }
}

/// Returns whether two pieces declare the same, or nothing both.
fn are_same(one: Option<Kind>, other: Option<Kind>) -> bool {
    matches!(
        (one, other),
        (None, None) | (Some(Kind::Array), Some(Kind::Array)) | (Some(Kind::Function), Some(Kind::Function))
    )
}

/// Returns whether the question about the piece has the answer yes.
pub fn is_so(buf: &Buffer, piece: Piece, line: &Line, question: OfPiece) -> bool {
    match question {
        OfPiece::Is => buf.bytes(piece) == line.text(0).as_bytes(),
        OfPiece::Own => buf.own_range(piece) == (line.number(2), line.number(3)),
        OfPiece::After => buf.after_at(piece) == Some(line.number(2)),
        OfPiece::Declares(kind) => are_same(buf.kind(piece), kind),
        OfPiece::Grouped(group) => buf.has_group(piece) == group,
        OfPiece::Flags(templ, ctor) => buf.templ(piece) == templ && buf.ctor(piece) == ctor,
    }
}

/// Returns whether the question about the buffer has the answer yes.
pub fn is_so_of_all(buf: &Buffer, line: &Line) -> bool {
    match line.word(0) {
        "output" if line.texts_len == 1 => buf.main_bytes() == line.text(0).as_bytes(),
        "saved_len" => buf.saved_len() == line.number(1),
        "scopes" => buf.scopes() == line.number(1),
        _ => false,
    }
}
