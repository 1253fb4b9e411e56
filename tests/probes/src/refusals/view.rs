//! What a buffer shows of two pieces, of the substitution table and of the last scope.

use crate::extracted::demangle_text::{Buffer, Kind, Piece};

/// The length in bytes of the longest piece that is viewed, or more.
const TEXT_LEN: usize = 16;

/// A shape: its text, at most 16 bytes of it, and how the text is cut.
#[derive(Clone, Copy, PartialEq, Eq)]
struct PieceView {
    text: [u8; TEXT_LEN],
    len: usize,
    own: (usize, usize),
    array: bool,
    function: bool,
    after: Option<usize>,
    group: bool,
    templ: bool,
    ctor: bool,
}

/// The shapes of two pieces, of the first entry of the substitution table and of the first two arguments of the last
/// scope; the length of the table, the number of open scopes, and the length of the output.
#[derive(Clone, Copy, PartialEq, Eq)]
pub struct BufferView {
    one: PieceView,
    other: PieceView,
    saved: Option<PieceView>,
    saved_len: usize,
    arg: Option<PieceView>,
    next_arg: Option<PieceView>,
    scopes: usize,
    main_len: usize,
}

/// Returns the first bytes of a text.
fn front(text: &[u8]) -> [u8; TEXT_LEN] {
    let mut buffer = [0u8; TEXT_LEN];
    let len = text.len().min(TEXT_LEN);
    buffer[..len].copy_from_slice(&text[..len]);
    buffer
}

fn piece_view(buf: &Buffer, piece: Piece) -> PieceView {
    PieceView {
        text: front(buf.bytes(piece)),
        len: buf.len(piece),
        own: buf.own_range(piece),
        array: matches!(buf.kind(piece), Some(Kind::Array)),
        function: matches!(buf.kind(piece), Some(Kind::Function)),
        after: buf.after_at(piece),
        group: buf.has_group(piece),
        templ: buf.templ(piece),
        ctor: buf.ctor(piece),
    }
}

fn saved_view(buf: &Buffer, i: usize) -> Option<PieceView> {
    match buf.saved(i) {
        Some(piece) => Some(piece_view(buf, piece)),
        None => None,
    }
}

fn arg_view(buf: &Buffer, i: usize) -> Option<PieceView> {
    match buf.arg(i) {
        Some(piece) => Some(piece_view(buf, piece)),
        None => None,
    }
}

/// Returns a view of the buffer and of two pieces that live.
pub fn view_of(buf: &Buffer, one: Piece, other: Piece) -> BufferView {
    BufferView {
        one: piece_view(buf, one),
        other: piece_view(buf, other),
        saved: saved_view(buf, 0),
        saved_len: buf.saved_len(),
        arg: arg_view(buf, 0),
        next_arg: arg_view(buf, 1),
        scopes: buf.scopes(),
        main_len: buf.main_bytes().len(),
    }
}
