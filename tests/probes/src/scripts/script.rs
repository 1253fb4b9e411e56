//! A script: calls over a new buffer, one a line, and questions.

use crate::extracted::demangle_text::{Buffer, Mark, Piece};
use crate::rattle::alloc::{AllocError, Global};
use crate::scripts::built;
use crate::scripts::calls::{Call, Look, OfPiece, Push};
use crate::scripts::edits::{of_one, of_several, of_two, quals, with_text, with_words};
use crate::scripts::line::Line;
use crate::scripts::looks::{is_so, is_so_of_all, look};

/// A buffer, up to three pieces that live in it, and the open mark, if there is one. If a mark is open, `a` was made
/// before it.
pub struct Script {
    pub buf: Buffer,
    pub a: Option<Piece>,
    pub b: Option<Piece>,
    pub c: Option<Piece>,
    pub mark: Option<Mark>,
}

/// What a line did.
#[derive(Clone, Copy)]
pub enum Outcome {
    /// A call was made, and nothing was tested.
    Called,
    /// The question has the answer yes.
    Passed,
    /// The question has the answer no, or the line can't be played, for this reason.
    Failed(&'static str),
}

/// Makes the edit of these pieces.
fn edit(
    buf: &mut Buffer,
    first: Piece,
    second: Piece,
    third: Piece,
    line: &Line,
    call: Call,
) -> Result<Option<Piece>, AllocError> {
    let (text, bytes) = (line.text(0), line.text(0).as_bytes());
    match call {
        Call::Try(call) => built::try_form(buf, first, bytes, line.number(4), call),
        Call::Type(call) => built::try_type(buf, first, second, line.number(4), text, call),
        Call::Function(n) => built::try_function(buf, first, second, third, quals(line), n),
        Call::WriteOpenedLiteral => built::opened_literal(buf, text, line.text(1)),
        _ => Ok(Some(edit_always(buf, first, second, third, line, call)?)),
    }
}

/// Makes the edit of these pieces, of a kind that always makes a piece.
fn edit_always(
    buf: &mut Buffer,
    first: Piece,
    second: Piece,
    third: Piece,
    line: &Line,
    call: Call,
) -> Result<Piece, AllocError> {
    let bytes = line.text(0).as_bytes();
    match call {
        Call::One(call) => of_one(buf, first, call),
        Call::Text(call) => with_text(buf, first, bytes, line.text(1).as_bytes(), call),
        Call::Words(call) => with_words(buf, first, line.number(4), quals(line), call),
        Call::Two(call) => of_two(buf, first, second, bytes, line.number(5), call),
        Call::Several(call) => of_several(buf, first, second, third, line, call),
        Call::Arguments(closed) => built::arguments(buf, first, line, closed),
        _ => buf.push(bytes),
    }
}

/// Makes a call of the lists with a piece. Returns whether it could be made.
fn list(buf: &mut Buffer, piece: Piece, line: &Line) -> Result<bool, AllocError> {
    let n = line.number(1);
    match line.word(0) {
        "save" => buf.save(piece)?,
        "open_scope" => buf.open_scope()?,
        "push_arg" if buf.scopes() > 0 => buf.push_arg(piece)?,
        "unsave" if buf.saved_len() > 0 => buf.unsave(),
        "keep_scopes" if n <= buf.scopes() => buf.keep_scopes(n),
        _ => return Ok(false),
    }
    Ok(true)
}

impl Script {
    pub fn new(alloc: Global) -> Self {
        Script { buf: Buffer::new(alloc), a: None, b: None, c: None, mark: None }
    }

    /// Returns the piece with this name, if it lives.
    fn piece(&self, name: &str) -> Option<Piece> {
        match name {
            "a" => self.a,
            "b" => self.b,
            "c" => self.c,
            _ => None,
        }
    }

    /// Returns the piece with this name if it lives, and otherwise the piece `other`.
    fn piece_or(&self, name: &str, other: Piece) -> Piece {
        match self.piece(name) {
            Some(piece) => piece,
            None => other,
        }
    }

    /// Returns the first piece of a call. If the line has a number there, or nothing, that is an empty piece.
    fn first(&self, line: &Line) -> Option<Piece> {
        if line.words_len == 3 || line.number(3) < usize::MAX {
            Some(self.buf.empty())
        } else {
            self.piece(line.word(3))
        }
    }

    /// Gives the piece this name.
    fn put(&mut self, name: &str, piece: Piece) -> Outcome {
        match name {
            "a" if self.mark.is_none() => self.a = Some(piece),
            "b" => self.b = Some(piece),
            "c" => self.c = Some(piece),
            _ => return Outcome::Failed("no piece can have this name now"),
        }
        Outcome::Called
    }

    /// Returns the outcome if nothing is made: `none` must be in the place of the name.
    fn put_none(name: &str) -> Outcome {
        if name == "none" { Outcome::Passed } else { Outcome::Failed("nothing is made") }
    }

    /// Forgets the pieces that an edit invalidated, and gives its result this name.
    fn put_edited(&mut self, name: &str, piece: Piece) -> Outcome {
        if self.mark.is_none() {
            self.a = None;
        }
        self.b = None;
        self.c = None;
        self.put(name, piece)
    }

    /// Makes a call that changes nothing.
    fn look(&mut self, line: &Line, call: Look) -> Outcome {
        let Some(first) = self.first(line) else {
            return Outcome::Failed("no such piece lives");
        };
        match look(&self.buf, first, line, call) {
            Some(found) => self.put(line.word(0), found),
            None => Script::put_none(line.word(0)),
        }
    }

    /// Makes a call that leaves all pieces as they are.
    fn push(&mut self, line: &Line, call: Push) -> Result<Outcome, AllocError> {
        let piece = match call {
            Push::Push => self.buf.push(line.text(0).as_bytes())?,
            Push::UpToEnd => built::up_to_end(&mut self.buf, line)?,
        };
        Ok(self.put(line.word(0), piece))
    }

    /// Makes an edit of pieces, or a call that may make nothing. If it makes nothing, all pieces stay.
    fn edit(&mut self, line: &Line, call: Call) -> Result<Outcome, AllocError> {
        let Some(first) = self.first(line) else {
            return Ok(Outcome::Failed("no such piece lives"));
        };
        let second = self.piece_or(line.word(4), first);
        let third = self.piece_or(line.word(5), first);
        match edit(&mut self.buf, first, second, third, line, call)? {
            Some(piece) => Ok(self.put_edited(line.word(0), piece)),
            None => Ok(Script::put_none(line.word(0))),
        }
    }

    /// Makes the call that saves what it names.
    fn save_and_name(&mut self, line: &Line) -> Result<Outcome, AllocError> {
        let (text, between) = (line.text(0).as_bytes(), line.text(1).as_bytes());
        let name = line.text(2).as_bytes();
        let piece = built::save_and_name(&mut self.buf, text, between, name)?;
        Ok(self.put_edited(line.word(0), piece))
    }

    /// Closes the mark with a piece.
    fn close(&mut self, line: &Line) -> Result<Outcome, AllocError> {
        let Some(piece) = self.first(line) else {
            return Ok(Outcome::Failed("no such piece lives"));
        };
        let Some(mark) = self.mark.take() else {
            return Ok(Outcome::Failed("no mark is open"));
        };
        let kept = self.buf.close(mark, piece)?;
        self.b = None;
        self.c = None;
        Ok(self.put(line.word(0), kept))
    }

    /// Makes a call of the lists, which makes no piece.
    fn list(&mut self, line: &Line) -> Result<Outcome, AllocError> {
        let piece = self.piece_or(line.word(1), self.buf.empty());
        if list(&mut self.buf, piece, line)? {
            Ok(Outcome::Called)
        } else {
            Ok(Outcome::Failed("it can't be called now"))
        }
    }

    /// Opens a mark, or clears the buffer.
    fn frame(&mut self, opens: bool) -> Outcome {
        if self.mark.is_some() {
            return Outcome::Failed("a mark is open");
        }
        if opens {
            self.mark = Some(self.buf.open());
        } else {
            self.buf.clear();
            self.a = None;
            self.b = None;
            self.c = None;
        }
        Outcome::Called
    }

    /// Answers a question about a piece or the buffer.
    fn ask(&self, line: &Line) -> Outcome {
        let so = match self.piece(line.word(0)) {
            Some(piece) => match OfPiece::named(line.word(1), line.words_len, line.texts_len) {
                Some(question) => is_so(&self.buf, piece, line, question),
                None => return Outcome::Failed("no such question"),
            },
            None => is_so_of_all(&self.buf, line),
        };
        if so { Outcome::Passed } else { Outcome::Failed("it isn't so") }
    }

    /// Plays a line that gives a name to what a call makes.
    fn name(&mut self, line: &Line) -> Result<Outcome, AllocError> {
        match Call::named(line.word(2)) {
            None => Ok(Outcome::Failed("no such call")),
            Some(Call::Look(call)) => Ok(self.look(line, call)),
            Some(Call::Push(call)) => self.push(line, call),
            Some(Call::SaveAndName) => self.save_and_name(line),
            Some(Call::Close) => self.close(line),
            Some(call) => self.edit(line, call),
        }
    }

    /// Plays a line.
    pub fn play(&mut self, line: &Line) -> Result<Outcome, AllocError> {
        if line.word(1) == "=" {
            return self.name(line);
        }
        match line.word(0) {
            "open" => Ok(self.frame(true)),
            "clear" => Ok(self.frame(false)),
            "save" | "unsave" | "open_scope" | "push_arg" | "keep_scopes" => self.list(line),
            _ => Ok(self.ask(line)),
        }
    }
}
