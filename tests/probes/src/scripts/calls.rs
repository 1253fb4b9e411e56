//! The calls and the questions of a line, by their names.

use crate::extracted::demangle_edit::Pointer;
use crate::extracted::demangle_text::Kind;

/// A call that changes nothing.
#[derive(Clone, Copy)]
pub enum Look {
    Saved,
    Arg,
    Own,
    Whole,
    WithFlags,
    OwnAt,
    Declare(Kind),
    DeclareGroup(Kind),
}

/// A call that only adds a piece.
#[derive(Clone, Copy)]
pub enum Push {
    Push,
    UpToEnd,
}

/// An edit of one piece.
#[derive(Clone, Copy)]
pub enum One {
    Copy,
    Address,
    Expand,
    OpenParams,
    Subexpr(bool),
    QualifyCtor(bool),
    WrapPointer(Pointer),
}

/// An edit of one piece with a text.
#[derive(Clone, Copy)]
pub enum Text {
    Append,
    AppendOwn,
    AppendName,
    InsertStart,
    QualifyText,
    Tag,
}

/// An edit of one piece with a number or with qualifiers.
#[derive(Clone, Copy)]
pub enum Words {
    AppendNumber,
    CloseLambda,
    OpenDefaultArg,
    WrapCv,
    CloseParams,
    CloseFunction,
    NameQualifiers(bool),
}

/// An edit of two pieces.
#[derive(Clone, Copy)]
pub enum Two {
    Join,
    AppendPiece,
    Qualify,
    CloseOpened,
    AttachTemplateArgs,
    DefaultArg,
}

/// An edit with up to two pieces in a list.
#[derive(Clone, Copy)]
pub enum Several {
    FormatNoParams,
    FormatParams,
    GlueNothing,
    GlueOne,
    GlueTwo,
}

/// A call that makes nothing if its piece doesn't have the form that it needs.
#[derive(Clone, Copy)]
pub enum Try {
    Cut,
    InsertClose,
    InsertSuffix,
    OpenGroup,
}

/// A call that makes nothing if there is no such type or literal.
#[derive(Clone, Copy)]
pub enum Type {
    CollapseRef(bool),
    OpenFunction,
    WrapArray,
    WrapArrayOfNone,
    WrapMemberPointer,
    WriteLiteral,
}

/// A call that makes a piece, or may make one.
#[derive(Clone, Copy)]
pub enum Call {
    Look(Look),
    Push(Push),
    SaveAndName,
    One(One),
    Text(Text),
    Words(Words),
    Two(Two),
    Several(Several),
    Arguments(bool),
    Try(Try),
    Type(Type),
    Function(u8),
    WriteOpenedLiteral,
    Close,
}

/// A question about a piece.
#[derive(Clone, Copy)]
pub enum OfPiece {
    Is,
    Own,
    After,
    Declares(Option<Kind>),
    Grouped(bool),
    Flags(bool, bool),
}

impl Look {
    /// Returns the call with this name, or `None`.
    fn named(name: &str) -> Option<Look> {
        let call = match name {
            "saved" => Look::Saved,
            "arg" => Look::Arg,
            "own" => Look::Own,
            "whole" => Look::Whole,
            "with_flags" => Look::WithFlags,
            "own_at" => Look::OwnAt,
            "declare_array" => Look::Declare(Kind::Array),
            "declare_function" => Look::Declare(Kind::Function),
            "declare_array_group" => Look::DeclareGroup(Kind::Array),
            "declare_function_group" => Look::DeclareGroup(Kind::Function),
            _ => return None,
        };
        Some(call)
    }
}

impl Push {
    /// Returns the call with this name, or `None`.
    fn named(name: &str) -> Option<Push> {
        let call = match name {
            "push" => Push::Push,
            "up_to_end" => Push::UpToEnd,
            _ => return None,
        };
        Some(call)
    }
}

impl One {
    /// Returns the call with this name, or `None`.
    fn named(name: &str) -> Option<One> {
        let call = match name {
            "copy" => One::Copy,
            "address" => One::Address,
            "expand" => One::Expand,
            "open_params" => One::OpenParams,
            "subexpr" => One::Subexpr(false),
            "subexpr_paren" => One::Subexpr(true),
            "qualify_ctor" => One::QualifyCtor(false),
            "qualify_dtor" => One::QualifyCtor(true),
            "wrap_star" => One::WrapPointer(Pointer::Star),
            "wrap_left" => One::WrapPointer(Pointer::Left),
            "wrap_right" => One::WrapPointer(Pointer::Right),
            _ => return None,
        };
        Some(call)
    }
}

impl Text {
    /// Returns the call with this name, or `None`.
    fn named(name: &str) -> Option<Text> {
        let call = match name {
            "append" => Text::Append,
            "append_own" => Text::AppendOwn,
            "append_name" => Text::AppendName,
            "insert_start" => Text::InsertStart,
            "qualify_text" => Text::QualifyText,
            "tag" => Text::Tag,
            _ => return None,
        };
        Some(call)
    }
}

impl Words {
    /// Returns the call with this name, or `None`.
    fn named(name: &str) -> Option<Words> {
        let call = match name {
            "append_number" => Words::AppendNumber,
            "close_lambda" => Words::CloseLambda,
            "open_default_arg" => Words::OpenDefaultArg,
            "wrap_cv" => Words::WrapCv,
            "close_params" => Words::CloseParams,
            "close_function" => Words::CloseFunction,
            "hidden_qualifiers" => Words::NameQualifiers(false),
            "shown_qualifiers" => Words::NameQualifiers(true),
            _ => return None,
        };
        Some(call)
    }
}

impl Two {
    /// Returns the call with this name, or `None`.
    fn named(name: &str) -> Option<Two> {
        let call = match name {
            "join" => Two::Join,
            "append_piece" => Two::AppendPiece,
            "qualify" => Two::Qualify,
            "append_leaf" => Two::CloseOpened,
            "attach_template_args" => Two::AttachTemplateArgs,
            "default_arg" => Two::DefaultArg,
            _ => return None,
        };
        Some(call)
    }
}

impl Several {
    /// Returns the call with this name, or `None`.
    fn named(name: &str) -> Option<Several> {
        let call = match name {
            "format_no_params" => Several::FormatNoParams,
            "format_params" => Several::FormatParams,
            "glue_nothing" => Several::GlueNothing,
            "glue_one" => Several::GlueOne,
            "glue_two" => Several::GlueTwo,
            _ => return None,
        };
        Some(call)
    }
}

impl Try {
    /// Returns the call with this name, or `None`.
    fn named(name: &str) -> Option<Try> {
        let call = match name {
            "cut" => Try::Cut,
            "insert_close" => Try::InsertClose,
            "insert_suffix" => Try::InsertSuffix,
            "open_group" => Try::OpenGroup,
            _ => return None,
        };
        Some(call)
    }
}

impl Type {
    /// Returns the call with this name, or `None`.
    fn named(name: &str) -> Option<Type> {
        let call = match name {
            "collapse_left" => Type::CollapseRef(false),
            "collapse_right" => Type::CollapseRef(true),
            "open_function" => Type::OpenFunction,
            "wrap_array" => Type::WrapArray,
            "wrap_array_of_none" => Type::WrapArrayOfNone,
            "wrap_member_pointer" => Type::WrapMemberPointer,
            "write_literal" => Type::WriteLiteral,
            _ => return None,
        };
        Some(call)
    }
}

impl Call {
    /// Returns the call with this name, or `None`.
    pub fn named(name: &str) -> Option<Call> {
        if let Some(call) = Look::named(name) {
            return Some(Call::Look(call));
        }
        if let Some(call) = Push::named(name) {
            return Some(Call::Push(call));
        }
        if let Some(call) = One::named(name) {
            return Some(Call::One(call));
        }
        if let Some(call) = Text::named(name) {
            return Some(Call::Text(call));
        }
        if let Some(call) = Words::named(name) {
            return Some(Call::Words(call));
        }
        if let Some(call) = Two::named(name) {
            return Some(Call::Two(call));
        }
        if let Some(call) = Several::named(name) {
            return Some(Call::Several(call));
        }
        if let Some(call) = Try::named(name) {
            return Some(Call::Try(call));
        }
        if let Some(call) = Type::named(name) {
            return Some(Call::Type(call));
        }
        Call::alone(name)
    }

    /// Returns the call with this name that is in no other enum, or `None`.
    fn alone(name: &str) -> Option<Call> {
        let call = match name {
            "save_and_name" => Call::SaveAndName,
            "arguments" => Call::Arguments(true),
            "open_arguments" => Call::Arguments(false),
            "close" => Call::Close,
            "function_type" => Call::Function(2),
            "function_type_of_one" => Call::Function(1),
            "function_type_of_none" => Call::Function(0),
            "write_opened_literal" => Call::WriteOpenedLiteral,
            _ => return None,
        };
        Some(call)
    }
}

impl OfPiece {
    /// Returns the question with this name and this number of words and texts, or `None`.
    pub fn named(name: &str, words: usize, texts: usize) -> Option<OfPiece> {
        let question = match (name, words, texts) {
            ("is", 2, 1) => OfPiece::Is,
            ("own", 4, 0) => OfPiece::Own,
            ("after", 3, 0) => OfPiece::After,
            ("declares_array", 2, 0) => OfPiece::Declares(Some(Kind::Array)),
            ("declares_function", 2, 0) => OfPiece::Declares(Some(Kind::Function)),
            ("declares_nothing", 2, 0) => OfPiece::Declares(None),
            ("grouped", 2, 0) => OfPiece::Grouped(true),
            ("ungrouped", 2, 0) => OfPiece::Grouped(false),
            ("flags_none", 2, 0) => OfPiece::Flags(false, false),
            ("flags_templ", 2, 0) => OfPiece::Flags(true, false),
            ("flags_ctor", 2, 0) => OfPiece::Flags(false, true),
            ("flags_both", 2, 0) => OfPiece::Flags(true, true),
            _ => return None,
        };
        Some(question)
    }
}
