//! Trees of the greatest height, printed with little stack. Each shape puts nodes of one kind around a tree, and the
//! next ones around that.

use crate::extracted::cxx_printer::{Mode, Style, Symbol, print_symbol};
use crate::extracted::cxx_tree::{
    Arena, Cv, Declaration, Encoding, Function, Listing, Manner, Node, NodeText, Part, Phrase, Plain, RefQual, Stop,
};
use crate::extracted::cxx_tree::{Context, Guard, Parts, Prec, Role};
use crate::rattle::alloc::Global;
use std::thread;

/// The stack in bytes that is enough for a tree of the greatest height.
const STACK: usize = 256 << 10;

/// Makes a tree that is one higher than the given one.
type Shape = fn(&mut Arena, u32, u32) -> Result<u32, Stop>;

const NO_CV: Cv = Cv { is_const: false, is_volatile: false, is_restrict: false };

fn plain(arena: &mut Arena, plain: Plain) -> Result<u32, Stop> {
    arena.push(Node::Plain(plain))
}

fn declaration(arena: &mut Arena, declaration: Declaration) -> Result<u32, Stop> {
    arena.push(Node::Declaration(declaration))
}

/// A phrase of one part, looser than any operand may be.
fn phrase(arena: &mut Arena, guard: Guard, part: Part) -> Result<u32, Stop> {
    let attributes = Phrase {
        own: 1,
        prec: Prec::Comma,
        role: Role::Ordinary,
        guard,
        is_closed: false,
        is_open: true,
        is_reversed: false,
    };
    let parts = arena.parts(&[part])?;
    plain(arena, Plain::Phrase(attributes, parts))
}

fn manner(arena: &mut Arena, manner: Manner, t: u32) -> Result<u32, Stop> {
    phrase(arena, Guard::Open, Part::Tree(manner, t))
}

fn listing(arena: &mut Arena, listing: Listing, t: u32) -> Result<u32, Stop> {
    let list = arena.list(&[t])?;
    phrase(arena, Guard::Open, Part::Trees(listing, list))
}

/// The tree as the only part.
fn part(arena: &mut Arena, t: u32) -> Result<Parts, Stop> {
    Ok(arena.parts(&[Part::Tree(Manner::Whole(Context::Same), t)])?)
}

fn function(arena: &mut Arena, ret: u32, params: &[u32], exception: Parts) -> Result<u32, Stop> {
    let params = arena.list(params)?;
    arena.push(Node::Function(Function { ret, params, cv: NO_CV, ref_qual: RefQual::None, exception }))
}

fn encoding(arena: &mut Arena, ret: Option<u32>, name: u32, params: &[u32], clauses: Parts) -> Result<u32, Stop> {
    let params = arena.list(params)?;
    arena.push(Node::Encoding(Encoding { ret, name, params, cv: NO_CV, ref_qual: RefQual::None, clauses }))
}

/// The shapes, with their names.
const SHAPES: &[(&str, Shape)] = &[
    ("phrase, whole", |a, t, _| manner(a, Manner::Whole(Context::Same), t)),
    ("phrase, guarded", |a, t, _| phrase(a, Guard::Greater, Part::Tree(Manner::Whole(Context::Angle), t))),
    ("operand", |a, t, _| manner(a, Manner::Operand(Prec::Primary, false), t)),
    ("part as a scope", |a, t, _| manner(a, Manner::Scope, t)),
    ("callee", |a, t, _| manner(a, Manner::Callee, t)),
    ("address", |a, t, _| manner(a, Manner::Address(Prec::Unary), t)),
    ("value", |a, t, _| manner(a, Manner::Value, t)),
    ("argument", |a, t, _| manner(a, Manner::Argument, t)),
    ("count", |a, t, _| manner(a, Manner::Count(true), t)),
    ("folded", |a, t, _| manner(a, Manner::Folded, t)),
    ("items", |a, t, _| listing(a, Listing::Items, t)),
    ("items, second", |a, t, x| {
        let list = a.list(&[x, t])?;
        phrase(a, Guard::Open, Part::Trees(Listing::Items, list))
    }),
    ("items, enclosed", |a, t, _| listing(a, Listing::Enclosed, t)),
    ("parentheses", |a, t, _| listing(a, Listing::Parens, t)),
    ("angle brackets", |a, t, _| listing(a, Listing::Angles, t)),
    ("declarations", |a, t, _| listing(a, Listing::Declarations, t)),
    ("sequence", |a, t, _| listing(a, Listing::Sequence, t)),
    ("scope", |a, t, x| plain(a, Plain::Scoped(false, t, x))),
    ("name in a scope", |a, t, x| plain(a, Plain::Scoped(false, x, t))),
    ("friend's scope", |a, t, x| plain(a, Plain::Scoped(true, t, x))),
    ("friend", |a, t, x| plain(a, Plain::Scoped(true, x, t))),
    ("name with arguments", |a, t, x| {
        let args = a.list(&[x])?;
        plain(a, Plain::WithArgs(t, args))
    }),
    ("arguments", |a, t, x| {
        let args = a.list(&[t])?;
        plain(a, Plain::WithArgs(x, args))
    }),
    ("ABI tag", |a, t, _| plain(a, Plain::AbiTag(t, NodeText::Fixed(b"y")))),
    ("name in a module", |a, t, x| plain(a, Plain::InModule(t, x))),
    ("module", |a, t, x| plain(a, Plain::InModule(x, t))),
    ("data", |a, t, _| plain(a, Plain::Data(t))),
    ("protocol", |a, t, _| plain(a, Plain::ObjcProtocol(t, NodeText::Fixed(b"y")))),
    ("list", |a, t, _| {
        let items = a.list(&[t])?;
        plain(a, Plain::Several(items))
    }),
    ("expansion", |a, t, _| plain(a, Plain::Expansion(t))),
    ("expansion of a pack", |a, t, _| {
        let items = a.list(&[t])?;
        let pack = a.push(Node::Pack(items))?;
        plain(a, Plain::Expansion(pack))
    }),
    ("constraint", |a, t, x| declaration(a, Declaration::TypeParam(t, x))),
    ("type parameter", |a, t, x| declaration(a, Declaration::TypeParam(x, t))),
    ("name of a parameter", |a, t, x| declaration(a, Declaration::NonTypeParam(t, x))),
    ("type of a parameter", |a, t, x| declaration(a, Declaration::NonTypeParam(x, t))),
    ("template parameter", |a, t, x| {
        let (declarations, rest) = (a.list(&[x])?, a.parts(&[])?);
        declaration(a, Declaration::TemplateParam(t, declarations, rest))
    }),
    ("declarations of a template", |a, t, x| {
        let (declarations, rest) = (a.list(&[t])?, a.parts(&[])?);
        declaration(a, Declaration::TemplateParam(x, declarations, rest))
    }),
    ("constraint of a template", |a, t, x| {
        let (declarations, rest) = (a.list(&[x])?, part(a, t)?);
        declaration(a, Declaration::TemplateParam(x, declarations, rest))
    }),
    ("pack of declarations", |a, t, _| declaration(a, Declaration::PackParam(t))),
    ("qualified", |a, t, _| a.push(Node::Qualified(t, NO_CV))),
    ("pointer", |a, t, _| a.push(Node::Pointer(t))),
    ("reference", |a, t, _| a.push(Node::Reference(t, true))),
    ("class", |a, t, x| a.push(Node::MemberPointer(t, x))),
    ("member", |a, t, x| a.push(Node::MemberPointer(x, t))),
    ("array", |a, t, _| {
        let dimension = a.parts(&[])?;
        a.push(Node::Array(t, dimension))
    }),
    ("dimension", |a, t, x| {
        let dimension = part(a, t)?;
        a.push(Node::Array(x, dimension))
    }),
    ("return type", |a, t, x| {
        let none = a.parts(&[])?;
        function(a, t, &[x], none)
    }),
    ("parameter", |a, t, x| {
        let none = a.parts(&[])?;
        function(a, x, &[t], none)
    }),
    ("exception", |a, t, x| {
        let exception = part(a, t)?;
        function(a, x, &[x], exception)
    }),
    ("function's return type", |a, t, x| {
        let none = a.parts(&[])?;
        encoding(a, Some(t), x, &[x], none)
    }),
    ("function's name", |a, t, x| {
        let none = a.parts(&[])?;
        encoding(a, Some(x), t, &[x], none)
    }),
    ("function's parameter", |a, t, x| {
        let none = a.parts(&[])?;
        encoding(a, Some(x), x, &[t], none)
    }),
    ("after a function", |a, t, x| {
        let clauses = part(a, t)?;
        encoding(a, Some(x), x, &[x], clauses)
    }),
];

/// Prints a tree of a height, or of one less if a shape takes two, in each style. Its shapes take turns. Returns whether
/// it prints something.
fn is_printed(shapes: &[Shape], height: usize) -> bool {
    let mut arena = Arena::new(Global);
    let name = |arena: &mut Arena| arena.make_name(b"x");
    let Ok(x) = name(&mut arena) else { return false };
    let mut tree = x;
    for shape in shapes.iter().cycle() {
        match shape(&mut arena, tree, x) {
            Ok(next) if arena.measure(next).height as usize <= height => tree = next,
            _ => break,
        }
    }
    if arena.measure(tree).height as usize + 1 < height {
        return false;
    }
    let symbol = Symbol { tree, is_block: false, suffix: None };
    [Style::Llvm, Style::Gnu, Style::GnuShort].into_iter().all(|style| {
        let mut out = crate::extracted::growing_text::Text::new(Global);
        print_symbol(&arena, symbol, Mode::Declaration, style, &mut out).is_ok() && out.len() != 0
    })
}

/// Prints trees of the shapes, and of each two of them that take turns, all in one thread of little stack. Returns the
/// name of each, and whether it is printed. A stack that isn't enough ends the process.
pub fn stacks(height: usize) -> Vec<(String, bool)> {
    let print_all = move || {
        let mut found = Vec::new();
        for (one, first) in SHAPES {
            for (two, second) in SHAPES {
                found.push((format!("{one}, {two}"), is_printed(&[*first, *second], height)));
            }
        }
        found
    };
    thread::Builder::new().stack_size(STACK).spawn(print_all).expect("a thread").join().expect("no panic")
}
