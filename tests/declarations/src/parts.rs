//! The parts of symbols: those of a list, what a symbol stands for, and what is kept after a symbol without an answer.

use crate::Counts;
use crate::extracted::cxx_demangle::{Demangler, Kind, Mode, Printing, Style, Text};
use crate::rattle::alloc::{AllocError, Global};

/// Lines with a number that says which productions are needed, a symbol, and its parts in the order of `PARTS`.
const LIST: &str = include_str!("../../../corpus/parts.tsv");

type Print = fn(&Demangler, Style, &mut Text) -> Result<(), AllocError>;

const PARTS: [Print; 4] = [
    Demangler::print_base_name,
    Demangler::print_context,
    Demangler::print_parameters,
    Demangler::print_return_type,
];

/// Symbols with what they stand for, and whether it has qualifiers.
const KINDS: [(&str, Option<Kind>, bool); 15] = [
    ("_Z1fv", Some(Kind::Function), false),
    ("_ZN1A1fEv", Some(Kind::Function), false),
    ("_ZNK1A1fEv", Some(Kind::Function), true),
    ("_ZNV1A1fEv", Some(Kind::Function), true),
    ("_ZNr1A1fEv", Some(Kind::Function), true),
    ("_ZNR1A1fEv", Some(Kind::Function), true),
    ("_ZNO1A1fEv", Some(Kind::Function), true),
    ("_ZNrVKO1A1fEv", Some(Kind::Function), true),
    ("_Z1fIiEvPKT_", Some(Kind::Function), false),
    ("_Z1x", Some(Kind::Data), false),
    ("_ZN1A1xE", Some(Kind::Data), false),
    ("_ZTV1A", Some(Kind::Special), false),
    ("_ZGTtNK1A1fEv", Some(Kind::Special), false),
    ("_Z1fT_", None, false),
    ("f", None, false),
];

/// Styles, with the parameters of a symbol in each.
const STYLED: [(Style, &str); 3] = [
    (Style::Llvm, "(std::string, std::vector<std::allocator<int>>)"),
    (
        Style::Gnu,
        "(std::basic_string<char, std::char_traits<char>, std::allocator<char> >, std::vector<std::allocator<int> >)",
    ),
    (Style::GnuShort, "(std::string, std::vector<std::allocator<int> >)"),
];

fn printing(limit: Option<usize>) -> Printing {
    Printing { mode: Mode::Declaration, style: Style::Llvm, limit }
}

/// The parts of the last symbol, after what stands in the text already.
fn parts_of(demangler: &Demangler, style: Style) -> [String; 4] {
    PARTS.map(|print| {
        let mut text = Text::new(Global);
        text.add(b"before ").expect("memory");
        print(demangler, style, &mut text).expect("memory");
        let text = String::from_utf8(text.as_slice().to_vec()).expect("UTF-8");
        text.strip_prefix("before ").expect("what stood there").to_string()
    })
}

fn has_nothing(demangler: &Demangler) -> bool {
    demangler.kind().is_none() && !demangler.has_qualifiers() && parts_of(demangler, Style::Llvm).concat().is_empty()
}

/// Tests all of this.
pub fn parts(counts: &mut Counts) {
    let mut demangler = Demangler::new(Global);
    counts.check("parts before the first symbol", has_nothing(&demangler));
    for line in LIST.lines() {
        let [_, symbol, expected @ ..] = &line.split('\t').collect::<Vec<_>>()[..] else { panic!("{line}") };
        demangler.prepare(Global, symbol, printing(None)).expect("memory");
        let is_read = demangler.kind().is_some();
        counts.check(&format!("parts of {symbol}"), is_read && parts_of(&demangler, Style::Llvm) == expected);
    }
    counts.check("the list of parts is short", LIST.lines().count() > 500);
    for (symbol, kind, has_qualifiers) in KINDS {
        demangler.prepare(Global, symbol, printing(None)).expect("memory");
        counts.check(&format!("what {symbol} stands for"), demangler.kind() == kind);
        counts.check(&format!("qualifiers of {symbol}"), demangler.has_qualifiers() == has_qualifiers);
    }
    counts.check("parts after a symbol that isn't read", has_nothing(&demangler));
    demangler.prepare(Global, "_ZN1AltESsSt6vectorISaIiEE", printing(None)).expect("memory");
    for (style, parameters) in STYLED {
        counts.check("parts in styles", parts_of(&demangler, style) == ["operator<", "A", parameters, ""]);
    }
    counts.check("a limit", demangler.prepare(Global, "_Z1fi", printing(Some(1))).is_err());
    counts.check("parts after an error", has_nothing(&demangler));
}
