//! Types alone: those of a list, and texts that are no type.

use crate::Counts;
use crate::extracted::cxx_demangle::{Demangler, Mode, Printing, Style};
use crate::rattle::alloc::Global;

/// Lines with a number that says which productions are needed, a type, and its text in LLVM's style.
const LIST: &str = include_str!("../../../corpus/types.tsv");

/// Texts that are no type: symbols, beginnings, types with bytes behind them, and a template parameter.
const REFUSED: [&str; 10] = ["", "_Z1fv", "__Z1fv", "1", "P", "iv", "1A.cold", "T_", "PT_", "S_"];

/// Types with their text in GNU's style.
const GNU: [(&str, &str); 3] = [
    ("PFvvE", "void (*)()"),
    ("Ss", "std::basic_string<char, std::char_traits<char>, std::allocator<char> >"),
    ("1AI1BI1CEE", "A<B<C> >"),
];

fn printing(style: Style) -> Printing {
    Printing { mode: Mode::Declaration, style, limit: None }
}

/// Tests all of this.
pub fn types(counts: &mut Counts) {
    let mut demangler = Demangler::new(Global);
    for line in LIST.lines() {
        let [_, text, expected] = line.split('\t').collect::<Vec<_>>()[..] else { panic!("{line}") };
        let answer = demangler.demangle_type(Global, text, printing(Style::Llvm)).expect("memory");
        counts.check(&format!("type {text}"), answer.is_some_and(|it| it == expected));
    }
    counts.check("the list of types is short", LIST.lines().count() > 100);
    for text in REFUSED {
        let answer = demangler.demangle_type(Global, text, printing(Style::Llvm)).expect("memory");
        counts.check(&format!("{text} as a type"), answer.is_none());
    }
    for (text, expected) in GNU {
        let answer = demangler.demangle_type(Global, text, printing(Style::Gnu)).expect("memory");
        counts.check(&format!("type {text} in GNU's style"), answer == Some(expected));
    }
    let limited = Printing { limit: Some(1), ..printing(Style::Llvm) };
    counts.check("a limit for a type", demangler.prepare_type(Global, "PPi", limited).is_err());
    counts.check("a type after an error", demangler.text().is_none() && demangler.kind().is_none());
    let answer = demangler.demangle(Global, "_Z1fi", printing(Style::Llvm)).expect("memory");
    counts.check("a symbol after a type", answer == Some("f(int)"));
}
