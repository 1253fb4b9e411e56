//! Tests the printer over trees that are given as text. Standard input has a line for each symbol, with tabs between
//! its fields:
//!
//! - a number, which isn't used, and the symbol
//! - its name, its signature, its declaration, and its declaration in GNU's style
//! - its tree: constructors with their fields. `value.rs` says how it is written, and `tree.rs` what each one is.
//!
//! Bytes of the first six fields stand as they are, but for `\xHH`, and `\\` for a backslash.
//!
//! usage: printing [texts | time | limits]
//!
//! Without an argument the texts of each tree are compared with those of the line. The first 20 that differ are
//! written, with the symbol. The last line is `N passed, M failed`. If any failed, or if there is no line, the status
//! is 1. With `texts` the four texts of each tree are written, with tabs between, and nothing is compared. With `time`
//! only the declaration of each tree is printed, and the sum of the lengths is written: what the printer alone takes is
//! what `valgrind --tool=callgrind --toggle-collect='*print_declaration*'` counts. With `limits` nothing is read, and
//! `limits.rs` says what is tested. If the argument is another, the status is 2.

mod limits;
mod stacks;
mod tree;
mod value;

// The crates, and what stands in for Rattle's std below them. They come last, since the macros of the latter would
// stand in for those of Rust.
#[macro_use]
#[allow(dead_code, unused_imports, unused_macros)]
#[path = "../../../out/printing-rust/src/rattle/mod.rs"]
mod rattle;
#[allow(unused)]
#[path = "../../../out/printing-rust/src/extracted/mod.rs"]
mod extracted;

use crate::extracted::cxx_printer::{Mode, Style, Symbol, print_symbol};
use crate::extracted::cxx_tree::Arena;
use crate::rattle::alloc::Global;
use crate::tree::made;
use crate::value::{Value, parsed, plain};
use std::io::{self, BufRead, Write};
use std::process::ExitCode;
use std::thread;

/// The exit status if no mode has the name.
const NOT_ASKED: u8 = 2;
/// The failures that are written.
const WRITTEN: usize = 20;
/// The stack in bytes: trees that are given may be as high as those of symbols.
const STACK: usize = 256 << 20;

/// The texts of a line, in the order of its fields.
const TEXTS: [(&str, Mode, Style); 4] = [
    ("name", Mode::Name, Style::Llvm),
    ("signature", Mode::Signature, Style::Llvm),
    ("declaration", Mode::Declaration, Style::Llvm),
    ("declaration in GNU's style", Mode::Declaration, Style::Gnu),
];

/// A line of the input.
struct Line {
    symbol: String,
    expected: Vec<Vec<u8>>,
    tree: Value,
}

impl Line {
    /// Takes a line apart.
    fn new(line: &str) -> Line {
        let fields: Vec<&str> = line.split('\t').collect();
        let [_, symbol, texts @ .., tree] = &fields[..] else { panic!("a line without fields: {line}") };
        assert!(texts.len() == TEXTS.len(), "a line with {} texts: {line}", texts.len());
        Line {
            symbol: symbol.to_string(),
            expected: texts.iter().map(|text| plain(text)).collect(),
            tree: parsed(tree),
        }
    }
}

/// An arena, and what was printed of it last.
struct Printer {
    arena: Arena,
    output: extracted::growing_text::Text,
}

impl Printer {
    fn new() -> Printer {
        Printer { arena: Arena::new(Global), output: extracted::growing_text::Text::new(Global) }
    }

    /// Makes the nodes of a tree, and drops all others. A tree may be beyond the limits.
    fn symbol(&mut self, tree: &Value) -> Option<Symbol> {
        self.arena.clear(usize::MAX);
        made(&mut self.arena, tree).ok()
    }

    /// Returns a text of a symbol.
    fn text(&mut self, symbol: Symbol, mode: Mode, style: Style) -> &[u8] {
        self.output.clear();
        print_symbol(&self.arena, symbol, mode, style, &mut self.output).expect("memory");
        self.output.as_slice()
    }

    /// Prints a declaration, and returns its length.
    #[inline(never)]
    fn print_declaration(&mut self, symbol: Symbol) -> usize {
        self.text(symbol, Mode::Declaration, Style::Llvm).len()
    }
}

/// Calls a function for each line of standard input.
fn each_line(mut act: impl FnMut(Line)) {
    for line in io::stdin().lock().lines() {
        act(Line::new(&line.expect("a line of UTF-8")));
    }
}

/// Compares the texts of each line, and returns the exit status.
fn compare() -> ExitCode {
    let (mut passed, mut failed) = (0, 0);
    let mut printer = Printer::new();
    each_line(|line| {
        let Some(symbol) = printer.symbol(&line.tree) else {
            println!("{}: a node wasn't pushed", line.symbol);
            failed += TEXTS.len();
            return;
        };
        for ((what, mode, style), expected) in TEXTS.into_iter().zip(&line.expected) {
            let text = printer.text(symbol, mode, style);
            if text == expected {
                passed += 1;
                continue;
            }
            failed += 1;
            if failed <= WRITTEN {
                println!("{}: {what}", line.symbol);
                println!("  expected: {}", String::from_utf8_lossy(expected));
                println!("  got:      {}", String::from_utf8_lossy(text));
            }
        }
    });
    println!("{passed} passed, {failed} failed");
    if failed == 0 && passed != 0 { ExitCode::SUCCESS } else { ExitCode::FAILURE }
}

/// Writes the texts of each line.
fn write_texts() -> ExitCode {
    let mut printer = Printer::new();
    let mut out = io::stdout().lock();
    each_line(|line| {
        let symbol = printer.symbol(&line.tree).expect("a tree within the limits");
        let texts = TEXTS.map(|(_, mode, style)| printer.text(symbol, mode, style).to_vec());
        out.write_all(&texts.join(&b'\t')).and_then(|()| out.write_all(b"\n")).expect("standard output");
    });
    ExitCode::SUCCESS
}

/// Prints the declarations of each line into memory, and writes their length.
fn measure() -> ExitCode {
    let mut printer = Printer::new();
    let mut length = 0;
    each_line(|line| {
        let symbol = printer.symbol(&line.tree).expect("a tree within the limits");
        length += printer.print_declaration(symbol);
    });
    println!("{length} bytes");
    ExitCode::SUCCESS
}

fn main() -> ExitCode {
    let arguments: Vec<String> = std::env::args().skip(1).collect();
    let arguments: Vec<&str> = arguments.iter().map(String::as_str).collect();
    let run = match arguments[..] {
        [] => compare,
        ["texts"] => write_texts,
        ["time"] => measure,
        ["limits"] => limits::run,
        _ => return ExitCode::from(NOT_ASKED),
    };
    thread::Builder::new().stack_size(STACK).spawn(run).expect("a thread").join().expect("no panic")
}
