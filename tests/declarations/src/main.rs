//! Tests the demangler of declarations at its limits: symbols at and past each limit, families of long symbols with
//! what they cost, the limit of memory, malformed symbols, allocations that fail, and the stack. Tests the parts of
//! symbols too, and types alone. Standard input has symbols, one per line. They are read with little stack, and of each
//! family of names, types and expressions all beginnings of some of them. The last line is `N passed, M failed`.
//!
//! usage: declarations

mod families;
mod memory;
mod parts;
mod types;

// The crates, and what stands in for Rattle's std below them. They come last, since the macros of the latter would
// stand in for those of Rust.
#[macro_use]
#[allow(dead_code, unused_imports, unused_macros)]
#[path = "../../../out/declarations-rust/src/rattle/mod.rs"]
mod rattle;
#[allow(unused)]
#[path = "../../../out/declarations-rust/src/extracted/mod.rs"]
mod extracted;

use crate::extracted::cxx_demangle::{Demangler, Mode, Printing, Style};
use crate::families::{BOUND, NUMBERED, costly, limited, refused, styled};
use crate::parts::parts;
use crate::rattle::alloc::Global;
use crate::types::types;
use std::io::{self, BufRead};
use std::process::ExitCode;
use std::sync::Arc;
use std::thread;
use std::time::{Duration, Instant};

/// The stack in bytes that is enough for symbols at the limits, and for a symbol of a library.
const STACK: usize = 512 << 10;
const LITTLE_STACK: usize = 32 << 10;
/// What a thread takes by itself, in bytes.
const THREAD: usize = 16 << 10;
/// The most memory in bytes that a symbol of 100,000 bytes may take, and the most time.
const MEMORY: usize = 16 << 20;
/// The same where closures nest up to the limit of depth: binding their template parameters makes 64,516 nodes, each of
/// several parts, from some 2,000 bytes.
const BOUND_MEMORY: usize = 18 << 20;
const TIME: Duration = Duration::from_millis(100);
/// How many symbols of a family have their beginnings read, and the length in bytes of the longest.
const FEW: usize = 500;
const SHORT: usize = 300;
/// A limit of what is kept for a symbol, the most memory in bytes that it allows, and what the digits of the number of
/// an entity take beside it, for each of them.
const LOW_LIMIT: usize = 1000;
const LOW_MEMORY: usize = 256 * LOW_LIMIT;
const DIGIT: usize = 6;

const DECLARATION: Printing = Printing { mode: Mode::Declaration, style: Style::Llvm, limit: None };
const GNU: Printing = Printing { style: Style::Gnu, ..DECLARATION };
const PRINTINGS: [Printing; 4] = [
    Printing { mode: Mode::Name, style: Style::Llvm, limit: None },
    Printing { mode: Mode::Signature, style: Style::Llvm, limit: None },
    DECLARATION,
    GNU,
];

/// What was found so far.
#[derive(Default)]
struct Counts {
    passed: usize,
    failed: usize,
}

impl Counts {
    fn check(&mut self, what: &str, holds: bool) {
        self.passed += usize::from(holds);
        self.failed += usize::from(!holds);
        if !holds {
            println!("{what}: wrong");
        }
    }
}

/// Returns a symbol's declaration, or `None` if it has none.
fn declared(demangler: &mut Demangler, symbol: &str) -> Option<String> {
    demangler.demangle(Global, symbol, DECLARATION).expect("memory").map(str::to_string)
}

/// Symbols at and past each limit, with what is printed of them.
fn limits(counts: &mut Counts) {
    let mut demangler = Demangler::new(Global);
    for (what, symbol, expected) in limited() {
        let found = declared(&mut demangler, &symbol);
        counts.check(&format!("{what}, of {} bytes", symbol.len()), found == expected);
    }
}

/// Symbols with both styles.
fn styles(counts: &mut Counts) {
    let mut demangler = Demangler::new(Global);
    for (symbol, llvm, gnu) in styled() {
        let what = &symbol[..symbol.len().min(100)];
        counts.check(what, declared(&mut demangler, &symbol).as_ref() == Some(&llvm));
        counts.check(&format!("{what} in GNU's style"), demangler.demangle(Global, &symbol, GNU) == Ok(Some(&gnu)));
    }
}

/// What a call takes: time, and memory beyond that before.
#[derive(Clone, Copy, Default)]
struct Cost {
    time: Duration,
    bytes: usize,
}

impl Cost {
    /// The cost of reading and printing a symbol.
    fn of(demangler: &mut Demangler, symbol: &str, printing: Printing) -> Cost {
        let begin = Instant::now();
        let (_, bytes) = memory::most(|| demangler.prepare(Global, symbol, printing).expect("memory"));
        Cost { time: begin.elapsed(), bytes }
    }

    fn max(self, other: Cost) -> Cost {
        Cost { time: self.time.max(other.time), bytes: self.bytes.max(other.bytes) }
    }

    fn is_within(self, memory: usize) -> bool {
        self.time <= TIME && self.bytes <= memory
    }
}

/// Symbols of 100,000 bytes: time and memory are bounded.
fn costs(counts: &mut Counts) {
    let mut most = Cost::default();
    let families = costly();
    for (what, symbol) in &families {
        for printing in PRINTINGS {
            let cost = Cost::of(&mut Demangler::new(Global), symbol, printing);
            let memory = if *what == BOUND { BOUND_MEMORY } else { MEMORY };
            counts.check(&format!("{what}: {:?} and {} bytes", cost.time, cost.bytes), cost.is_within(memory));
            most = most.max(cost);
        }
    }
    let count = families.len();
    println!("{count} families of 100,000 bytes: at most {:?} and {} bytes of memory", most.time, most.bytes);
}

/// The families of names, types and expressions: what each is called, and a part of the declarations or else of the
/// symbols in it.
const FAMILIES: [(&str, &str, &str); 34] = [
    ("tags", "[abi:", ""),
    ("unnamed types", "'unnamed", ""),
    ("closures", "'lambda", ""),
    ("closures with auto", "(auto", ""),
    ("block literals", "'block-literal'", ""),
    ("conversions", "operator ", "cv"),
    ("local names", ")::", "Z"),
    ("discriminators", ")::", "_0"),
    ("default arguments", "::", "Ed"),
    ("functions", ")(", "F"),
    ("exceptions", "throw(", ""),
    ("functions without exceptions", "noexcept", ""),
    ("arrays", "[", "A"),
    ("vectors", " vector[", ""),
    ("complex types", " complex", ""),
    ("imaginary types", " imaginary", ""),
    ("vendor types", "", "U"),
    ("floating-point types", "_Float", "DF"),
    ("integer types", "_BitInt", ""),
    ("expressions as arguments", "", "X"),
    ("types of expressions", "decltype(", ""),
    ("calls", "(", "cl"),
    ("conditions", " ? ", "qu"),
    ("named casts", "_cast<", ""),
    ("`sizeof`", "sizeof", ""),
    ("`new`", "new ", ""),
    ("folds", "...", "f"),
    ("braces", "{", ""),
    ("parameters of a function", "fp", ""),
    ("unresolved names", "::", "sr"),
    ("destructors in expressions", "~", "dn"),
    ("floats", "0x", "L"),
    ("functions with a condition", "noexcept(", "DO"),
    ("suffixes and blocks", "", "."),
];

/// Every beginning of symbols of each family: time and memory are bounded, and the whole symbol has its answer then.
fn families(counts: &mut Counts, symbols: &[String]) {
    let mut demangler = Demangler::new(Global);
    let (mut tried, mut most) = (0, Cost::default());
    for (what, text, part) in FAMILIES {
        let mut left = FEW;
        for symbol in symbols {
            if left == 0 || symbol.len() > SHORT || !symbol.contains(part) {
                continue;
            }
            let Some(expected) = declared(&mut Demangler::new(Global), symbol).filter(|it| it.contains(text)) else {
                continue;
            };
            left -= 1;
            for end in (0..symbol.len()).filter(|end| symbol.is_char_boundary(*end)) {
                let beginning = &symbol[..end];
                let cost = Cost::of(&mut Demangler::new(Global), beginning, GNU);
                demangler.prepare(Global, beginning, DECLARATION).expect("memory");
                if !cost.is_within(MEMORY) {
                    counts.check(&format!("{end} bytes of {symbol}: {:?}", cost.time), false);
                }
                (tried, most) = (tried + 1, most.max(cost));
            }
            counts.check(symbol, declared(&mut demangler, symbol) == Some(expected));
        }
        counts.check(&format!("no {what} in the input"), left < FEW);
    }
    println!("{tried} beginnings: at most {:?} and {} bytes of memory", most.time, most.bytes);
}

/// The default limit of what is kept for a symbol.
fn default_limit(symbol: &str) -> usize {
    16 * symbol.len() + 4_194_304
}

/// No answer depends on the default limit: with half of it each is the same.
fn defaults(counts: &mut Counts) {
    let mut demangler = Demangler::new(Global);
    let limited = limited().into_iter().map(|(what, symbol, _)| (what, symbol));
    for (what, symbol) in limited.chain(costly()) {
        let expected = declared(&mut demangler, &symbol);
        let half = Printing { limit: Some(default_limit(&symbol) / 2), ..DECLARATION };
        let found = demangler.demangle(Global, &symbol, half);
        counts.check(&format!("{what} with half of the limit"), found == Ok(expected.as_deref()));
    }
}

/// A lower limit bounds the memory, and a symbol that needs more has the error of a failed allocation.
fn lower_limits(counts: &mut Counts) {
    let mut failed = 0;
    for (what, symbol) in costly() {
        let mut demangler = Demangler::new(Global);
        let low = Printing { limit: Some(LOW_LIMIT), ..DECLARATION };
        let (result, bytes) = memory::most(|| demangler.prepare(Global, &symbol, low));
        if result.is_err() {
            failed += 1;
            let digits = if NUMBERED.contains(&what) { DIGIT * symbol.len() } else { 0 };
            counts.check(&format!("{what} within a low limit: {bytes} bytes"), bytes <= LOW_MEMORY + digits);
            counts.check(&format!("{what} has an answer beyond its limit"), demangler.text().is_none());
        }
        let again = declared(&mut demangler, "_Z1fi");
        counts.check(&format!("after {what} with a low limit"), again.as_deref() == Some("f(int)"));
    }
    counts.check("long symbols with a low limit", failed > 0);
    let mut demangler = Demangler::new(Global);
    for limit in 0..8 {
        let found = demangler.demangle(Global, "_Z1fi", Printing { limit: Some(limit), ..DECLARATION });
        // The name, `int` and the function are nodes.
        counts.check(&format!("the limit {limit}"), found.ok() == (limit >= 3).then_some(Some("f(int)")));
    }
}

/// Malformed symbols, and what must not be read.
fn refusals(counts: &mut Counts) {
    let mut demangler = Demangler::new(Global);
    for symbol in refused() {
        counts.check(&symbol, declared(&mut demangler, &symbol).is_none());
    }
}

/// Demangles a symbol while an allocation fails. The value is used again after that.
fn faults(counts: &mut Counts) {
    let symbol = "_ZNKSt6vectorI1AIJPKcRdEESaIiEE1fIS4_J1BcEEEvOT_DpRT0_";
    let expected = "void std::vector<A<char const*, double&>, std::allocator<int>>::f<A<char const*, double&>, B, char>\
        (A<char const*, double&>&&, B&, char&) const";
    for number in 0.. {
        let mut demangler = Demangler::new(Global);
        let (found, failed) = memory::refusing(number, || match demangler.demangle(Global, symbol, DECLARATION) {
            Ok(found) => Ok(found == Some(expected)),
            Err(_) => Err(()),
        });
        counts.check(&format!("allocation {number} fails"), found == if failed { Err(()) } else { Ok(true) });
        counts.check(&format!("kept after allocation {number}"), demangler.text().is_some() != failed);
        let again = declared(&mut demangler, symbol);
        counts.check(&format!("after allocation {number}"), again.as_deref() == Some(expected));
        if !failed {
            return;
        }
    }
}

/// Each beginning of some symbols, and each with a byte changed: they are read or refused.
fn beginnings(counts: &mut Counts) {
    let mut demangler = Demangler::new(Global);
    let mut read = 0;
    for (_, symbol, _) in limited() {
        if symbol.len() > 300 {
            continue;
        }
        for end in 0..symbol.len() {
            read += usize::from(declared(&mut demangler, &symbol[..end]).is_some());
            let mut other = symbol.clone().into_bytes();
            other[end] = b'0' + (other[end] + 1) % 74;
            if let Ok(other) = std::str::from_utf8(&other) {
                read += usize::from(declared(&mut demangler, other).is_some());
            }
        }
    }
    counts.check("beginnings and changed symbols", read > 0);
}

/// Runs with a stack of so many bytes.
fn with_stack<T: Send + 'static>(bytes: usize, run: impl FnOnce() -> T + Send + 'static) -> T {
    thread::Builder::new().stack_size(bytes + THREAD).spawn(run).expect("a thread").join().expect("no panic")
}

/// Symbols of libraries, with little stack.
fn little_stack(counts: &mut Counts, symbols: &Arc<Vec<String>>) {
    let symbols = Arc::clone(symbols);
    let read = with_stack(LITTLE_STACK, move || {
        let mut demangler = Demangler::new(Global);
        let mut read = 0;
        for symbol in symbols.iter() {
            for printing in PRINTINGS {
                read += usize::from(demangler.prepare(Global, symbol, printing).expect("memory"));
            }
        }
        read
    });
    counts.check("no symbol of the input is read", read > 0);
}

fn main() -> ExitCode {
    let mut counts = Counts::default();
    let symbols = Arc::new(io::stdin().lock().lines().map(|line| line.expect("a line of UTF-8")).collect());
    little_stack(&mut counts, &symbols);
    let counts = with_stack(STACK, move || {
        families(&mut counts, &symbols);
        for test in [limits, styles, costs, defaults, lower_limits, refusals, faults, beginnings, parts, types] {
            test(&mut counts);
        }
        counts
    });
    println!("{} passed, {} failed", counts.passed, counts.failed);
    if counts.failed == 0 { ExitCode::SUCCESS } else { ExitCode::FAILURE }
}
