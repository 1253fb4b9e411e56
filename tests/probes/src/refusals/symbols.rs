//! Rows of symbols. After each error the value must keep nothing, and must demangle again.

use crate::extracted::itanium_demangle::{Demangler, demangle_owned};
use crate::rattle::alloc::Global;
use crate::refusals::outcome::{Memory, Wrong, must};

/// Each symbol with its name.
pub const NAMES: [(&str, &str); 7] = [
    ("_ZNSt6vectorIS_IiEE4sizeEv", "std::vector<std::vector<int> >::size"),
    ("_Z1fIN1A1BENS1_UlP1CE_ES2_Ev", "f<A::B, A::B::{lambda(C*)#1}, C>"),
    ("_Z1fIiLT_1EEvv", "f<int, 1>"),
    ("_Z1fIL4bool1ES0_Evv", "f<true, bool>"),
    ("_Z1fI1AXadL_ZNS0_EEEEvv", "f<A, &A>"),
    ("_ZZZNK1A1fEvENKUlvE_clEvE1x", "A::f() const::{lambda()#1}::operator()() const::x"),
    ("_Z1fI1A1BIS0_S0_ES1_IS2_S2_EEvv", "f<A, B<A, A>, B<B<A, A>, B<A, A> > >"),
];

/// The names that must be returned after an error.
const AFTER: [(&str, Option<&str>); 2] = [("_Z1fIDpiEvv", Some("f<int...>")), ("malloc", None)];

/// The call by which a symbol is demangled.
#[derive(Clone, Copy)]
pub enum Call {
    Demangle,
    DemangleOwned,
}

impl Call {
    pub fn name(self) -> &'static str {
        match self {
            Call::Demangle => "demangle",
            Call::DemangleOwned => "demangle_owned",
        }
    }
}

/// Tests that the result is the expected one.
fn given(found: Option<&str>, answer: Option<&str>) -> Result<Memory, Wrong> {
    match (found, answer) {
        (Some(text), Some(expected)) if text == expected => Ok(Memory::Given),
        (None, None) => Ok(Memory::Given),
        (Some(_), _) => Err(Wrong("another answer")),
        (None, Some(_)) => Err(Wrong("no answer")),
    }
}

/// Returns whether the value keeps nothing of its last symbol.
fn keeps_nothing(demangler: &Demangler) -> bool {
    demangler.text().is_none()
        && demangler.entered() == 0
        && demangler.most_saved() == 0
        && demangler.component(0).is_none()
        && demangler.buffer().is_none()
}

/// Tests that the value keeps nothing after an allocation failed.
fn refused(demangler: &Demangler) -> Result<Memory, Wrong> {
    must(keeps_nothing(demangler), "something is kept after the error")?;
    Ok(Memory::Refused)
}

/// Demangles the symbol with the value, and tests the result.
fn ask_value(alloc: Global, demangler: &mut Demangler, symbol: &str, answer: Option<&str>) -> Result<Memory, Wrong> {
    if let Ok(found) = demangler.demangle(alloc, symbol) {
        return given(found, answer);
    }
    refused(demangler)
}

/// Demangles the symbol to a new string, and tests it.
fn ask_owned(alloc: Global, symbol: &str, answer: Option<&str>) -> Result<Memory, Wrong> {
    match demangle_owned(alloc, symbol) {
        Ok(Some(text)) => given(Some(&text), answer),
        Ok(None) => given(None, answer),
        Err(_) => Ok(Memory::Refused),
    }
}

/// Demangles the symbol by this call, and tests the result.
fn ask(
    call: Call,
    alloc: Global,
    demangler: &mut Demangler,
    symbol: &str,
    answer: Option<&str>,
) -> Result<Memory, Wrong> {
    match call {
        Call::Demangle => ask_value(alloc, demangler, symbol, answer),
        Call::DemangleOwned => ask_owned(alloc, symbol, answer),
    }
}

/// Demangles a symbol after an error, and tests that no allocation fails again.
fn ask_again(
    call: Call,
    alloc: Global,
    demangler: &mut Demangler,
    symbol: &str,
    answer: Option<&str>,
) -> Result<(), Wrong> {
    let memory = ask(call, alloc, demangler, symbol, answer)?;
    must(memory == Memory::Given, "an error after the first one")
}

/// Tries the row of a symbol. After an error other symbols are demangled, and then the symbol once more.
pub fn run(call: Call, alloc: Global, demangler: &mut Demangler, symbol: &str, answer: &str) -> Result<Memory, Wrong> {
    let memory = ask(call, alloc, demangler, symbol, Some(answer))?;
    if memory == Memory::Refused {
        for (next, expected) in AFTER {
            ask_again(call, alloc, demangler, next, expected)?;
        }
        ask_again(call, alloc, demangler, symbol, Some(answer))?;
    }
    Ok(memory)
}
