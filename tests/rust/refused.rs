//! Each allocation of each call of the crate fails in turn (tests/c/refuse.c). A call that begins with `try_` returns the
//! error or the right value, and the same call without `try_` panics or returns it. Made again, each returns it, and all
//! memory is freed.

use cosvigle::{Demangler, demangle, names, try_demangle};
use std::ffi::c_long;
use std::panic::{AssertUnwindSafe, catch_unwind, set_hook};

#[link(name = "refuse")]
unsafe extern "C" {
    fn refuse_at(number: c_long) -> c_long;
    fn refuse_live() -> c_long;
}

const SYMBOL: &str = "_ZNSt6vectorIS_IS_IiEEE4sizeEv";
const NAME: &str = "std::vector<std::vector<std::vector<int> > >::size";
const TEXT: &str = "std::vector<std::vector<std::vector<int> > >::size()";

/// The same call where each of its allocations fails, until none does. It says whether its value is right, or `None`
/// where it has none.
fn tried(call: impl Fn(&mut Demangler) -> Option<bool>) {
    let (mut number, mut failed) = (1, 0);
    loop {
        let live = unsafe { refuse_live() };
        let mut demangler = Demangler::new();
        unsafe { refuse_at(number) };
        let found = call(&mut demangler);
        let left = unsafe { refuse_at(0) };
        if found.is_none() {
            failed += 1;
            assert_eq!(call(&mut demangler), Some(true));
        } else {
            assert_eq!(found, Some(true));
        }
        drop(demangler);
        assert_eq!(unsafe { refuse_live() }, live);
        if left != 0 {
            break;
        }
        number += 1;
    }
    assert!(failed > 1 && failed < number);
}

/// What a call made, or `None` if it returned the error.
fn unless_error<T, E>(made: Result<T, E>) -> Option<T> {
    made.ok()
}

/// What a call made, or `None` if it panicked.
fn unless_panic<T>(call: impl FnOnce() -> T) -> Option<T> {
    catch_unwind(AssertUnwindSafe(call)).ok()
}

fn main() {
    set_hook(Box::new(|panic| {
        let said = panic.to_string();
        if !said.contains("cosvigle: out of memory") {
            eprintln!("{said}");
        }
    }));
    let long = "a".repeat(1000);
    let symbol = format!("_Z1000{long}v");
    let declaration = format!("{long}()");
    tried(|it| Some(unless_error(it.try_demangle(SYMBOL))? == Some(TEXT)));
    tried(|it| Some(unless_error(it.try_demangle(&symbol))? == Some(declaration.as_str())));
    tried(|it| Some(unless_error(it.try_demangle_type("PFivE"))? == Some("int (*)()")));
    tried(|it| Some(unless_error(it.try_parts("_ZN1A1fEv"))?.unwrap().base_name == "f"));
    tried(|_| Some(unless_error(try_demangle(SYMBOL))?.as_deref() == Some(TEXT)));
    tried(|it| Some(unless_error(it.try_replace(SYMBOL.as_bytes(), false))? == TEXT.as_bytes()));
    tried(|it| Some(unless_error(it.try_filter(SYMBOL.as_bytes()))? == TEXT.as_bytes()));
    tried(|_| Some(unless_error(names::Demangler::new().try_demangle(SYMBOL))? == Some(NAME)));
    tried(|_| Some(unless_error(names::try_demangle_owned(SYMBOL))?.as_deref() == Some(NAME)));
    tried(|it| unless_panic(|| it.demangle(SYMBOL) == Some(TEXT)));
    tried(|it| unless_panic(|| it.demangle_type("PFivE") == Some("int (*)()")));
    tried(|it| unless_panic(|| it.parts("_ZN1A1fEv").unwrap().base_name == "f"));
    tried(|_| unless_panic(|| demangle(SYMBOL).as_deref() == Some(TEXT)));
    tried(|it| unless_panic(|| it.replace(SYMBOL.as_bytes(), false) == TEXT.as_bytes()));
    tried(|it| unless_panic(|| it.filter(SYMBOL.as_bytes()) == TEXT.as_bytes()));
    tried(|_| unless_panic(|| names::Demangler::new().demangle(SYMBOL) == Some(NAME)));
    tried(|_| unless_panic(|| names::demangle_owned(SYMBOL).as_deref() == Some(NAME)));
}
