//! Trees at the limits and beyond them, texts that aren't ASCII or are long, and allocations that fail. The last line
//! is `N passed, M failed`.

use crate::extracted::cxx_printer::{Mode, Style, Symbol, print_symbol};
use crate::extracted::cxx_tree::{Arena, Cv, Encoding, Node, Plain, Stop, RefQual};
use crate::extracted::growing_text::Text;
use crate::rattle::alloc::{AllocError, Global};
use crate::stacks::stacks;
use std::alloc::{GlobalAlloc, Layout, System};
use std::process::ExitCode;
use std::sync::atomic::{AtomicUsize, Ordering};

/// The greatest height of a tree, and the most work of printing one.
const MAX_HEIGHT: usize = 1024;
const MAX_WORK: usize = 1 << 20;

/// The allocator of Rust, of which one allocation may fail.
struct Refusing;

/// How many allocations are made before the one that fails. None fails if there are as many as possible.
static LEFT: AtomicUsize = AtomicUsize::new(usize::MAX);

fn is_refused() -> bool {
    let left = LEFT.load(Ordering::Relaxed);
    if left != usize::MAX {
        LEFT.store(left.wrapping_sub(1), Ordering::Relaxed);
    }
    left == 0
}

// SAFETY: it does what the system's allocator does, or returns no memory.
unsafe impl GlobalAlloc for Refusing {
    unsafe fn alloc(&self, layout: Layout) -> *mut u8 {
        if is_refused() { std::ptr::null_mut() } else { unsafe { System.alloc(layout) } }
    }

    unsafe fn dealloc(&self, place: *mut u8, layout: Layout) {
        unsafe { System.dealloc(place, layout) }
    }

    unsafe fn realloc(&self, place: *mut u8, layout: Layout, size: usize) -> *mut u8 {
        if is_refused() { std::ptr::null_mut() } else { unsafe { System.realloc(place, layout, size) } }
    }
}

#[global_allocator]
static ALLOCATOR: Refusing = Refusing;

/// What was found so far.
#[derive(Default)]
struct Counts {
    passed: usize,
    failed: usize,
}

impl Counts {
    fn check(&mut self, what: &str, holds: bool) {
        self.passed += usize::from(holds);
        self.failed += usize::from(!holds);
        if !holds {
            println!("{what}: wrong");
        }
    }
}

/// Prints a declaration.
fn printed(arena: &Arena, tree: u32, style: Style) -> Result<Vec<u8>, AllocError> {
    let mut out = Text::new(Global);
    let symbol = Symbol { tree, is_block: false, suffix: None };
    print_symbol(arena, symbol, Mode::Declaration, style, &mut out)?;
    Ok(out.as_slice().to_vec())
}

fn text_of(arena: &Arena, tree: u32) -> Vec<u8> {
    printed(arena, tree, Style::Llvm).expect("memory")
}

fn name(arena: &mut Arena, bytes: &[u8]) -> Result<u32, Stop> {
    arena.make_name(bytes)
}

fn list(arena: &mut Arena, items: &[u32]) -> Result<u32, Stop> {
    let items = arena.list(items)?;
    arena.push(Node::Plain(Plain::Several(items)))
}

fn pack(arena: &mut Arena, items: &[u32]) -> Result<u32, Stop> {
    let items = arena.list(items)?;
    arena.push(Node::Pack(items))
}

fn expansion(arena: &mut Arena, pattern: u32) -> Result<u32, Stop> {
    arena.push(Node::Plain(Plain::Expansion(pattern)))
}

fn is_limit(made: Result<u32, Stop>) -> bool {
    matches!(made, Err(Stop::Unreadable))
}

fn made_here(made: Result<u32, Stop>) -> u32 {
    made.unwrap_or_else(|_| panic!("a tree within the limits"))
}

/// Pointers to pointers, up to the greatest height.
fn heights(counts: &mut Counts) {
    let mut arena = Arena::new(Global);
    let mut tree = made_here(name(&mut arena, b"x"));
    for _ in 1..MAX_HEIGHT {
        tree = made_here(arena.push(Node::Pointer(tree)));
    }
    let expected = [b"x".as_slice(), "*".repeat(MAX_HEIGHT - 1).as_bytes()].concat();
    counts.check("a tree of the greatest height", text_of(&arena, tree) == expected);
    counts.check("a higher tree", is_limit(arena.push(Node::Pointer(tree))));
    let other = made_here(name(&mut arena, b"x"));
    let other = made_here(arena.push(Node::Reference(other, true)));
    counts.check("an arena after a limit", text_of(&arena, other) == b"x&");
}

/// Trees of each shape, of the greatest height.
fn shapes(counts: &mut Counts) {
    for (what, is_printed) in stacks(MAX_HEIGHT) {
        counts.check(&format!("{what}, of the greatest height"), is_printed);
    }
}

/// Lists of a list twice: the work doubles, up to the most.
fn works(counts: &mut Counts) {
    let mut arena = Arena::new(Global);
    let mut tree = made_here(name(&mut arena, b"a"));
    let (mut work, mut text) = (2, b"a".to_vec());
    while 1 + 2 * work <= MAX_WORK {
        tree = made_here(list(&mut arena, &[tree, tree]));
        work = 1 + 2 * work;
        text = [text.as_slice(), b", ", text.as_slice()].concat();
    }
    counts.check("a tree with much work", text_of(&arena, tree) == text);
    counts.check("a tree with more work", is_limit(list(&mut arena, &[tree, tree])));
}

/// A pack of 1,024 arguments, and empty packs in packs.
fn packs(counts: &mut Counts) {
    let mut arena = Arena::new(Global);
    let item = made_here(name(&mut arena, b"a"));
    let many = made_here(pack(&mut arena, &[item; 1024]));
    let tree = made_here(expansion(&mut arena, many));
    counts.check("a pack of 1,024 arguments", text_of(&arena, tree) == vec!["a"; 1024].join(", ").as_bytes());
    let mut inner = made_here(pack(&mut arena, &[]));
    let refused = (0..40).any(|_| {
        let made = expansion(&mut arena, inner).and_then(|it| pack(&mut arena, &[it, it]));
        match made {
            Ok(next) => inner = next,
            Err(error) => return matches!(error, Stop::Unreadable),
        }
        false
    });
    counts.check("an empty pack that is doubled 40 times", refused);
}

/// Bytes that aren't ASCII, and long texts.
fn texts(counts: &mut Counts) {
    let mut arena = Arena::new(Global);
    let bytes: Vec<u8> = (0..=255).collect();
    let tree = made_here(name(&mut arena, &bytes));
    counts.check("all bytes", text_of(&arena, tree) == bytes);
    let long = vec![b'x'; MAX_WORK - 1];
    let tree = made_here(name(&mut arena, &long));
    counts.check("a text of a megabyte", text_of(&arena, tree) == long);
    counts.check("a longer text", is_limit(name(&mut arena, &[long.as_slice(), b"x"].concat())));
}

/// What `declared` prints.
const DECLARED: &[u8] = b"int* f<int*, (int)7>(int* const&, g)";

/// Makes the nodes of a function. All memory that is allocated is that of the arena.
fn declared(arena: &mut Arena) -> Result<u32, Stop> {
    let (f, g, int) = (name(arena, b"f")?, name(arena, b"g")?, name(arena, b"int")?);
    let pointer = arena.push(Node::Pointer(int))?;
    let literal = arena.make_typed_literal(int, b"7")?;
    let args = arena.list(&[pointer, literal])?;
    let named = arena.push(Node::Plain(Plain::WithArgs(f, args)))?;
    let cv = Cv { is_const: true, is_volatile: false, is_restrict: false };
    let qualified = arena.push(Node::Qualified(pointer, cv))?;
    let reference = arena.push(Node::Reference(qualified, true))?;
    let (params, clauses) = (arena.list(&[reference, g])?, arena.parts(&[])?);
    let cv = Cv { is_const: false, is_volatile: false, is_restrict: false };
    let ref_qual = RefQual::None;
    arena.push(Node::Encoding(Encoding { ret: Some(pointer), name: named, params, cv, ref_qual, clauses }))
}

/// Whether a function is made and printed. The error says whether it was want of memory.
fn is_declared(arena: &mut Arena, out: &mut Text) -> Result<bool, bool> {
    arena.clear(usize::MAX);
    out.clear();
    let tree = declared(arena).map_err(|error| matches!(error, Stop::Memory))?;
    let symbol = Symbol { tree, is_block: false, suffix: None };
    print_symbol(arena, symbol, Mode::Declaration, Style::Llvm, out).map_err(|_| true)?;
    Ok(out.as_slice() == DECLARED)
}

/// Makes a function and prints it, while an allocation fails. The arena and the text are used again after that.
fn refusals(counts: &mut Counts) {
    for number in 0.. {
        let (mut arena, mut out) = (Arena::new(Global), Text::new(Global));
        LEFT.store(number, Ordering::Relaxed);
        let found = is_declared(&mut arena, &mut out);
        let failed = LEFT.swap(usize::MAX, Ordering::Relaxed) > number;
        counts.check(&format!("allocation {number} fails"), found == if failed { Err(true) } else { Ok(true) });
        counts.check(&format!("after allocation {number}"), is_declared(&mut arena, &mut out) == Ok(true));
        if !failed {
            return;
        }
    }
}

/// Runs all tests.
pub fn run() -> ExitCode {
    let mut counts = Counts::default();
    for test in [heights, shapes, works, packs, texts, refusals] {
        test(&mut counts);
    }
    println!("{} passed, {} failed", counts.passed, counts.failed);
    if counts.failed == 0 { ExitCode::SUCCESS } else { ExitCode::FAILURE }
}
