//! The calls of `cosvigle.h` over the crate `cosvigle`. Written by hand, after `crates/cosvigle_c`. The header says
//! what each call does, and what its caller must keep to: here that is what each `unsafe` rests on.
#![allow(clippy::missing_safety_doc)]
#![warn(clippy::undocumented_unsafe_blocks)]

use demangler::engine::{
    AllocError, DeclarationReader, DemangleError, Demangler, Failed, FilterFault, Global, Kind, Mode, Part, Printing,
    ReplaceOptions, Sink, Style, Tally, Text, Vec, filter_with, replace as replace_words,
};
use demangler::version;
use std::alloc::{Layout, alloc};
use std::ffi::c_int;
use std::mem::replace;
use std::ptr::null_mut;
use std::slice::{from_raw_parts, from_raw_parts_mut};

const WRITTEN: c_int = 0;
const NO_ANSWER: c_int = 1;
const NO_MEMORY: c_int = 2;
const NO_ROOM: c_int = 3;
const NOT_UTF8: c_int = 4;
const BAD_CALL: c_int = 5;
const OVER_LIMIT: c_int = 6;

/// The bytes of memory that are counted for each node that may be kept to read a symbol.
const NODE_MEMORY: usize = 256;

/// What a handle has: a demangler, the limit for its symbols, and the text that didn't fit.
struct Kept {
    reader: DeclarationReader,
    limit: Option<usize>,
    text: Vec<u8>,
}

/// `cosvigle_handle`: what is kept, or null.
#[repr(C)]
pub struct Handle {
    at: *mut Kept,
}

impl Handle {
    /// Returns what is kept, and makes it if there is nothing. Returns `None` if that allocation fails.
    fn kept(&mut self) -> Option<&mut Kept> {
        if self.at.is_null() {
            // SAFETY: the type has bytes.
            let at = unsafe { alloc(Layout::new::<Kept>()) }.cast::<Kept>();
            if at.is_null() {
                return None;
            }
            let kept = Kept { reader: DeclarationReader::new(Global), limit: None, text: Vec::new(Global) };
            // SAFETY: the memory is new, and has the layout of the type.
            unsafe { at.write(kept) };
            self.at = at;
        }
        // SAFETY: only this function and `free` change the pointer, so it is that of a value.
        Some(unsafe { &mut *self.at })
    }

    /// Returns the demangler, if there is one.
    fn demangler(&self) -> Option<&Demangler> {
        // SAFETY: the pointer is null or that of a value.
        unsafe { self.at.as_ref() }.map(|kept| &kept.reader.demangler)
    }

    /// Drops what is kept.
    fn free(&mut self) {
        let at = replace(&mut self.at, null_mut());
        if !at.is_null() {
            // SAFETY: `kept` made it with the layout of the type, by the allocator of boxes.
            drop(unsafe { Box::from_raw(at) });
        }
    }
}

/// The memory of the caller for a text, and where its length is written.
struct Room<'a> {
    out: &'a mut [u8],
    needed: &'a mut usize,
}

impl Room<'_> {
    /// Writes the text if it fits, and its length.
    fn write_if_fits(&mut self, text: &[u8]) -> c_int {
        *self.needed = text.len();
        match self.out.get_mut(..text.len()) {
            None => NO_ROOM,
            Some(front) => {
                front.copy_from_slice(text);
                WRITTEN
            }
        }
    }
}

/// The memory of the caller. The length is 0 until there is a text.
///
/// # Safety
///
/// `out` is valid for `capacity` bytes, and overlaps nothing that is borrowed.
unsafe fn room<'a>(out: *mut u8, capacity: usize, needed: &'a mut usize) -> Room<'a> {
    *needed = 0;
    // SAFETY: as above. With a capacity of 0 the pointer isn't looked at, and may be any.
    let out = if capacity == 0 { &mut [] } else { unsafe { from_raw_parts_mut(out, capacity) } };
    Room { out, needed }
}

/// A text or symbol of the caller.
///
/// # Safety
///
/// `at` is valid for `len` bytes.
unsafe fn bytes<'a>(at: *const u8, len: usize) -> &'a [u8] {
    // SAFETY: as above. With a length of 0 the pointer isn't looked at, and may be any.
    if len == 0 { &[] } else { unsafe { from_raw_parts(at, len) } }
}

/// What a sum of flags asks for, without a limit.
fn printing_of(flags: u32) -> Option<Printing> {
    let mode = match flags % 4 {
        0 => Mode::Declaration,
        1 => Mode::Signature,
        2 => Mode::Name,
        _ => return None,
    };
    let style = match flags / 4 % 4 {
        0 => Style::Gnu,
        1 => Style::GnuShort,
        2 => Style::Llvm,
        _ => return None,
    };
    let types = match flags / 16 {
        0 => false,
        1 => true,
        _ => return None,
    };
    Some(Printing { types, part: Part { mode, style, limit: None } })
}

/// The same printing with this limit.
fn within(printing: Printing, limit: Option<usize>) -> Printing {
    Printing { part: Part { limit, ..printing.part }, ..printing }
}

/// Bytes that grow, and whether there was no memory for some.
struct Gathered {
    text: Vec<u8>,
    failed: bool,
}

impl Sink for Gathered {
    fn failed(&self) -> bool {
        self.failed
    }

    fn put(&mut self, bytes: &[u8]) -> Result<usize, Failed> {
        match self.text.extend_from_slice(bytes) {
            Ok(()) => Ok(bytes.len()),
            Err(AllocError) => {
                self.failed = true;
                Err(Failed)
            }
        }
    }
}

/// Makes a text by the call, which gets what is printed and where it goes, and writes it. If it doesn't fit, the handle
/// keeps it.
fn make(
    handle: &mut Handle,
    printing: u32,
    call: impl FnOnce(Printing, &mut Gathered) -> Result<(), FilterFault>,
    mut room: Room<'_>,
) -> c_int {
    let Some(asked) = printing_of(printing) else {
        return BAD_CALL;
    };
    let Some(kept) = handle.kept() else {
        return NO_MEMORY;
    };
    kept.text = Vec::new(Global);
    let mut made = Gathered { text: Vec::new(Global), failed: false };
    // A fault means that an allocation failed, since source and sink are in memory.
    if call(within(asked, kept.limit), &mut made).is_err() {
        return NO_MEMORY;
    }
    let status = room.write_if_fits(&made.text);
    if status == NO_ROOM {
        kept.text = made.text;
    }
    status
}

#[unsafe(no_mangle)]
pub extern "C" fn cosvigle_version() -> u32 {
    version()
}

#[unsafe(no_mangle)]
pub unsafe extern "C" fn cosvigle_ask(
    handle: &mut Handle,
    printing: u32,
    symbol: *const u8,
    len: usize,
    out: *mut u8,
    capacity: usize,
    needed: &mut usize,
) -> c_int {
    // SAFETY: the caller keeps to the header.
    let (symbol, mut room) = unsafe { (bytes(symbol, len), room(out, capacity, needed)) };
    let Some(asked) = printing_of(printing) else {
        return BAD_CALL;
    };
    let Ok(symbol) = str::from_utf8(symbol) else {
        return NOT_UTF8;
    };
    let Some(kept) = handle.kept() else {
        return NO_MEMORY;
    };
    match kept.reader.prepare(Global, within(asked, kept.limit), symbol) {
        Ok(_) => match kept.reader.demangler.text() {
            Some(text) => room.write_if_fits(text.as_bytes()),
            None => NO_ANSWER,
        },
        Err(DemangleError::Memory) => NO_MEMORY,
        Err(DemangleError::Limit) => OVER_LIMIT,
    }
}

#[unsafe(no_mangle)]
pub extern "C" fn cosvigle_limit(handle: &mut Handle, bytes: usize) -> c_int {
    let Some(kept) = handle.kept() else {
        return NO_MEMORY;
    };
    kept.limit = if bytes == 0 { None } else { Some(bytes / NODE_MEMORY) };
    WRITTEN
}

#[unsafe(no_mangle)]
pub unsafe extern "C" fn cosvigle_part(
    handle: &mut Handle,
    part: u32,
    printing: u32,
    out: *mut u8,
    capacity: usize,
    needed: &mut usize,
) -> c_int {
    // SAFETY: the caller keeps to the header.
    let mut room = unsafe { room(out, capacity, needed) };
    let print = match part {
        0 => Demangler::print_base_name,
        1 => Demangler::print_context,
        2 => Demangler::print_parameters,
        3 => Demangler::print_return_type,
        _ => return BAD_CALL,
    };
    let Some(asked) = printing_of(printing) else {
        return BAD_CALL;
    };
    let Some(demangler) = handle.demangler() else {
        return NO_ANSWER;
    };
    let mut text = Text::new(Global);
    if print(demangler, asked.part.style, &mut text).is_err() {
        return NO_MEMORY;
    }
    if text.len() == 0 { NO_ANSWER } else { room.write_if_fits(text.as_slice()) }
}

#[unsafe(no_mangle)]
pub extern "C" fn cosvigle_kind(handle: &mut Handle) -> c_int {
    match handle.demangler().and_then(Demangler::kind) {
        None => 0,
        Some(Kind::Function) => 1,
        Some(Kind::Data) => 2,
        Some(Kind::Special) => 3,
    }
}

#[unsafe(no_mangle)]
pub extern "C" fn cosvigle_has_qualifiers(handle: &mut Handle) -> bool {
    handle.demangler().is_some_and(Demangler::has_qualifiers)
}

#[unsafe(no_mangle)]
pub unsafe extern "C" fn cosvigle_replace(
    handle: &mut Handle,
    printing: u32,
    strip: bool,
    text: *const u8,
    len: usize,
    out: *mut u8,
    capacity: usize,
    needed: &mut usize,
) -> c_int {
    // SAFETY: the caller keeps to the header.
    let (text, room) = unsafe { (bytes(text, len), room(out, capacity, needed)) };
    let call = |printing, made: &mut Gathered| {
        let options = ReplaceOptions { strip, printing };
        replace_words(Global, &mut DeclarationReader::new(Global), options, &mut Tally::new(text), made)
    };
    make(handle, printing, call, room)
}

#[unsafe(no_mangle)]
pub unsafe extern "C" fn cosvigle_filter(
    handle: &mut Handle,
    printing: u32,
    lines: *const u8,
    len: usize,
    out: *mut u8,
    capacity: usize,
    needed: &mut usize,
) -> c_int {
    // SAFETY: the caller keeps to the header.
    let (lines, room) = unsafe { (bytes(lines, len), room(out, capacity, needed)) };
    let call = |printing, made: &mut Gathered| {
        filter_with(Global, &mut DeclarationReader::new(Global), printing, &mut Tally::new(lines), made)
    };
    make(handle, printing, call, room)
}

#[unsafe(no_mangle)]
pub unsafe extern "C" fn cosvigle_take(
    handle: &mut Handle,
    out: *mut u8,
    capacity: usize,
    needed: &mut usize,
) -> c_int {
    // SAFETY: the caller keeps to the header.
    let mut room = unsafe { room(out, capacity, needed) };
    // SAFETY: the pointer is null or that of a value.
    let Some(kept) = (unsafe { handle.at.as_mut() }) else {
        return NO_ANSWER;
    };
    if kept.text.is_empty() {
        return NO_ANSWER;
    }
    let status = room.write_if_fits(&kept.text);
    if status == WRITTEN {
        kept.text = Vec::new(Global);
    }
    status
}

#[unsafe(no_mangle)]
pub extern "C" fn cosvigle_new(handle: &mut Handle) -> c_int {
    handle.free();
    if handle.kept().is_some() { WRITTEN } else { NO_MEMORY }
}

#[unsafe(no_mangle)]
pub extern "C" fn cosvigle_free(handle: &mut Handle) {
    handle.free();
}
