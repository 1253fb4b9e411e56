//! Texts of UTF-8.

pub use std::str::from_utf8;

/// Returns the text of these bytes, which are UTF-8. In Rattle that is proved of each call. Here it is tested.
#[inline(always)]
pub fn from_utf8_unchecked(bytes: &[u8]) -> &str {
    match from_utf8(bytes) {
        Ok(text) => text,
        Err(_) => panic!("the bytes aren't UTF-8"),
    }
}
