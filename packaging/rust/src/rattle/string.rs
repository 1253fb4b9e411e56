//! `String` with allocations that may fail.

use super::alloc::{AllocError, Global};
use std::ops::Deref;

/// A text of its own.
#[derive(Debug, PartialEq, Eq)]
pub struct String(std::string::String);

impl String {
    pub fn from_str(_: Global, text: &str) -> Result<Self, AllocError> {
        let mut made = std::string::String::new();
        made.try_reserve_exact(text.len())?;
        made.push_str(text);
        Ok(String(made))
    }

    /// Returns the text as Rust's type.
    pub fn into_std(self) -> std::string::String {
        self.0
    }
}

impl Deref for String {
    type Target = str;

    fn deref(&self) -> &str {
        &self.0
    }
}
