//! `Box` with an allocation that may fail.

use super::alloc::{AllocError, Global};
use std::ops::{Deref, DerefMut};

/// A box. It is one of an array with one item, since a vector alone can be allocated with an error in stable Rust.
#[derive(Debug)]
pub struct Box<T>(std::boxed::Box<[T; 1]>);

impl<T> Box<T> {
    pub fn new(_: Global, value: T) -> Result<Self, AllocError> {
        let mut one = Vec::new();
        one.try_reserve_exact(1)?;
        one.push(value);
        one.into_boxed_slice().try_into().map(Box).map_err(|_| AllocError)
    }
}

impl<T> Deref for Box<T> {
    type Target = T;

    #[inline(always)]
    fn deref(&self) -> &T {
        &self.0[0]
    }
}

impl<T> DerefMut for Box<T> {
    #[inline(always)]
    fn deref_mut(&mut self) -> &mut T {
        &mut self.0[0]
    }
}
