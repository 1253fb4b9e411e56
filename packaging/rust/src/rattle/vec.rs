//! `Vec` with allocations that may fail.

use super::alloc::{AllocError, Global};
use std::ops::{Deref, DerefMut};

/// A vector.
#[derive(Debug)]
pub struct Vec<T>(std::vec::Vec<T>);

impl<T> Vec<T> {
    #[inline(always)]
    pub fn new(_: Global) -> Self {
        Vec(std::vec::Vec::new())
    }

    /// Returns the vector as Rust's type.
    #[inline(always)]
    pub fn into_std(self) -> std::vec::Vec<T> {
        self.0
    }

    #[inline(always)]
    pub fn as_slice(&self) -> &[T] {
        &self.0
    }

    #[inline(always)]
    pub fn push(&mut self, value: T) -> Result<(), AllocError> {
        if self.0.len() == self.0.capacity() {
            self.0.try_reserve(1)?;
        }
        self.0.push(value);
        Ok(())
    }

    #[inline(always)]
    pub fn pop(&mut self) -> Option<T> {
        self.0.pop()
    }

    #[inline(always)]
    pub fn truncate(&mut self, n: usize) {
        self.0.truncate(n);
    }

    #[inline(always)]
    pub fn clear(&mut self) {
        self.0.clear();
    }

    #[inline(always)]
    pub fn reserve(&mut self, more: usize) -> Result<(), AllocError> {
        self.0.try_reserve(more)?;
        Ok(())
    }

    pub fn append(&mut self, other: &mut Vec<T>) -> Result<(), AllocError> {
        self.0.try_reserve(other.0.len())?;
        self.0.append(&mut other.0);
        Ok(())
    }
}

impl<T: Clone> Vec<T> {
    /// Returns a vector of n copies of a value.
    pub fn filled(_: Global, value: T, n: usize) -> Result<Self, AllocError> {
        let mut made = Vec(std::vec::Vec::new());
        made.resize(n, value)?;
        Ok(made)
    }

    /// Returns a vector of the items of a slice.
    pub fn from_slice(_: Global, items: &[T]) -> Result<Self, AllocError> {
        let mut made = Vec(std::vec::Vec::new());
        made.extend_from_slice(items)?;
        Ok(made)
    }

    pub fn resize(&mut self, n: usize, value: T) -> Result<(), AllocError> {
        self.0.try_reserve(n.saturating_sub(self.0.len()))?;
        self.0.resize(n, value);
        Ok(())
    }

    #[inline(always)]
    pub fn extend_from_slice(&mut self, more: &[T]) -> Result<(), AllocError> {
        self.0.try_reserve(more.len())?;
        self.0.extend_from_slice(more);
        Ok(())
    }
}

impl<T> Deref for Vec<T> {
    type Target = [T];

    #[inline(always)]
    fn deref(&self) -> &[T] {
        &self.0
    }
}

impl<T> DerefMut for Vec<T> {
    #[inline(always)]
    fn deref_mut(&mut self) -> &mut [T] {
        &mut self.0
    }
}

impl<'a, T> IntoIterator for &'a Vec<T> {
    type Item = &'a T;
    type IntoIter = std::slice::Iter<'a, T>;

    fn into_iter(self) -> Self::IntoIter {
        self.0.iter()
    }
}
