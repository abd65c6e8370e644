//! Lists whose allocation may fail, and copies that may fail.

use crate::alloc::{AllocError, Global};
use core::fmt;
use core::ops::{Deref, DerefMut};

/// A copy that may fail. Rust's own `Clone` ends the program if an allocation fails.
pub trait TryClone: Sized {
    /// Returns a copy.
    fn try_clone(&self) -> Result<Self, AllocError>;
}

impl<T: Clone> TryClone for T {
    fn try_clone(&self) -> Result<T, AllocError> {
        Ok(self.clone())
    }
}

/// A list on the heap. A call that makes it longer reserves first, and returns an error if that fails.
#[derive(Clone, PartialEq, Eq)]
pub struct Vec<T>(heap::vec::Vec<T>);

impl<T> Vec<T> {
    /// Returns an empty list.
    pub fn new(_alloc: Global) -> Vec<T> {
        Vec(heap::vec::Vec::new())
    }

    /// Returns a list of copies of these elements.
    pub fn from_slice(alloc: Global, items: &[T]) -> Result<Vec<T>, AllocError>
    where
        T: Clone,
    {
        let mut list = Vec::new(alloc);
        list.extend_from_slice(items)?;
        Ok(list)
    }

    /// Returns a list of `count` copies of one element.
    pub fn filled(alloc: Global, item: T, count: usize) -> Result<Vec<T>, AllocError>
    where
        T: Clone,
    {
        let mut list = Vec::new(alloc);
        list.reserve(count)?;
        list.0.resize(count, item);
        Ok(list)
    }

    /// Makes sure that this many more elements can be appended without an allocation.
    pub fn reserve(&mut self, more: usize) -> Result<(), AllocError> {
        self.0.try_reserve(more).map_err(|_| AllocError)
    }

    /// Appends an element.
    pub fn push(&mut self, item: T) -> Result<(), AllocError> {
        self.reserve(1)?;
        self.0.push(item);
        Ok(())
    }

    /// Appends copies of these elements.
    pub fn extend_from_slice(&mut self, items: &[T]) -> Result<(), AllocError>
    where
        T: Clone,
    {
        self.reserve(items.len())?;
        self.0.extend_from_slice(items);
        Ok(())
    }

    /// Returns the elements.
    pub fn as_slice(&self) -> &[T] {
        &self.0
    }

    /// Removes all elements.
    pub fn clear(&mut self) {
        self.0.clear();
    }

    /// Removes the last element.
    pub fn pop(&mut self) -> Option<T> {
        self.0.pop()
    }
}

impl<T> Deref for Vec<T> {
    type Target = [T];

    fn deref(&self) -> &[T] {
        &self.0
    }
}

impl<T> DerefMut for Vec<T> {
    fn deref_mut(&mut self) -> &mut [T] {
        &mut self.0
    }
}

impl<T: fmt::Debug> fmt::Debug for Vec<T> {
    fn fmt(&self, f: &mut fmt::Formatter<'_>) -> fmt::Result {
        self.0.fmt(f)
    }
}

#[cfg(feature = "std")]
impl std::io::Write for Vec<u8> {
    fn write(&mut self, buf: &[u8]) -> std::io::Result<usize> {
        self.extend_from_slice(buf)?;
        Ok(buf.len())
    }

    fn flush(&mut self) -> std::io::Result<()> {
        Ok(())
    }
}

/// `vec!` whose allocation may fail: `try_vec![alloc; item; count]`.
#[macro_export]
macro_rules! try_vec {
    ($alloc:expr; $item:expr; $count:expr) => { $crate::Vec::filled($alloc, $item, $count) };
}
