//! Values that lend a slice.

/// A value that lends a slice of its elements.
pub trait AsSlice<T> {
    /// Returns the elements.
    fn as_slice(&self) -> &[T];
}
