//! The end of the process.

/// A handle by which a function may end the process: a test that asserts has one.
pub trait Abort {}
