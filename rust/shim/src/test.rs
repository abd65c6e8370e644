//! The error of a test.

/// Any error, so that a test may use `?`.
pub type Fail = std::boxed::Box<dyn core::error::Error>;
