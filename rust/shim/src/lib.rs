//! The names that Rattle's standard library has and Rust's does not, and no others. These are allocators that are passed on, texts
//! and lists whose allocation may fail, and the runtime that is the argument of `main`.
//!
//! A name of Rust's standard library never means something else here. There is no unsafe code.
#![cfg_attr(not(feature = "std"), no_std)]
#![forbid(unsafe_code)]

extern crate alloc as heap;

pub mod alloc;
pub mod convert;
mod lists;
mod numbers;
pub mod process;
mod runtime;
mod texts;

#[cfg(feature = "std")]
pub mod env;
#[cfg(feature = "std")]
mod streams;
#[cfg(feature = "std")]
pub mod test;

pub use lists::{TryClone, Vec};
pub use numbers::AsSigned;
pub use runtime::HostRuntime;
pub use texts::{TryToString, shown};

#[cfg(feature = "std")]
pub use streams::{Input, Output};
