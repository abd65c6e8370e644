//! The runtime, an argument of `main` and of the tests.

use crate::alloc::Global;
use crate::process::Abort;

/// The runtime: the allocator and the standard streams.
#[derive(Clone, Copy, Debug, Default)]
pub struct HostRuntime;

impl Abort for HostRuntime {}

impl HostRuntime {
    /// Returns the allocator.
    pub fn alloc(&self) -> Global {
        Global
    }

    /// Returns standard input, without a buffer.
    #[cfg(feature = "std")]
    pub fn stdin(&self) -> crate::Input {
        crate::Input::standard()
    }

    /// Returns standard output, without a buffer.
    #[cfg(feature = "std")]
    pub fn stdout(&self) -> crate::Output {
        crate::Output::standard()
    }

    /// Returns standard error.
    #[cfg(feature = "std")]
    pub fn stderr(&self) -> std::io::Stderr {
        std::io::stderr()
    }
}
