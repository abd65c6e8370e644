//! Texts whose allocation may fail.

use crate::alloc::Global;
use core::fmt;
use heap::string::String;

/// The text of `{}` for a value.
pub trait TryToString {
    /// Returns the text, or an error if the value cannot be shown or an allocation fails.
    fn try_to_string(&self, alloc: Global) -> Result<String, fmt::Error>;
}

impl<T: fmt::Display> TryToString for T {
    fn try_to_string(&self, alloc: Global) -> Result<String, fmt::Error> {
        shown(alloc, format_args!("{self}"))
    }
}

// A text that reserves before it grows.
struct Text(String);

impl fmt::Write for Text {
    fn write_str(&mut self, more: &str) -> fmt::Result {
        self.0.try_reserve(more.len()).map_err(|_| fmt::Error)?;
        self.0.push_str(more);
        Ok(())
    }
}

/// Returns the text of these arguments, or an error if one cannot be shown or an allocation fails.
pub fn shown(_alloc: Global, arguments: fmt::Arguments<'_>) -> Result<String, fmt::Error> {
    let mut text = Text(String::new());
    fmt::write(&mut text, arguments)?;
    Ok(text.0)
}

/// `format!` whose allocation may fail: `try_format!(alloc; "{x}")`.
#[macro_export]
macro_rules! try_format {
    ($alloc:expr; $($argument:tt)*) => { $crate::shown($alloc, ::core::format_args!($($argument)*)) };
}
