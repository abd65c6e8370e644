//! Calls of numbers that the oldest compiler lacks.

/// The call `cast_signed`, which Rust has since 1.87.
pub trait AsSigned {
    /// The type of the same size with a sign.
    type Signed;

    /// Returns the number with the same bits.
    fn as_signed(self) -> Self::Signed;
}

impl AsSigned for u8 {
    type Signed = i8;

    fn as_signed(self) -> i8 {
        i8::from_ne_bytes([self])
    }
}
