//! Why a call fails.

use crate::sys;
use core::fmt;

/// Why a call failed. Nothing was written.
#[derive(Clone, Copy, Debug, PartialEq, Eq)]
pub enum Error {
    /// The index of a bit, the start of a search or a range is out of bounds, or a truth-table number is too large:
    /// above 3, 15 or 255 for one, two or three inputs. An index into a dictionary gives [`Error::Index`].
    Range,
    /// An output slice does not have exactly the required size: for bits, the number of bytes that
    /// [`crate::bytes_for`] returns. Or the two outputs of [`crate::runs`] differ in length, or the two slices of
    /// [`crate::widen`] or [`crate::narrow`] do. Or the output of a `rebase` call of
    /// [`crate::Offset`] or [`crate::CheckedOffsets`] is empty.
    Length,
    /// A number is above the greatest offset: `i32::MAX` or `i64::MAX`.
    Overflow,
    /// An allocation failed. No call of this version returns it.
    Memory,
    /// The offsets slice has 0 items; at least 1 is needed.
    NoOffset,
    /// The first offset is negative.
    NegativeOffset,
    /// The first offset is not negative, and some offset is below the one before it.
    FallingOffsets,
    /// The number of nulls is not the declared one.
    Nulls,
    /// An offset is greater than the number of bytes, or of child items, that the offsets point into.
    PastOffset,
    /// The bytes of a slot are not UTF-8.
    NotUtf8,
    /// An index is negative, or not below the number of items that it points into.
    Index,
}

/// Why a check failed, and where.
#[derive(Clone, Copy, Debug, PartialEq, Eq)]
pub struct ErrorAt {
    /// Why.
    pub error: Error,
    /// Where. With [`Error::FallingOffsets`] and [`Error::PastOffset`] it is the position of the offset. With
    /// [`Error::NotUtf8`] and [`Error::Index`] it is the slot. With any other error it is 0.
    pub at: usize,
}

impl fmt::Display for ErrorAt {
    fn fmt(&self, f: &mut fmt::Formatter<'_>) -> fmt::Result {
        write!(f, "{} at {}", self.error, self.at)
    }
}

impl core::error::Error for ErrorAt {}

impl fmt::Display for Error {
    fn fmt(&self, f: &mut fmt::Formatter<'_>) -> fmt::Result {
        f.write_str(match self {
            Error::Range => "an index or a range is not inside, or a truth-table number is too large",
            Error::Length => "a slice does not have the required length",
            Error::Overflow => "a number is above the greatest offset",
            Error::Memory => "out of memory",
            Error::NoOffset => "offsets must have at least one element",
            Error::NegativeOffset => "the first offset is negative",
            Error::FallingOffsets => "an offset is below the one before it",
            Error::Nulls => "the number of nulls is not the declared one",
            Error::PastOffset => "an offset is past its items",
            Error::NotUtf8 => "a text is not UTF-8",
            Error::Index => "an index is outside its dictionary",
        })
    }
}

impl core::error::Error for Error {}

/// Turns a code of the library into a result.
#[inline]
pub(crate) fn to_result(code: u32) -> Result<(), Error> {
    if code == sys::ARROW2_OK { Ok(()) } else { Err(error_of(code)) }
}

/// Returns the error of a code that is not `ARROW2_OK`.
#[cold]
fn error_of(code: u32) -> Error {
    match code {
        sys::ARROW2_LENGTH => Error::Length,
        sys::ARROW2_OVERFLOW => Error::Overflow,
        sys::ARROW2_MEMORY => Error::Memory,
        sys::ARROW2_SPEC_EMPTY => Error::NoOffset,
        sys::ARROW2_SPEC_NEGATIVE => Error::NegativeOffset,
        sys::ARROW2_SPEC_FALLING => Error::FallingOffsets,
        sys::ARROW2_NULLS => Error::Nulls,
        sys::ARROW2_PAST => Error::PastOffset,
        sys::ARROW2_UTF8 => Error::NotUtf8,
        sys::ARROW2_INDEX => Error::Index,
        // `ARROW2_RANGE`: the library has no other codes.
        _ => Error::Range,
    }
}

/// The same for the code of a check, which also writes where it failed: `at`.
#[inline]
pub(crate) fn to_result_at(code: u32, at: usize) -> Result<(), ErrorAt> {
    to_result(code).map_err(|error| ErrorAt { error, at })
}
