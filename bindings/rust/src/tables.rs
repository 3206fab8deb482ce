//! Truth tables over bits.
//!
//! Bit `a1 + 2 * a2 + 4 * a3 + 8 * a4` of a table is its output for inputs `a1` to `a4`.

use crate::Bits;
use crate::error::{Error, to_result};
use crate::sys;

/// The table of one input whose output is the negated input.
pub const NOT: u16 = 0b01;

/// The table of two inputs whose output is whether both are set.
pub const AND: u16 = 0b1000;

/// The table of two inputs whose output is whether one is set, or both.
pub const OR: u16 = 0b1110;

/// The table of two inputs whose output is whether one is set, and not both.
pub const XOR: u16 = 0b0110;

/// Applies `table` to each of `length` bits of `input`, and writes the outputs into `out`, from bit 0 of `out` on.
/// Padding bits of `out` become 0.
///
/// # Errors
///
/// [`Error::Range`] exactly where `table` is above 3 or the bits are not inside their bytes, else [`Error::Length`]
/// exactly where `out` does not have [`crate::bytes_for`]`(length)` bytes.
#[inline]
pub fn unary_table(input: Bits<'_>, length: usize, table: u16, out: &mut [u8]) -> Result<(), Error> {
    let Bits { bytes, offset } = input;
    // SAFETY: the slices are borrowed for the call, `out` alone, and it keeps none.
    to_result(unsafe {
        sys::arrow2_unary_table(bytes.as_ptr(), bytes.len(), offset, length, table, out.as_mut_ptr(), out.len())
    })
}

/// The same for two inputs.
///
/// # Errors
///
/// [`Error::Range`] exactly where `table` is above 15 or the bits of an input are not inside their bytes, else
/// [`Error::Length`] as in [`unary_table`].
#[inline]
pub fn binary_table(first: Bits<'_>, second: Bits<'_>, length: usize, table: u16, out: &mut [u8]) -> Result<(), Error> {
    // SAFETY: the slices are borrowed for the call, `out` alone, and it keeps none.
    to_result(unsafe {
        sys::arrow2_binary_table(
            first.bytes.as_ptr(),
            first.bytes.len(),
            first.offset,
            second.bytes.as_ptr(),
            second.bytes.len(),
            second.offset,
            length,
            table,
            out.as_mut_ptr(),
            out.len(),
        )
    })
}

/// The same for three inputs.
///
/// # Errors
///
/// [`Error::Range`] exactly where `table` is above 255 or the bits of an input are not inside their bytes, else
/// [`Error::Length`] as in [`unary_table`].
#[inline]
pub fn ternary_table(
    first: Bits<'_>,
    second: Bits<'_>,
    third: Bits<'_>,
    length: usize,
    table: u16,
    out: &mut [u8],
) -> Result<(), Error> {
    // SAFETY: the slices are borrowed for the call, `out` alone, and it keeps none.
    to_result(unsafe {
        sys::arrow2_ternary_table(
            first.bytes.as_ptr(),
            first.bytes.len(),
            first.offset,
            second.bytes.as_ptr(),
            second.bytes.len(),
            second.offset,
            third.bytes.as_ptr(),
            third.bytes.len(),
            third.offset,
            length,
            table,
            out.as_mut_ptr(),
            out.len(),
        )
    })
}

/// The same for four inputs.
///
/// # Errors
///
/// [`Error::Range`] exactly where the bits of an input are not inside their bytes, since every `table` is valid, else
/// [`Error::Length`] as in [`unary_table`].
#[inline]
pub fn quaternary_table(
    first: Bits<'_>,
    second: Bits<'_>,
    third: Bits<'_>,
    fourth: Bits<'_>,
    length: usize,
    table: u16,
    out: &mut [u8],
) -> Result<(), Error> {
    // SAFETY: the slices are borrowed for the call, `out` alone, and it keeps none.
    to_result(unsafe {
        sys::arrow2_quaternary_table(
            first.bytes.as_ptr(),
            first.bytes.len(),
            first.offset,
            second.bytes.as_ptr(),
            second.bytes.len(),
            second.offset,
            third.bytes.as_ptr(),
            third.bytes.len(),
            third.offset,
            fourth.bytes.as_ptr(),
            fourth.bytes.len(),
            fourth.offset,
            length,
            table,
            out.as_mut_ptr(),
            out.len(),
        )
    })
}

/// Replaces the first `length` bits of `bytes` with the outputs of `table` for these bits. Padding bits become 0.
///
/// # Errors
///
/// [`Error::Range`] exactly where `table` is above 3, else [`Error::Length`] exactly where `bytes` does not have
/// [`crate::bytes_for`]`(length)` bytes.
#[inline]
pub fn unary_assign_table(bytes: &mut [u8], length: usize, table: u16) -> Result<(), Error> {
    // SAFETY: the slice is borrowed for the call, alone, and it does not keep it.
    to_result(unsafe { sys::arrow2_unary_assign_table(bytes.as_mut_ptr(), bytes.len(), length, table) })
}

/// The same for two inputs: the first `length` bits of `bytes`, and `length` bits of `second`.
///
/// # Errors
///
/// [`Error::Range`] exactly where `table` is above 15 or the bits of `second` are not inside their bytes, else
/// [`Error::Length`] as in [`unary_assign_table`].
#[inline]
pub fn binary_assign_table(bytes: &mut [u8], second: Bits<'_>, length: usize, table: u16) -> Result<(), Error> {
    // SAFETY: the slices are borrowed for the call, `bytes` alone, and it keeps none.
    to_result(unsafe {
        sys::arrow2_binary_assign_table(
            bytes.as_mut_ptr(),
            bytes.len(),
            second.bytes.as_ptr(),
            second.bytes.len(),
            second.offset,
            length,
            table,
        )
    })
}

/// The same for three inputs.
///
/// # Errors
///
/// [`Error::Range`] exactly where `table` is above 255 or the bits of `second` or `third` are not inside their bytes,
/// else [`Error::Length`] as in [`unary_assign_table`].
#[inline]
pub fn ternary_assign_table(
    bytes: &mut [u8],
    second: Bits<'_>,
    third: Bits<'_>,
    length: usize,
    table: u16,
) -> Result<(), Error> {
    // SAFETY: the slices are borrowed for the call, `bytes` alone, and it keeps none.
    to_result(unsafe {
        sys::arrow2_ternary_assign_table(
            bytes.as_mut_ptr(),
            bytes.len(),
            second.bytes.as_ptr(),
            second.bytes.len(),
            second.offset,
            third.bytes.as_ptr(),
            third.bytes.len(),
            third.offset,
            length,
            table,
        )
    })
}

/// The same for four inputs.
///
/// # Errors
///
/// [`Error::Range`] exactly where the bits of `second`, `third` or `fourth` are not inside their bytes, since every
/// `table` is valid, else [`Error::Length`] as in [`unary_assign_table`].
#[inline]
pub fn quaternary_assign_table(
    bytes: &mut [u8],
    second: Bits<'_>,
    third: Bits<'_>,
    fourth: Bits<'_>,
    length: usize,
    table: u16,
) -> Result<(), Error> {
    // SAFETY: the slices are borrowed for the call, `bytes` alone, and it keeps none.
    to_result(unsafe {
        sys::arrow2_quaternary_assign_table(
            bytes.as_mut_ptr(),
            bytes.len(),
            second.bytes.as_ptr(),
            second.bytes.len(),
            second.offset,
            third.bytes.as_ptr(),
            third.bytes.len(),
            third.offset,
            fourth.bytes.as_ptr(),
            fourth.bytes.len(),
            fourth.offset,
            length,
            table,
        )
    })
}
