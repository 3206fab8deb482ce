//! Bits of bytes.

use crate::Bits;
use crate::error::{Error, to_result};
use crate::sys;

/// Returns how many of the `length` bits from bit `offset` on are not set.
///
/// # Errors
///
/// [`Error::Range`] exactly where they are not inside the bytes.
#[inline]
pub fn count_zeros(bytes: &[u8], offset: usize, length: usize) -> Result<usize, Error> {
    let mut zeros = 0;
    // SAFETY: the slice and the number are borrowed for the call, and it keeps neither.
    to_result(unsafe { sys::arrow2_count_zeros(bytes.as_ptr(), bytes.len(), offset, length, &mut zeros) })?;
    Ok(zeros)
}

/// Returns whether the `length` bits of `left` and of `right` are the same.
///
/// # Errors
///
/// [`Error::Range`] exactly where the bits of `left` or of `right` are not inside their bytes.
#[inline]
pub fn equal_bits(left: Bits<'_>, right: Bits<'_>, length: usize) -> Result<bool, Error> {
    let mut equal = false;
    // SAFETY: the slices and the boolean are borrowed for the call, and it keeps none.
    to_result(unsafe {
        sys::arrow2_equal_bits(
            left.bytes.as_ptr(),
            left.bytes.len(),
            left.offset,
            right.bytes.as_ptr(),
            right.bytes.len(),
            right.offset,
            length,
            &mut equal,
        )
    })?;
    Ok(equal)
}

/// Returns whether bit `index` is set.
///
/// # Errors
///
/// [`Error::Range`] exactly where it is not inside the bytes.
#[inline]
pub fn get_bit(bytes: &[u8], index: usize) -> Result<bool, Error> {
    let mut value = false;
    // SAFETY: the slice and the boolean are borrowed for the call, and it keeps neither.
    to_result(unsafe { sys::arrow2_get_bit(bytes.as_ptr(), bytes.len(), index, &mut value) })?;
    Ok(value)
}

/// Returns whether bit `index` is set, as [`get_bit`] does, by code that the compiler can inline.
///
/// It is not proved: tests compare it with [`get_bit`].
///
/// # Errors
///
/// [`Error::Range`] exactly where it is not inside the bytes.
#[inline]
pub fn get_bit_inline(bytes: &[u8], index: usize) -> Result<bool, Error> {
    let byte = bytes.get(index / 8).ok_or(Error::Range)?;
    Ok(byte >> (index % 8) & 1 != 0)
}

/// Writes `value` to bit `index`, and leaves every other bit as it was.
///
/// # Errors
///
/// [`Error::Range`] exactly where it is not inside the bytes.
#[inline]
pub fn set_bit(bytes: &mut [u8], index: usize, value: bool) -> Result<(), Error> {
    // SAFETY: the slice is borrowed for the call, and it does not keep it.
    to_result(unsafe { sys::arrow2_set_bit(bytes.as_mut_ptr(), bytes.len(), index, value) })
}

/// Copies the `length` bits that begin at bit `offset` into `out`, from bit 0 of `out` on. Padding bits of `out` become
/// 0.
///
/// # Errors
///
/// [`Error::Range`] exactly where they are not inside the bytes, else [`Error::Length`] exactly where `out` does not
/// have [`crate::bytes_for`]`(length)` bytes.
#[inline]
pub fn copy_bits(bytes: &[u8], offset: usize, length: usize, out: &mut [u8]) -> Result<(), Error> {
    // SAFETY: the slices are borrowed for the call, one of them alone, and it keeps neither.
    to_result(unsafe {
        sys::arrow2_copy_bits(bytes.as_ptr(), bytes.len(), offset, length, out.as_mut_ptr(), out.len())
    })
}
