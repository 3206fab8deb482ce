//! Booleans, one byte each, as bits and back.

use crate::Bits;
use crate::error::{Error, to_result};
use crate::sys;

/// Writes the booleans as bits to `out`, from bit 0 on. Padding bits become 0.
///
/// # Errors
///
/// [`Error::Length`] exactly where `out` does not have [`crate::bytes_for`]`(items.len())` bytes.
#[inline]
pub fn pack(items: &[bool], out: &mut [u8]) -> Result<(), Error> {
    // SAFETY: the slices are borrowed for the call, `out` alone, and it keeps none.
    to_result(unsafe { sys::arrow2_pack(items.as_ptr(), items.len(), out.as_mut_ptr(), out.len()) })
}

/// Writes the first `out.len()` of the bits to `out`, as booleans.
///
/// # Errors
///
/// [`Error::Range`] exactly where these bits are not inside their bytes.
#[inline]
pub fn unpack(bits: Bits<'_>, out: &mut [bool]) -> Result<(), Error> {
    let Bits { bytes, offset } = bits;
    // SAFETY: the slices are borrowed for the call, `out` alone, and it keeps none.
    to_result(unsafe { sys::arrow2_unpack(bytes.as_ptr(), bytes.len(), offset, out.as_mut_ptr(), out.len()) })
}
