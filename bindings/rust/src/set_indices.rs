//! The indices of set bits.

use crate::Bits;
use crate::error::{Error, to_result};
use crate::sys;

/// Finds the set bits among the `length` bits that begin at bit `bits.offset`. That bit is bit 0 for `at` and
/// `indices`. The search begins at bit `at`: set it to 0 before the first call. Writes the indices of the set bits,
/// rising, until `indices` is full or no set bit is left. Returns how many indices it wrote, and moves `at` to where
/// the next call goes on. If it wrote fewer than `indices.len()` indices, all set bits are done, and `at` is `length`.
/// To get all set bits, call again until it writes fewer. With an empty `indices` it never does.
///
/// # Errors
///
/// [`Error::Range`] exactly where the bits are not inside their bytes or `at` is above `length`.
#[inline]
pub fn set_indices(bits: Bits<'_>, length: usize, at: &mut usize, indices: &mut [usize]) -> Result<usize, Error> {
    let mut count = 0;
    // SAFETY: all is borrowed for the call, slices that are written exclusively, and it keeps nothing.
    to_result(unsafe {
        sys::arrow2_set_indices(
            bits.bytes.as_ptr(),
            bits.bytes.len(),
            bits.offset,
            length,
            at,
            indices.as_mut_ptr(),
            indices.len(),
            &mut count,
        )
    })?;
    Ok(count)
}
