//! The runs of set bits.

use crate::Bits;
use crate::error::{Error, to_result};
use crate::sys;

/// Finds the runs of set bits among the `length` bits that begin at bit `bits.offset`. That bit is bit 0 for `at` and
/// `starts`. The search begins at bit `at`: set it to 0 before the first call. Run `k` is `lengths[k]` bits from bit
/// `starts[k]` on. The call stops when the slices are full or no run is left. Returns how many runs it wrote, and moves
/// `at` to where the next call goes on. If it wrote fewer than `starts.len()` runs, all runs are done, and `at` is
/// `length`. To get all runs, call again until it writes fewer. With empty slices it never does.
///
/// # Errors
///
/// [`Error::Range`] exactly where the bits are not inside their bytes or `at` is above `length`, else [`Error::Length`]
/// exactly where `starts` and `lengths` differ in length.
#[inline]
pub fn runs(
    bits: Bits<'_>,
    length: usize,
    at: &mut usize,
    starts: &mut [usize],
    lengths: &mut [usize],
) -> Result<usize, Error> {
    let mut count = 0;
    // SAFETY: all is borrowed for the call, slices that are written exclusively, and it keeps nothing.
    to_result(unsafe {
        sys::arrow2_runs(
            bits.bytes.as_ptr(),
            bits.bytes.len(),
            bits.offset,
            length,
            at,
            starts.as_mut_ptr(),
            starts.len(),
            lengths.as_mut_ptr(),
            lengths.len(),
            &mut count,
        )
    })?;
    Ok(count)
}
