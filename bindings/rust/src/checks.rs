//! Checks of the parts of an array that somebody else made.

use crate::Bits;
use crate::error::{Error, ErrorAt, to_result, to_result_at};
use crate::sys;

/// Checks that the `length` bits are inside the bytes, and that exactly `null_count` of them are 0. If `null_count` is
/// -1, it is not checked.
///
/// # Errors
///
/// [`Error::Range`] exactly where they are not inside the bytes, else [`Error::Nulls`] exactly where `null_count`
/// is neither -1 nor the number of zeros.
#[inline]
pub fn check_validity(validity: Bits<'_>, length: usize, null_count: i64) -> Result<(), Error> {
    let Bits { bytes, offset } = validity;
    // SAFETY: the slice is borrowed for the call, and it does not keep it.
    to_result(unsafe { sys::arrow2_validity_check(bytes.as_ptr(), bytes.len(), offset, length, null_count) })
}

/// Checks whether `bytes` bytes have `length` bits from bit `offset` on.
///
/// # Errors
///
/// [`Error::Range`] exactly where they do not.
#[inline]
pub fn check_bits(bytes: usize, offset: usize, length: usize) -> Result<(), Error> {
    // SAFETY: the call takes numbers alone.
    to_result(unsafe { sys::arrow2_bits_check(bytes, offset, length) })
}

/// Checks whether `bytes` bytes have `length` values of `width` bytes from value `offset` on.
///
/// # Errors
///
/// [`Error::Range`] exactly where they do not.
#[inline]
pub fn check_values(bytes: usize, width: usize, offset: usize, length: usize) -> Result<(), Error> {
    // SAFETY: the call takes numbers alone.
    to_result(unsafe { sys::arrow2_values_check(bytes, width, offset, length) })
}

mod sealed {
    pub trait Sealed {}
}

/// An integer that is an index into a dictionary.
pub trait Index: sealed::Sealed + Copy {
    /// Checks whether each index that is not null is at least 0 and below `items`. Without a validity no index is null.
    ///
    /// # Errors
    ///
    /// [`Error::Range`] exactly where the validity does not have a bit for each index, else [`Error::Index`] exactly
    /// where an index that is not null is negative or not below `items`. [`Error::Index`] comes with the position of
    /// the first such index.
    fn check_indices(indices: &[Self], validity: Option<Bits<'_>>, items: usize) -> Result<(), ErrorAt>;
}

/// The check of one width.
macro_rules! index {
    ($width:ty, $check:ident) => {
        impl sealed::Sealed for $width {}

        impl Index for $width {
            #[inline]
            fn check_indices(indices: &[Self], validity: Option<Bits<'_>>, items: usize) -> Result<(), ErrorAt> {
                let all_valid = validity.is_none();
                let Bits { bytes, offset } = validity.unwrap_or(Bits { bytes: &[], offset: 0 });
                let mut slot = 0;
                // SAFETY: the slices and the number are borrowed for the call, and it keeps none.
                let code = unsafe {
                    sys::$check(
                        indices.as_ptr(),
                        indices.len(),
                        bytes.as_ptr(),
                        bytes.len(),
                        offset,
                        all_valid,
                        items,
                        &mut slot,
                    )
                };
                to_result_at(code, slot)
            }
        }
    };
}

index!(i8, arrow2_indices_i8_check);
index!(u8, arrow2_indices_u8_check);
index!(i16, arrow2_indices_i16_check);
index!(u16, arrow2_indices_u16_check);
index!(i32, arrow2_indices_i32_check);
index!(u32, arrow2_indices_u32_check);
index!(i64, arrow2_indices_i64_check);
index!(u64, arrow2_indices_u64_check);
