//! Offsets of 32 and of 64 bits.

use crate::error::{Error, ErrorAt, to_result, to_result_at};
use crate::sys;

mod sealed {
    pub trait Sealed: Sized {
        /// Writes the length of each slot.
        ///
        /// # Safety
        ///
        /// The numbers must be offsets.
        unsafe fn lengths_unchecked(offsets: &[Self], out: &mut [usize]) -> u32;

        /// Writes `offsets[from + i] - offsets[from]` to `out[i]`, for each index `i` of `out`, without a test of the
        /// offsets.
        ///
        /// # Safety
        ///
        /// The numbers must be offsets.
        unsafe fn rebase_unchecked(offsets: &[Self], from: usize, out: &mut [Self]) -> u32;
    }
}

/// The type of an offset: `i32` or `i64`.
///
/// Offsets are a list of one or more numbers: none is negative, and none is below the one before it. Slot `i` spans
/// from offset `i` to offset `i + 1`. If the numbers are not offsets, each call on them returns one of these errors,
/// before any other. [`Error::NoOffset`]: there is no number. [`Error::NegativeOffset`]: the first is negative.
/// [`Error::FallingOffsets`]: the first is not negative, and some number is below the one before it.
pub trait Offset: sealed::Sealed + Copy {
    /// Checks whether the numbers are offsets.
    ///
    /// # Errors
    ///
    /// The error of the first rule that the numbers break: see [`Offset`].
    fn check(offsets: &[Self]) -> Result<(), Error>;

    /// Writes the length of each slot.
    ///
    /// # Errors
    ///
    /// As [`Offset::check`], else [`Error::Length`] exactly where `out.len() + 1` is not `offsets.len()`.
    fn lengths(offsets: &[Self], out: &mut [usize]) -> Result<(), Error>;

    /// Sets `out[0]` to `start`, and each `out[i + 1]` to `out[i] + lengths[i]`.
    ///
    /// # Errors
    ///
    /// [`Error::Length`] exactly where `out.len()` is not `lengths.len() + 1`, else [`Error::Overflow`] exactly where
    /// the exact sum of `start` and all lengths is above the greatest offset, `i32::MAX` or `i64::MAX`.
    fn from_lengths(start: usize, lengths: &[usize], out: &mut [Self]) -> Result<(), Error>;

    /// Writes `offsets[from + i] - offsets[from]` to `out[i]`, for each index `i` of `out`.
    ///
    /// # Errors
    ///
    /// As [`Offset::check`], else [`Error::Length`] exactly where `out` has no item, else [`Error::Range`] exactly
    /// where `from + out.len()` is above `offsets.len()`.
    fn rebase(offsets: &[Self], from: usize, out: &mut [Self]) -> Result<(), Error>;

    /// Checks whether the numbers are offsets, and none is above `items`.
    ///
    /// # Errors
    ///
    /// As [`Offset::check`], else [`Error::PastOffset`] exactly where the last number is above `items`.
    /// [`Error::FallingOffsets`] comes with the index of the first number that is below the one before it,
    /// [`Error::PastOffset`] with the index of the first number above `items`.
    fn check_inside(offsets: &[Self], items: usize) -> Result<(), ErrorAt>;

    /// Checks whether the numbers are offsets, none is above `values.len()`, and the values of each slot are UTF-8.
    ///
    /// # Errors
    ///
    /// As [`Offset::check_inside`] with `values.len()` as `items`, else [`Error::NotUtf8`] exactly where a slot is not
    /// UTF-8. [`Error::NotUtf8`] comes with the first such slot.
    fn check_texts(offsets: &[Self], values: &[u8]) -> Result<(), ErrorAt>;
}

/// The calls of one width.
macro_rules! offset {
    (
        $width:ty, $check:ident, $lengths:ident, $lengths_unchecked:ident, $from_lengths:ident, $rebase:ident,
        $rebase_unchecked:ident, $inside:ident, $texts:ident
    ) => {
        impl sealed::Sealed for $width {
            #[inline]
            unsafe fn lengths_unchecked(offsets: &[Self], out: &mut [usize]) -> u32 {
                // SAFETY: the slices are borrowed for the call, `out` exclusively, and the call keeps none. The numbers
                // are offsets, as the caller ensures.
                unsafe { sys::$lengths_unchecked(offsets.as_ptr(), offsets.len(), out.as_mut_ptr(), out.len()) }
            }

            #[inline]
            unsafe fn rebase_unchecked(offsets: &[Self], from: usize, out: &mut [Self]) -> u32 {
                // SAFETY: the slices are borrowed for the call, `out` exclusively, and the call keeps none. The numbers
                // are offsets, as the caller ensures.
                unsafe { sys::$rebase_unchecked(offsets.as_ptr(), offsets.len(), from, out.as_mut_ptr(), out.len()) }
            }
        }

        impl Offset for $width {
            #[inline]
            fn check(offsets: &[Self]) -> Result<(), Error> {
                // SAFETY: the slice is borrowed for the call, which does not keep it.
                to_result(unsafe { sys::$check(offsets.as_ptr(), offsets.len()) })
            }

            #[inline]
            fn lengths(offsets: &[Self], out: &mut [usize]) -> Result<(), Error> {
                // SAFETY: the slices are borrowed for the call, `out` exclusively, and the call keeps none.
                to_result(unsafe { sys::$lengths(offsets.as_ptr(), offsets.len(), out.as_mut_ptr(), out.len()) })
            }

            #[inline]
            fn from_lengths(start: usize, lengths: &[usize], out: &mut [Self]) -> Result<(), Error> {
                // SAFETY: the slices are borrowed for the call, `out` exclusively, and the call keeps none.
                to_result(unsafe {
                    sys::$from_lengths(start, lengths.as_ptr(), lengths.len(), out.as_mut_ptr(), out.len())
                })
            }

            #[inline]
            fn rebase(offsets: &[Self], from: usize, out: &mut [Self]) -> Result<(), Error> {
                // SAFETY: the slices are borrowed for the call, `out` exclusively, and the call keeps none.
                to_result(unsafe { sys::$rebase(offsets.as_ptr(), offsets.len(), from, out.as_mut_ptr(), out.len()) })
            }

            #[inline]
            fn check_inside(offsets: &[Self], items: usize) -> Result<(), ErrorAt> {
                let mut index = 0;
                // SAFETY: all is borrowed for the call, `index` exclusively, and the call keeps nothing.
                let code = unsafe { sys::$inside(offsets.as_ptr(), offsets.len(), items, &mut index) };
                to_result_at(code, index)
            }

            #[inline]
            fn check_texts(offsets: &[Self], values: &[u8]) -> Result<(), ErrorAt> {
                let mut index = 0;
                // SAFETY: all is borrowed for the call, `index` exclusively, and the call keeps nothing.
                let code =
                    unsafe { sys::$texts(offsets.as_ptr(), offsets.len(), values.as_ptr(), values.len(), &mut index) };
                to_result_at(code, index)
            }
        }
    };
}

offset!(
    i32,
    arrow2_offsets32_check,
    arrow2_offsets32_lengths,
    arrow2_offsets32_lengths_unchecked,
    arrow2_offsets32_from_lengths,
    arrow2_offsets32_rebase,
    arrow2_offsets32_rebase_unchecked,
    arrow2_offsets32_check_inside,
    arrow2_texts32_check
);
offset!(
    i64,
    arrow2_offsets64_check,
    arrow2_offsets64_lengths,
    arrow2_offsets64_lengths_unchecked,
    arrow2_offsets64_from_lengths,
    arrow2_offsets64_rebase,
    arrow2_offsets64_rebase_unchecked,
    arrow2_offsets64_check_inside,
    arrow2_texts64_check
);

/// Numbers that were found to be offsets. The methods of this type do not test them again.
#[derive(Clone, Copy, Debug, PartialEq, Eq)]
pub struct CheckedOffsets<'a, O>(&'a [O]);

impl<'a, O: Offset> CheckedOffsets<'a, O> {
    /// Checks the numbers, and returns them as offsets.
    ///
    /// # Errors
    ///
    /// The error of the first rule that the numbers break: see [`Offset`].
    #[inline]
    pub fn new(offsets: &'a [O]) -> Result<Self, Error> {
        O::check(offsets)?;
        Ok(CheckedOffsets(offsets))
    }

    /// Returns the numbers.
    #[inline]
    pub fn as_slice(self) -> &'a [O] {
        self.0
    }

    /// Writes the length of each slot.
    ///
    /// # Errors
    ///
    /// [`Error::Length`] exactly where `out.len() + 1` is not the number of offsets.
    #[inline]
    pub fn lengths(self, out: &mut [usize]) -> Result<(), Error> {
        // SAFETY: `new` found that the numbers are offsets.
        to_result(unsafe { O::lengths_unchecked(self.0, out) })
    }

    /// Writes offset `from + i` minus offset `from` to `out[i]`, for each index `i` of `out`.
    ///
    /// # Errors
    ///
    /// [`Error::Length`] exactly where `out` has no item, else [`Error::Range`] exactly where `from + out.len()` is
    /// above the number of offsets.
    #[inline]
    pub fn rebase(self, from: usize, out: &mut [O]) -> Result<(), Error> {
        // SAFETY: `new` found that the numbers are offsets.
        to_result(unsafe { O::rebase_unchecked(self.0, from, out) })
    }
}

/// Writes the same offsets, in 64 bits each.
///
/// # Errors
///
/// As [`Offset::check`], else [`Error::Length`] exactly where `out.len()` is not `offsets.len()`.
#[inline]
pub fn widen(offsets: &[i32], out: &mut [i64]) -> Result<(), Error> {
    // SAFETY: the slices are borrowed for the call, `out` exclusively, and the call keeps none.
    to_result(unsafe { sys::arrow2_offsets_widen(offsets.as_ptr(), offsets.len(), out.as_mut_ptr(), out.len()) })
}

/// Writes the same offsets, in 32 bits each.
///
/// # Errors
///
/// As [`widen`], else [`Error::Overflow`] exactly where the last offset is above `i32::MAX`.
#[inline]
pub fn narrow(offsets: &[i64], out: &mut [i32]) -> Result<(), Error> {
    // SAFETY: the slices are borrowed for the call, `out` exclusively, and the call keeps none.
    to_result(unsafe { sys::arrow2_offsets_narrow(offsets.as_ptr(), offsets.len(), out.as_mut_ptr(), out.len()) })
}
