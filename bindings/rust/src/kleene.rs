//! Kleene's logic on values with their validity.

use crate::Bits;
use crate::error::{Error, to_result};
use crate::sys;

/// Values with their validity: an item is null where its validity bit is not set.
#[derive(Clone, Copy, Debug)]
pub struct Nullable<'a> {
    /// The values.
    pub values: Bits<'a>,
    /// Which of them are not null.
    pub validity: Bits<'a>,
}

/// The calls of both operators.
macro_rules! operator {
    ($(#[$doc:meta])* $name:ident, $export:ident) => {
        $(#[$doc])*
        ///
        /// # Errors
        ///
        /// [`Error::Range`] exactly where the bits of the values or of the validity of either side are not inside their
        /// bytes, else [`Error::Length`] exactly where the output `values` or `validity` does not have
        /// [`crate::bytes_for`]`(length)` bytes.
        #[inline]
        pub fn $name(
            lhs: Nullable<'_>,
            rhs: Nullable<'_>,
            length: usize,
            values: &mut [u8],
            validity: &mut [u8],
        ) -> Result<(), Error> {
            // SAFETY: the slices are borrowed for the call, the last two alone, and it keeps none.
            to_result(unsafe {
                sys::$export(
                    lhs.values.bytes.as_ptr(),
                    lhs.values.bytes.len(),
                    lhs.values.offset,
                    lhs.validity.bytes.as_ptr(),
                    lhs.validity.bytes.len(),
                    lhs.validity.offset,
                    rhs.values.bytes.as_ptr(),
                    rhs.values.bytes.len(),
                    rhs.values.offset,
                    rhs.validity.bytes.as_ptr(),
                    rhs.validity.bytes.len(),
                    rhs.validity.offset,
                    length,
                    values.as_mut_ptr(),
                    values.len(),
                    validity.as_mut_ptr(),
                    validity.len(),
                )
            })
        }
    };
}

operator!(
    /// Writes AND, item by item: false where either is false, else null where either is null, else true.
    and_kleene,
    arrow2_and_kleene
);

operator!(
    /// Writes OR, item by item: true where either is true, else null where either is null, else false.
    or_kleene,
    arrow2_or_kleene
);

/// Values with their validity, which may be missing: then no item is null.
#[derive(Clone, Copy, Debug)]
pub struct OptionalNullable<'a> {
    /// The values.
    pub values: Bits<'a>,
    /// Which of them are not null.
    pub validity: Option<Bits<'a>>,
}

/// The calls of both operators where a validity may be missing.
macro_rules! optional_operator {
    ($(#[$doc:meta])* $name:ident, $export:ident) => {
        $(#[$doc])*
        ///
        /// # Errors
        ///
        /// [`Error::Range`] exactly where the bits of the values of either side, or of a validity that is not missing,
        /// are not inside their bytes, else [`Error::Length`] exactly where the output `values` or `validity` does not
        /// have [`crate::bytes_for`]`(length)` bytes.
        #[inline]
        pub fn $name(
            lhs: OptionalNullable<'_>,
            rhs: OptionalNullable<'_>,
            length: usize,
            values: &mut [u8],
            validity: &mut [u8],
        ) -> Result<(), Error> {
            let none = Bits { bytes: &[], offset: 0 };
            let lhs_validity = lhs.validity.unwrap_or(none);
            let rhs_validity = rhs.validity.unwrap_or(none);
            // SAFETY: the slices are borrowed for the call, the last two alone, and it keeps none.
            to_result(unsafe {
                sys::$export(
                    lhs.values.bytes.as_ptr(),
                    lhs.values.bytes.len(),
                    lhs.values.offset,
                    lhs_validity.bytes.as_ptr(),
                    lhs_validity.bytes.len(),
                    lhs_validity.offset,
                    lhs.validity.is_none(),
                    rhs.values.bytes.as_ptr(),
                    rhs.values.bytes.len(),
                    rhs.values.offset,
                    rhs_validity.bytes.as_ptr(),
                    rhs_validity.bytes.len(),
                    rhs_validity.offset,
                    rhs.validity.is_none(),
                    length,
                    values.as_mut_ptr(),
                    values.len(),
                    validity.as_mut_ptr(),
                    validity.len(),
                )
            })
        }
    };
}

optional_operator!(
    /// Writes AND, item by item, as [`and_kleene`] does. Either side may have no validity.
    and_kleene_optional,
    arrow2_and_kleene_optional
);

optional_operator!(
    /// Writes OR, item by item, as [`or_kleene`] does. Either side may have no validity.
    or_kleene_optional,
    arrow2_or_kleene_optional
);
