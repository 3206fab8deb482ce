//! The memory layer under Apache Arrow arrays: bits, truth tables and offsets, in slices of the caller.
//!
//! The library that this crate calls is proved to meet its contracts (`docs/BINDINGS.md`). The crate itself is not
//! proved, only tested. It adds the guarantees of Rust's slices: no pointer is null, and a slice that is written
//! overlaps none that is read.
//!
//! Bit `i` of bytes is bit `i % 8` of byte `i / 8`, the lowest first. Lengths and offsets of bits are in bits. They
//! need not be multiples of 8. Numbers that are out of range give an error; an offset past the end does so with every
//! length, also 0. A call that fails writes nothing. Only `c_data` allocates; no call panics.
//!
//! A truth table is a number: bit `a1 + 2 * a2 + 4 * a3 + 8 * a4` of it is the output for inputs `a1` to `a4`.
//!
//! ```
//! use arrow2_proved::{Bits, binary_table, count_zeros};
//!
//! let values = Bits { bytes: &[0b0110_1100], offset: 2 };
//! let others = Bits { bytes: &[0b0000_0011], offset: 0 };
//! let mut both = [0];
//! binary_table(values, others, 4, arrow2_proved::AND, &mut both)?;
//! assert_eq!(both, [0b0000_0011]);
//! assert_eq!(count_zeros(&both, 0, 4)?, 2);
//! # Ok::<(), arrow2_proved::Error>(())
//! ```
#![no_std]
#![deny(missing_docs)]

#[cfg(feature = "c-data")]
extern crate alloc;

mod bits;
mod booleans;
#[cfg(feature = "c-data")]
pub mod c_data;
mod checks;
mod error;
mod kleene;
mod offsets;
mod runs;
mod set_indices;
mod sys;
mod tables;

pub use bits::{copy_bits, count_zeros, equal_bits, get_bit, get_bit_inline, set_bit};
pub use booleans::{pack, unpack};
pub use checks::{Index, check_bits, check_validity, check_values};
pub use error::{Error, ErrorAt};
pub use kleene::{Nullable, OptionalNullable, and_kleene, and_kleene_optional, or_kleene, or_kleene_optional};
pub use offsets::{CheckedOffsets, Offset, narrow, widen};
pub use runs::runs;
pub use set_indices::set_indices;
pub use tables::{
    AND, NOT, OR, XOR, binary_assign_table, binary_table, quaternary_assign_table, quaternary_table,
    ternary_assign_table, ternary_table, unary_assign_table, unary_table,
};

/// The bits of `bytes` that begin at bit `offset`. Calls take the number of bits separately.
#[derive(Clone, Copy, Debug)]
pub struct Bits<'a> {
    /// The bytes.
    pub bytes: &'a [u8],
    /// The bit of the bytes at which the bits begin.
    pub offset: usize,
}

/// Returns the number of bytes that hold `bits` bits: an eighth, rounded up.
#[must_use]
pub const fn bytes_for(bits: usize) -> usize {
    bits.div_ceil(8)
}
