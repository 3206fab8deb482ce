//! Our side: the calls of crate `arrow2-proved`, as users of Rust have them.
//!
//! Each function makes the inputs of its call, and then makes one call for each run, whose item is the length that it
//! takes. The output is read once, after the runs.
use super::inputs::{digest, digest_of_bytes, FourBits, Slots, CHOICE, KNOWN};
use arrow2_proved::{
    bytes_for, Bits, CheckedOffsets, Error, Nullable, Offset, OptionalNullable, NOT, XOR,
};
use std::hint::black_box;

/// The results of a call for each run, added up.
fn added(runs: &[usize], call: impl Fn(usize) -> Result<usize, Error>) -> usize {
    let mut sum = 0usize;
    for run in runs {
        sum = sum.wrapping_add(call(*run).unwrap_or(0));
    }
    sum
}

/// The bytes that a call writes for `len` bits, once it was made for each run.
fn written(
    len: usize,
    runs: &[usize],
    call: impl Fn(usize, &mut [u8]) -> Result<(), Error>,
) -> usize {
    changed(vec![0; bytes_for(len)], runs, call)
}

/// The output of a call for these bytes, once it was made for each run.
fn changed(
    mut bytes: Vec<u8>,
    runs: &[usize],
    call: impl Fn(usize, &mut [u8]) -> Result<(), Error>,
) -> usize {
    let mut failed = 0;
    for run in runs {
        failed += usize::from(call(*run, black_box(&mut bytes)).is_err());
    }
    digest_of_bytes(&bytes).wrapping_add(failed)
}

pub fn count_zeros(on: &FourBits, runs: &[usize]) -> usize {
    let [Bits { bytes, offset }, ..] = on.inputs;
    added(runs, |len| arrow2_proved::count_zeros(bytes, offset, len))
}

pub fn equal_bits(on: &FourBits, runs: &[usize]) -> usize {
    let [left, right, ..] = on.inputs;
    added(runs, |len| arrow2_proved::equal_bits(left, right, len).map(usize::from))
}

pub fn get_bit(on: &FourBits, positions: &[usize]) -> usize {
    let [Bits { bytes, .. }, ..] = on.inputs;
    added(positions, |position| arrow2_proved::get_bit(bytes, position).map(usize::from))
}

pub fn get_bit_inline(on: &FourBits, positions: &[usize]) -> usize {
    let [Bits { bytes, .. }, ..] = on.inputs;
    added(positions, |position| {
        arrow2_proved::get_bit_inline(black_box(bytes), position).map(usize::from)
    })
}

pub fn set_bit(on: &FourBits, positions: &[usize]) -> usize {
    changed(on.inputs[0].bytes.to_vec(), positions, |position, bytes| {
        arrow2_proved::set_bit(bytes, position, position % 3 == 0)
    })
}

pub fn copy_bits(on: &FourBits, runs: &[usize]) -> usize {
    let [Bits { bytes, offset }, ..] = on.inputs;
    written(on.len, runs, |len, out| arrow2_proved::copy_bits(bytes, offset, len, out))
}

pub fn unary_table(on: &FourBits, runs: &[usize]) -> usize {
    let [input, ..] = on.inputs;
    written(on.len, runs, |len, out| arrow2_proved::unary_table(input, len, NOT, out))
}

pub fn binary_table(on: &FourBits, runs: &[usize]) -> usize {
    let [first, second, ..] = on.inputs;
    written(on.len, runs, |len, out| arrow2_proved::binary_table(first, second, len, XOR, out))
}

pub fn ternary_table(on: &FourBits, runs: &[usize]) -> usize {
    let [first, second, third, _] = on.inputs;
    written(on.len, runs, |len, out| {
        arrow2_proved::ternary_table(first, second, third, len, CHOICE, out)
    })
}

pub fn quaternary_table(on: &FourBits, runs: &[usize]) -> usize {
    let [first, second, third, fourth] = on.inputs;
    written(on.len, runs, |len, out| {
        arrow2_proved::quaternary_table(first, second, third, fourth, len, KNOWN, out)
    })
}

/// The bits of the first input as bytes of their own.
fn own(on: &FourBits) -> Vec<u8> {
    let [Bits { bytes, offset }, ..] = on.inputs;
    let mut own = vec![0; bytes_for(on.len)];
    arrow2_proved::copy_bits(bytes, offset, on.len, &mut own).expect("the bits are inside");
    own
}

pub fn unary_assign_table(on: &FourBits, runs: &[usize]) -> usize {
    changed(own(on), runs, |len, bytes| arrow2_proved::unary_assign_table(bytes, len, NOT))
}

pub fn binary_assign_table(on: &FourBits, runs: &[usize]) -> usize {
    let [_, second, ..] = on.inputs;
    changed(own(on), runs, |len, bytes| arrow2_proved::binary_assign_table(bytes, second, len, XOR))
}

pub fn ternary_assign_table(on: &FourBits, runs: &[usize]) -> usize {
    let [_, second, third, _] = on.inputs;
    changed(own(on), runs, |len, bytes| {
        arrow2_proved::ternary_assign_table(bytes, second, third, len, CHOICE)
    })
}

pub fn quaternary_assign_table(on: &FourBits, runs: &[usize]) -> usize {
    let [_, second, third, fourth] = on.inputs;
    changed(own(on), runs, |len, bytes| {
        arrow2_proved::quaternary_assign_table(bytes, second, third, fourth, len, KNOWN)
    })
}

/// Two arrays: the first input is valid where the second one is set, and so the other two.
fn arrays<'a>(on: &'a FourBits) -> [Nullable<'a>; 2] {
    let [left, left_validity, right, right_validity] = on.inputs;
    [
        Nullable { values: left, validity: left_validity },
        Nullable { values: right, validity: right_validity },
    ]
}

/// The values and their validity that a call writes, once it was made for each run.
fn both_written(
    len: usize,
    runs: &[usize],
    call: impl Fn(usize, &mut [u8], &mut [u8]) -> Result<(), Error>,
) -> usize {
    let mut validity = vec![0; bytes_for(len)];
    let mut values = vec![0; bytes_for(len)];
    let mut failed = 0;
    for run in runs {
        let returned = call(*run, black_box(&mut values), black_box(&mut validity));
        failed += usize::from(returned.is_err());
    }
    (digest_of_bytes(&values) ^ digest_of_bytes(&validity)).wrapping_add(failed)
}

pub fn and_kleene(on: &FourBits, runs: &[usize]) -> usize {
    let [left, right] = arrays(on);
    both_written(on.len, runs, |len, values, validity| {
        arrow2_proved::and_kleene(left, right, len, values, validity)
    })
}

pub fn or_kleene(on: &FourBits, runs: &[usize]) -> usize {
    let [left, right] = arrays(on);
    both_written(on.len, runs, |len, values, validity| {
        arrow2_proved::or_kleene(left, right, len, values, validity)
    })
}

/// The left side has no validity.
pub fn and_kleene_optional(on: &FourBits, runs: &[usize]) -> usize {
    let [left, right] = arrays(on);
    let left = OptionalNullable { values: left.values, validity: None };
    let right = OptionalNullable { values: right.values, validity: Some(right.validity) };
    both_written(on.len, runs, |len, values, validity| {
        arrow2_proved::and_kleene_optional(left, right, len, values, validity)
    })
}

pub fn runs(on: &FourBits, runs: &[usize]) -> usize {
    let [input, ..] = on.inputs;
    let capacity = on.len / 2 + 1;
    let (mut starts, mut lengths) = (vec![0; capacity], vec![0; capacity]);
    let mut count = 0usize;
    for run in runs {
        let (starts, lengths) = (black_box(&mut starts), black_box(&mut lengths));
        let written = arrow2_proved::runs(input, *run, &mut 0, starts, lengths);
        count = count.wrapping_add(written.unwrap_or(0));
    }
    digest(starts.into_iter().chain(lengths)).wrapping_add(count)
}

pub fn set_indices(on: &FourBits, runs: &[usize]) -> usize {
    let [input, ..] = on.inputs;
    let mut positions = vec![0; on.len];
    let mut count = 0usize;
    for run in runs {
        let written = arrow2_proved::set_indices(input, *run, &mut 0, black_box(&mut positions));
        count = count.wrapping_add(written.unwrap_or(0));
    }
    digest(positions).wrapping_add(count)
}

pub fn pack(items: &[bool], runs: &[usize]) -> usize {
    written(items.len(), runs, |len, out| arrow2_proved::pack(&items[..len], out))
}

pub fn unpack(on: &FourBits, runs: &[usize]) -> usize {
    let [input, ..] = on.inputs;
    let mut items = vec![false; on.len];
    let mut failed = 0;
    for run in runs {
        let items = &mut black_box(&mut items)[..*run];
        failed += usize::from(arrow2_proved::unpack(input, items).is_err());
    }
    digest(items.into_iter().map(usize::from)).wrapping_add(failed)
}

/// The numbers that a call writes to a slice of `len` numbers, once it was made for each run.
fn numbers_written<T: Copy + Default + Into<i64>>(
    len: usize,
    runs: &[usize],
    call: impl Fn(usize, &mut [T]) -> Result<(), Error>,
) -> usize {
    let mut out = vec![T::default(); len];
    let mut failed = 0;
    for run in runs {
        failed += usize::from(call(*run, black_box(&mut out)).is_err());
    }
    digest(out.into_iter().map(|number| number.into() as usize)).wrapping_add(failed)
}

fn check<O: Offset>(offsets: &[O], runs: &[usize]) -> usize {
    added(runs, |count| O::check(&offsets[..count]).map(|()| count))
}

pub fn texts32_check(on: &Slots, runs: &[usize]) -> usize {
    check_texts(&on.offsets32, &on.texts, runs)
}

pub fn texts64_check(on: &Slots, runs: &[usize]) -> usize {
    check_texts(&on.offsets64, &on.texts, runs)
}

fn check_texts<O: Offset>(offsets: &[O], texts: &[u8], runs: &[usize]) -> usize {
    let mut sum = 0usize;
    for count in runs {
        let checked = O::check_texts(&offsets[..*count], black_box(texts));
        sum = sum.wrapping_add(checked.map_or(0, |()| *count));
    }
    sum
}

fn lengths<O: Offset>(offsets: &[O], runs: &[usize]) -> usize {
    let mut out = vec![0; offsets.len() - 1];
    let mut failed = 0;
    for run in runs {
        let returned = O::lengths(&offsets[..*run], black_box(&mut out));
        failed += usize::from(returned.is_err());
    }
    digest(out).wrapping_add(failed)
}

fn from_lengths<O: Offset + Default + Into<i64>>(lengths: &[usize], runs: &[usize]) -> usize {
    numbers_written(lengths.len() + 1, runs, |count, out: &mut [O]| {
        O::from_lengths(0, &lengths[..count - 1], out)
    })
}

fn rebase<O: Offset + Default + Into<i64>>(offsets: &[O], runs: &[usize]) -> usize {
    numbers_written(offsets.len() - 1, runs, |count, out: &mut [O]| {
        O::rebase(&offsets[..count], 1, out)
    })
}

pub fn offsets32_check(on: &Slots, runs: &[usize]) -> usize {
    check(&on.offsets32, runs)
}

pub fn offsets64_check(on: &Slots, runs: &[usize]) -> usize {
    check(&on.offsets64, runs)
}

pub fn offsets32_lengths(on: &Slots, runs: &[usize]) -> usize {
    lengths(&on.offsets32, runs)
}

/// The offsets are checked once, before the runs.
fn lengths_unchecked<O: Offset>(offsets: &[O], runs: &[usize]) -> usize {
    let Ok(checked) = CheckedOffsets::new(offsets) else {
        return 0;
    };
    let mut out = vec![0; offsets.len() - 1];
    let mut failed = 0;
    for _ in runs {
        failed += usize::from(black_box(checked).lengths(black_box(&mut out)).is_err());
    }
    digest(out).wrapping_add(failed)
}

/// The offsets are checked once, before the runs.
fn rebase_unchecked<O: Offset + Default + Into<i64>>(offsets: &[O], runs: &[usize]) -> usize {
    let Ok(checked) = CheckedOffsets::new(offsets) else {
        return 0;
    };
    numbers_written(offsets.len() - 1, runs, |_, out: &mut [O]| black_box(checked).rebase(1, out))
}

pub fn offsets32_lengths_unchecked(on: &Slots, runs: &[usize]) -> usize {
    lengths_unchecked(&on.offsets32, runs)
}

pub fn offsets64_lengths_unchecked(on: &Slots, runs: &[usize]) -> usize {
    lengths_unchecked(&on.offsets64, runs)
}

pub fn offsets32_rebase_unchecked(on: &Slots, runs: &[usize]) -> usize {
    rebase_unchecked(&on.offsets32, runs)
}

pub fn offsets64_rebase_unchecked(on: &Slots, runs: &[usize]) -> usize {
    rebase_unchecked(&on.offsets64, runs)
}

pub fn offsets64_lengths(on: &Slots, runs: &[usize]) -> usize {
    lengths(&on.offsets64, runs)
}

pub fn offsets32_from_lengths(on: &Slots, runs: &[usize]) -> usize {
    from_lengths::<i32>(&on.lengths, runs)
}

pub fn offsets64_from_lengths(on: &Slots, runs: &[usize]) -> usize {
    from_lengths::<i64>(&on.lengths, runs)
}

pub fn offsets32_rebase(on: &Slots, runs: &[usize]) -> usize {
    rebase(&on.offsets32, runs)
}

pub fn offsets64_rebase(on: &Slots, runs: &[usize]) -> usize {
    rebase(&on.offsets64, runs)
}

pub fn offsets_widen(on: &Slots, runs: &[usize]) -> usize {
    numbers_written(on.offsets32.len(), runs, |count, out| {
        arrow2_proved::widen(&on.offsets32[..count], out)
    })
}

pub fn offsets_narrow(on: &Slots, runs: &[usize]) -> usize {
    numbers_written(on.offsets64.len(), runs, |count, out| {
        arrow2_proved::narrow(&on.offsets64[..count], out)
    })
}
