//! Each call compared with arrow2 0.17.4, on random inputs. `bindings/run` adds arrow2 where its folder is given.

mod inputs;

use arrow2::bitmap::Bitmap;
use arrow2::bitmap::utils::SlicesIterator;
use arrow2::offset::Offsets;
use arrow2_proved::{
    AND, Bits, NOT, OR, Offset, XOR, binary_table, bytes_for, copy_bits, count_zeros, equal_bits, get_bit, narrow,
    pack, runs, set_indices, unary_table, unpack, widen,
};
use inputs::Random;

/// The number of random inputs of each call.
const INPUTS: usize = 10_000;

/// A bitmap of arrow2 over the bits of a range.
fn bitmap(bits: Bits<'_>, length: usize) -> Bitmap {
    Bitmap::from_u8_slice(bits.bytes, 8 * bits.bytes.len()).sliced(bits.offset, length)
}

/// The bits that were written, as a bitmap of arrow2.
fn outcome(out: Vec<u8>, length: usize) -> Bitmap {
    Bitmap::from_u8_vec(out, length)
}

#[test]
fn counts_and_single_bits() {
    let mut random = Random::new(11);
    for _ in 0..INPUTS {
        let bytes = random.bytes();
        let length = random.below(8 * bytes.len() + 1);
        let offset = random.offset(&bytes, length);
        let theirs = bitmap(Bits { bytes: &bytes, offset }, length);
        assert_eq!(count_zeros(&bytes, offset, length), Ok(theirs.unset_bits()));
        if length > 0 {
            let index = random.below(length);
            assert_eq!(get_bit(&bytes, offset + index), Ok(theirs.get_bit(index)));
        }
    }
}

#[test]
fn equality() {
    let mut random = Random::new(16);
    for _ in 0..INPUTS {
        let left = random.bytes();
        let length = random.below(8 * left.len() + 1);
        let first = Bits { bytes: &left, offset: random.offset(&left, length) };
        let (right, offset) = random.copy(&left, first.offset, length);
        let second = Bits { bytes: &right, offset };
        if offset + length <= 8 * right.len() {
            assert_eq!(equal_bits(first, second, length), Ok(bitmap(first, length) == bitmap(second, length)));
        }
    }
}

#[test]
fn operators() {
    let mut random = Random::new(12);
    for _ in 0..INPUTS {
        let (left, right) = (random.bytes(), random.bytes());
        let length = random.below(8 * left.len().min(right.len()) + 1);
        let first = Bits { bytes: &left, offset: random.offset(&left, length) };
        let second = Bits { bytes: &right, offset: random.offset(&right, length) };
        let (a, b) = (bitmap(first, length), bitmap(second, length));
        for (table, theirs) in [(AND, &a & &b), (OR, &a | &b), (XOR, &a ^ &b)] {
            let mut out = vec![255; bytes_for(length)];
            binary_table(first, second, length, table, &mut out).unwrap();
            assert_eq!(outcome(out, length), theirs);
        }
        let mut out = vec![255; bytes_for(length)];
        unary_table(first, length, NOT, &mut out).unwrap();
        assert_eq!(outcome(out, length), !&a);
    }
}

#[test]
fn offsets() {
    let mut random = Random::new(13);
    for _ in 0..INPUTS {
        let numbers: Vec<i64> = random.numbers(1 << 40).iter().map(|n| *n as i64).collect();
        let theirs = Offsets::try_from(numbers.clone());
        assert_eq!(i64::check(&numbers).is_ok(), theirs.is_ok());
        if let Ok(theirs) = theirs {
            let mut lengths = vec![0; numbers.len() - 1];
            i64::lengths(&numbers, &mut lengths).unwrap();
            assert_eq!(lengths, theirs.as_slice().windows(2).map(|w| (w[1] - w[0]) as usize).collect::<Vec<_>>());
            let mut sums = vec![0; numbers.len()];
            i64::from_lengths(0, &lengths, &mut sums).unwrap();
            let made = Offsets::<i64>::try_from_lengths(lengths.iter().copied()).unwrap();
            assert_eq!(sums, made.into_inner());
        }
    }
}

#[test]
fn copies_runs_indices_and_booleans() {
    let mut random = Random::new(14);
    for _ in 0..INPUTS {
        let bytes = random.bytes();
        let length = random.below(8 * bytes.len() + 1);
        let bits = Bits { bytes: &bytes, offset: random.offset(&bytes, length) };
        let theirs = bitmap(bits, length);

        let mut out = vec![255; bytes_for(length)];
        copy_bits(&bytes, bits.offset, length, &mut out).unwrap();
        assert_eq!(outcome(out, length), theirs);

        let (mut at, mut starts, mut lengths) = (0, vec![0; length + 1], vec![0; length + 1]);
        let count = runs(bits, length, &mut at, &mut starts, &mut lengths).unwrap();
        let ours: Vec<_> = starts.into_iter().zip(lengths).take(count).collect();
        assert_eq!(ours, SlicesIterator::new(&theirs).collect::<Vec<_>>());

        let (mut at, mut indices) = (0, vec![0; length]);
        let count = set_indices(bits, length, &mut at, &mut indices).unwrap();
        let set: Vec<_> = theirs.iter().enumerate().filter(|(_, bit)| *bit).map(|(position, _)| position).collect();
        assert_eq!(indices[..count], set);

        let mut items = vec![false; length];
        unpack(bits, &mut items).unwrap();
        assert_eq!(items, theirs.iter().collect::<Vec<_>>());
        let mut out = vec![255; bytes_for(length)];
        pack(&items, &mut out).unwrap();
        assert_eq!(outcome(out, length), items.into_iter().collect::<Bitmap>());
    }
}

#[test]
fn widths() {
    let mut random = Random::new(15);
    for _ in 0..INPUTS {
        let numbers: Vec<i64> = random.numbers(1 << 33).iter().map(|n| *n as i64).collect();
        let Ok(theirs) = Offsets::try_from(numbers.clone()) else {
            continue;
        };
        let mut out = vec![0; numbers.len()];
        let returned = narrow(&numbers, &mut out);
        let narrowed = Offsets::<i32>::try_from(theirs);
        assert_eq!(returned.is_ok(), narrowed.is_ok());
        if let Ok(narrowed) = narrowed {
            assert_eq!(out, narrowed.as_slice());
            let mut back = vec![0; numbers.len()];
            widen(&out, &mut back).unwrap();
            assert_eq!(back, Offsets::<i64>::from(narrowed).as_slice());
        }
    }
}
