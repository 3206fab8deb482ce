//! The checks compared with plain loops, on random inputs.

mod inputs;

use arrow2_proved::{
    Bits, Error, ErrorAt, Index, Offset, OptionalNullable, and_kleene_optional, bytes_for, check_bits, check_validity,
    check_values, or_kleene_optional,
};
use inputs::{Random, part};

/// The number of random inputs of each check.
const INPUTS: usize = 10_000;

#[test]
fn validities() {
    let mut random = Random::new(21);
    for _ in 0..INPUTS {
        let bytes = random.bytes();
        let (offset, length) = random.range(&bytes);
        let zeros = part(&bytes, offset, length).map(|bits| bits.iter().filter(|bit| !**bit).count());
        let null_count = random.near(zeros.unwrap_or(0)) as i64 - i64::from(random.flag());
        let outcome = zeros.and_then(|zeros| match null_count {
            -1 => Ok(()),
            _ if null_count == zeros as i64 => Ok(()),
            _ => Err(Error::Nulls),
        });
        assert_eq!(check_validity(Bits { bytes: &bytes, offset }, length, null_count), outcome);
    }
}

#[test]
fn sizes() {
    let near = [0, 1, 2, 7, 8, 9, 24, 25, 1 << 31, usize::MAX / 8, usize::MAX - 1, usize::MAX];
    let outcome = |fits: bool| if fits { Ok(()) } else { Err(Error::Range) };
    for bytes in near {
        for offset in near {
            for length in near {
                let items = offset as u128 + length as u128;
                assert_eq!(check_bits(bytes, offset, length), outcome(items <= 8 * bytes as u128));
                for width in near {
                    let fits = items.checked_mul(width as u128).is_some_and(|all| all <= bytes as u128);
                    assert_eq!(check_values(bytes, width, offset, length), outcome(fits));
                }
            }
        }
    }
}

/// The first rule that the numbers break, by plain loops.
fn offsets_checked(offsets: &[i64], items: usize) -> Result<(), ErrorAt> {
    let rejected = |error, at| Err(ErrorAt { error, at });
    let Some(first) = offsets.first() else { return rejected(Error::NoOffset, 0) };
    if *first < 0 {
        return rejected(Error::NegativeOffset, 0);
    }
    if let Some(at) = offsets.windows(2).position(|two| two[1] < two[0]) {
        return rejected(Error::FallingOffsets, at + 1);
    }
    offsets.iter().position(|it| *it as usize > items).map_or(Ok(()), |at| rejected(Error::PastOffset, at))
}

/// Offsets, or one time in four numbers that are near to some.
fn numbers(random: &mut Random, last: usize) -> Vec<i64> {
    let slots = random.below(20);
    let mut numbers: Vec<i64> = (0..=slots).map(|_| random.below(last + 1) as i64).collect();
    numbers.sort_unstable();
    if random.below(4) == 0 {
        let at = random.below(numbers.len());
        numbers[at] += random.below(9) as i64 - 4;
    }
    if random.below(40) == 0 {
        numbers.clear();
    }
    numbers
}

#[test]
fn offsets_and_texts() {
    let mut random = Random::new(22);
    let words = ["a", "é", "€", "𝄞", "xy", ""];
    for _ in 0..INPUTS {
        let text: String = (0..random.below(12)).map(|_| words[random.below(words.len())]).collect();
        let mut values = text.into_bytes();
        if random.below(4) == 0 && !values.is_empty() {
            let at = random.below(values.len());
            values[at] = random.below(256) as u8;
        }
        let wide = numbers(&mut random, values.len());
        let narrow: Vec<i32> = wide.iter().map(|it| *it as i32).collect();
        let inside = offsets_checked(&wide, values.len());
        assert_eq!(i64::check_inside(&wide, values.len()), inside);
        assert_eq!(i32::check_inside(&narrow, values.len()), inside);
        let slot = |two: &[i64]| std::str::from_utf8(&values[two[0] as usize..two[1] as usize]);
        let outcome = inside.and_then(|()| match wide.windows(2).position(|two| slot(two).is_err()) {
            None => Ok(()),
            Some(at) => Err(ErrorAt { error: Error::NotUtf8, at }),
        });
        assert_eq!(i64::check_texts(&wide, &values), outcome);
        assert_eq!(i32::check_texts(&narrow, &values), outcome);
    }
}

#[test]
fn indices() {
    let mut random = Random::new(23);
    for _ in 0..INPUTS {
        let bytes = random.bytes();
        let (offset, length) = random.range(&bytes);
        let length = length.min(64);
        let items = random.below(6);
        let indices: Vec<i16> =
            (0..length).map(|_| random.below(items + 2) as i16 - i16::from(random.below(9) == 0)).collect();
        let valid = part(&bytes, offset, length).map_err(|error| ErrorAt { error, at: 0 });
        let outcome = valid.and_then(|valid| {
            let outside = |at: &usize| valid[*at] && !(0..items as i16).contains(&indices[*at]);
            (0..length).find(outside).map_or(Ok(()), |at| Err(ErrorAt { error: Error::Index, at }))
        });
        assert_eq!(i16::check_indices(&indices, Some(Bits { bytes: &bytes, offset }), items), outcome);
        let all = indices.iter().position(|it| !(0..items as i16).contains(it));
        let outcome = all.map_or(Ok(()), |at| Err(ErrorAt { error: Error::Index, at }));
        assert_eq!(i16::check_indices(&indices, None, items), outcome);
        let wide: Vec<u64> = indices.iter().map(|it| *it as u64).collect();
        assert_eq!(u64::check_indices(&wide, None, items), outcome);
    }
}

#[test]
fn kleenes_logic_without_a_validity() {
    let mut random = Random::new(24);
    for _ in 0..INPUTS {
        let stored = [random.bytes(), random.bytes(), random.bytes(), random.bytes()];
        let length = stored.iter().map(|bytes| 8 * bytes.len()).min().unwrap_or(0);
        let side = |values: usize, validity: usize, there: bool| OptionalNullable {
            values: Bits { bytes: &stored[values], offset: 0 },
            validity: there.then_some(Bits { bytes: &stored[validity], offset: 0 }),
        };
        let (left, right) = (side(0, 1, random.flag()), side(2, 3, random.flag()));
        let item = |side: OptionalNullable<'_>, at: usize| {
            let bit = |bits: Bits<'_>| bits.bytes[at / 8] >> (at % 8) & 1 == 1;
            side.validity.is_none_or(bit).then_some(bit(side.values))
        };
        let (mut values, mut validity) = (vec![0; bytes_for(length)], vec![0; bytes_for(length)]);
        for is_and in [true, false] {
            let call = if is_and { and_kleene_optional } else { or_kleene_optional };
            assert_eq!(call(left, right, length, &mut values, &mut validity), Ok(()));
            let written = OptionalNullable {
                values: Bits { bytes: &values, offset: 0 },
                validity: Some(Bits { bytes: &validity, offset: 0 }),
            };
            for at in 0..length {
                let outcome = match (item(left, at), item(right, at)) {
                    (Some(a), Some(b)) => Some(if is_and { a && b } else { a || b }),
                    (Some(a), None) | (None, Some(a)) => (a != is_and).then_some(a),
                    (None, None) => None,
                };
                assert_eq!(item(written, at), outcome);
            }
        }
    }
}
