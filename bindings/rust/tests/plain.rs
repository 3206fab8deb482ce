//! Each call compared with a plain loop, on random inputs.

mod inputs;

use arrow2_proved::{
    Bits, CheckedOffsets, Error, Nullable, Offset, and_kleene, binary_assign_table, binary_table, bytes_for, copy_bits,
    count_zeros, equal_bits, get_bit, get_bit_inline, narrow, or_kleene, pack, quaternary_assign_table,
    quaternary_table, runs, set_bit, set_indices, ternary_assign_table, ternary_table, unary_assign_table, unary_table,
    unpack, widen,
};
use inputs::{Random, part, written};

/// The number of random inputs of each call.
const INPUTS: usize = 10_000;

#[test]
fn counts() {
    let mut random = Random::new(1);
    for _ in 0..INPUTS {
        let bytes = random.bytes();
        let (offset, length) = random.range(&bytes);
        let expected = part(&bytes, offset, length).map(|bits| bits.iter().filter(|bit| !**bit).count());
        assert_eq!(count_zeros(&bytes, offset, length), expected);
    }
}

#[test]
fn equality() {
    let mut random = Random::new(12);
    let mut same = 0;
    for _ in 0..INPUTS {
        let left = random.bytes();
        let (left_offset, length) = random.range(&left);
        let (right, right_offset) = random.copy(&left, left_offset, length);
        let returned = equal_bits(
            Bits { bytes: &left, offset: left_offset },
            Bits { bytes: &right, offset: right_offset },
            length,
        );
        let bits = part(&left, left_offset, length);
        let outcome = bits.and_then(|bits| Ok(bits == part(&right, right_offset, length)?));
        assert_eq!(returned, outcome);
        same += usize::from(outcome == Ok(true));
    }
    // Both results came often.
    assert!(INPUTS / 10 < same && same < INPUTS * 9 / 10, "{same} of {INPUTS}");
}

#[test]
fn single_bits() {
    let mut random = Random::new(2);
    for _ in 0..INPUTS {
        let mut bytes = random.bytes();
        let index = random.position(&bytes);
        let value = random.flag();
        let before = part(&bytes, 0, 8 * bytes.len()).unwrap();
        assert_eq!(get_bit(&bytes, index), before.get(index).copied().ok_or(Error::Range));
        assert_eq!(get_bit_inline(&bytes, index), get_bit(&bytes, index));
        let mut after = before.clone();
        let set = set_bit(&mut bytes, index, value);
        match after.get_mut(index) {
            Some(bit) => {
                *bit = value;
                assert_eq!(set, Ok(()));
            }
            None => assert_eq!(set, Err(Error::Range)),
        }
        assert_eq!(part(&bytes, 0, 8 * bytes.len()).unwrap(), after);
    }
}

#[test]
fn copies() {
    let mut random = Random::new(3);
    for _ in 0..INPUTS {
        let bytes = random.bytes();
        let (offset, length) = random.range(&bytes);
        let mut out = random.out(length);
        let expected = written(part(&bytes, offset, length), length, &out);
        let returned = copy_bits(&bytes, offset, length, &mut out);
        assert_eq!((returned, out), expected);
    }
}

/// The outputs of a table, by the number of its inputs.
fn results(table: u16, inputs: &[Vec<bool>], length: usize) -> Vec<bool> {
    let output = |position: usize| {
        let bits = inputs.iter().enumerate();
        let index: usize = bits.map(|(input, bits)| usize::from(bits[position]) << input).sum();
        table >> index & 1 == 1
    };
    (0..length).map(output).collect()
}

/// The outputs of a table of `count` inputs, or its error.
fn expected(table: u16, inputs: &[Bits<'_>], length: usize) -> Result<Vec<bool>, Error> {
    let most = [3, 15, 255, u16::MAX][inputs.len() - 1];
    if table > most {
        return Err(Error::Range);
    }
    let lists: Result<Vec<_>, _> = inputs.iter().map(|bits| part(bits.bytes, bits.offset, length)).collect();
    Ok(results(table, &lists?, length))
}

#[test]
fn tables() {
    let mut random = Random::new(4);
    for _ in 0..INPUTS {
        let stored: Vec<Vec<u8>> = (0..4).map(|_| random.bytes()).collect();
        let length = random.common_length(&stored);
        let inputs: Vec<Bits<'_>> =
            stored.iter().map(|bytes| Bits { bytes, offset: random.offset(bytes, length) }).collect();
        for count in 1..=4 {
            let table = random.table(count as u32);
            let mut out = random.out(length);
            let outcome = written(expected(table, &inputs[..count], length), length, &out);
            let returned = match count {
                1 => unary_table(inputs[0], length, table, &mut out),
                2 => binary_table(inputs[0], inputs[1], length, table, &mut out),
                3 => ternary_table(inputs[0], inputs[1], inputs[2], length, table, &mut out),
                _ => quaternary_table(inputs[0], inputs[1], inputs[2], inputs[3], length, table, &mut out),
            };
            assert_eq!((returned, out), outcome, "{count} inputs");
        }
    }
}

#[test]
fn tables_in_place() {
    let mut random = Random::new(5);
    for _ in 0..INPUTS {
        let stored: Vec<Vec<u8>> = (0..3).map(|_| random.bytes()).collect();
        let length = random.common_length(&stored);
        let others: Vec<Bits<'_>> =
            stored.iter().map(|bytes| Bits { bytes, offset: random.offset(bytes, length) }).collect();
        for count in 1..=4 {
            let table = random.table(count as u32);
            let mut out = random.out(length);
            // Bytes of another length are rejected by it, after all ranges.
            let own = if out.len() == bytes_for(length) { out.clone() } else { vec![0; bytes_for(length)] };
            let mut inputs = vec![Bits { bytes: &own, offset: 0 }];
            inputs.extend(&others[..count - 1]);
            let outcome = written(expected(table, &inputs, length), length, &out);
            let returned = match count {
                1 => unary_assign_table(&mut out, length, table),
                2 => binary_assign_table(&mut out, others[0], length, table),
                3 => ternary_assign_table(&mut out, others[0], others[1], length, table),
                _ => quaternary_assign_table(&mut out, others[0], others[1], others[2], length, table),
            };
            assert_eq!((returned, out), outcome, "{count} inputs");
        }
    }
}

/// The first rule that the numbers break.
fn rule(offsets: &[i128]) -> Result<(), Error> {
    match offsets {
        [] => Err(Error::NoOffset),
        [first, ..] if *first < 0 => Err(Error::NegativeOffset),
        _ if offsets.windows(2).any(|pair| pair[0] > pair[1]) => Err(Error::FallingOffsets),
        _ => Ok(()),
    }
}

/// Offsets that were checked once give the same as those that are checked at each call.
fn checked_once<O: Offset + Default + PartialEq + std::fmt::Debug>(offsets: &[O], random: &mut Random) {
    let Ok(checked) = CheckedOffsets::new(offsets) else {
        assert!(O::check(offsets).is_err());
        return;
    };
    assert_eq!(checked.as_slice(), offsets);
    let count = random.near(offsets.len() - 1);
    let (mut once, mut again) = (vec![7; count], vec![7; count]);
    assert_eq!(checked.lengths(&mut once), O::lengths(offsets, &mut again));
    assert_eq!(once, again);
    let (from, count) = (random.below(offsets.len() + 2), random.below(offsets.len() + 2));
    let (mut once, mut again) = (vec![O::default(); count], vec![O::default(); count]);
    assert_eq!(checked.rebase(from, &mut once), O::rebase(offsets, from, &mut again));
    assert_eq!(once, again);
}

/// All calls on offsets of one width.
fn offsets<O: Offset + Into<i128> + TryFrom<i128> + Default + PartialEq + std::fmt::Debug>(greatest: i128, seed: u64) {
    let mut random = Random::new(seed);
    for _ in 0..INPUTS {
        let numbers = random.numbers(greatest);
        let offsets: Vec<O> = numbers.iter().map(|n| O::try_from(*n).ok().unwrap()).collect();
        assert_eq!(O::check(&offsets), rule(&numbers));
        checked_once(&offsets, &mut random);

        let mut lengths = vec![7; random.near(numbers.len().saturating_sub(1))];
        let outcome =
            rule(&numbers).and_then(|()| if lengths.len() + 1 == numbers.len() { Ok(()) } else { Err(Error::Length) });
        let spans: Vec<usize> = numbers.windows(2).map(|pair| (pair[1] - pair[0]) as usize).collect();
        let wanted = if outcome.is_ok() { spans } else { lengths.clone() };
        assert_eq!((O::lengths(&offsets, &mut lengths), &lengths), (outcome, &wanted));

        let start = random.below(5);
        let mut sums = vec![O::default(); random.near(lengths.len() + 1)];
        let mut wanted = vec![start as i128];
        wanted.extend(lengths.iter().scan(start as i128, |sum, length| {
            *sum += *length as i128;
            Some(*sum)
        }));
        let outcome = match wanted.last() {
            _ if sums.len() != lengths.len() + 1 => Err(Error::Length),
            Some(last) if *last > greatest => Err(Error::Overflow),
            _ => Ok(()),
        };
        let untouched: Vec<i128> = vec![0; sums.len()];
        assert_eq!(O::from_lengths(start, &lengths, &mut sums), outcome);
        let sums: Vec<i128> = sums.into_iter().map(Into::into).collect();
        assert_eq!(sums, if outcome.is_ok() { wanted } else { untouched });

        let from = random.below(numbers.len() + 2);
        let mut moved = vec![O::default(); random.below(numbers.len() + 2)];
        let outcome = rule(&numbers).and_then(|()| match moved.len() {
            0 => Err(Error::Length),
            count if from + count > numbers.len() => Err(Error::Range),
            _ => Ok(()),
        });
        assert_eq!(O::rebase(&offsets, from, &mut moved), outcome);
        let moved: Vec<i128> = moved.into_iter().map(Into::into).collect();
        let wanted = match outcome {
            Ok(()) => numbers[from..from + moved.len()].iter().map(|n| n - numbers[from]).collect(),
            Err(_) => vec![0; moved.len()],
        };
        assert_eq!(moved, wanted);
    }
}

#[test]
fn offsets_of_32_bits() {
    offsets::<i32>(i128::from(i32::MAX), 6);
}

#[test]
fn offsets_of_64_bits() {
    offsets::<i64>(i128::from(i64::MAX), 7);
}

#[test]
fn widths() {
    let mut random = Random::new(8);
    for _ in 0..INPUTS {
        let numbers = random.numbers(1 << 33);
        let wide: Vec<i64> = numbers.iter().map(|n| *n as i64).collect();
        let mut out = vec![7; random.near(wide.len())];
        let outcome = rule(&numbers).and_then(|()| match numbers.last() {
            _ if out.len() != wide.len() => Err(Error::Length),
            Some(last) if *last > i128::from(i32::MAX) => Err(Error::Overflow),
            _ => Ok(()),
        });
        let wanted = if outcome.is_ok() { wide.iter().map(|n| *n as i32).collect() } else { out.clone() };
        assert_eq!((narrow(&wide, &mut out), &out), (outcome, &wanted));
        if outcome.is_ok() {
            let mut back = vec![0; out.len()];
            assert_eq!((widen(&out, &mut back), back), (Ok(()), wide));
        }
    }
}

/// The runs of set bits, each by its first index and its length.
fn plain_runs(bits: &[bool], from: usize) -> Vec<(usize, usize)> {
    let mut runs: Vec<(usize, usize)> = vec![];
    for position in (from..bits.len()).filter(|position| bits[*position]) {
        match runs.last_mut() {
            Some((start, length)) if *start + *length == position => *length += 1,
            _ => runs.push((position, 1)),
        }
    }
    runs
}

#[test]
fn runs_of_set_bits() {
    let mut random = Random::new(9);
    for _ in 0..INPUTS {
        let bytes = random.bytes();
        let (offset, length) = random.range(&bytes);
        let bits = Bits { bytes: &bytes, offset };
        let capacity = 1 + random.below(5);
        let (mut starts, mut lengths) = (vec![7; capacity], vec![7; random.near(capacity)]);
        let mut at = random.below(length.min(1 << 12) + 2);
        let begun = at;
        let Ok(items) = part(&bytes, offset, length).and_then(|b| if at <= length { Ok(b) } else { Err(Error::Range) })
        else {
            assert_eq!(runs(bits, length, &mut at, &mut starts, &mut lengths), Err(Error::Range));
            assert_eq!((at, starts), (begun, vec![7; capacity]));
            continue;
        };
        if lengths.len() != capacity {
            assert_eq!(runs(bits, length, &mut at, &mut starts, &mut lengths), Err(Error::Length));
            assert_eq!((at, starts), (begun, vec![7; capacity]));
            continue;
        }
        let mut outcome = vec![];
        loop {
            let count = runs(bits, length, &mut at, &mut starts, &mut lengths).unwrap();
            outcome.extend(starts.iter().copied().zip(lengths.iter().copied()).take(count));
            if count < capacity {
                break;
            }
        }
        assert_eq!(outcome, plain_runs(&items, begun));
    }
}

#[test]
fn indices_of_set_bits() {
    let mut random = Random::new(13);
    for _ in 0..INPUTS {
        let bytes = random.bytes();
        let (offset, length) = random.range(&bytes);
        let bits = Bits { bytes: &bytes, offset };
        let capacity = 1 + random.below(70);
        let mut indices = vec![7; capacity];
        let mut at = random.below(length.min(1 << 12) + 2);
        let begun = at;
        let Ok(items) = part(&bytes, offset, length).and_then(|b| if at <= length { Ok(b) } else { Err(Error::Range) })
        else {
            assert_eq!(set_indices(bits, length, &mut at, &mut indices), Err(Error::Range));
            assert_eq!((at, indices), (begun, vec![7; capacity]));
            continue;
        };
        let mut outcome = vec![];
        loop {
            let count = set_indices(bits, length, &mut at, &mut indices).unwrap();
            outcome.extend_from_slice(&indices[..count]);
            if count < capacity {
                break;
            }
        }
        assert_eq!(outcome, (begun..length).filter(|position| items[*position]).collect::<Vec<_>>());
        assert_eq!((set_indices(bits, length, &mut at, &mut indices), at), (Ok(0), length));
        assert_eq!(set_indices(bits, length, &mut at, &mut []), Ok(0));
    }
}

#[test]
fn booleans() {
    let mut random = Random::new(10);
    for _ in 0..INPUTS {
        let bytes = random.bytes();
        let (offset, length) = random.range(&bytes);
        let length = length.min(1 << 12);
        let mut items = vec![false; length];
        let outcome = part(&bytes, offset, length);
        let returned = unpack(Bits { bytes: &bytes, offset }, &mut items);
        assert_eq!((returned, &items), (outcome.clone().map(drop), outcome.as_ref().unwrap_or(&vec![false; length])));

        let items: Vec<bool> = (0..length).map(|_| random.flag()).collect();
        let mut out = random.out(length);
        let expected = written(Ok(items.clone()), length, &out);
        assert_eq!((pack(&items, &mut out), out), expected);
    }
}

#[test]
fn kleene() {
    let mut random = Random::new(11);
    for _ in 0..INPUTS {
        let stored: Vec<Vec<u8>> = (0..4).map(|_| random.bytes()).collect();
        let length = random.common_length(&stored);
        let bits: Vec<Bits<'_>> =
            stored.iter().map(|bytes| Bits { bytes, offset: random.offset(bytes, length) }).collect();
        let left = Nullable { values: bits[0], validity: bits[1] };
        let right = Nullable { values: bits[2], validity: bits[3] };
        let parts: Result<Vec<_>, _> = bits.iter().map(|bits| part(bits.bytes, bits.offset, length)).collect();
        // The operator, and the value that decides it alone.
        for decides in [false, true] {
            let (mut values, mut validity) = (random.out(length), random.out(length));
            let before = (values.clone(), validity.clone());
            let call = if decides { or_kleene } else { and_kleene };
            let returned = call(left, right, length, &mut values, &mut validity);
            let fits = [&before.0, &before.1].iter().all(|out| out.len() == bytes_for(length));
            match &parts {
                Ok(parts) if fits => {
                    assert_eq!(returned, Ok(()));
                    let (outcome, valid) = (part(&values, 0, length).unwrap(), part(&validity, 0, length).unwrap());
                    for i in 0..length {
                        let sides = [parts[1][i].then_some(parts[0][i]), parts[3][i].then_some(parts[2][i])];
                        let wanted = match sides {
                            _ if sides.contains(&Some(decides)) => Some(decides),
                            [Some(_), Some(_)] => Some(!decides),
                            _ => None,
                        };
                        assert_eq!(valid[i].then_some(outcome[i]), wanted);
                    }
                }
                _ => {
                    let error = if parts.is_ok() { Error::Length } else { Error::Range };
                    assert_eq!((returned, (values, validity)), (Err(error), before));
                }
            }
        }
    }
}
