//! The calls of the library for C and Rust, on 8 KiB and on 64 bytes: by crate `arrow2-proved`, as users of Rust call
//! it.
//!
//! A new line is a function of one name in `ours` and in `original`, on the same inputs followed by the same runs, and
//! its name in a list below.
mod inputs;
mod original;
mod ours;

use crate::inputs::Inputs;
use crate::lines::Line;
use inputs::{FourBits, Slots};
use std::rc::Rc;

/// The number of bits of 8 KiB and of 64 bytes.
const MUCH: usize = 1 << 16;
const LITTLE: usize = 1 << 9;

/// A million, in round binary figures.
const MILLION: usize = 1 << 20;

/// The bit offsets of the inputs of a line.
const AT_0: [usize; 4] = [0; 4];
const AT_3: [usize; 4] = [3, 5, 1, 6];

/// One side of a call: its results for the runs, on these inputs.
type Side<I> = fn(&I, &[usize]) -> usize;

/// A call: its name, ours and the original's.
type Call<I> = (&'static str, Side<I>, Side<I>);

/// The calls of these names.
macro_rules! calls {
    ($($call:ident),* $(,)?) => {
        [$((stringify!($call), ours::$call, original::$call)),*]
    };
}

/// All lines.
pub fn lines(inputs: &Inputs) -> Vec<Line<'_>> {
    let mut lines = single_bits(inputs);
    lines.extend(bits(inputs));
    lines.extend(iterators(inputs));
    lines.extend(booleans(inputs));
    lines.extend(offsets(inputs));
    lines
}

/// The line of a call on the inputs that `on` names.
fn line<'a, I: ?Sized + 'a>(
    (name, ours, original): Call<I>,
    on_name: &str,
    on: &Rc<I>,
    (each, unit): (usize, &'static str),
    runs: Vec<usize>,
) -> Line<'a> {
    let (left, right) = (Rc::clone(on), Rc::clone(on));
    let elements = (each * runs.len(), unit);
    Line::new(
        format!("{name}{on_name}"),
        elements,
        runs,
        move |runs| ours(&left, runs),
        move |runs| original(&right, runs),
    )
}

/// How often a call on `bits` bits is made for one measurement: so often that making the inputs, whose time is taken off,
/// takes little of it.
fn times(bits: usize) -> usize {
    (1 << 24) / (bits + 1_000)
}

/// The inputs of lines on bits, with their names: from bit 0 and at other bits.
fn four_bits(inputs: &Inputs) -> [(&'static str, Rc<FourBits<'_>>); 4] {
    let on = |offsets, len| Rc::new(FourBits::new(inputs, offsets, len));
    [
        (" of 8 KiB", on(AT_0, MUCH)),
        (" of 8 KiB, from bit 3", on(AT_3, MUCH)),
        (" of 64 bytes", on(AT_0, LITTLE)),
        (" of 64 bytes, from bit 3", on(AT_3, LITTLE)),
    ]
}

fn single_bits(inputs: &Inputs) -> Vec<Line<'_>> {
    let on = Rc::new(FourBits::new(inputs, AT_0, MUCH));
    let positions = &inputs.positions[..MUCH];
    let calls: [Call<FourBits>; 3] = calls![get_bit, get_bit_inline, set_bit];
    let line = |call| line(call, ", at random", &on, (1, "items"), positions.to_vec());
    calls.into_iter().map(line).collect()
}

fn bits(inputs: &Inputs) -> Vec<Line<'_>> {
    let calls: [Call<FourBits>; 13] = calls![
        count_zeros,
        copy_bits,
        unary_table,
        binary_table,
        ternary_table,
        quaternary_table,
        unary_assign_table,
        binary_assign_table,
        ternary_assign_table,
        quaternary_assign_table,
        and_kleene,
        or_kleene,
        and_kleene_optional,
    ];
    let mut lines = equal(inputs);
    lines.extend(on_bits(&calls, &four_bits(inputs), times));
    lines
}

/// The lines of calls on bits, each made `times` for one time.
fn on_bits<'a>(
    calls: &[Call<FourBits<'a>>],
    on: &[(&str, Rc<FourBits<'a>>)],
    times: fn(usize) -> usize,
) -> Vec<Line<'a>> {
    let mut lines = vec![];
    for call in calls {
        for (name, on) in on {
            let runs = vec![on.len; times(on.len)];
            lines.push(line(*call, name, on, (on.len, "bits"), runs));
        }
    }
    lines
}

fn equal(inputs: &Inputs) -> Vec<Line<'_>> {
    let all = [
        (" of 8 KiB", MUCH, false),
        (" of 8 KiB, from bits 3 and 5", MUCH, true),
        (" of 64 bytes", LITTLE, false),
        (" of 64 bytes, from bits 3 and 5", LITTLE, true),
    ];
    let call: Call<FourBits> = ("equal_bits", ours::equal_bits, original::equal_bits);
    let line = |(name, len, is_moved)| {
        let on = Rc::new(FourBits::same(inputs, len, is_moved));
        line(call, name, &on, (len, "bits"), vec![len; times(len)])
    };
    all.into_iter().map(line).collect()
}

/// Calls that take some time for each bit.
fn iterators(inputs: &Inputs) -> Vec<Line<'_>> {
    let calls: [Call<FourBits>; 3] = calls![runs, set_indices, unpack];
    on_bits(&calls, &four_bits(inputs), |bits| times(bits) / 8)
}

fn booleans(inputs: &Inputs) -> Vec<Line<'_>> {
    let line = |(name, len): (&str, usize)| {
        let on: Rc<[bool]> = Rc::from(&inputs.items[..len]);
        let call: Call<[bool]> = ("pack", ours::pack, original::pack);
        line(call, name, &on, (len, "items"), vec![len; times(len)])
    };
    [(" of 65,536 booleans", MUCH), (" of 512 booleans", LITTLE)].into_iter().map(line).collect()
}

fn offsets(inputs: &Inputs) -> Vec<Line<'_>> {
    let small: [Call<Slots>; 8] = calls![
        offsets32_check,
        texts32_check,
        offsets32_lengths,
        offsets32_lengths_unchecked,
        offsets32_from_lengths,
        offsets32_rebase,
        offsets32_rebase_unchecked,
        offsets_widen,
    ];
    let large: [Call<Slots>; 8] = calls![
        offsets64_check,
        texts64_check,
        offsets64_lengths,
        offsets64_lengths_unchecked,
        offsets64_from_lengths,
        offsets64_rebase,
        offsets64_rebase_unchecked,
        offsets_narrow,
    ];
    let on = |bits, width| (bits, Rc::new(Slots::new(inputs, bits / width)));
    let mut lines = on_slots(&small, &[on(MUCH, 32), on(LITTLE, 32)]);
    lines.extend(on_slots(&large, &[on(MUCH, 64), on(LITTLE, 64)]));
    lines.extend(checks(inputs));
    lines
}

/// The lines of checks of a million slots.
fn checks(inputs: &Inputs) -> Vec<Line<'_>> {
    let calls: [Call<Slots>; 4] =
        calls![offsets32_check, texts32_check, offsets64_check, texts64_check];
    let on = Rc::new(Slots::repeated(inputs, MILLION / inputs.slots.len()));
    let count = on.offsets64.len();
    let line = |call| line(call, " of a million slots", &on, (count, "offsets"), vec![count]);
    calls.into_iter().map(line).collect()
}

/// The lines of calls on offsets, each on 8 KiB and on 64 bytes of them.
fn on_slots<'a>(calls: &[Call<Slots>], on: &[(usize, Rc<Slots>); 2]) -> Vec<Line<'a>> {
    let [much, little] = on;
    let line = |call: &Call<Slots>, name, (bits, on): &(usize, Rc<Slots>)| {
        let count = on.lengths.len() + 1;
        line(*call, name, on, (count, "offsets"), vec![count; times(*bits)])
    };
    let both = |call| [line(call, " of 8 KiB", much), line(call, " of 64 bytes", little)];
    calls.iter().flat_map(both).collect()
}
