//! The lines of the table.
//!
//! A new line is a call of crate `arrow2_bench`, in the export of its shape of inputs, its twin in `original` under
//! the same names, and an entry here, in the list of the crate whose call it measures. A new crate has a list of its
//! own, which [`all`] names.
use crate::c_library;
use crate::inputs::{again, near_parts, parts, Inputs, Part, LONG, MANY, NUMBERS};
use crate::layer::{original, ours};
use std::rc::Rc;

/// The number of runs that a call makes.
#[derive(Clone, Copy)]
pub enum Runs {
    /// None: it makes the inputs before the first run, and nothing else.
    None,
    /// All of them.
    All,
}

impl Runs {
    /// These of the runs.
    fn of<R>(self, runs: &[R]) -> &[R] {
        match self {
            Runs::None => &[],
            Runs::All => runs,
        }
    }
}

/// One side of a line: its result on some of the runs.
pub type Side<'a> = Box<dyn Fn(Runs) -> usize + 'a>;

/// A call of the layer next to the call of the original that it ports.
pub struct Line<'a> {
    pub name: String,
    /// The number of elements of all runs, and their name.
    pub elements: usize,
    pub unit: &'static str,
    pub ours: Side<'a>,
    pub original: Side<'a>,
}

impl<'a> Line<'a> {
    pub fn new<R: 'a>(
        name: impl Into<String>,
        (elements, unit): (usize, &'static str),
        runs: Vec<R>,
        ours: impl Fn(&[R]) -> usize + 'a,
        original: impl Fn(&[R]) -> usize + 'a,
    ) -> Line<'a> {
        let runs = Rc::new(runs);
        let same = Rc::clone(&runs);
        Line {
            name: name.into(),
            elements,
            unit,
            ours: Box::new(move |chosen| ours(chosen.of(&runs))),
            original: Box::new(move |chosen| original(chosen.of(&same))),
        }
    }
}

/// A line whose sides are the functions of one name in `ours` and in `original`, on the same inputs followed by the
/// same runs.
macro_rules! line {
    ($name:expr, $elements:expr, $call:ident($($input:expr),*), $runs:expr) => {
        Line::new(
            $name,
            $elements,
            $runs,
            move |runs| ours::$call($($input,)* runs),
            move |runs| original::$call($($input,)* runs),
        )
    };
}

/// The bits of the runs of a line on a long input.
const ALL: (usize, &str) = (16 * LONG, "bits");

/// The runs of a line on short inputs: each is one call.
const CALLS: (usize, &str) = (100_000, "calls");

/// Returns equal runs, one for each of the calls.
fn few(run: usize) -> Vec<usize> {
    vec![run; CALLS.0]
}

/// The bits of the runs of a line on three or four long inputs.
const TABLES: (usize, &str) = (4 * LONG, "bits");

/// All lines, each with the crate whose call it is: crate by crate, lowest first.
pub fn all(inputs: &Inputs) -> impl Iterator<Item = (&'static str, Line<'_>)> {
    let crates = [
        ("arrow2_index", index()),
        ("arrow2_chunk", chunk(inputs)),
        ("arrow2_bits", bits(inputs)),
        ("arrow2_bits", single_bits(inputs)),
        ("arrow2_bitmap", bitmaps(inputs)),
        ("arrow2_bitmap", equality(inputs)),
        ("arrow2_bitmap", copies(inputs)),
        ("arrow2_bitmap", iterators(inputs)),
        ("arrow2_bitmap", growing(inputs)),
        ("arrow2_bitmap", appending(inputs)),
        ("arrow2_bitmap", collected(inputs)),
        ("arrow2_walks", runs(inputs)),
        ("arrow2_walks", zips(inputs)),
        ("arrow2_kernels", operators(inputs)),
        ("arrow2_kernels", in_place(inputs)),
        ("arrow2_tables", tables(inputs)),
        ("arrow2_array", arrays(inputs)),
        ("arrow2_buffer", buffers(inputs)),
        ("arrow2_primitive", built(inputs)),
        ("arrow2_text", texts(inputs)),
        ("arrow2_compute", selected(inputs)),
        ("arrow2_numeric", computed(inputs)),
        ("arrow2_offset", offsets(inputs)),
        ("arrow2_offset", shared_offsets(inputs)),
        ("arrow2_ffi", c_library::lines(inputs)),
    ];
    crates.into_iter().flat_map(|(name, lines)| lines.into_iter().map(move |line| (name, line)))
}

fn index() -> Vec<Line<'static>> {
    vec![line!("IndexRange, iterated", (MANY, "numbers"), numbers("index_range"), vec![MANY])]
}

fn chunk(inputs: &Inputs) -> Vec<Line<'_>> {
    let words = inputs.numbers[..MANY / 64].iter().map(|word| *word as usize).collect();
    vec![line!("BitChunkOnes, iterated", (MANY, "bits"), numbers("ones"), words)]
}

fn bits(inputs: &Inputs) -> Vec<Line<'_>> {
    let bytes = &inputs.bytes;
    let on = |name, elements, call, parts| line!(name, elements, bits(call, bytes), parts);
    let long = |name, call, offset| on(name, ALL, call, again(offset, LONG, 16));
    let short = |name, call, len| on(name, (10_000, "counts"), call, near_parts(len, 10_000));
    vec![
        long("count_zeros", "count_zeros", 0),
        long("count_zeros, from bit 3", "count_zeros", 3),
        short("count_zeros of 40 bits", "count_zeros", 40),
        short("count_zeros of 1,000 bits", "count_zeros", 1_000),
        long("BitChunks of 64 bits", "words", 0),
        long("BitChunks of 64 bits, from bit 3", "words", 3),
        short("BitChunks of 64 bits, of 1,000 bits", "words", 1_000),
        long("BitChunks of 32 bits, from bit 3", "words_of_u32", 3),
        long("BitChunks of 8 bits, from bit 3", "words_of_u8", 3),
        line!(
            "BitChunksExactMut, by change_next",
            ALL,
            bytes("change_next", bytes),
            vec![LONG; 16]
        ),
    ]
}

fn single_bits(inputs: &Inputs) -> Vec<Line<'_>> {
    let Inputs { bytes, items, trues, positions, .. } = inputs;
    let some = (MANY, "bits");
    let iter = |name, offset| line!(name, some, bits("iter", bytes), again(offset, MANY, 1));
    let set = |name, items| line!(name, some, set_bit(bytes, items), positions.clone());
    vec![
        iter("BitmapIter, added up", 0),
        iter("BitmapIter, added up, from bit 3", 3),
        set("set_bit of random items, at random", items),
        set("set_bit of trues, at random", trues),
    ]
}

/// The part of this length that begins at this bit of the bytes.
const fn part(offset: usize, len: usize) -> [Part; 1] {
    [Part { offset, len }]
}

/// The parts of long bitmaps.
static FROM_0: [Part; 1] = part(0, LONG);
static FROM_3: [Part; 1] = part(3, LONG);
static FROM_5: [Part; 1] = part(5, LONG);
static FROM_8: [Part; 1] = part(8, LONG);

/// The first bits, and those from bit 3 on: enough for iterators that are slow.
static SOME_FROM_0: [Part; 1] = part(0, MANY);
static SOME_FROM_3: [Part; 1] = part(3, MANY);

/// The validity of all numbers.
static VALID_FROM_0: [Part; 1] = part(0, NUMBERS);
static VALID_FROM_3: [Part; 1] = part(3, NUMBERS);

/// The parts of short bitmaps.
static FIRST_40: [Part; 1] = part(0, 40);
static FIRST_64: [Part; 1] = part(0, 64);
static FIRST_1_000: [Part; 1] = part(0, 1_000);
static FIRST_8_192: [Part; 1] = part(0, 8_192);

fn bitmaps(inputs: &Inputs) -> Vec<Line<'_>> {
    let Inputs { bytes, positions, .. } = inputs;
    let slices = |name, least, most, count| {
        line!(name, (count, "slices"), bits("sliced", bytes), parts(LONG, least, most, count))
    };
    vec![
        line!("from_u8_slice", ALL, bytes("from_u8_slice", bytes), vec![LONG; 16]),
        line!(
            "from_u8_slice of 1,000 bits",
            CALLS,
            bytes("from_u8_slice", &bytes[..125]),
            few(1_000)
        ),
        line!("new_zeroed", ALL, numbers("new_zeroed"), vec![LONG; 16]),
        slices("sliced to any length", 0, LONG, 1_000),
        slices("sliced to 2,000 bits at most", 0, 2_000, 100_000),
        slices("sliced to all but 4,000 bits at most", LONG - 4_000, LONG, 5_000),
        line!("get, at random", (MANY, "items"), bytes("get", bytes), positions.clone()),
    ]
}

/// Whether bitmaps are equal.
fn equality(inputs: &Inputs) -> Vec<Line<'_>> {
    let Inputs { bytes, bytes_from_3, bytes_from_5, .. } = inputs;
    let on = |name, elements, (left, from), (right, to), runs| {
        line!(name, elements, pairs("equal", left, from, right, to), runs)
    };
    let long = |name, left, right| on(name, ALL, left, right, vec![0; 16]);
    let short = |name, part| on(name, CALLS, (bytes, part), (bytes, part), few(0));
    vec![
        long("==", (bytes, &FROM_0), (bytes, &FROM_0)),
        long("==, from bits 0 and 3", (bytes, &FROM_0), (bytes_from_3, &FROM_3)),
        long("==, from bits 3 and 5", (bytes_from_3, &FROM_3), (bytes_from_5, &FROM_5)),
        short("== of 64 bits", &FIRST_64),
        short("== of 1,000 bits", &FIRST_1_000),
    ]
}

/// Copies to be changed.
fn copies(inputs: &Inputs) -> Vec<Line<'_>> {
    let bytes = &inputs.bytes[..];
    let on = |name, elements, bytes, part, runs| {
        line!(name, elements, bitmaps("make_mut", bytes, part), runs)
    };
    let long = |name, part| on(name, ALL, bytes, part, vec![0; 16]);
    vec![
        long("make_mut of a shared one", &FROM_0),
        long("make_mut of a shared one, from bit 3", &FROM_3),
        long("make_mut of a shared one, from bit 8", &FROM_8),
        on("make_mut of a shared one of 1,000 bits", CALLS, &bytes[..125], &FIRST_1_000, few(0)),
    ]
}

fn iterators(inputs: &Inputs) -> Vec<Line<'_>> {
    let bytes = &inputs.bytes;
    let on =
        |name, elements, call, part, runs| line!(name, elements, bitmaps(call, bytes, part), runs);
    let some = |name, call, part| on(name, (MANY, "bits"), call, part, vec![0]);
    vec![
        some("iter, added up", "iter", &SOME_FROM_0),
        some("iter, added up, from bit 3", "iter", &SOME_FROM_3),
        on("iter of 64 bits", CALLS, "iter", &FIRST_64, few(0)),
        on("iter of 1,000 bits", CALLS, "iter", &FIRST_1_000, few(0)),
        some("iter, indices of set bits", "iter_places", &SOME_FROM_0),
        some("iter from the back", "iter_back", &SOME_FROM_3),
        line!(
            "iter, each eighth by nth",
            (bytes.len(), "items"),
            bytes("iter_nth", bytes),
            vec![8]
        ),
        some("Debug", "debug", &SOME_FROM_0),
    ]
}

fn growing(inputs: &Inputs) -> Vec<Line<'_>> {
    let Inputs { bytes, items, trues, .. } = inputs;
    let some = (MANY, "items");
    let push = |name, items| line!(name, some, bools("push", items), vec![MANY]);
    let set = |name, items| line!(name, some, set(bytes, items), vec![MANY]);
    vec![
        push("push of random items", items),
        push("push of trues", trues),
        line!("push of 64 items", CALLS, bools("push", items), few(64)),
        line!("pop", some, bytes("pop", bytes), vec![MANY]),
        set("set of random items", items),
        set("set of trues", trues),
    ]
}

/// Bits and items appended to the first items.
fn appending(inputs: &Inputs) -> Vec<Line<'_>> {
    let bytes = &inputs.bytes;
    let slice = |name, elements, own, parts| {
        line!(name, elements, append("extend_from_slice", own, bytes), parts)
    };
    let long = |name, own, offset, times| {
        slice(name, (times * LONG, "bits"), own, again(offset, LONG, times))
    };
    let constant = |name, elements: (usize, &'static str), len, times| {
        line!(name, elements, append("extend_constant", &[5], bytes), again(0, len, times))
    };
    vec![
        long("extend_from_slice", &[0], 0, 16),
        long("extend_from_slice, from bit 3", &[0], 3, 1),
        long("extend_from_slice, within a byte", &[5], 0, 1),
        long("extend_from_slice, within a byte from bit 3", &[5], 3, 1),
        slice("extend_from_slice of 64 bits, within a byte", CALLS, &[5], again(0, 64, CALLS.0)),
        slice("extend_from_slice of 200 bits", (10_000, "parts"), &[5], near_parts(200, 10_000)),
        constant("extend_constant", ALL, LONG, 16),
        constant("extend_constant of 4 items", CALLS, 4, CALLS.0),
        constant("extend_constant of 16 items", CALLS, 16, CALLS.0),
        constant("extend_constant of 200 items", CALLS, 200, CALLS.0),
    ]
}

/// Bitmaps of booleans, and of the items of iterators.
fn collected(inputs: &Inputs) -> Vec<Line<'_>> {
    let Inputs { items, numbers, .. } = inputs;
    let on = |name, elements, call, runs| line!(name, elements, bools(call, items), runs);
    vec![
        on("from_bools", (4 * MANY, "items"), "from_bools", vec![MANY; 4]),
        on("from_bools of 64 items", CALLS, "from_bools", few(64)),
        on("from_bools of 1,000 items", CALLS, "from_bools", few(1_000)),
        on("extend_from_bools", (4 * MANY, "items"), "extend_from_bools", vec![MANY; 4]),
        on("extend_from_bools of 64 items", CALLS, "extend_from_bools", few(64)),
        on("try_from_iter of booleans", (MANY, "items"), "try_from_iter", vec![MANY]),
        on("try_from_iter of 64 booleans", CALLS, "try_from_iter", few(64)),
        on("try_from_iter of 1,000 booleans", CALLS, "try_from_iter", few(1_000)),
        line!(
            "try_from_iter of comparisons",
            (8 * NUMBERS, "items"),
            words("comparisons", numbers),
            vec![NUMBERS; 8]
        ),
    ]
}

fn runs(inputs: &Inputs) -> Vec<Line<'_>> {
    let Inputs { bytes, bytes_of_runs, .. } = inputs;
    let on = |name, elements, bytes, part, runs| {
        line!(name, elements, bitmaps("slices", bytes, part), runs)
    };
    let some = |name, part| on(name, (MANY, "bits"), bytes, part, vec![0]);
    let long = |name, part| on(name, (LONG, "bits"), bytes_of_runs, part, vec![0]);
    vec![
        some("SlicesIterator", &SOME_FROM_0),
        some("SlicesIterator, from bit 3", &SOME_FROM_3),
        long("SlicesIterator of long runs", &FROM_0),
        long("SlicesIterator of long runs, from bit 3", &FROM_3),
        on("SlicesIterator of 64 bits", CALLS, bytes, &FIRST_64, few(0)),
        on("SlicesIterator of 1,000 bits", CALLS, bytes, &FIRST_1_000, few(0)),
    ]
}

fn zips(inputs: &Inputs) -> Vec<Line<'_>> {
    let Inputs { bytes, numbers, .. } = inputs;
    let on = |name, elements, call, part, run| {
        line!(name, (elements, "items"), zips(call, numbers, bytes, part), vec![run])
    };
    let all = |name, call, part| on(name, NUMBERS, call, part, 0);
    let by_nth = |name, step| on(name, NUMBERS / step, "nth", &VALID_FROM_0, step);
    vec![
        all("ZipValidity", "zip", &VALID_FROM_0),
        all("ZipValidity, from bit 3", "zip", &VALID_FROM_3),
        all("ZipValidityIter", "iter", &VALID_FROM_0),
        all("ZipValidityIter, from bit 3", "iter", &VALID_FROM_3),
        by_nth("ZipValidity by nth(1)", 2),
        by_nth("ZipValidity by nth(7)", 8),
        line!("Pieces, cut in halves", (1_000, "cuts"), bytes("pieces", bytes), vec![1_000]),
    ]
}

/// New bitmaps of two, and of one.
fn operators(inputs: &Inputs) -> Vec<Line<'_>> {
    let Inputs { bytes, bytes_from_3, bytes_from_5, .. } = inputs;
    let of_two = |name, elements, call, (left, from), (right, to), runs| {
        line!(name, elements, pairs(call, left, from, right, to), runs)
    };
    let long = |name, call, left, right| of_two(name, ALL, call, left, right, vec![0; 16]);
    let short =
        |name, part| of_two(name, CALLS, "and", (bytes, part), (bytes_from_5, part), few(0));
    let of_one =
        |name, elements, call, part, runs| line!(name, elements, bitmaps(call, bytes, part), runs);
    vec![
        long("and", "and", (bytes, &FROM_0), (bytes_from_5, &FROM_0)),
        short("and of 64 bits", &FIRST_64),
        short("and of 1,000 bits", &FIRST_1_000),
        long("and, from bits 3 and 5", "and", (bytes_from_3, &FROM_3), (bytes, &FROM_5)),
        long("|", "or", (bytes, &FROM_0), (bytes_from_5, &FROM_0)),
        long("^", "xor", (bytes, &FROM_0), (bytes_from_5, &FROM_0)),
        of_one("!", ALL, "not", &FROM_0, vec![0; 16]),
        of_one("unary", ALL, "unary", &FROM_0, vec![0; 16]),
        of_one("unary, from bit 3", ALL, "unary", &FROM_3, vec![0; 16]),
        of_one("unary of 64 bits", CALLS, "unary", &FIRST_64, few(0)),
        of_one("unary of 1,000 bits", CALLS, "unary", &FIRST_1_000, few(0)),
    ]
}

/// Bitmaps changed in place, by another one and by tables.
fn in_place(inputs: &Inputs) -> Vec<Line<'_>> {
    let Inputs { bytes, bytes_from_5, .. } = inputs;
    let on = |name, elements, call, part: &'static [Part; 1], runs| {
        let own = &bytes_from_5[..part[0].len / 8];
        line!(name, elements, assign(call, own, bytes, part), runs)
    };
    let long = |name, call, part| on(name, ALL, call, part, vec![0; 16]);
    let short = |name, call, part| on(name, CALLS, call, part, few(0));
    vec![
        long("binary_assign", "xor_assign", &FROM_0),
        long("binary_assign, from bit 3", "xor_assign", &FROM_3),
        long("binary_assign of u8", "xor_assign_by_bytes", &FROM_0),
        long("binary_assign of u8, from bit 3", "xor_assign_by_bytes", &FROM_3),
        long("&=", "and_assign", &FROM_0),
        short("&= of 40 bits", "and_assign", &FIRST_40),
        short("&= of 64 bits", "and_assign", &FIRST_64),
        short("&= of 1,000 bits", "and_assign", &FIRST_1_000),
        short("&= of 8,192 bits", "and_assign", &FIRST_8_192),
        long("binary_assign_table", "binary_assign_table", &FROM_0),
        short("binary_assign_table of 40 bits", "binary_assign_table", &FIRST_40),
        short("binary_assign_table of 8,192 bits", "binary_assign_table", &FIRST_8_192),
        long("unary_assign_table", "unary_assign_table", &FROM_0),
        short("unary_assign_table of 40 bits", "unary_assign_table", &FIRST_40),
        short("unary_assign_table of 8,192 bits", "unary_assign_table", &FIRST_8_192),
    ]
}

fn tables(inputs: &Inputs) -> Vec<Line<'_>> {
    let Inputs { bytes, bytes_from_3, bytes_from_5, bytes_of_runs, .. } = inputs;
    let on = |name, call, part| {
        line!(
            name,
            TABLES,
            tables(call, bytes, bytes_from_3, bytes_from_5, bytes_of_runs, part),
            vec![0; 4]
        )
    };
    vec![
        on("ternary_table", "ternary_table", &FROM_0),
        on("ternary_table, from bit 3", "ternary_table", &FROM_3),
        on("quaternary_table", "quaternary_table", &FROM_0),
        on("quaternary_table, from bit 3", "quaternary_table", &FROM_3),
    ]
}

/// No validity of an array.
const NONE: &[u8] = &[];

fn arrays(inputs: &Inputs) -> Vec<Line<'_>> {
    let Inputs { bytes, bytes_from_3, bytes_from_5, bytes_of_runs, .. } = inputs;
    let line = |name, left, right, elements, part, runs| {
        line!(name, elements, tables("and_kleene", bytes, left, bytes_from_5, right, part), runs)
    };
    let long = |name, left, right, part| line(name, left, right, TABLES, part, vec![0; 4]);
    let short = |name, left, right| line(name, left, right, CALLS, &FIRST_1_000, few(0));
    let (left, right) = (&bytes_from_3[..], &bytes_of_runs[..]);
    vec![
        long("and_kleene, validity on both sides", left, right, &FROM_0),
        long("and_kleene, validity on both sides, from bit 3", left, right, &FROM_3),
        long("and_kleene, validity on one side", left, NONE, &FROM_0),
        long("and_kleene, no validity", NONE, NONE, &FROM_0),
        short("and_kleene of 1,000 bits, validity on both sides", left, right),
        short("and_kleene of 1,000 bits, validity on one side", left, NONE),
        short("and_kleene of 1,000 bits, no validity", NONE, NONE),
    ]
}

fn buffers(inputs: &Inputs) -> Vec<Line<'_>> {
    let numbers = &inputs.numbers;
    let all = (8 * NUMBERS, "items");
    let on = |name, elements, call, parts| line!(name, elements, buffer(call, numbers), parts);
    let whole = || again(0, NUMBERS, 8);
    let collect = |name, elements, len, times| {
        line!(name, elements, words("products", numbers), vec![len; times])
    };
    let calls = |name, len, times| collect(name, (times, "calls"), len, times);
    let without_hint = |name, len, times| {
        line!(name, (times, "calls"), words("nonzero", numbers), vec![len; times])
    };
    vec![
        on("clone and sliced", (100_000, "slices"), "sliced", parts(NUMBERS, 0, NUMBERS, 100_000)),
        on("into_iter", all, "into_iter", whole()),
        on("as_slice, iterated", all, "as_slice", whole()),
        collect("try_from_iter", all, NUMBERS, 8),
        calls("try_from_iter of 8 items", 8, CALLS.0),
        calls("try_from_iter of 100 items", 100, CALLS.0),
        calls("try_from_iter of 300 items", 300, 10_000),
        calls("try_from_iter of 1,000 items", 1_000, 3_000),
        calls("try_from_iter of 10,000 items", 10_000, 300),
        calls("try_from_iter of 100,000 items", 100_000, 30),
        without_hint("try_from_iter of 1,000 items, no size hint", 1_000, 3_000),
        without_hint("try_from_iter of 100,000 items, no size hint", 100_000, 30),
    ]
}

fn offsets(inputs: &Inputs) -> Vec<Line<'_>> {
    let Inputs { slots, slots_of_64, offsets, .. } = inputs;
    let all = (8 * NUMBERS, "offsets");
    let on = |name, elements, call, runs| line!(name, elements, slot(call, slots), runs);
    let all_of = |name, call| on(name, all, call, vec![NUMBERS; 8]);
    let lengths =
        |name, len, times| on(name, (times, "calls"), "try_from_lengths", vec![len; times]);
    let push = |name, elements, runs| line!(name, elements, longs("try_push", slots_of_64), runs);
    vec![
        all_of("try_from_lengths", "try_from_lengths"),
        lengths("try_from_lengths of 10 lengths", 10, CALLS.0),
        lengths("try_from_lengths of 100 lengths", 100, CALLS.0),
        lengths("try_from_lengths of 300 lengths", 300, 10_000),
        lengths("try_from_lengths of 1,000 lengths", 1_000, 3_000),
        lengths("try_from_lengths of 10,000 lengths", 10_000, 300),
        lengths("try_from_lengths of 100,000 lengths", 100_000, 30),
        all_of("try_extend_from_lengths, with capacity", "extend_from_lengths"),
        push("try_push", all, vec![NUMBERS; 8]),
        push("try_push of 64 lengths", CALLS, few(64)),
        line!("a vector, checked", all, longs("try_from", offsets), vec![NUMBERS; 8]),
    ]
}

/// Calls on buffers of offsets.
fn shared_offsets(inputs: &Inputs) -> Vec<Line<'_>> {
    let Inputs { offsets, offsets_of_32, positions, .. } = inputs;
    let all = (8 * NUMBERS, "offsets");
    let on = |name, elements, call, parts| line!(name, elements, offset(call, offsets), parts);
    let whole = || again(0, NUMBERS + 1, 8);
    vec![
        on("try_extend_from_slice", all, "extend_from_slice", whole()),
        on("lengths, added up", all, "lengths", whole()),
        line!(
            "start_end, at random",
            (positions.len(), "slots"),
            longs("start_end", offsets),
            positions.clone()
        ),
        on("clone and sliced", (100_000, "slices"), "sliced", parts(NUMBERS, 1, NUMBERS, 100_000)),
        line!("widened to 64 bits", all, widen(offsets_of_32), vec![0; 8]),
    ]
}

/// The items of a short column.
const FEW: usize = 100;

/// The size of a line on a column, and whether it has nulls.
struct Size<'a> {
    name: &'static str,
    len: usize,
    validity: &'a [u8],
    times: usize,
    elements: (usize, &'static str),
}

/// Columns of a million items and of 100, without nulls and with nulls.
fn sizes(inputs: &Inputs) -> [Size<'_>; 4] {
    let nulls = |items: usize| &inputs.bytes[..items.div_ceil(8)];
    let many = |name, validity| Size {
        name,
        len: MANY,
        validity,
        times: 4,
        elements: (4 * MANY, "items"),
    };
    let few = |name, validity| Size {
        name,
        len: FEW,
        validity,
        times: 10_000,
        elements: (10_000, "calls"),
    };
    [
        many("", NONE),
        many(", with nulls", nulls(MANY)),
        few(" of 100 items", NONE),
        few(" of 100 items, with nulls", nulls(FEW)),
    ]
}

fn built(inputs: &Inputs) -> Vec<Line<'_>> {
    let Inputs { values, items, trues, .. } = inputs;
    let line = |name, valid, elements, runs| line!(name, elements, options(values, valid), runs);
    vec![
        line("built from options", trues, (4 * MANY, "items"), vec![MANY; 4]),
        line("built from options, with nulls", items, (4 * MANY, "items"), vec![MANY; 4]),
        line("built from 100 options", trues, (10_000, "calls"), vec![FEW; 10_000]),
        line("built from 100 options, with nulls", items, (10_000, "calls"), vec![FEW; 10_000]),
    ]
}

fn selected(inputs: &Inputs) -> Vec<Line<'_>> {
    let Inputs { values, bytes_from_3, bytes_of_few, bytes_of_runs, indices, .. } = inputs;
    let masks = [
        ("filter by half", &bytes_from_3[..]),
        ("filter by one in a hundred", &bytes_of_few[..]),
        ("filter by long runs", &bytes_of_runs[..]),
    ];
    let mut lines = Vec::new();
    for Size { name: size, len, validity, times, elements } in sizes(inputs) {
        for (name, mask) in masks {
            let (values, runs) = (&values[..len], vec![len; times]);
            let name = format!("{name}{size}");
            lines.push(line!(name, elements, columns("filter", values, validity, mask), runs));
        }
        let (name, runs) = (format!("take at random{size}"), vec![len; times]);
        let indices: &[usize] = if len == MANY { indices } else { &SHUFFLED };
        lines.push(line!(name, elements, take(&values[..len], validity, indices), runs));
    }
    lines
}

/// The indices of 100 items in another order.
static SHUFFLED: [usize; FEW] = shuffled();

const fn shuffled() -> [usize; FEW] {
    let mut indices = [0; FEW];
    let mut index = 0;
    while index < FEW {
        indices[index] = index * 37 % FEW;
        index += 1;
    }
    indices
}

fn computed(inputs: &Inputs) -> Vec<Line<'_>> {
    let Inputs { values, bytes, .. } = inputs;
    let mut lines = Vec::new();
    for Size { name: size, len, validity, times, elements } in sizes(inputs) {
        for call in ["lt_scalar", "lt", "sum", "min"] {
            let (values, runs) = (&values[..len], vec![len; times]);
            let name = format!("{call}{size}");
            lines.push(line!(name, elements, columns(call, values, validity, bytes), runs));
        }
    }
    // Next to it the page shows how many bytes a nanosecond these calls read.
    let (elements, runs) = ((4 * MANY, "items"), vec![MANY; 4]);
    lines.push(line!(COPY, elements, columns("copy", values, NONE, bytes), runs));
    lines
}

/// The line of a copy of the values.
pub const COPY: &str = "a copy of the values";

fn texts(inputs: &Inputs) -> Vec<Line<'_>> {
    let Inputs { many_offsets, many_texts, bytes_from_3, .. } = inputs;
    let calls = [
        ("try_new, which tests that each is UTF-8", "try_new"),
        ("push of each", "push"),
        ("extend_from_options", "options"),
        ("compared with one", "compared"),
        ("sliced and compared", "sliced"),
        ("filter by half", "filter"),
        ("non_null_values_iter", "values"),
        ("min_binary", "least"),
    ];
    let mut lines = Vec::new();
    for Size { name: size, len, validity, times, elements } in sizes(inputs) {
        let offsets = &many_offsets[..=len];
        let bytes = &many_texts[..offsets[len] as usize];
        for (name, call) in calls {
            let (name, runs) = (format!("{name}{size}"), vec![len; times]);
            let mask = &bytes_from_3[..];
            lines.push(line!(name, elements, texts(call, bytes, offsets, validity, mask), runs));
        }
    }
    lines
}
