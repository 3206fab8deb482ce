//! The layout that a format describes.

/// How an array of a format is stored.
#[derive(Clone, Copy, Debug, PartialEq, Eq)]
pub enum Kind {
    /// No values: each item is null.
    Null,
    /// Bits.
    Boolean,
    /// Values of one width.
    Fixed,
    /// Byte strings.
    Bytes,
    /// Texts.
    Text,
    /// Lists, each from one offset to the next.
    List,
    /// Lists of one fixed size.
    FixedList,
    /// Fields side by side.
    Struct,
    /// Lists of keys and values.
    Map,
    /// Each slot has one of several types. Each child has an item for each slot.
    SparseUnion,
    /// Each slot has one of several types. Offsets point to the items of the children.
    DenseUnion,
}

impl Kind {
    /// The name in a path.
    #[must_use]
    pub fn name(self) -> &'static str {
        match self {
            Kind::Null => "null",
            Kind::Boolean => "boolean",
            Kind::Fixed => "fixed",
            Kind::Bytes => "bytes",
            Kind::Text => "text",
            Kind::List => "list",
            Kind::FixedList => "fixed_list",
            Kind::Struct => "struct",
            Kind::Map => "map",
            Kind::SparseUnion | Kind::DenseUnion => "union",
        }
    }
}

/// The layout of an array, by its format.
#[derive(Clone, Copy, Debug)]
pub struct Layout<'a> {
    /// How it is stored.
    pub kind: Kind,
    /// The bytes of a value or of an offset, or the items of a fixed-size list.
    pub size: usize,
    /// The letter of the format, if it is that of an integer: only integers may be indices of a dictionary.
    pub index: Option<u8>,
    /// The type numbers of a union as in the format, such as `5,7`. Empty for other arrays.
    pub types: &'a [u8],
    /// The number of buffers.
    pub buffers: usize,
    /// The number of children, `None` for any number.
    pub children: Option<usize>,
}

impl<'a> Layout<'a> {
    fn new(kind: Kind, size: usize, buffers: usize, children: usize) -> Self {
        Layout { kind, size, index: None, types: &[], buffers, children: Some(children) }
    }

    /// Reads a format; `None` where it is not known.
    #[must_use]
    pub fn read(format: &'a [u8]) -> Option<Self> {
        match format {
            [letter] => Self::of_letter(*letter),
            [b'+', nested @ ..] => Self::of_nested(nested),
            [b'w', b':', width @ ..] => Some(Self::new(Kind::Fixed, whole_number(width)?, 2, 0)),
            [b'd', b':', numbers @ ..] => Some(Self::new(Kind::Fixed, decimal(numbers)?, 2, 0)),
            [b't', b's', b's' | b'm' | b'u' | b'n', b':', ..] => Some(Self::new(Kind::Fixed, 8, 2, 0)),
            [b't', rest @ ..] => Some(Self::new(Kind::Fixed, temporal(rest)?, 2, 0)),
            _ => None,
        }
    }

    fn of_letter(letter: u8) -> Option<Self> {
        let size = match letter {
            b'c' | b'C' => 1,
            b's' | b'S' | b'e' => 2,
            b'i' | b'I' | b'f' => 4,
            b'l' | b'L' | b'g' => 8,
            b'n' => return Some(Self::new(Kind::Null, 0, 0, 0)),
            b'b' => return Some(Self::new(Kind::Boolean, 0, 2, 0)),
            b'z' => return Some(Self::new(Kind::Bytes, 4, 3, 0)),
            b'Z' => return Some(Self::new(Kind::Bytes, 8, 3, 0)),
            b'u' => return Some(Self::new(Kind::Text, 4, 3, 0)),
            b'U' => return Some(Self::new(Kind::Text, 8, 3, 0)),
            _ => return None,
        };
        let index = (!matches!(letter, b'e' | b'f' | b'g')).then_some(letter);
        Some(Layout { index, ..Self::new(Kind::Fixed, size, 2, 0) })
    }

    fn of_nested(format: &'a [u8]) -> Option<Self> {
        match format {
            b"l" => Some(Self::new(Kind::List, 4, 2, 1)),
            b"L" => Some(Self::new(Kind::List, 8, 2, 1)),
            b"s" => Some(Layout { children: None, ..Self::new(Kind::Struct, 0, 1, 0) }),
            b"m" => Some(Self::new(Kind::Map, 4, 2, 1)),
            [b'w', b':', items @ ..] => Some(Self::new(Kind::FixedList, whole_number(items)?, 1, 1)),
            [b'u', b's', b':', types @ ..] => {
                Some(Layout { types, ..Self::new(Kind::SparseUnion, 0, 1, count_types(types)?) })
            }
            [b'u', b'd', b':', types @ ..] => {
                Some(Layout { types, ..Self::new(Kind::DenseUnion, 0, 2, count_types(types)?) })
            }
            _ => None,
        }
    }

    /// Whether it is a union.
    #[must_use]
    pub fn is_union(&self) -> bool {
        matches!(self.kind, Kind::SparseUnion | Kind::DenseUnion)
    }

    /// Whether the first buffer of this layout is a validity. Its pointer may be null.
    #[must_use]
    pub fn has_validity(&self) -> bool {
        self.buffers > 0 && !self.is_union()
    }

    /// Which child has the items of each type of a union.
    #[must_use]
    pub fn child_of_types(&self) -> [Option<usize>; 128] {
        let mut child_of = [None; 128];
        for (child, number) in self.types.split(|byte| *byte == b',').enumerate() {
            if let Some(of_type) = whole_number(number).and_then(|it| child_of.get_mut(it)) {
                *of_type = Some(child);
            }
        }
        child_of
    }
}

/// A number without a sign, at most 2^31 - 1.
fn whole_number(digits: &[u8]) -> Option<usize> {
    if digits.is_empty() {
        return None;
    }
    digits.iter().try_fold(0_usize, |sum, digit| {
        let next = 10 * sum + usize::from(digit.checked_sub(b'0').filter(|it| *it < 10)?);
        (next <= 2_147_483_647).then_some(next)
    })
}

/// The number of bytes of a decimal, by the numbers of its format: precision, scale, and the bits if they are there.
fn decimal(numbers: &[u8]) -> Option<usize> {
    let mut parts = numbers.split(|byte| *byte == b',');
    let precision = whole_number(parts.next()?)?;
    let scale = parts.next()?;
    whole_number(scale.strip_prefix(b"-").unwrap_or(scale))?;
    let bits = parts.next().map_or(Some(128), whole_number)?;
    (precision > 0 && parts.next().is_none() && matches!(bits, 32 | 64 | 128 | 256)).then_some(bits / 8)
}

/// The bytes of a value of a date, a time, a duration or an interval.
fn temporal(rest: &[u8]) -> Option<usize> {
    match rest {
        b"dD" | b"ts" | b"tm" | b"iM" => Some(4),
        b"dm" | b"tu" | b"tn" | b"Ds" | b"Dm" | b"Du" | b"Dn" | b"iD" => Some(8),
        b"in" => Some(16),
        _ => None,
    }
}

/// Returns the number of types of a union, each from 0 to 127 and none twice.
fn count_types(types: &[u8]) -> Option<usize> {
    if types.is_empty() {
        return Some(0);
    }
    let mut named = [false; 128];
    let mut count = 0;
    for number in types.split(|byte| *byte == b',') {
        let of_type = named.get_mut(whole_number(number)?)?;
        if *of_type {
            return None;
        }
        *of_type = true;
        count += 1;
    }
    Some(count)
}
