//! Random inputs, and the results of plain loops for them.
#![allow(dead_code)]

use arrow2_proved::{Error, bytes_for};

/// Numbers that look random, the same in each run (xorshift).
pub struct Random(u64);

impl Random {
    pub fn new(seed: u64) -> Random {
        Random(0x9e37_79b9_7f4a_7c15 ^ seed)
    }

    fn next(&mut self) -> u64 {
        self.0 ^= self.0 << 13;
        self.0 ^= self.0 >> 7;
        self.0 ^= self.0 << 17;
        self.0
    }

    /// A number below `bound`.
    pub fn below(&mut self, bound: usize) -> usize {
        (self.next() % bound.max(1) as u64) as usize
    }

    pub fn flag(&mut self) -> bool {
        self.next() & 1 == 1
    }

    /// Up to 40 bytes, one time in eight up to 200: all 0, all 255, or any.
    pub fn bytes(&mut self) -> Vec<u8> {
        let most = if self.below(8) == 0 { 200 } else { 40 };
        let count = self.below(most);
        match self.below(5) {
            0 => vec![0; count],
            1 => vec![255; count],
            _ => (0..count).map(|_| self.next() as u8).collect(),
        }
    }

    /// A bit offset and a length: inside three times of four, else past the end, some so far that their sum wraps.
    pub fn range(&mut self, bytes: &[u8]) -> (usize, usize) {
        let bits = 8 * bytes.len();
        let offset = self.below(bits + 1);
        let length = self.below(bits - offset + 1);
        match self.below(8) {
            0 => (offset, length + bits + 1),
            1 => (usize::MAX - self.below(9), length),
            _ => (offset, length),
        }
    }

    /// A bit's index: inside three times of four.
    pub fn position(&mut self, bytes: &[u8]) -> usize {
        match self.below(8) {
            0 => 8 * bytes.len() + self.below(9),
            1 => usize::MAX - self.below(9),
            _ => self.below(8 * bytes.len()),
        }
    }

    /// Bytes for `length` bits: with something in them, and one time in eight of another length.
    pub fn out(&mut self, length: usize) -> Vec<u8> {
        let count = self.near(bytes_for(length.min(1 << 12)));
        (0..count).map(|_| self.next() as u8).collect()
    }

    /// The number, or one time in eight another that is near.
    pub fn near(&mut self, count: usize) -> usize {
        if self.below(8) == 0 { self.below(count + 3) } else { count }
    }

    /// A length that all of these have, one time in eight a longer one.
    pub fn common_length(&mut self, stored: &[Vec<u8>]) -> usize {
        let least = stored.iter().map(|bytes| 8 * bytes.len()).min().unwrap_or(0);
        let length = self.below(least + 1);
        if self.below(8) == 0 { length + least } else { length }
    }

    /// An offset from which there are `length` bits, where the bytes have that many.
    pub fn offset(&mut self, bytes: &[u8], length: usize) -> usize {
        let offset = self.below((8 * bytes.len()).saturating_sub(length) + 1);
        // A whole byte one time of two: those go another way.
        if self.flag() { offset / 8 * 8 } else { offset }
    }

    /// Bytes with a copy of the bits of that range, one time of two with one of them flipped, and the offset of the
    /// copy. One time of eight they end before that.
    pub fn copy(&mut self, bytes: &[u8], offset: usize, length: usize) -> (Vec<u8>, usize) {
        let Ok(bits) = part(bytes, offset, length) else {
            return (self.bytes(), offset);
        };
        let start = self.below(20);
        let mut copied: Vec<u8> = (0..bytes_for(start + length)).map(|_| self.next() as u8).collect();
        let flipped = if self.flag() { self.below(length) } else { length };
        for (i, bit) in bits.into_iter().enumerate() {
            let position = start + i;
            copied[position / 8] &= !(1 << (position % 8));
            copied[position / 8] |= u8::from(bit != (i == flipped)) << (position % 8);
        }
        if self.below(8) == 0 {
            copied.pop();
        }
        (copied, start)
    }

    /// A table of `inputs` inputs, and now and then one with bits past its last output.
    pub fn table(&mut self, inputs: u32) -> u16 {
        let any = self.next() as u16;
        match (self.below(8), inputs) {
            (0, _) | (_, 4) => any,
            _ => any % (1 << (1 << inputs)),
        }
    }

    /// Offsets, or numbers that break one of their rules.
    pub fn numbers(&mut self, greatest: i128) -> Vec<i128> {
        let count = self.below(12);
        let step = if self.below(4) == 0 { greatest / 8 } else { 100 };
        let mut numbers = vec![];
        let mut last: i128 = self.below(10) as i128;
        for _ in 0..count {
            numbers.push(last);
            last = (last + i128::from(self.next()) % (step + 1)).min(greatest);
        }
        let at = self.below(count.max(1));
        match self.below(8) {
            0 if count > 0 => numbers[at] = -1,
            1 if count > 1 => numbers.swap(0, at),
            _ => {}
        }
        numbers
    }
}

/// The bits of a range as booleans.
pub fn part(bytes: &[u8], offset: usize, length: usize) -> Result<Vec<bool>, Error> {
    let end = offset.checked_add(length).filter(|end| *end <= 8 * bytes.len()).ok_or(Error::Range)?;
    Ok((offset..end).map(|i| bytes[i / 8] >> (i % 8) & 1 == 1).collect())
}

/// The result of a call that writes these bits, and the bytes of `out` afterwards.
pub fn written(bits: Result<Vec<bool>, Error>, length: usize, out: &[u8]) -> (Result<(), Error>, Vec<u8>) {
    let bits = match bits {
        Ok(bits) if out.len() == bytes_for(length) => bits,
        Ok(_) => return (Err(Error::Length), out.to_vec()),
        Err(error) => return (Err(error), out.to_vec()),
    };
    let mut bytes = vec![0; out.len()];
    for (i, bit) in bits.iter().enumerate() {
        bytes[i / 8] |= u8::from(*bit) << (i % 8);
    }
    (Ok(()), bytes)
}
