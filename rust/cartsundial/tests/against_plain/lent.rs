//! Slices that are lent to a call, with guards around them.

use inputs::random::Random;
use std::fmt::Write;

/// Elements before the slice, at the least, and after it.
const GUARD: usize = 8;

/// A slice inside a larger buffer, all of it filled at random.
#[derive(Clone, PartialEq, Eq)]
pub struct Lent<T> {
    buffer: Vec<T>,
    start: usize,
    length: usize,
}

impl<T: Copy> Lent<T> {
    fn filled(length: usize, random: &mut Random, element: impl Fn(u64) -> T) -> Lent<T> {
        let start = GUARD + random.below(8) as usize;
        let mut fill = Random::new(random.word());
        Lent { buffer: (0..start + length + GUARD).map(|_| element(fill.word())).collect(), start, length }
    }

    pub fn slice(&mut self) -> &mut [T] {
        &mut self.buffer[self.start..][..self.length]
    }

    /// The buffer as it should be after an answer was written to the front of the slice.
    pub fn with(&self, answer: &[T]) -> Lent<T> {
        let mut lent = self.clone();
        lent.slice()[..answer.len()].copy_from_slice(answer);
        lent
    }
}

impl Lent<u8> {
    pub fn bytes(length: usize, random: &mut Random) -> Lent<u8> {
        Lent::filled(length, random, |number| number as u8)
    }

    /// The same bytes at some other place.
    pub fn holding(bytes: &[u8], random: &mut Random) -> Lent<u8> {
        Lent::bytes(bytes.len(), random).with(bytes)
    }
}

impl Lent<u64> {
    pub fn numbers(length: usize, random: &mut Random) -> Lent<u64> {
        Lent::filled(length, random, |number| number)
    }

    /// A slice for an answer of so many numbers: mostly just as long, sometimes one shorter, any shorter, or longer.
    pub fn answer(length: usize, random: &mut Random) -> Lent<u64> {
        let length = match random.below(16) {
            0 => random.below(length as u64 + 1) as usize,
            1 => length - 1,
            2 | 3 => length + 1 + random.below(4) as usize,
            _ => length,
        };
        Lent::numbers(length, random)
    }

    /// What the call should return, and the buffer then, for an answer or a number: a slice too short is 11.
    pub fn expected(&self, answer: &Result<impl AsRef<[u64]>, u8>) -> (u32, Lent<u64>) {
        match answer.as_ref().map(AsRef::as_ref) {
            Ok(numbers) if numbers.len() <= self.length => (0, self.with(numbers)),
            Ok(_) => (11, self.clone()),
            Err(&number) => (number.into(), self.clone()),
        }
    }
}

pub fn hex(bytes: &[u8]) -> String {
    bytes.iter().fold(String::new(), |mut text, byte| {
        let _ = write!(text, "{byte:02X}");
        text
    })
}
