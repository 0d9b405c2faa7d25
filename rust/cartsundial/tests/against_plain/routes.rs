//! Headers routed over sheets.

use crate::lent::{hex, Lent};
use crate::sheets;
use crate::tally::{Call, Tally};
use crate::typed;
use cartsundial::calls;
use inputs::random::Random;
use inputs::{aim, header};

pub fn compare(random: &mut Random, rounds: u64, tally: &mut Tally) {
    for _ in 0..50_000 * rounds {
        let mut sheet = sheets::any(random);
        for _ in 0..15 {
            route(&aim::header(&sheet, random), &sheet, random, tally);
        }
        // Command words as rewritten since.
        for _ in 0..2 {
            sheets::any_command(&mut sheet, random, tally);
            route(&aim::header(&sheet, random), &sheet, random, tally);
        }
        route(&header::any(random), &sheet, random, tally);
    }
}

pub fn route(header: &[u8], bytes: &[u8], random: &mut Random, tally: &mut Tally) {
    let answer = plain::route(header, bytes);
    let numbers = answer.map(|arrival| arrival.numbers());
    let length = numbers.as_ref().map_or(calls::ROUTE, Vec::len);
    let asked = Asked { header, sheet: bytes, numbers: &numbers };
    let given = Lent::answer(length, random);
    if asked.call(given, random, tally) == 0 {
        answer.iter().for_each(|arrival| tally.arrived(arrival));
    }
    // A broadcast's answer alone is longer than a packet's: into as many numbers, one less, one more, and into a packet's.
    if let Ok(plain::Arrival::Every { .. }) = answer {
        for length in [length, length - 1, length + 1, calls::ROUTE] {
            asked.call(Lent::numbers(length, random), random, tally);
        }
    }

    if random.chance(1, 4) {
        let typed = cartsundial::route(header, bytes);
        assert!(
            typed::same_answer(typed, answer, bytes),
            "route {} over {}: {typed:?}, {answer:?}",
            hex(header),
            hex(bytes)
        );
    }
}

/// What is asked, and plain's answer.
struct Asked<'a> {
    header: &'a [u8],
    sheet: &'a [u8],
    numbers: &'a Result<Vec<u64>, u8>,
}

impl Asked<'_> {
    /// Asks the library, with this slice for its answer, and returns its number.
    fn call(&self, mut given: Lent<u64>, random: &mut Random, tally: &mut Tally) -> u32 {
        let mut header = Lent::holding(self.header, random);
        let header_before = header.clone();
        let mut sheet = Lent::holding(self.sheet, random);
        let sheet_before = sheet.clone();
        let (number, given_then) = given.expected(self.numbers);
        let returned = calls::route(header.slice(), sheet.slice(), given.slice());
        tally.count(Call::Route, returned);
        assert_eq!(returned, number, "route {} over {}", hex(self.header), hex(self.sheet));
        let same = given == given_then && header == header_before && sheet == sheet_before;
        assert!(same, "route {} over {}: what was lent", hex(self.header), hex(self.sheet));
        returned
    }
}
