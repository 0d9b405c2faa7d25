//! Indexes of sheets: every byte that a build leaves, and headers found by them, over sheets with one owner for every address
//! as the router answers, and by bytes that no build left.

use crate::lent::{hex, Lent};
use crate::tally::{Call, Tally};
use crate::typed;
use cartsundial::{calls, index_length, HostRecord, Index};
use inputs::random::Random;
use inputs::{aim, audit, board, damage, header, labels};
use std::fs;
use std::path::Path;

/// A record of a sheet with its length.
const RECORD: usize = 92;

pub fn compare(random: &mut Random, rounds: u64, tally: &mut Tally) {
    for _ in 0..30_000 * rounds {
        let (host, sheet) = audit::any(random, plan);
        let full = index_length(sheet.len() / RECORD);
        let length = match random.below(8) {
            0 => full - 1,
            1 => random.below(full as u64) as usize,
            2 | 3 => full + random.below(300) as usize,
            _ => full,
        };
        build(&host, &sheet, length, random, tally);
        // Sound ones are rare among any: a planned one with its ranges of other kinds is.
        let (host, sheet) = if random.chance(1, 2) { (host, sheet) } else { of_other_kinds(random) };
        if plain::sound(&host, &sheet) == 0 {
            let index = typed(&host, &sheet);
            for _ in 0..15 {
                over(&aim::header(&sheet, random), &index, random, tally);
            }
            over(&header::any(random), &index, random, tally);
        }
    }
    for _ in 0..5_000 * rounds {
        let (host, sheet) = audit::planned(random, plan);
        let bytes = damaged(typed(&host, &sheet).bytes().to_vec(), random);
        for _ in 0..20 {
            let _ = find(&aim::header(&sheet, random), &bytes, random, tally);
        }
    }
}

/// P10's board, boards of 512 functions with 16 and 32 bridges in a row, and sheets that real firmware left.
pub fn chosen(random: &mut Random, tally: &mut Tally) {
    for board in [board::p10(), labels::board(512, 16), labels::board(512, 32)] {
        let (host, sheet) = (board.host(), plan(&board.bytes()).unwrap());
        let full = index_length(sheet.len() / RECORD);
        for length in [full - 1, full, full + 1] {
            build(&host, &sheet, length, random, tally);
        }
        let index = typed(&host, &sheet);
        for header in labels::headers(&sheet, 10_000) {
            over(&header, &index, random, tally);
        }
        for _ in 0..2_000 {
            over(&aim::header(&sheet, random), &index, random, tally);
        }
    }
    // With its own numbers, so that those of the other parts stay.
    let random = &mut Random::new(8);
    for (host, sheet) in captures() {
        let index = typed(&host, &sheet);
        for _ in 0..2_000 {
            over(&aim::header(&sheet, random), &index, random, tally);
        }
    }
}

/// The host records and sheets of tests/audit that real firmware left, where every address has one owner.
pub fn captures() -> Vec<(Vec<u8>, Vec<u8>)> {
    let folder = Path::new(env!("CARGO_MANIFEST_DIR")).join("../../tests/audit");
    let read = |name: &str, end| fs::read(folder.join(name).with_extension(end)).unwrap();
    let captures = stored::CAPTURES.map(|name| (read(name, "host"), read(name, "sheet")));
    let sound: Vec<_> = captures.into_iter().filter(|(host, sheet)| plain::sound(host, sheet) == 0).collect();
    assert!(sound.iter().any(|(host, sheet)| plain::audit(host, sheet) == 51));
    sound
}

/// A planned sheet, its ranges of other kinds where they are.
fn of_other_kinds(random: &mut Random) -> (Vec<u8>, Vec<u8>) {
    let (host, mut sheet) = audit::planned(random, plan);
    audit::change_kinds(&mut sheet, random);
    (host, sheet)
}

pub fn plan(board: &[u8]) -> Option<Vec<u8>> {
    let mut room = vec![0; plain::FULL_SHEET];
    let length = plain::plan(board, &mut room).ok()?;
    room.truncate(length);
    Some(room)
}

/// The index of a sound sheet, in lent bytes and then in a vector of its own, without the host record the same.
pub fn typed<'a>(host: &[u8], sheet: &'a [u8]) -> Index<&'a [u8], Vec<u8>> {
    let host = HostRecord::from_bytes(host.try_into().unwrap());
    let mut bytes = vec![0xA5; index_length(sheet.len() / RECORD)];
    let lent = Index::sound(&host, sheet, &mut bytes[..]).unwrap();
    let owned = Index::sound(&host, sheet, vec![0x5A; lent.bytes().len()]).unwrap();
    assert!(lent.bytes() == owned.bytes() && lent.sheet() == owned.sheet());
    let alone = Index::alone(sheet, vec![0xC3; lent.bytes().len()]).unwrap();
    // Its root bus is the host's first, which a sheet without functions does not tell.
    assert!(alone.bytes() == owned.bytes() || alone.bytes().len() == index_length(0));
    if let Ok(accepted) = Index::build(&host, sheet, vec![0x3C; lent.bytes().len()]) {
        assert!(accepted.bytes() == owned.bytes());
    }
    owned
}

/// Other bytes in place of an index's, and often as many functions as they have room for, or one more.
pub fn damaged(mut index: Vec<u8>, random: &mut Random) -> Vec<u8> {
    match random.below(4) {
        0 => index = (0..random.below(5000)).map(|_| random.word() as u8).collect(),
        1 => damage::bytes(&mut index, random),
        _ => (0..1 + random.below(40)).for_each(|_| damage::bits(&mut index, random)),
    }
    if index.len() >= 2 && random.chance(1, 2) {
        let functions = index.len().saturating_sub(1024) / 256 + random.below(2) as usize;
        index[..2].copy_from_slice(&(functions as u16).to_le_bytes());
    }
    index
}

/// Builds by both in a slice of this length: of an accepted sheet, of a sound one, and of one without a host record.
fn build(host: &[u8], sheet: &[u8], length: usize, random: &mut Random, tally: &mut Tally) {
    let mut given = Lent::holding(host, random);
    let given_before = given.clone();
    let mut lent = Lent::holding(sheet, random);
    let lent_before = lent.clone();
    for call in [Call::Index, Call::IndexSound, Call::IndexAlone] {
        let mut index = Lent::bytes(length, random);
        let mut index_then = index.clone();
        let (number, returned) = match call {
            Call::Index => (
                plain::build(host, sheet, index_then.slice()),
                calls::index(given.slice(), lent.slice(), index.slice()),
            ),
            Call::IndexSound => {
                let number = plain::build_sound(host, sheet, index_then.slice());
                (number, calls::index_sound(given.slice(), lent.slice(), index.slice()))
            }
            _ => (plain::build_alone(sheet, index_then.slice()), calls::index_alone(lent.slice(), index.slice())),
        };
        tally.count(call, returned);
        assert_eq!(returned, number.into(), "{call:?} of {} for {}", hex(sheet), hex(host));
        let same = index == index_then && given == given_before && lent == lent_before;
        assert!(same, "{call:?} of {} for {}: what was lent", hex(sheet), hex(host));

        if let Ok(bytes) = host.try_into() {
            let host = HostRecord::from_bytes(bytes);
            let mut bytes_lent = vec![0; length];
            let typed = match call {
                Call::Index => Index::build(&host, sheet, &mut bytes_lent[..]),
                Call::IndexSound => Index::sound(&host, sheet, &mut bytes_lent[..]),
                _ => Index::alone(sheet, &mut bytes_lent[..]),
            };
            assert_eq!(typed.map_or_else(|refusal| refusal.number(), |_| 0), number);
        }
    }
}

/// Finds a header by the index of a sheet: by the library as by plain, and as the library's router.
fn over(header: &[u8], index: &Index<&[u8], Vec<u8>>, random: &mut Random, tally: &mut Tally) {
    let (sheet, bytes) = (index.sheet(), index.bytes());
    let answer = find(header, bytes, random, tally);
    answer.iter().for_each(|arrival| tally.arrived(arrival));
    let mut found = [0; calls::ANY_ROUTE];
    let mut routed = [0; calls::ANY_ROUTE];
    let numbers = (calls::find(header, bytes, &mut found), calls::route(header, sheet, &mut routed));
    assert!(numbers.0 == numbers.1 && found == routed, "find {} over {}: {numbers:?}", hex(header), hex(sheet));

    // The types take the packet from the header: it is the one that the numbers are.
    let typed = index.find(header).map_err(|refusal| refusal.number());
    let packet = typed.map(|arrival| arrival.packet().to_numbers());
    let expected = if numbers.0 == 0 { Ok(*found[2..].first_chunk().unwrap()) } else { Err(numbers.0 as u8) };
    assert_eq!(packet, expected, "find {} over {}", hex(header), hex(sheet));
    if random.chance(1, 4) {
        let same = match (typed, answer) {
            (Ok(typed), Ok(answer)) => typed::same(&typed, &answer, sheet),
            (typed, answer) => typed.err() == answer.err(),
        };
        assert!(same, "find {} over {}: {typed:?}, {answer:?}", hex(header), hex(sheet));
    }
}

/// Finds a header by any bytes, by both.
fn find(header: &[u8], index: &[u8], random: &mut Random, tally: &mut Tally) -> Result<plain::Arrival, u8> {
    let answer = plain::find(header, index);
    let numbers = answer.map(|arrival| arrival.numbers());
    let length = numbers.as_ref().map_or(calls::ROUTE, Vec::len);
    let asked = Asked { header, index, numbers: &numbers };
    asked.call(Lent::answer(length, random), random, tally);
    // A broadcast's answer alone is longer than a packet's.
    if let Ok(plain::Arrival::Every { .. }) = answer {
        for length in [length, length - 1, length + 1, calls::ROUTE] {
            asked.call(Lent::numbers(length, random), random, tally);
        }
    }
    answer
}

/// What is asked, and plain's answer.
struct Asked<'a> {
    header: &'a [u8],
    index: &'a [u8],
    numbers: &'a Result<Vec<u64>, u8>,
}

impl Asked<'_> {
    /// Asks the library, with this slice for its answer.
    fn call(&self, mut given: Lent<u64>, random: &mut Random, tally: &mut Tally) {
        let mut header = Lent::holding(self.header, random);
        let header_before = header.clone();
        let mut index = Lent::holding(self.index, random);
        let index_before = index.clone();
        let (number, given_then) = given.expected(self.numbers);
        let returned = calls::find(header.slice(), index.slice(), given.slice());
        tally.count(Call::Find, returned);
        assert_eq!(returned, number, "find {} by {}", hex(self.header), hex(self.index));
        let same = given == given_then && header == header_before && index == index_before;
        assert!(same, "find {} by {}: what was lent", hex(self.header), hex(self.index));
    }
}
