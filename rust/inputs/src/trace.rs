//! Traces for a sheet, whole and damaged, the pieces that they are fed in, and what the program `annotate` reads.

use crate::aim;
use crate::damage;
use crate::ends;
use crate::random::Random;

/// The length of the largest sheet.
const FULL_SHEET: u16 = 47_105;

/// A trace of these headers: the version byte, then each after its two-byte length.
pub fn of<H: AsRef<[u8]>>(headers: &[H]) -> Vec<u8> {
    let mut trace = vec![1];
    for header in headers.iter().map(AsRef::as_ref) {
        trace.extend((header.len() as u16).to_be_bytes());
        trace.extend(header);
    }
    trace
}

/// A trace whose records are whole, most of them headers that are likely to find something on the sheet.
pub fn whole(sheet: &[u8], random: &mut Random) -> Vec<u8> {
    whole_of(|random| aim::header(sheet, random), random)
}

fn whole_of(header: impl Fn(&mut Random) -> Vec<u8>, random: &mut Random) -> Vec<u8> {
    let count = if random.chance(1, 32) { random.below(300) } else { random.below(12) };
    of(&(0..count).map(|_| record(header(random), random)).collect::<Vec<_>>())
}

/// A record of 0 to 40 bytes, and seldom of more than 255: a header, whole, cut short or with bytes after it.
fn record(mut bytes: Vec<u8>, random: &mut Random) -> Vec<u8> {
    let length = match random.below(64) {
        0..=3 => 0,
        4..=7 => random.below(bytes.len() as u64 + 1) as usize,
        8..=23 => random.below(41) as usize,
        24 => 256 + random.below(700) as usize,
        _ => bytes.len().min(40),
    };
    bytes.truncate(length);
    bytes.resize_with(length, || random.word() as u8);
    bytes
}

/// A trace, whole or not: cut, with other bytes, of another version, or of no bytes.
pub fn any(sheet: &[u8], random: &mut Random) -> Vec<u8> {
    damaged(whole(sheet, random), random)
}

/// The same, most of its headers by functions of the sheet.
pub fn any_sent(host_id: u16, sheet: &[u8], random: &mut Random) -> Vec<u8> {
    damaged(whole_of(|random| ends::header(host_id, sheet, random), random), random)
}

fn damaged(mut trace: Vec<u8>, random: &mut Random) -> Vec<u8> {
    match random.below(16) {
        0 => trace.clear(),
        1 => trace[0] = random.word() as u8,
        2..=4 => trace.truncate(random.below(trace.len() as u64 + 1) as usize),
        5 => damage::bytes(&mut trace, random),
        6 => damage::bits(&mut trace, random),
        _ => {}
    }
    trace
}

/// The trace in pieces: one, one for each byte, or cut anywhere, some of them of no bytes.
pub fn pieces<'a>(trace: &'a [u8], random: &mut Random) -> Vec<&'a [u8]> {
    let longest = match random.below(6) {
        0 => return vec![trace],
        1 => 1,
        2 => 4,
        3 => 18,
        _ => trace.len().max(1),
    };
    let mut pieces = Vec::new();
    let mut rest = trace;
    while !rest.is_empty() || random.chance(1, 8) {
        let length = if random.chance(1, 8) { 0 } else { 1 + random.below(longest as u64) as usize };
        let (piece, after) = rest.split_at(length.min(rest.len()));
        pieces.push(piece);
        rest = after;
    }
    pieces
}

/// What the program reads: a sheet after its two-byte length, then a trace.
pub fn input(sheet: &[u8], trace: &[u8]) -> Vec<u8> {
    [&(sheet.len() as u16).to_be_bytes(), sheet, trace].concat()
}

/// The same, whole or not: cut, or with another length before the sheet, also one that no sheet has.
pub fn any_input(sheet: &[u8], random: &mut Random) -> Vec<u8> {
    let mut input = input(sheet, &any(sheet, random));
    let length = match random.below(16) {
        0 => {
            input.truncate(random.below(input.len() as u64 + 1) as usize);
            return input;
        }
        1 => {
            input.truncate(random.below(4) as usize);
            return input;
        }
        2 => sheet.len() as u16 ^ 1 << random.below(16),
        3 => FULL_SHEET - 1 + random.below(4) as u16,
        4 => random.word() as u16,
        _ => return input,
    };
    input[..2].copy_from_slice(&length.to_be_bytes());
    input
}
