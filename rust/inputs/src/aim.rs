//! Headers for what a sheet's registers name, and for what lies next to it.

use crate::damage;
use crate::header;
use crate::numbers::{self, Numbers, KIND, REQUESTER, TARGET};
use crate::random::Random;

const RECORD: usize = 92;

/// A header that is likely to find something on the sheet, or just to miss it.
pub fn header(sheet: &[u8], random: &mut Random) -> Vec<u8> {
    let count = sheet.len().saturating_sub(1) / RECORD;
    if count == 0 || random.chance(1, 24) {
        return header::any(random);
    }
    let record = &sheet[1 + RECORD * random.below(count as u64) as usize..][..RECORD];
    let packet = match random.below(12) {
        // Of any routing: mostly one that names nothing on the sheet.
        0 => numbers::message(random),
        1..=4 => by_id(sheet, record, random),
        _ => match range(record, random) {
            Some(range) => at_edge(range, random),
            None => by_id(sheet, record, random),
        },
    };
    let mut bytes = numbers::header(&packet);
    if random.chance(1, 32) {
        damage::bits(&mut bytes, random);
    }
    bytes
}

/// An ID that the sheet has, or one like it.
pub fn id(sheet: &[u8], random: &mut Random) -> u16 {
    let count = sheet.len().saturating_sub(1) / RECORD;
    if count == 0 || random.chance(1, 16) {
        return random.word() as u16;
    }
    near(&sheet[1 + RECORD * random.below(count as u64) as usize..][..RECORD], random)
}

/// The ID of the record, or one like it.
pub(crate) fn near(record: &[u8], random: &mut Random) -> u16 {
    let id = u16::from_be_bytes([record[2], record[3]]);
    match random.below(12) {
        0 => id ^ 1 << random.below(8),
        1 => id.wrapping_add(0x100),
        // On one of the buses that a bridge leads to, or just outside.
        2 | 3 => u16::from(record[4 + 0x19 + random.below(2) as usize]).wrapping_add(random.below(2) as u16) << 8,
        _ => id,
    }
}

/// A configuration request, a completion or a message.
fn by_id(sheet: &[u8], record: &[u8], random: &mut Random) -> Numbers {
    let id = near(record, random);
    match random.below(4) {
        0 => {
            let mut packet = numbers::completion(random);
            packet[REQUESTER] = id.into();
            return packet;
        }
        1 => {
            // Bytes 8 and 9 are the ID, whatever follows.
            let rest = if random.chance(1, 2) { 0 } else { random.word() >> 16 };
            return numbers::message_by(random, 0b010, u64::from(id) << 48 | rest);
        }
        _ => {}
    }
    let mut packet = numbers::configuration(random);
    packet[TARGET] = id.into();
    if random.chance(7, 8) {
        // The type that belongs to the target's bus.
        let is_type1 = u64::from(id >> 8 != u16::from(sheet[3]));
        packet[KIND] = 5 + random.below(2) + 2 * is_type1;
    }
    packet
}

/// A BAR or a window: whether it is I/O, its first address and its last.
pub(crate) type Range = (bool, u64, u64);

pub(crate) fn range(record: &[u8], random: &mut Random) -> Option<Range> {
    if record[4 + 0x0E] & 0x7F == 1 && random.chance(1, 2) {
        Some(window(record, random))
    } else {
        bar(record, random)
    }
}

fn window(record: &[u8], random: &mut Random) -> Range {
    let memory = |at, upper| upper << 32 | (register(record, at, 2) & 0xFFF0) << 16;
    match random.below(3) {
        0 => (true, (register(record, 0x1C, 1) & 0xF0) << 8, register(record, 0x1D, 1) << 8 | 0xFFF),
        1 => (false, memory(0x20, 0), memory(0x22, 0) | 0xF_FFFF),
        _ => {
            let (base, limit) = (register(record, 0x28, 4), register(record, 0x2C, 4));
            (false, memory(0x24, base), memory(0x26, limit) | 0xF_FFFF)
        }
    }
}

/// A BAR, from the first slot after a random one whose read-back is used.
fn bar(record: &[u8], random: &mut Random) -> Option<Range> {
    let start = random.below(6) as usize;
    let read_back = |slot: usize| {
        let at = 68 + 4 * slot;
        u32::from_be_bytes([record[at], record[at + 1], record[at + 2], record[at + 3]])
    };
    let slot = (0..6).map(|slot| (start + slot) % 6).find(|&slot| read_back(slot) != 0)?;
    let low = read_back(slot);
    let value = register(record, 0x10 + 4 * slot, 4);
    if low & 1 == 1 {
        let size = 1u64 << (low & 0xFFFC).trailing_zeros().min(16);
        return Some((true, value & !3, (value & !3) + size - 1));
    }
    let is_wide = low & 6 == 4 && slot < 5;
    let (upper, mask) = if is_wide {
        (register(record, 0x14 + 4 * slot, 4), u64::from(read_back(slot + 1)) << 32 | u64::from(low & !15))
    } else {
        (0, u64::from(low & !15))
    };
    let first = upper << 32 | value & !15;
    Some((false, first, first | ((1u64 << mask.trailing_zeros().min(63)) - 1)))
}

/// A request, or a message by address, for an edge of the range, for what lies inside it or next to it.
pub(crate) fn at_edge((is_io, first, last): Range, random: &mut Random) -> Numbers {
    let address = match random.below(9) {
        0 => first.wrapping_sub(4),
        1 => last.wrapping_add(1),
        2 => first,
        3 => last,
        // The same but for one bit, often a high one.
        4 => first ^ 1 << [random.below(64), 16 + random.below(16), 32 + random.below(32)][random.below(3) as usize],
        _ => first.wrapping_add(random.word() % last.wrapping_sub(first).max(1)),
    };
    // A message goes by memory address, also where the range is one of I/O.
    if random.chance(1, 4) {
        return numbers::message_by(random, 0b001, address);
    }
    numbers::request(random, is_io, address)
}

/// A little-endian register of the record.
fn register(record: &[u8], at: usize, width: usize) -> u64 {
    record[4 + at..][..width].iter().rev().fold(0, |number, &byte| number << 8 | u64::from(byte))
}
