//! Random sheets: ones that no planner wrote, and planned ones with other registers.

use crate::board::{self, LEAST_MEMORY_BIT, MOST_FUNCTIONS, TYPE_BITS};
use crate::damage;
use crate::foreign::{self, Record};
use crate::random::Random;

/// A record with its two-byte length, and where its read-backs start.
const RECORD: usize = 92;
const READ_BACKS: usize = 68;

/// A sheet that no planner wrote. Most pass their checks, and many addresses have two claims or none.
pub fn foreign(random: &mut Random) -> Vec<u8> {
    let count = match random.below(64) {
        0 => return chain(random),
        1 => 0,
        2 => 250 + random.below(9),
        _ => 1 + random.below(16),
    };
    let root = random.below(4) as u8 * 63;
    let mut buses = vec![root];
    let mut taken: Vec<u16> = Vec::new();
    let mut records = Vec::new();
    for _ in 0..count {
        let bus =
            if random.chance(1, 16) { random.word() as u8 } else { buses[random.below(buses.len() as u64) as usize] };
        let id = u16::from_be_bytes([bus, random.word() as u8]);
        if taken.contains(&id) && random.chance(31, 32) {
            continue;
        }
        taken.push(id);
        let record = if random.chance(2, 5) && bus < 255 {
            let secondary = bus + 1 + random.below(u64::from(255 - bus).min(3)) as u8;
            let subordinate = secondary.saturating_add(random.below(5) as u8);
            buses.push(secondary);
            windows(Record::bridge(id, secondary, subordinate), random)
        } else {
            Record::end(id)
        };
        let record = bars(record, random);
        records.push(others(record, random));
    }
    foreign::sheet(&records)
}

/// Up to 255 bridges in a row with all windows open, and a function behind the last.
fn chain(random: &mut Random) -> Vec<u8> {
    let bridges = if random.chance(1, 2) { 255 } else { 1 + random.below(255) as u8 };
    let first = random.below(256 - u64::from(bridges)) as u8;
    let mut records = Vec::new();
    for bus in first..first + bridges {
        let id = u16::from_be_bytes([bus, 0]);
        let last = if random.chance(1, 128) { bus + 1 } else { 255 };
        let bridge = Record::bridge(id, bus + 1, last).low(0xF900, 0xF970).high(0xF901, 0xF971, 1, 1).io(0, 0xF0);
        records.push(bridge);
    }
    let end = Record::end(u16::from_be_bytes([first + bridges, 0]));
    records.push(end.bar(0, board::memory(20), 0xF920_0000).bar(1, board::io(8), 0x4001).wide(
        2,
        12,
        20,
        0x1_F900_0000,
    ));
    foreign::sheet(&records)
}

/// An address where many BARs and windows are.
fn somewhere(random: &mut Random) -> u64 {
    0xF900_0000 + (random.below(8) << 20)
}

/// An upper half that several records share.
fn upper(random: &mut Random) -> u64 {
    [0, 1, 1, 2, 0xFFFF_FFFF][random.below(5) as usize]
}

fn windows(record: Record, random: &mut Random) -> Record {
    let mebibytes = |random: &mut Random| (somewhere(random) >> 16) as u16;
    let mut record = record;
    if random.chance(3, 4) {
        let base = mebibytes(random);
        let limit = if random.chance(1, 16) { 0xFFF0 } else { base + ((random.below(5) as u16) << 4) };
        record = record.low(base, if random.chance(1, 16) { base - 0x10 } else { limit });
    }
    if random.chance(1, 2) {
        let (base, above) = (mebibytes(random) | 1, upper(random));
        let limit = base + ((random.below(4) as u16) << 4);
        let last = if random.chance(1, 4) { 0xFFFF_FFFF } else { above };
        record = record.high(base, limit, above as u32, last as u32);
    }
    if random.chance(1, 2) {
        let base = (random.below(16) as u8) << 4;
        record = record.io(base, (random.below(16) as u8) << 4 | base);
    }
    record
}

fn bars(mut record: Record, random: &mut Random) -> Record {
    let slots = if record.registers[0x0E] & 0x7F == 1 { 2 } else { 6 };
    let mut slot = 0;
    while slot < slots {
        let bits = match random.below(16) {
            0 => LEAST_MEMORY_BIT + random.below(25) as u32,
            _ => 12 + random.below(10) as u32,
        };
        let low = somewhere(random) + random.below(1 << 20);
        let wide = slot + 2 <= slots;
        match random.below(8) {
            0 | 1 => {
                let kind = if random.chance(1, 2) { 8 } else { 0 };
                let value = low as u32 & board::memory(bits);
                record = record.bar(slot, board::memory(bits) | kind, value | kind);
            }
            2 => {
                let bits = 2 + random.below(10) as u32;
                let read_back = if random.chance(1, 2) { board::io(bits) } else { board::short_io(bits) };
                record = record.bar(slot, read_back, random.word() as u32 & 0xFFFF & board::io(bits) | 1);
            }
            3 if wide => {
                let bits = if random.chance(1, 8) { 32 + random.below(32) as u32 } else { bits };
                let kind = if random.chance(1, 2) { 12 } else { 4 };
                let start = (upper(random) << 32 | low) & u64::MAX << bits;
                record = record.wide(slot, kind, bits, start);
                slot += 1;
            }
            _ => {}
        }
        slot += 1;
    }
    record
}

/// The command word, header type bit 7, and bytes that nothing looks at.
pub(crate) fn others(mut record: Record, random: &mut Random) -> Record {
    if random.chance(1, 4) {
        record = record.command(random.word() as u16);
    }
    if random.chance(1, 2) {
        record.registers[0x0E] |= 0x80;
    }
    if random.chance(1, 2) {
        for at in [0x00, 0x01, 0x06, 0x08, 0x0C, 0x0F, 0x30, 0x34, 0x3C, 0x3F] {
            record.registers[at] = random.word() as u8;
        }
    }
    record
}

/// Gives registers of a sheet other values, so that most sheets still pass their checks.
pub fn rewrite(sheet: &mut [u8], random: &mut Random) {
    for _ in 0..1 + random.below(6) {
        let Some(record) = record_of(sheet, random) else { return };
        let other = random.word().to_le_bytes();
        match random.below(8) {
            0 => record[4 + 0x19] = record[4 + 0x19].wrapping_add(other[0] % 3),
            1 => record[4 + 0x1A] = record[4 + 0x1A].wrapping_add(other[0] % 3),
            2 => record[4 + 0x1C + usize::from(other[0] % 2)] = other[1] & 0x70,
            3 => record[4 + 0x20 + 2 * usize::from(other[0] % 2)] = other[1] & 0xF0,
            4 => record[4 + 0x24 + 2 * usize::from(other[0] % 2)] = other[1] & 0xF0 | 1,
            5 => record[4 + 0x28 + usize::from(other[0] % 8)] ^= other[1] & 1,
            6 => record[2] = record[2].wrapping_add(other[0] % 3).wrapping_sub(1),
            _ => {
                let at = 4 + 0x10 + 4 * usize::from(other[0] % 6) + 1 + usize::from(other[1] % 3);
                record[at] ^= other[2] & other[3];
            }
        }
    }
}

/// Makes one thing of a sheet wrong, or different at the least.
pub fn spoil(sheet: &mut Vec<u8>, random: &mut Random) {
    match random.below(13) {
        0 => damage::bytes(sheet, random),
        1 => damage::bits(sheet, random),
        2 => sheet.truncate(random.below(sheet.len() as u64 + 1) as usize),
        3 => double(sheet, random),
        4 => {
            // Two records with one ID.
            let Some(record) = record_of(sheet, random) else { return };
            let id = [record[2], record[3]];
            if let Some(other) = record_of(sheet, random) {
                other[2..4].copy_from_slice(&id);
            }
        }
        5 => {
            if let Some(record) = record_of(sheet, random) {
                shrink(record, random);
            }
        }
        _ => {
            // The header type, a register that the checks look at, or a read-back.
            let Some(record) = record_of(sheet, random) else { return };
            let at = match random.below(8) {
                0 => 4 + 0x0E,
                1 => 4 + 0x18 + random.below(3),
                2 => 4 + 0x1C + random.below(2),
                3 => 4 + 0x20 + random.below(8),
                4 | 5 => 4 + 0x10 + random.below(24),
                _ => READ_BACKS as u64 + random.below(24),
            };
            record[at as usize] ^= 1 << random.below(8);
        }
    }
}

/// Makes one of a record's memory BARs smaller, of 16 to 128 bytes. Where it starts, it may.
fn shrink(record: &mut [u8], random: &mut Random) {
    let slots = if record[4 + 0x0E] & 0x7F == 1 { 2 } else { 6 };
    let (read_backs, _) = record[READ_BACKS..].as_chunks_mut::<4>();
    let mut slot = 0;
    while slot < slots {
        let low = u32::from_be_bytes(read_backs[slot]);
        let is_wide = low & 7 == 4 && slot + 1 < slots;
        if low != 0 && low & 1 == 0 && random.chance(1, 2) {
            let bits = TYPE_BITS + random.below(u64::from(LEAST_MEMORY_BIT - TYPE_BITS) + 1) as u32;
            read_backs[slot] = (board::memory(bits) | low & 15).to_be_bytes();
            if is_wide {
                read_backs[slot + 1] = [0xFF; 4];
            }
            return;
        }
        slot += 1 + usize::from(is_wide);
    }
}

/// Appends the sheet's records again, under other IDs where `random` says so, up to about 512.
fn double(sheet: &mut Vec<u8>, random: &mut Random) {
    let fresh = random.chance(3, 4);
    let most = 1 + RECORD * (MOST_FUNCTIONS - 2 + random.below(5) as usize);
    let mut next = 0;
    while sheet.len() > RECORD && sheet.len() < most {
        let start = sheet.len();
        sheet.extend_from_within(1..start.min(1 + most - start));
        if fresh {
            for record in sheet[start..].chunks_mut(RECORD).filter(|record| record.len() == RECORD) {
                // A bridge's own bus is checked; give new IDs to the others.
                if record[4 + 0x0E] & 0x7F == 0 {
                    record[2..4].copy_from_slice(&u16::to_be_bytes(0xFE00 + next % 0x200));
                    next += 1;
                }
            }
        }
    }
}

pub(crate) fn record_of<'a>(sheet: &'a mut [u8], random: &mut Random) -> Option<&'a mut [u8]> {
    let count = sheet.len().saturating_sub(1) / RECORD;
    let index = random.below(count.max(1) as u64) as usize;
    sheet.get_mut(1 + RECORD * index..)?.get_mut(..RECORD)
}
