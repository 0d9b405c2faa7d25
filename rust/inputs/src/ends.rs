//! Headers that name a function of the sheet, or the host, as their sender, for targets near and far; the host's ID; and
//! sheets on which the ways up and down differ.

use crate::aim;
use crate::board;
use crate::damage;
use crate::foreign::{self, Record};
use crate::header;
use crate::numbers::{self, Numbers, COMPLETER, REQUESTER};
use crate::random::Random;

const RECORD: usize = 92;
/// A bridge's secondary and subordinate bus in its record.
const SECONDARY: usize = 4 + 0x19;
const SUBORDINATE: usize = 4 + 0x1A;

/// Message routings by their numbers.
const BY_ID: u64 = 0b010;

/// I/O, memory and bus master.
const ALL: u16 = 7;

/// The host's own ID: mostly 0 or one that no function is likely to have, at times one that a function has.
pub fn host_id(sheet: &[u8], random: &mut Random) -> u16 {
    match random.below(8) {
        0..=3 => 0,
        4 => 0xFFFF,
        5 => random.word() as u16,
        _ => aim::id(sheet, random),
    }
}

/// A number above FFFFh, which no ID is.
pub fn no_host_id(sheet: &[u8], random: &mut Random) -> u64 {
    match random.below(2) {
        0 => u64::from(host_id(sheet, random)) | 1 << (16 + random.below(48)),
        _ => [0x1_0000, 0xFFFF_FFFF, 1 << 32, u64::MAX][random.below(4) as usize],
    }
}

/// A header whose sender is likely to be a function of the sheet, and that is likely to arrive somewhere.
pub fn header(host_id: u16, sheet: &[u8], random: &mut Random) -> Vec<u8> {
    let records: Vec<&[u8]> = sheet.get(1..).unwrap_or_default().chunks_exact(RECORD).collect();
    if records.is_empty() || random.chance(1, 32) {
        return header::any(random);
    }
    let any = |random: &mut Random| records[random.below(records.len() as u64) as usize];
    let sender = any(random);
    let target = match random.below(8) {
        0 => sender,
        1 | 2 => beside(&records, sender, random).unwrap_or(sender),
        3 => above(&records, sender).unwrap_or(sender),
        _ => any(random),
    };
    let mut packet = match random.below(16) {
        0 => numbers::configuration(random),
        1..=3 => numbers::message(random),
        4..=9 => by_id(target_id(host_id, sender, target, random), random),
        _ => match aim::range(target, random) {
            Some(range) => aim::at_edge(range, random),
            None => by_id(target_id(host_id, sender, target, random), random),
        },
    };
    let named = match random.below(32) {
        0 => host_id,
        1 => aim::near(sender, random),
        2 => random.word() as u16,
        _ => id_of(sender),
    };
    set_sender(&mut packet, named);
    let mut bytes = numbers::header(&packet);
    if random.chance(1, 48) {
        damage::bits(&mut bytes, random);
    }
    bytes
}

fn id_of(record: &[u8]) -> u16 {
    u16::from_be_bytes([record[2], record[3]])
}

fn is_bridge(record: &[u8]) -> bool {
    record[4 + 0x0E] & 0x7F == 1
}

/// A record on the same bus, if there is another.
fn beside<'a>(records: &[&'a [u8]], sender: &[u8], random: &mut Random) -> Option<&'a [u8]> {
    let siblings: Vec<&[u8]> =
        records.iter().copied().filter(|record| record[2] == sender[2] && record[3] != sender[3]).collect();
    (!siblings.is_empty()).then(|| siblings[random.below(siblings.len() as u64) as usize])
}

/// A bridge that leads to the record's bus.
fn above<'a>(records: &[&'a [u8]], sender: &[u8]) -> Option<&'a [u8]> {
    records.iter().copied().find(|record| is_bridge(record) && record[SECONDARY] == sender[2])
}

/// The ID that a packet goes by: the target's or one like it, the host's, the sender's own, or one on a bus that nobody has.
fn target_id(host_id: u16, sender: &[u8], target: &[u8], random: &mut Random) -> u16 {
    let on = |bus: u8, random: &mut Random| u16::from_be_bytes([bus, (random.word() as u8) & 0xF8]);
    match random.below(24) {
        0..=2 => host_id,
        3 => id_of(sender),
        4 => random.word() as u16,
        // On the sender's bus, where most numbers are free.
        5 => on(sender[2], random),
        // On a bus that a bridge keeps, or next to its last.
        6 | 7 if is_bridge(target) => {
            let (first, last) = (target[SECONDARY], target[SUBORDINATE]);
            let span = u64::from(last.saturating_sub(first)) + 2;
            on(first.wrapping_add(random.below(span) as u8), random)
        }
        8 => aim::near(target, random),
        _ => id_of(target),
    }
}

/// A completion or a message by ID.
fn by_id(id: u16, random: &mut Random) -> Numbers {
    if random.chance(2, 3) {
        let mut packet = numbers::completion(random);
        packet[REQUESTER] = id.into();
        return packet;
    }
    let rest = if random.chance(1, 2) { 0 } else { random.word() >> 16 };
    numbers::message_by(random, BY_ID, u64::from(id) << 48 | rest)
}

/// Names the sender: a completion by its completer, any other packet by its requester.
pub fn set_sender(packet: &mut Numbers, id: u16) {
    let is_completion = (9..13).contains(&packet[numbers::KIND]);
    packet[if is_completion { COMPLETER } else { REQUESTER }] = id.into();
}

/// A sheet that no planner wrote, on which packets by ID go wrong ways: buses with two bridges above or none, bridges to the
/// root bus, ranges that overlap or hold too little, and rows of bridges.
pub fn sheet(random: &mut Random) -> Vec<u8> {
    let root = [0, 1, 3, 250][random.below(4) as usize];
    let mut records = Vec::new();
    let mut buses = vec![root];
    if random.chance(1, 4) {
        row(root, &mut buses, &mut records, random);
    }
    for _ in 0..random.below(16) {
        let bus = match random.below(8) {
            0 => random.word() as u8,
            1 => root.wrapping_sub(1),
            _ => buses[random.below(buses.len() as u64) as usize],
        };
        let id = u16::from_be_bytes([bus, random.word() as u8]);
        if bus < 255 && random.chance(1, 2) {
            // To a bus that has a bridge already, or to a new one.
            let known: Vec<u8> = buses.iter().copied().filter(|&other| other > bus).collect();
            let secondary = if !known.is_empty() && random.chance(1, 3) {
                known[random.below(known.len() as u64) as usize]
            } else {
                bus + 1 + random.below(u64::from(255 - bus).min(4)) as u8
            };
            buses.push(secondary);
            records.push(Record::bridge(id, secondary, secondary.saturating_add(random.below(6) as u8)));
        } else {
            records.push(Record::end(id));
        }
    }
    if records.is_empty() || random.chance(3, 4) {
        // The root bus is that of the first record.
        records.insert(0, Record::end(u16::from_be_bytes([root, 0xFF])));
    }
    let records: Vec<Record> = records.into_iter().map(|record| filled(record, random)).collect();
    foreign::sheet(&records)
}

/// Bridges one below the other, more than a planner has, with now and then one that holds too few buses.
fn row(root: u8, buses: &mut Vec<u8>, records: &mut Vec<Record>, random: &mut Random) {
    let most = (255 - root).min(60);
    let last = root + most;
    for bus in root..root + random.below(u64::from(most)) as u8 {
        let subordinate = if random.chance(1, 24) { bus + 1 } else { last };
        records.push(Record::bridge(u16::from_be_bytes([bus, 8 * random.below(2) as u8]), bus + 1, subordinate));
        buses.push(bus + 1);
    }
}

/// With a BAR or a window where others have theirs, and a command word.
fn filled(mut record: Record, random: &mut Random) -> Record {
    let place = random.below(4) as u32;
    if record.registers[0x0E] == 1 && random.chance(1, 2) {
        let base = 0xF900 + 0x10 * place as u16;
        record = record.low(base, base + 0x10 * random.below(3) as u16);
    } else if random.chance(1, 2) {
        record = record.bar(0, board::memory(20), 0xF900_0000 + (place << 20));
    }
    match random.below(4) {
        0 => record.command(random.below(8) as u16),
        _ => record.command(ALL),
    }
}
