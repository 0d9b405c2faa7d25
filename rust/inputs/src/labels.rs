//! What labels are timed on: a full board with functions at every depth, and headers for its sheet.

use crate::board::{high, io, memory, prefetchable, wide, Board};
use crate::foreign::{self, Record};
use crate::numbers::{self, Numbers, KIND, REQUESTER, TARGET};
use crate::random::Random;

/// A record of a sheet with its length, and where its registers and its read-backs start.
const RECORD: usize = 92;
const REGISTERS: usize = 4;
const READ_BACKS: usize = 68;

/// How many of a hundred headers are for memory, I/O and configuration. The rest are completions.
const MEMORY: u64 = 80;
const IO: u64 = 10;
const CONFIGURATION: u64 = 5;

/// How many of a hundred have an owner.
const DELIVERED: u64 = 90;

/// A chain of `depth` bridges, and on each of its buses as many endpoints as on the others, or one more. All are enabled.
pub fn board(functions: usize, depth: usize) -> Board {
    let mut random = Random::new((functions << 8 | depth) as u64);
    let mut board = Board::new();
    let (ends, buses) = (functions - depth, depth + 1);
    // I/O windows are of 4 KiB at the least, one inside the other, in a pool of less than 64 KiB.
    let apart = depth.div_ceil(8).max(1);
    let mut parent = 0;
    for bus in 0..buses {
        let here = ends / buses + usize::from(bus < ends % buses);
        for device in 0..here {
            let card = card(&mut random, bus % apart == 0);
            board.end(parent, (device << 3) as u8, &card);
        }
        if bus < depth {
            parent = board.bridge(parent, (here << 3) as u8);
        }
    }
    board
}

/// An endpoint's read-backs: small BARs, large ones, or some of each.
fn card(random: &mut Random, has_io: bool) -> Vec<u32> {
    let small = |random: &mut Random| 7 + random.below(10) as u32;
    let large = |random: &mut Random| 16 + random.below(9) as u32;
    let mut card = match random.below(3) {
        0 => (0..5).map(|_| memory(small(random))).collect(),
        1 => [high(large(random)), high(large(random))].concat(),
        _ => [vec![prefetchable(small(random))], high(large(random)).to_vec(), wide(small(random)).to_vec()].concat(),
    };
    if has_io {
        card.push(io(2 + random.below(6) as u32));
    }
    card
}

/// A host record and a sheet of 512 functions on two buses that an index is slowest to build for and to search: on each bus
/// BARs of 128 bytes side by side, the last record's lowest, and one BAR of the root bus far from all others, so that a bucket
/// has those of a whole bus.
pub fn skewed() -> ([u8; 30], Vec<u8>) {
    const HALF: u16 = 256;
    let card = |bus: u16, device: u16| {
        let mut record = Record::end(bus << 8 | device);
        for slot in 0..5u32 {
            let place = 5 * u32::from(HALF - 1 - device) + (4 - slot);
            record = record.bar(slot as usize, memory(7), 0x1000_0000 + (u32::from(bus) << 20) + 128 * place);
        }
        record.bar(5, io(2), u32::from(bus << 12) + 4 * u32::from(HALF - 1 - device) + 1)
    };
    let mut records: Vec<Record> = (0..HALF - 1).map(|device| card(0, device)).collect();
    records[0] = records[0].clone().bar(0, memory(7), 0xFE00_0000);
    records.push(Record::bridge(HALF - 1, 1, 1).low(0x1010, 0x1010).io(0x10, 0x10));
    records.extend((0..HALF).map(|device| card(1, device)));
    let host = [
        &[0x00, 0xFF][..],
        &0x1000_0000u32.to_be_bytes(),
        &0xFEBF_FFFFu32.to_be_bytes(),
        &(1u64 << 32).to_be_bytes(),
        &((1u64 << 52) - 1).to_be_bytes(),
        &[0x00, 0x00, 0xFF, 0xFF],
    ]
    .concat();
    (host.try_into().expect("30 bytes"), foreign::sheet(&records))
}

/// Lawful headers in that mix, with zeros after those of 12 bytes. Owners are chosen by their depth first.
pub fn headers(sheet: &[u8], count: usize) -> Vec<[u8; 16]> {
    let mut random = Random::new(count as u64);
    let owners = Owners::new(sheet);
    let packet = |_| {
        let delivered = random.below(100) < DELIVERED;
        let number = random.below(100);
        let packet = if number < MEMORY {
            let address = owners.memory.key(delivered, 64, &mut random);
            numbers::request(&mut random, false, address)
        } else if number < MEMORY + IO {
            let address = owners.io.key(delivered, 32, &mut random);
            numbers::request(&mut random, true, address)
        } else {
            let id = owners.ids.key(delivered, 16, &mut random);
            by_id(number < MEMORY + IO + CONFIGURATION, id, &mut random)
        };
        let mut header = [0; 16];
        let bytes = numbers::header(&packet);
        header[..bytes.len()].copy_from_slice(&bytes);
        header
    };
    (0..count).map(packet).collect()
}

/// A configuration request, of the type for the ID's bus, or a completion. The root bus is 0.
fn by_id(is_configuration: bool, id: u64, random: &mut Random) -> Numbers {
    if !is_configuration {
        let mut packet = numbers::completion(random);
        packet[REQUESTER] = id;
        return packet;
    }
    let mut packet = numbers::configuration(random);
    packet[TARGET] = id;
    packet[KIND] = 5 + random.below(2) + 2 * u64::from(id >> 8 != 0);
    packet
}

/// First and last of what a function owns.
pub(crate) type Range = (u64, u64);

/// What the functions own in one space, by the bridges above them.
struct Space(Vec<Vec<Range>>);

impl Space {
    /// A number that some function owns, or one of so many bits near it that none does.
    fn key(&self, owned: bool, bits: u32, random: &mut Random) -> u64 {
        loop {
            let depth = &self.0[random.below(self.0.len() as u64) as usize];
            if depth.is_empty() {
                continue;
            }
            let (first, last) = depth[random.below(depth.len() as u64) as usize];
            let inside = first + random.below(last - first + 1);
            if owned {
                return inside;
            }
            let key = match random.below(4) {
                0 => last + 1,
                1 => first.wrapping_sub(4),
                _ => inside ^ 1 << random.below(bits.into()),
            } & (u64::MAX >> (64 - bits));
            // A request is for a whole dword.
            let dword = if bits == 16 { key } else { key & !3 };
            if !self.0.iter().flatten().any(|&(first, last)| first <= dword && dword <= last) {
                return key;
            }
        }
    }
}

struct Owners {
    memory: Space,
    io: Space,
    ids: Space,
}

impl Owners {
    /// Of a planned sheet on which everything is enabled: a bridge stands before what is below it.
    fn new(sheet: &[u8]) -> Owners {
        let mut depths = [0; 256];
        let mut owners = Owners { memory: Space(Vec::new()), io: Space(Vec::new()), ids: Space(Vec::new()) };
        for record in sheet[1..].chunks_exact(RECORD) {
            let depth = depths[usize::from(record[2])];
            for space in [&mut owners.memory, &mut owners.io, &mut owners.ids] {
                space.0.resize(space.0.len().max(depth + 1), Vec::new());
            }
            let id = u64::from(u16::from_be_bytes([record[2], record[3]]));
            owners.ids.0[depth].push((id, id));
            let is_bridge = record[REGISTERS + 0x0E] & 0x7F == 1;
            if is_bridge {
                depths[usize::from(record[REGISTERS + 0x19])] = depth + 1;
            }
            for (is_io, range) in bars(record, if is_bridge { 2 } else { 6 }) {
                let space = if is_io { &mut owners.io } else { &mut owners.memory };
                space.0[depth].push(range);
            }
        }
        owners
    }
}

/// The BARs of a record with so many slots, and whether each is I/O.
pub(crate) fn bars(record: &[u8], slots: usize) -> Vec<(bool, Range)> {
    let read_back = |slot| u64::from(u32::from_be_bytes(record[READ_BACKS..].as_chunks().0[slot]));
    let value = |slot| u64::from(u32::from_le_bytes(record[REGISTERS + 0x10..].as_chunks().0[slot]));
    let mut bars = Vec::new();
    let mut slot = 0;
    while slot < slots {
        let low = read_back(slot);
        if low & 1 == 1 {
            let first = value(slot) & !3;
            bars.push((true, (first, first + (1 << (low & 0xFFFC).trailing_zeros()) - 1)));
        } else if low != 0 {
            let is_wide = low & 4 == 4;
            let (mask, start) = if is_wide {
                (read_back(slot + 1) << 32 | low, value(slot + 1) << 32 | value(slot))
            } else {
                (low, value(slot))
            };
            let first = start & !15;
            bars.push((false, (first, first + (1 << (mask & !15).trailing_zeros()) - 1)));
            slot += usize::from(is_wide);
        }
        slot += 1;
    }
    bars
}
