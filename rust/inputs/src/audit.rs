//! Host records and sheets for the audit: planned ones, ones that other firmware could leave, and these with a
//! register, a bus number or an edge moved.

use crate::aim;
use crate::board::{self, Board, CLOSED_HIGH, CLOSED_IO, CLOSED_LOW, LEAST_MEMORY_BIT, MOST_FUNCTIONS};
use crate::damage;
use crate::foreign::{self, Record};
use crate::labels;
use crate::random::Random;
use crate::registers;
use crate::trees;

/// A host record and a sheet.
pub type Pair = (Vec<u8>, Vec<u8>);

/// A pair that fits or not. `plan` is a planner: the sheet of a board, or nothing where it refuses the board.
pub fn any(random: &mut Random, plan: impl Fn(&[u8]) -> Option<Vec<u8>>) -> Pair {
    let (mut host, mut sheet) = match random.below(8) {
        0..=2 => planned(random, plan),
        3..=5 => nested(random),
        _ => foreign(random),
    };
    match random.below(16) {
        0 | 1 => {}
        2..=8 => move_register(&mut sheet, random),
        9 | 10 => move_edge(&mut host, random),
        11 | 12 => tighten(&mut host, &sheet, random),
        13 => registers::rewrite(&mut sheet, random),
        14 => registers::spoil(&mut sheet, random),
        _ => damage::bytes(&mut host, random),
    }
    (host, sheet)
}

/// A sheet that was planned, for its own host record.
pub fn planned(random: &mut Random, plan: impl Fn(&[u8]) -> Option<Vec<u8>>) -> Pair {
    loop {
        let board = trees::lawful(random);
        if let Some(sheet) = plan(&board.bytes()) {
            return (board.host(), sheet);
        }
    }
}

/// A sheet that no planner wrote, for a host that has all of the pools and starts at its first bus.
pub fn foreign(random: &mut Random) -> Pair {
    let sheet = registers::foreign(random);
    let root = sheet.get(3).copied().unwrap_or(0);
    let host = Board {
        buses: (root, 255),
        low: (0, 0xFFFF_FFFF),
        high: (1 << 32, (1 << 52) - 1),
        io: (0, 0xFFFF),
        ..Board::new()
    };
    (host.host(), sheet)
}

/// A sheet as other firmware could leave it, for its host: all in its place, but with gaps between bus numbers and
/// between addresses, windows larger than what is in them, other closed spellings, and records in any order.
pub fn nested(random: &mut Random) -> Pair {
    let mut host = any_host(random);
    let in_a_row = random.chance(1, 8);
    if in_a_row && random.chance(1, 2) {
        host.buses = (0, 255);
    }
    let free_of = |first: u64, last: u64| if first > last { NOTHING } else { (first, last) };
    let pools = [
        free_of(host.low.0.into(), host.low.1.into()),
        free_of(host.high.0, host.high.1),
        free_of(host.io.0.into(), host.io.1.into()),
    ];
    let free = Free { buses: (u16::from(host.buses.0) + 1, host.buses.1.into()), pools };
    let side_by_side = random.chance(1, 16);
    let mut nest = Nest { records: Vec::new(), random, in_a_row, side_by_side };
    nest.fill(host.buses.0, free);
    let mut records = nest.records;
    if random.chance(1, 2) {
        // All but the first, which stays on the root bus.
        for at in 2..records.len() {
            records.swap(at, 1 + random.below(at as u64) as usize);
        }
    }
    (host.host(), foreign::sheet(&records))
}

/// A lawful host: any buses, and pools of up to 64 MiB and 64 KiB, or closed.
fn any_host(random: &mut Random) -> Board {
    let first = random.below(256) as u8;
    let buses = (first, first + random.below(256 - u64::from(first)) as u8);
    let mebibytes = |random: &mut Random| random.below(64) << 20 | 0xF_FFFF;
    let base = random.below(0xFC0) << 20;
    let low = (base as u32, (base + mebibytes(random)) as u32);
    let base = (1 << 32) + (random.below((1 << 32) - (1 << 12) - 0x40) << 20);
    let high = (base, base + mebibytes(random));
    let base = random.below(16) << 12;
    let io = (base as u16, (base + random.below(16 - (base >> 12)) * 0x1000 + 0xFFF) as u16);
    let closed = |random: &mut Random| random.chance(1, 8);
    Board {
        buses,
        low: if closed(random) { CLOSED_LOW } else { low },
        high: if closed(random) { CLOSED_HIGH } else { high },
        io: if closed(random) { CLOSED_IO } else { io },
        ..Board::new()
    }
}

const LOW: usize = 0;
const HIGH: usize = 1;
const IO: usize = 2;
const GRANULE: [u64; 3] = [1 << 20, 1 << 20, 1 << 12];
const NOTHING: (u64, u64) = (1, 0);

/// What is left on a bus: numbers for the buses below it, and addresses in each pool. First and last; none where the
/// first is above the last.
struct Free {
    buses: (u16, u16),
    pools: [(u64, u64); 3],
}

impl Free {
    /// Takes addresses from the front, at times behind a gap.
    fn take(&mut self, pool: usize, size: u64, align: u64, random: &mut Random) -> Option<u64> {
        let (first, last) = self.pools[pool];
        let gap = if random.chance(1, 8) { align * random.below(3) } else { 0 };
        let start = first.next_multiple_of(align) + gap;
        if first > last || start + (size - 1) > last {
            return None;
        }
        self.pools[pool].0 = start + size;
        Some(start)
    }

    /// Takes whole granules: some, or all that are left.
    fn window(&mut self, pool: usize, most: bool, random: &mut Random) -> Option<(u64, u64)> {
        let granule = GRANULE[pool];
        let (first, last) = self.pools[pool];
        let left = (last + 1).checked_sub(first.next_multiple_of(granule))? / granule;
        let count = if most { left.max(1) } else { 1 + random.below(6) };
        let start = self.take(pool, count * granule, granule, random)?;
        Some((start, start + (count * granule - 1)))
    }

    /// Takes the bus range of a bridge.
    fn range(&mut self, most: bool, random: &mut Random) -> Option<(u8, u8)> {
        let (first, last) = self.buses;
        let secondary = first + if random.chance(1, 8) { random.below(3) as u16 } else { 0 };
        let more = last.checked_sub(secondary)?;
        let subordinate = secondary + if most { more } else { random.below(u64::from(more.min(12)) + 1) as u16 };
        self.buses.0 = subordinate + 1;
        Some((secondary as u8, subordinate as u8))
    }
}

struct Nest<'a> {
    records: Vec<Record>,
    random: &'a mut Random,
    /// One bridge below the other, as far as the bus numbers go.
    in_a_row: bool,
    /// More functions on a bus, and all memory BARs of the least size: an index has many of them in one bucket.
    side_by_side: bool,
}

impl Nest<'_> {
    /// Puts functions on a bus, and below its bridges.
    fn fill(&mut self, bus: u8, mut free: Free) {
        let (count, apart) = match (self.in_a_row, self.side_by_side) {
            (true, _) => (1 + self.random.below(2), 27),
            (false, true) => (self.random.below(32), 7),
            (false, false) => (self.random.below(8), 27),
        };
        let mut device_function = self.random.below(32) as u8;
        for _ in 0..count {
            if self.records.len() >= MOST_FUNCTIONS {
                return;
            }
            let id = u16::from_be_bytes([bus, device_function]);
            let is_bridge = self.random.chance(if self.in_a_row { 127 } else { 48 }, 128);
            match is_bridge.then(|| free.range(self.in_a_row, self.random)).flatten() {
                Some(buses) => self.bridge(id, buses, &mut free),
                None => self.end(id, &mut free),
            }
            device_function += 1 + self.random.below(apart) as u8;
        }
    }

    fn end(&mut self, id: u16, free: &mut Free) {
        let record = self.bars(Record::end(id), free);
        self.records.push(registers::others(record, self.random));
    }

    fn bridge(&mut self, id: u16, (secondary, subordinate): (u8, u8), free: &mut Free) {
        let mut record = Record::bridge(id, secondary, subordinate);
        let bars_first = self.random.chance(1, 2);
        if bars_first {
            record = self.bars(record, free);
        }
        let mut pools = [NOTHING; 3];
        for pool in [LOW, HIGH, IO] {
            if self.random.chance(if self.in_a_row { 15 } else { 12 }, 16) {
                let most = self.in_a_row || self.random.chance(1, 4);
                pools[pool] = free.window(pool, most, self.random).unwrap_or(NOTHING);
            }
            record = self.set_window(record, pool, pools[pool]);
        }
        if !bars_first {
            record = self.bars(record, free);
        }
        self.records.push(registers::others(record, self.random));
        self.fill(secondary, Free { buses: (u16::from(secondary) + 1, subordinate.into()), pools });
    }

    /// A closed window keeps its one spelling, or gets another: the base one granule above the limit.
    fn set_window(&mut self, record: Record, pool: usize, (mut base, mut limit): (u64, u64)) -> Record {
        if base > limit {
            if self.random.chance(1, 2) {
                return record;
            }
            limit = self.random.below(15) * GRANULE[pool];
            base = limit + GRANULE[pool];
        }
        let bits = |address: u64| (address >> 16) as u16 & 0xFFF0;
        match pool {
            LOW => record.low(bits(base), bits(limit)),
            HIGH => record.high(bits(base) | 1, bits(limit) | 1, (base >> 32) as u32, (limit >> 32) as u32),
            _ => record.io((base >> 8) as u8 & 0xF0, (limit >> 8) as u8 & 0xF0),
        }
    }

    /// BARs in some of the slots, where they fit.
    fn bars(&mut self, mut record: Record, free: &mut Free) -> Record {
        let slots = if record.registers[0x0E] == 1 { 2 } else { 6 };
        let mut slot = 0;
        while slot < slots {
            let kind = self.random.below(if self.in_a_row { 32 } else { 8 });
            let bits = match kind {
                0 => 2 + self.random.below(9) as u32,
                _ if self.side_by_side => LEAST_MEMORY_BIT,
                _ => LEAST_MEMORY_BIT + self.random.below(15) as u32,
            };
            let pool = [IO, LOW, LOW, LOW, HIGH][kind.min(4) as usize];
            let is_wide = kind == 3 || kind == 4;
            if kind <= 4 && slot + usize::from(is_wide) < slots {
                if let Some(start) = free.take(pool, 1 << bits, 1 << bits, self.random) {
                    record = match kind {
                        0 => record.bar(slot, board::io(bits), start as u32 | 1),
                        1 => record.bar(slot, board::memory(bits), start as u32),
                        2 => record.bar(slot, board::prefetchable(bits), start as u32 | 8),
                        3 => record.wide(slot, 4, bits, start),
                        _ => record.wide(slot, 12, bits, start),
                    };
                    slot += usize::from(is_wide);
                }
            }
            slot += 1;
        }
        record
    }
}

/// Moves a BAR by its size, a window's edge by one granule or a bus number by one. Most sheets still pass their checks.
pub fn move_register(sheet: &mut [u8], random: &mut Random) {
    let Some(record) = registers::record_of(sheet, random) else { return };
    let is_bridge = record[4 + 0x0E] & 0x7F == 1;
    let up = random.chance(1, 2);
    match random.below(if is_bridge { 18 } else { 10 }) {
        0 => {
            // The function's own bus, which a bridge has as its primary bus too.
            step(&mut record[2..3], 1, up);
            if is_bridge {
                step(&mut record[4 + 0x18..4 + 0x19], 1, up);
            }
        }
        1..=9 => move_bar(record, random, up),
        10 => step(&mut record[4 + 0x19..4 + 0x1A], 1, up),
        11 => step(&mut record[4 + 0x1A..4 + 0x1B], 1, up),
        edge => {
            let limit = usize::from(random.chance(1, 2));
            match edge {
                12 | 13 => step(&mut record[4 + 0x1C + limit..][..1], 0x10, up),
                14 | 15 => step(&mut record[4 + 0x20 + 2 * limit..][..2], 0x10, up),
                _ => move_high(record, limit, up),
            }
        }
    }
}

/// The address bits 31:20 of an edge of the high window, with a carry to the upper word.
fn move_high(record: &mut [u8], limit: usize, up: bool) {
    let (low, upper) = (4 + 0x24 + 2 * limit, 4 + 0x28 + 4 * limit);
    let carries = if up { 0xFFF1 } else { 0x0001 };
    if u16::from_le_bytes([record[low], record[low + 1]]) == carries {
        step(&mut record[upper..upper + 4], 1, up);
    }
    step(&mut record[low..low + 2], 0x10, up);
}

fn move_bar(record: &mut [u8], random: &mut Random, up: bool) {
    let mut slot = random.below(2) as usize;
    while slot < 6 {
        let read_back = |slot: usize| u32::from_be_bytes(record[68 + 4 * slot..][..4].try_into().unwrap_or([0; 4]));
        let low = read_back(slot);
        let is_wide = low & 7 == 4 && slot < 5;
        // A step of the lowest bit that the BAR has; its register, or the part of it that may be other than 0.
        let (mask, width) = if low & 1 == 1 {
            (u64::from(low & 0xFFFC), 2)
        } else if is_wide {
            (u64::from(read_back(slot + 1)) << 32 | u64::from(low & !15), 8)
        } else {
            (u64::from(low & !15), 4)
        };
        if mask != 0 && random.chance(1, 2) {
            step(&mut record[4 + 0x10 + 4 * slot..][..width], mask & mask.wrapping_neg(), up);
            return;
        }
        slot += 1 + usize::from(is_wide);
    }
}

/// Makes some 64-bit BARs prefetchable that were not, or no longer; and of some bridges with no prefetchable window the memory
/// window prefetchable. All stays where it is, so every address keeps its owner.
pub fn change_kinds(sheet: &mut [u8], random: &mut Random) {
    for record in sheet.get_mut(1..).unwrap_or_default().chunks_exact_mut(92) {
        let mut slot = 0;
        while slot < 6 {
            let read_back = 68 + 4 * slot;
            let is_wide = record[read_back + 3] & 7 == 4;
            if is_wide && random.chance(1, 2) {
                record[read_back + 3] ^= 8;
                record[4 + 0x10 + 4 * slot] ^= 8;
            }
            slot += 1 + usize::from(is_wide);
        }
        let is_bridge = record[4 + 0x0E] & 0x7F == 1;
        if is_bridge && is_high_closed(record) && random.chance(1, 2) {
            // The two edges, of 64-bit form; and no memory window.
            let edges = [record[4 + 0x20] | 1, record[4 + 0x21], record[4 + 0x22] | 1, record[4 + 0x23]];
            record[4 + 0x24..4 + 0x28].copy_from_slice(&edges);
            record[4 + 0x28..4 + 0x30].fill(0);
            record[4 + 0x20..4 + 0x24].copy_from_slice(&[0xF0, 0xFF, 0, 0]);
        }
    }
}

/// The same, but of some bridges only the upper part of the memory window becomes the prefetchable one.
pub fn split_kinds(sheet: &mut [u8], random: &mut Random) {
    let before = sheet.to_vec();
    for record in sheet.get_mut(1..).unwrap_or_default().chunks_exact_mut(92) {
        change_bars(record, random);
        let is_bridge = record[4 + 0x0E] & 0x7F == 1;
        if !is_bridge || !is_high_closed(record) {
            continue;
        }
        match random.below(3) {
            0 => {
                // The two edges, of 64-bit form; and no memory window.
                let edges = [record[4 + 0x20] | 1, record[4 + 0x21], record[4 + 0x22] | 1, record[4 + 0x23]];
                record[4 + 0x24..4 + 0x28].copy_from_slice(&edges);
                record[4 + 0x28..4 + 0x30].fill(0);
                record[4 + 0x20..4 + 0x24].copy_from_slice(&[0xF0, 0xFF, 0, 0]);
            }
            1 => split_window(record, &before, random),
            _ => {}
        }
    }
}

fn change_bars(record: &mut [u8], random: &mut Random) {
    let mut slot = 0;
    while slot < 6 {
        let read_back = 68 + 4 * slot;
        let is_wide = record[read_back + 3] & 7 == 4;
        if is_wide && random.chance(1, 2) {
            record[read_back + 3] ^= 8;
            record[4 + 0x10 + 4 * slot] ^= 8;
        }
        slot += 1 + usize::from(is_wide);
    }
}

/// Cuts a bridge's memory window where nothing below it lies across the cut: the upper part is the prefetchable window.
fn split_window(bridge: &mut [u8], sheet: &[u8], random: &mut Random) {
    let edge = |at: usize| u64::from(u16::from_le_bytes([bridge[4 + at], bridge[5 + at]]) >> 4);
    // In MiB, as the windows are.
    let (first, last) = (edge(0x20), edge(0x22));
    if first >= last {
        return;
    }
    let cut = first + 1 + random.below(last - first);
    let below = sheet[1..].chunks_exact(92).filter(|record| record[2] == bridge[4 + 0x19]);
    if below.flat_map(memory_ranges).any(|(start, end)| start >> 20 < cut && cut <= end >> 20) {
        return;
    }
    let register = |mib: u64| ((mib << 4) as u16).to_le_bytes();
    let wide = |mib: u64| ((mib << 4 | 1) as u16).to_le_bytes();
    bridge[4 + 0x22..4 + 0x24].copy_from_slice(&register(cut - 1));
    bridge[4 + 0x24..4 + 0x26].copy_from_slice(&wide(cut));
    bridge[4 + 0x26..4 + 0x28].copy_from_slice(&wide(last));
    bridge[4 + 0x28..4 + 0x30].fill(0);
}

/// The memory BARs of a record, and of a bridge its memory window: first and last address.
fn memory_ranges(record: &[u8]) -> Vec<(u64, u64)> {
    let is_bridge = record[4 + 0x0E] & 0x7F == 1;
    let bars = labels::bars(record, if is_bridge { 2 } else { 6 }).into_iter();
    let mut ranges: Vec<_> = bars.filter(|&(is_io, _)| !is_io).map(|(_, range)| range).collect();
    if is_bridge {
        let edge = |at: usize| u64::from(u16::from_le_bytes([record[4 + at], record[5 + at]]) >> 4) << 20;
        ranges.push((edge(0x20), edge(0x22) | 0xF_FFFF));
    }
    ranges
}

fn is_high_closed(record: &[u8]) -> bool {
    let number = |at: usize, width: usize| {
        record[at..at + width].iter().rev().fold(0u64, |number, &byte| number << 8 | u64::from(byte))
    };
    let edge = |limit: usize| number(4 + 0x28 + 4 * limit, 4) << 16 | number(4 + 0x24 + 2 * limit, 2) & 0xFFF0;
    edge(0) > edge(1)
}

/// Moves an edge of a pool by one granule, or the first or last bus by one.
pub fn move_edge(host: &mut [u8], random: &mut Random) {
    let fields = [(0, 1, 1), (1, 1, 1), (2, 4, 20), (6, 4, 20), (10, 8, 20), (18, 8, 20), (26, 2, 12), (28, 2, 12)];
    let (at, width, bits) = fields[random.below(8) as usize];
    let up = random.chance(1, 2);
    let Some(field) = host.get_mut(at..at + width) else { return };
    field.reverse();
    step(field, if width == 1 { 1 } else { 1 << bits }, up);
    field.reverse();
}

/// Ends the buses at a bridge's last one, or a pool around a BAR or a window, or one before.
pub fn tighten(host: &mut [u8], sheet: &[u8], random: &mut Random) {
    let mut sheet = sheet.to_vec();
    let Some(record) = registers::record_of(&mut sheet, random) else { return };
    let less = random.below(2);
    if record[4 + 0x0E] & 0x7F == 1 && random.chance(1, 4) {
        host[1] = record[4 + 0x1A].wrapping_sub(less as u8);
        return;
    }
    let Some((is_io, _, last)) = aim::range(record, random) else { return };
    let granule = if is_io { GRANULE[IO] } else { GRANULE[LOW] };
    let last = (last | (granule - 1)).wrapping_sub(less * granule).to_be_bytes();
    match (is_io, &last[..4]) {
        (true, _) => host[28..30].copy_from_slice(&last[6..]),
        (false, [0, 0, 0, 0]) => host[6..10].copy_from_slice(&last[4..]),
        (false, _) => host[18..26].copy_from_slice(&last),
    }
}

/// Adds to a little-endian number, or subtracts.
fn step(bytes: &mut [u8], by: u64, up: bool) {
    let old = bytes.iter().rev().fold(0u64, |number, &byte| number << 8 | u64::from(byte));
    let new = if up { old.wrapping_add(by) } else { old.wrapping_sub(by) };
    let width = bytes.len();
    bytes.copy_from_slice(&new.to_le_bytes()[..width]);
}
