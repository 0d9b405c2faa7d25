//! The register sheet: its layout, its checks, lookup by ID, command words and the listing.

use std::fmt::Write;

use crate::bar::{Bar, Malformed};
use crate::board::{slot_count, Function, MAX_FUNCTIONS};
use crate::pool::{Pool, Range};

pub const VERSION: u8 = 1;
/// A record with its two-byte length.
pub const RECORD: usize = 92;
/// The length of the largest sheet.
pub const FULL_SHEET: usize = 1 + RECORD * MAX_FUNCTIONS;

/// The length that a record starts with.
const LENGTH: [u8; 2] = [0, 90];
/// Where the parts of a record start, its length included.
const ID: usize = 2;
const HEADER: usize = 4;
const HEADER_LENGTH: usize = 64;
const READ_BACKS: usize = HEADER + HEADER_LENGTH;

/// Registers, from the start of the record.
const COMMAND: usize = HEADER + 0x04;
const HEADER_TYPE: usize = HEADER + 0x0E;
const BARS: usize = HEADER + 0x10;
const PRIMARY: usize = HEADER + 0x18;
const SECONDARY: usize = HEADER + 0x19;
const SUBORDINATE: usize = HEADER + 0x1A;
const IO_BASE: usize = HEADER + 0x1C;
const IO_LIMIT: usize = HEADER + 0x1D;
const LOW_BASE: usize = HEADER + 0x20;
const LOW_LIMIT: usize = HEADER + 0x22;
const HIGH_BASE: usize = HEADER + 0x24;
const HIGH_LIMIT: usize = HEADER + 0x26;
const HIGH_BASE_UPPER: usize = HEADER + 0x28;
const HIGH_LIMIT_UPPER: usize = HEADER + 0x2C;

/// A record being written by the planner.
pub struct Registers<'a>(&'a mut [u8; RECORD]);

impl<'a> Registers<'a> {
    /// Writes what the board gives and leaves the rest 0.
    pub fn start(record: &'a mut [u8; RECORD], bus: u8, function: &Function) -> Registers<'a> {
        record.fill(0);
        record[..2].copy_from_slice(&LENGTH);
        record[ID] = bus;
        record[ID + 1] = function.device_function;
        record[HEADER_TYPE] = function.header_type;
        for (to, read_back) in record[READ_BACKS..].as_chunks_mut().0.iter_mut().zip(function.slots()) {
            *to = read_back.to_be_bytes();
        }
        let mut registers = Registers(record);
        registers.set_u16(COMMAND, function.command);
        registers
    }

    pub fn set_bar(&mut self, bar: &Bar, start: u64) {
        let at = BARS + 4 * bar.slot;
        self.set_u32(at, start as u32 | bar.kind);
        if bar.is_wide {
            self.set_u32(at + 4, (start >> 32) as u32);
        }
    }

    pub fn set_buses(&mut self, primary: u8, secondary: u8, subordinate: u8) {
        self.0[PRIMARY] = primary;
        self.0[SECONDARY] = secondary;
        self.0[SUBORDINATE] = subordinate;
    }

    /// Writes a window from its first to its last address, or closed.
    pub fn set_window(&mut self, pool: Pool, window: Option<(u64, u64)>) {
        // The closed spelling is the top granule above the bottom one, with upper words 0.
        match pool {
            Pool::Io => {
                let (base, limit) = window.map_or((0xF0, 0x00), |(base, limit)| (io_bits(base), io_bits(limit)));
                self.0[IO_BASE] = base;
                self.0[IO_LIMIT] = limit;
            }
            Pool::Low => {
                let (base, limit) =
                    window.map_or((0xFFF0, 0x0000), |(base, limit)| (memory_bits(base), memory_bits(limit)));
                self.set_u16(LOW_BASE, base);
                self.set_u16(LOW_LIMIT, limit);
            }
            Pool::High => {
                let (base, limit) = window.unwrap_or((0xFFF0_0000, 0));
                self.set_u16(HIGH_BASE, memory_bits(base) | 1);
                self.set_u16(HIGH_LIMIT, memory_bits(limit) | 1);
                self.set_u32(HIGH_BASE_UPPER, (base >> 32) as u32);
                self.set_u32(HIGH_LIMIT_UPPER, (limit >> 32) as u32);
            }
        }
    }

    fn set_u16(&mut self, at: usize, value: u16) {
        self.0[at..at + 2].copy_from_slice(&value.to_le_bytes());
    }

    fn set_u32(&mut self, at: usize, value: u32) {
        self.0[at..at + 4].copy_from_slice(&value.to_le_bytes());
    }
}

/// Address bits 15:12 in bits 7:4.
fn io_bits(address: u64) -> u8 {
    (address >> 8) as u8 & 0xF0
}

/// Address bits 31:20 in bits 15:4.
fn memory_bits(address: u64) -> u16 {
    (address >> 16) as u16 & 0xFFF0
}

/// One record of a sheet.
#[derive(Clone, Copy)]
pub struct Record<'a>(&'a [u8; RECORD]);

impl Record<'_> {
    pub fn id(self) -> u16 {
        u16::from_be_bytes([self.0[ID], self.0[ID + 1]])
    }

    pub fn bus(self) -> u8 {
        self.0[ID]
    }

    /// The 64 bytes of the configuration header.
    pub fn registers(&self) -> &[u8] {
        &self.0[HEADER..][..HEADER_LENGTH]
    }

    pub fn command(self) -> u16 {
        self.u16(COMMAND)
    }

    pub fn is_bridge(self) -> bool {
        self.0[HEADER_TYPE] & 0x7F == 1
    }

    pub fn secondary(self) -> u8 {
        self.0[SECONDARY]
    }

    pub fn subordinate(self) -> u8 {
        self.0[SUBORDINATE]
    }

    /// Whether this is a bridge on `bus` whose range holds the bus `target`.
    pub fn leads(self, bus: u8, target: u8) -> bool {
        self.is_bridge() && self.bus() == bus && self.secondary() <= target && target <= self.subordinate()
    }

    pub(crate) fn slots(self) -> usize {
        if self.is_bridge() {
            2
        } else {
            6
        }
    }

    pub fn read_backs(self) -> [u32; 6] {
        std::array::from_fn(|slot| {
            let at = READ_BACKS + 4 * slot;
            u32::from_be_bytes([self.0[at], self.0[at + 1], self.0[at + 2], self.0[at + 3]])
        })
    }

    /// The register value of a BAR, with its upper half if it has one.
    pub fn value(self, bar: &Bar) -> u64 {
        let low = u64::from(self.bar_register(bar.slot));
        if bar.is_wide {
            u64::from(self.bar_register(bar.slot + 1)) << 32 | low
        } else {
            low
        }
    }

    /// A bridge's window.
    pub fn window(self, pool: Pool) -> Range {
        let memory = |at, upper: u32| u64::from(upper) << 32 | u64::from(self.u16(at) & 0xFFF0) << 16;
        let (base, limit) = match pool {
            Pool::Io => {
                let bits = |at: usize| u64::from(self.0[at] & 0xF0) << 8;
                (bits(IO_BASE), bits(IO_LIMIT))
            }
            Pool::Low => (memory(LOW_BASE, 0), memory(LOW_LIMIT, 0)),
            Pool::High => {
                let (base, limit) = (self.u32(HIGH_BASE_UPPER), self.u32(HIGH_LIMIT_UPPER));
                (memory(HIGH_BASE, base), memory(HIGH_LIMIT, limit))
            }
        };
        Range { base, last: limit | (pool.granule() - 1) }
    }

    pub(crate) fn bar_register(self, slot: usize) -> u32 {
        self.u32(BARS + 4 * slot)
    }

    fn u16(self, at: usize) -> u16 {
        u16::from_le_bytes([self.0[at], self.0[at + 1]])
    }

    fn u32(self, at: usize) -> u32 {
        u32::from_le_bytes([self.0[at], self.0[at + 1], self.0[at + 2], self.0[at + 3]])
    }

    pub(crate) fn has_lawful_type(self) -> bool {
        slot_count(self.0[HEADER_TYPE]).is_some()
    }

    pub(crate) fn has_lawful_buses(self) -> bool {
        let primary = self.0[PRIMARY];
        !self.is_bridge()
            || (self.bus() == primary && primary < self.secondary() && self.secondary() <= self.subordinate())
    }

    fn has_lawful_bars(self) -> bool {
        let (all, count) = (self.read_backs(), self.slots());
        let (read_backs, beyond) = all.split_at(count);
        if beyond.iter().any(|&read_back| read_back != 0) {
            return false;
        }
        let mut slot = 0;
        while slot < count {
            slot += match Bar::at(read_backs, slot) {
                Ok(None) if self.bar_register(slot) == 0 => 1,
                Ok(Some(bar)) if bar.admits(self.value(&bar)) => bar.slots(),
                Ok(_) | Err(Malformed) => return false,
            };
        }
        true
    }

    /// The low four bits of a window's base and limit.
    pub(crate) fn window_nibbles(self, pool: Pool) -> [u8; 2] {
        let registers = match pool {
            Pool::Low => [LOW_BASE, LOW_LIMIT],
            Pool::High => [HIGH_BASE, HIGH_LIMIT],
            Pool::Io => [IO_BASE, IO_LIMIT],
        };
        registers.map(|at| self.0[at] & 0xF)
    }

    fn has_lawful_windows(self) -> bool {
        let nibble = |at: usize| self.0[at] & 0xF;
        !self.is_bridge()
            || ([IO_BASE, IO_LIMIT, LOW_BASE, LOW_LIMIT].into_iter().all(|at| nibble(at) == 0)
                && [HIGH_BASE, HIGH_LIMIT].into_iter().all(|at| nibble(at) == 1))
    }

    /// The first check of [`FAULTS`] that this record fails.
    fn fault(self, seen: &mut Seen) -> Option<usize> {
        if slot_count(self.0[HEADER_TYPE]).is_none() {
            Some(0)
        } else if !self.has_lawful_buses() {
            Some(1)
        } else if !seen.insert(self.id()) {
            Some(2)
        } else if !self.has_lawful_bars() {
            Some(3)
        } else if !self.has_lawful_windows() {
            Some(4)
        } else {
            None
        }
    }
}

/// The numbers of a record's checks, in their order.
const FAULTS: [u8; 5] = [24, 27, 28, 25, 29];

/// The IDs met so far, one bit each.
struct Seen([u64; 1024]);

impl Seen {
    /// False when the ID was there before.
    fn insert(&mut self, id: u16) -> bool {
        let (word, bit) = (&mut self.0[usize::from(id >> 6)], 1 << (id & 63));
        let is_new = *word & bit == 0;
        *word |= bit;
        is_new
    }
}

/// A sheet that passed its checks.
#[derive(Clone, Copy)]
pub struct Sheet<'a> {
    records: &'a [[u8; RECORD]],
}

impl<'a> Sheet<'a> {
    /// Checks 20, 21, 22, 24, 27, 28, 25 and 29, each over all records before the next.
    pub fn new(bytes: &'a [u8]) -> Result<Sheet<'a>, u8> {
        let (&version, records) = bytes.split_first().ok_or(20)?;
        if version != VERSION {
            return Err(21);
        }
        let (records, rest) = records.as_chunks();
        let sheet = Sheet { records };
        if !rest.is_empty() || records.iter().any(|record| !record.starts_with(&LENGTH)) {
            return Err(20);
        }
        if records.len() > MAX_FUNCTIONS {
            return Err(22);
        }
        // The sheet's fault is the earliest check that any record fails.
        let mut seen = Seen([0; 1024]);
        match sheet.records().filter_map(|record| record.fault(&mut seen)).min() {
            Some(fault) => Err(FAULTS[fault]),
            None => Ok(sheet),
        }
    }

    pub(crate) fn records(&self) -> impl Iterator<Item = Record<'a>> {
        self.records.iter().map(Record)
    }

    /// The offset of a function's 64 register bytes in the sheet.
    pub fn lookup(&self, id: u16) -> Result<usize, u8> {
        let index = self.records().position(|record| record.id() == id).ok_or(40)?;
        Ok(1 + RECORD * index + HEADER)
    }
}

/// The records of a sheet whose frame is right, whatever they hold.
pub(crate) fn records_of(sheet: &[u8]) -> impl Iterator<Item = Record<'_>> {
    sheet.get(1..).unwrap_or_default().as_chunks().0.iter().map(Record)
}

/// The number of the first check that the sheet fails, 0 when it passes.
pub fn check(sheet: &[u8]) -> u8 {
    Sheet::new(sheet).err().unwrap_or(0)
}

/// The offset in the sheet of the 64 register bytes of the function with this ID.
pub fn lookup(sheet: &[u8], id: u16) -> Result<usize, u8> {
    Sheet::new(sheet)?.lookup(id)
}

/// The ID of the function with this record number; functions are numbered from 1.
pub fn id_of(sheet: &[u8], record: usize) -> Result<u16, u8> {
    let sheet = Sheet::new(sheet)?;
    let index = record.checked_sub(1).ok_or(40)?;
    sheet.records().nth(index).map(|record| record.id()).ok_or(40)
}

/// Rewrites the command word of the function with this ID; 0 or the refusal.
pub fn set_command(sheet: &mut [u8], id: u16, command: u16) -> u8 {
    match lookup(sheet, id) {
        Ok(offset) => {
            let at = offset + (COMMAND - HEADER);
            sheet[at..at + 2].copy_from_slice(&command.to_le_bytes());
            0
        }
        Err(number) => number,
    }
}

/// The plan as text: `plan N` and a line for each function, or `refused N` for a sheet that fails its checks.
pub fn listing(sheet: &[u8]) -> String {
    match Sheet::new(sheet) {
        Ok(sheet) => sheet.listing(),
        Err(number) => format!("refused {number}\n"),
    }
}

impl Sheet<'_> {
    fn listing(&self) -> String {
        let mut text = format!("plan {}\n", self.records.len());
        for record in self.records() {
            record.list(&mut text);
        }
        text
    }
}

impl Record<'_> {
    fn list(self, text: &mut String) {
        // Writing to a string cannot fail.
        let _ = write!(text, "{:04X} {}", self.id(), if self.is_bridge() { "bridge" } else { "end" });
        for slot in 0..self.slots() {
            let _ = write!(text, " {:08X}", self.bar_register(slot));
        }
        if self.is_bridge() {
            for at in [PRIMARY, SECONDARY, SUBORDINATE, IO_BASE, IO_LIMIT] {
                let _ = write!(text, " {:02X}", self.0[at]);
            }
            for at in [LOW_BASE, LOW_LIMIT, HIGH_BASE, HIGH_LIMIT] {
                let _ = write!(text, " {:04X}", self.u16(at));
            }
            for at in [HIGH_BASE_UPPER, HIGH_LIMIT_UPPER] {
                let _ = write!(text, " {:08X}", self.u32(at));
            }
        }
        text.push('\n');
    }
}
