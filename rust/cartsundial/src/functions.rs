//! A checked sheet, function by function.

use crate::{check, Bar, BarKind, Id, Refusal, REGISTERS};
use core::ops::RangeInclusive;

/// A record of a sheet with its two-byte length: ID, configuration header, read-backs.
const RECORD: usize = 92;

/// The most functions that a sheet has.
pub(crate) const MOST: usize = 512;

/// Where a record's ID, its configuration header and its read-backs start.
const ID: usize = 2;
const HEADER: usize = 4;
const READ_BACKS: usize = HEADER + REGISTERS;

/// How many bytes the six read-backs have.
const SIX: usize = 24;

/// Registers of a configuration header.
const COMMAND: usize = 0x04;
const HEADER_TYPE: usize = 0x0E;
const BARS: usize = 0x10;
const BUSES: usize = 0x18;
const IO_WINDOW: usize = 0x1C;
const LOW_WINDOW: usize = 0x20;
const HIGH_WINDOW: usize = 0x24;
const HIGH_UPPER: usize = 0x28;

/// A function of a sheet.
#[derive(Clone, Copy, Debug, PartialEq, Eq)]
pub struct Function<'a> {
    /// Its record, from 1: the number that [`Delivery::record`](crate::Delivery::record) has.
    pub record: u16,
    /// Its ID.
    pub id: Id,
    /// Its configuration header, inside the lent sheet.
    pub registers: &'a [u8; REGISTERS],
    /// Its six read-backs, each high byte first, inside the lent sheet.
    pub read_backs: &'a [u8; SIX],
}

/// A BAR of a function of a sheet, where it was placed.
#[derive(Clone, Copy, Debug, PartialEq, Eq, Hash)]
pub struct PlacedBar {
    /// Its slot, from 0; of 64 bits the first of two.
    pub slot: u8,
    /// What it decodes, and how much.
    pub bar: Bar,
    /// Its first address.
    pub start: u64,
}

impl PlacedBar {
    /// Its first and its last address.
    pub fn range(&self) -> RangeInclusive<u64> {
        self.start..=self.start + (self.bar.size - 1)
    }
}

/// The bus numbers of a bridge.
#[derive(Clone, Copy, Debug, PartialEq, Eq, Hash)]
pub struct Buses {
    /// The bus that it is on.
    pub primary: u8,
    /// The bus below it.
    pub secondary: u8,
    /// The last bus below it.
    pub subordinate: u8,
}

/// The windows of a bridge, each by its first and its last address; `None` where it is closed.
#[derive(Clone, Debug, PartialEq, Eq, Hash)]
pub struct Windows {
    /// Of I/O.
    pub io: Option<RangeInclusive<u64>>,
    /// Of low memory.
    pub low: Option<RangeInclusive<u64>>,
    /// Of high memory, which is prefetchable.
    pub high: Option<RangeInclusive<u64>>,
}

impl<'a> Function<'a> {
    /// Whether it is a bridge, header type 1.
    pub fn is_bridge(&self) -> bool {
        self.registers[HEADER_TYPE] & 0x7F == 1
    }

    /// Its command word.
    pub fn command(&self) -> u16 {
        self.word(COMMAND)
    }

    /// Whether it answers to I/O addresses: bit 0 of its command word.
    pub fn decodes_io(&self) -> bool {
        self.command() & 1 != 0
    }

    /// Whether it answers to memory addresses: bit 1 of its command word.
    pub fn decodes_memory(&self) -> bool {
        self.command() & 2 != 0
    }

    /// Whether it may send requests: bit 2 of its command word.
    pub fn is_bus_master(&self) -> bool {
        self.command() & 4 != 0
    }

    /// Its BARs by rising slot, without the slots that are not used.
    pub fn bars(&self) -> impl Iterator<Item = PlacedBar> + use<'a> {
        let function = *self;
        let slots = if function.is_bridge() { 2 } else { 6 };
        let mut slot = 0;
        core::iter::from_fn(move || {
            while slot < slots {
                let at = slot;
                let bar = Bar::of_read_backs(function.read_back(at), function.read_back(at + 1))?;
                slot += bar.kind.slots();
                if bar.kind != BarKind::Unused {
                    let start = bar.start(function.bar_register(at), function.bar_register(at + 1));
                    return Some(PlacedBar { slot: at as u8, bar, start });
                }
            }
            None
        })
    }

    /// Its buses; `None` where it is no bridge.
    pub fn buses(&self) -> Option<Buses> {
        let [primary, secondary, subordinate] = *self.registers[BUSES..].first_chunk()?;
        self.is_bridge().then_some(Buses { primary, secondary, subordinate })
    }

    /// Its windows; `None` where it is no bridge.
    pub fn windows(&self) -> Option<Windows> {
        self.is_bridge().then(|| {
            let io = |at: usize| u64::from(self.registers[at] >> 4) << 12;
            let memory = |at: usize| u64::from(self.word(at) >> 4) << 20;
            let upper = |at: usize| u64::from(self.dword(at)) << 32;
            let (high_base, high_limit) = (HIGH_WINDOW, HIGH_WINDOW + 2);
            let base = upper(HIGH_UPPER) | memory(high_base);
            let limit = upper(HIGH_UPPER + 4) | memory(high_limit);
            Windows {
                io: window(io(IO_WINDOW), io(IO_WINDOW + 1), 0xFFF),
                low: window(memory(LOW_WINDOW), memory(LOW_WINDOW + 2), 0xF_FFFF),
                high: window(base, limit, 0xF_FFFF),
            }
        })
    }

    /// The read-back of a slot; 0 past the last.
    fn read_back(&self, slot: usize) -> u32 {
        self.read_backs.get(4 * slot..).and_then(<[u8]>::first_chunk).map_or(0, |bytes| u32::from_be_bytes(*bytes))
    }

    fn bar_register(&self, slot: usize) -> u32 {
        self.dword(BARS + 4 * slot)
    }

    fn word(&self, register: usize) -> u16 {
        u16::from_le_bytes([self.registers[register], self.registers[register + 1]])
    }

    fn dword(&self, register: usize) -> u32 {
        u32::from(self.word(register + 2)) << 16 | u32::from(self.word(register))
    }
}

/// The window from a base to the end of its limit's granule; `None` where the base is above the limit.
fn window(base: u64, limit: u64, rest: u64) -> Option<RangeInclusive<u64>> {
    (base <= limit).then_some(base..=limit | rest)
}

/// The sheet's functions in its order, which is the board's. A sheet that fails its checks is refused by their number.
///
/// ```
/// # use cartsundial::{functions, Refusal};
/// assert_eq!(functions(&[1]).unwrap().count(), 0);
/// assert_eq!(functions(&[2]).err(), Some(Refusal::Version));
/// ```
pub fn functions(sheet: &[u8]) -> Result<impl ExactSizeIterator<Item = Function<'_>>, Refusal> {
    check(sheet)?;
    Ok(of_checked(sheet))
}

/// The functions of a sheet that passes its checks.
pub(crate) fn of_checked(sheet: &[u8]) -> impl ExactSizeIterator<Item = Function<'_>> + Clone {
    sheet[1..].chunks_exact(RECORD).enumerate().map(|(index, record)| Function {
        record: index as u16 + 1,
        id: id_in(record),
        registers: record[HEADER..].first_chunk().expect("a checked sheet's records are whole"),
        read_backs: record[READ_BACKS..].first_chunk().expect("a checked sheet's records are whole"),
    })
}

/// How many functions a sheet of this length can have, if it passes its checks.
#[cfg(feature = "std")]
pub(crate) fn most_in(sheet: &[u8]) -> usize {
    MOST.min(sheet.len() / RECORD)
}

/// The ID of a record of a sheet that passes its checks, as the answer to a call over it tells.
pub(crate) fn id_at(sheet: &[u8], record: u16) -> Id {
    id_in(&sheet[1 + RECORD * (usize::from(record) - 1)..])
}

fn id_in(record: &[u8]) -> Id {
    Id(u16::from_be_bytes([record[ID], record[ID + 1]]))
}
