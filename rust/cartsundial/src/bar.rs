//! A BAR: what it decodes and how much, as a board's read-backs say it.

use crate::Pool;
use core::fmt;

/// A BAR's type bits, the lowest of its read-back.
const IO: u32 = 0b01;
const WIDE: u32 = 0b0100;
const PREFETCHABLE: u32 = 0b1000;
const IO_BITS: u32 = 0b11;
const MEMORY_BITS: u32 = 0b1111;

/// What a BAR decodes.
#[derive(Clone, Copy, Debug, PartialEq, Eq, Hash)]
pub enum BarKind {
    /// Nothing: the slot is not used.
    Unused,
    /// Memory by an address of 32 bits.
    Memory32,
    /// The same, prefetchable.
    Memory32Prefetchable,
    /// Memory by an address of 64 bits, which takes two slots.
    Memory64,
    /// The same, prefetchable: the only kind that is placed from 4 GiB on.
    Memory64Prefetchable,
    /// I/O ports.
    Io,
    /// I/O ports, of a register whose upper half reads back as 0.
    Io16,
}

impl BarKind {
    /// Every kind.
    pub const ALL: [BarKind; 7] = [
        BarKind::Unused,
        BarKind::Memory32,
        BarKind::Memory32Prefetchable,
        BarKind::Memory64,
        BarKind::Memory64Prefetchable,
        BarKind::Io,
        BarKind::Io16,
    ];

    /// The kind's word in a board's text.
    pub const fn word(self) -> &'static str {
        match self {
            BarKind::Unused => "-",
            BarKind::Memory32 => "mem32",
            BarKind::Memory32Prefetchable => "mem32p",
            BarKind::Memory64 => "mem64",
            BarKind::Memory64Prefetchable => "mem64p",
            BarKind::Io => "io",
            BarKind::Io16 => "io16",
        }
    }

    /// How many slots it takes.
    pub const fn slots(self) -> usize {
        match self {
            BarKind::Memory64 | BarKind::Memory64Prefetchable => 2,
            _ => 1,
        }
    }

    /// The pool that its addresses are taken from; `None` for a slot that is not used.
    pub const fn pool(self) -> Option<Pool> {
        match self {
            BarKind::Unused => None,
            BarKind::Memory32 | BarKind::Memory32Prefetchable | BarKind::Memory64 => Some(Pool::Low),
            BarKind::Memory64Prefetchable => Some(Pool::High),
            BarKind::Io | BarKind::Io16 => Some(Pool::Io),
        }
    }

    /// The kind by the type bits of a read-back, and of an I/O BAR by its upper half.
    const fn of_read_back(first: u32) -> BarKind {
        match first {
            0 => BarKind::Unused,
            _ if first & IO != 0 && first >> 16 == 0 => BarKind::Io16,
            _ if first & IO != 0 => BarKind::Io,
            _ => match (first & WIDE != 0, first & PREFETCHABLE != 0) {
                (false, false) => BarKind::Memory32,
                (false, true) => BarKind::Memory32Prefetchable,
                (true, false) => BarKind::Memory64,
                (true, true) => BarKind::Memory64Prefetchable,
            },
        }
    }

    /// The type bits.
    const fn type_bits(self) -> u32 {
        match self {
            BarKind::Unused | BarKind::Memory32 => 0,
            BarKind::Memory32Prefetchable => PREFETCHABLE,
            BarKind::Memory64 => WIDE,
            BarKind::Memory64Prefetchable => WIDE | PREFETCHABLE,
            BarKind::Io | BarKind::Io16 => IO,
        }
    }

    /// The bits of the register that are no part of an address.
    const fn low_bits(self) -> u32 {
        match self {
            BarKind::Io | BarKind::Io16 => IO_BITS,
            _ => MEMORY_BITS,
        }
    }

    /// How many bits an address has.
    const fn width(self) -> u32 {
        match self {
            BarKind::Io | BarKind::Io16 => 16,
            BarKind::Memory64 | BarKind::Memory64Prefetchable => 64,
            _ => 32,
        }
    }
}

/// `mem64p`.
impl fmt::Display for BarKind {
    fn fmt(&self, f: &mut fmt::Formatter<'_>) -> fmt::Result {
        f.pad(self.word())
    }
}

/// A BAR: its kind, and how many addresses it decodes.
///
/// ```
/// use cartsundial::{Bar, BarKind};
///
/// let bar = Bar::new(BarKind::Memory64Prefetchable, 64 << 20);
/// assert_eq!(bar.read_backs(), Some([0xFC00_000C, 0xFFFF_FFFF]));
/// assert_eq!(Bar::of_read_backs(0xFC00_000C, 0xFFFF_FFFF), Some(bar));
/// assert_eq!(Bar::new(BarKind::Memory32, 3 << 20).read_backs(), None);
/// ```
#[derive(Clone, Copy, Debug, PartialEq, Eq, Hash)]
pub struct Bar {
    /// What it decodes.
    pub kind: BarKind,
    /// In bytes; 0 for a slot that is not used.
    pub size: u64,
}

impl Bar {
    /// A slot that is not used.
    pub const UNUSED: Bar = Bar { kind: BarKind::Unused, size: 0 };

    /// Of this kind, with so many bytes.
    pub const fn new(kind: BarKind, size: u64) -> Bar {
        Bar { kind, size }
    }

    /// What its register, and for 64 bits the next one, give after all ones were written: 0 in a second slot that it does
    /// not take. `None` for a size that has none: no power of two, or outside what the register can say. A board's checks
    /// ask for more, as that a memory BAR has 128 bytes.
    pub const fn read_backs(self) -> Option<[u32; 2]> {
        let Bar { kind, size } = self;
        if matches!(kind, BarKind::Unused) {
            return if size == 0 { Some([0; 2]) } else { None };
        }
        let is_in_range = size > kind.low_bits() as u64 && size.ilog2() < kind.width();
        if !size.is_power_of_two() || !is_in_range {
            return None;
        }
        let ones = !(size - 1);
        let low = ones as u32 | kind.type_bits();
        Some(match kind {
            BarKind::Memory64 | BarKind::Memory64Prefetchable => [low, (ones >> 32) as u32],
            BarKind::Io16 => [low & 0xFFFF, 0],
            _ => [low, 0],
        })
    }

    /// The BAR with this read-back; the second one is that of the next slot, and matters for 64 bits only. `None` where
    /// no BAR has it.
    pub fn of_read_backs(first: u32, second: u32) -> Option<Bar> {
        let kind = BarKind::of_read_back(first);
        let low = u64::from(first & !kind.low_bits());
        let bits = if kind.slots() == 2 { u64::from(second) << 32 | low } else { low };
        let bar = Bar { kind, size: bits & bits.wrapping_neg() };
        let given = if kind.slots() == 2 { [first, second] } else { [first, 0] };
        (bar.read_backs() == Some(given)).then_some(bar)
    }

    /// Where it starts, by the values of its register and of the next one.
    pub(crate) fn start(self, first: u32, second: u32) -> u64 {
        let low = u64::from(first & !self.kind.low_bits());
        if self.kind.slots() == 2 {
            u64::from(second) << 32 | low
        } else {
            low
        }
    }
}
