//! The lines in a function's box: a BAR, an open window or spare room each, and what they say.

use crate::plan::Function;
use crate::registers::{Bar, Kind, Pool, Window};

pub enum Entry<'a> {
    Bar(&'a Bar),
    Window(&'a Window),
    /// The end of a bridge's low window, which is kept free.
    SpareMemory(&'a Window),
    /// The last buses of a bridge's range, first and last, which are kept free.
    SpareBuses((u8, u8)),
}

impl<'a> Entry<'a> {
    /// A function's BARs, then its windows and what it keeps free.
    pub fn all(function: &'a Function) -> Vec<Entry<'a>> {
        let mut entries: Vec<Entry> = function.bars.iter().map(Entry::Bar).collect();
        if let Some(bridge) = &function.bridge {
            entries.extend(bridge.windows.iter().map(Entry::Window));
            entries.extend(bridge.spare_memory.iter().map(Entry::SpareMemory));
            entries.extend(bridge.spare_buses.map(Entry::SpareBuses));
        }
        entries
    }

    /// The style of its mark: a colour for the pool, filled for a BAR, open for a window and dashed for spare room.
    pub fn mark(&self) -> &'static str {
        match (self, self.pool()) {
            (Entry::Bar(_), Some(Pool::Io)) => "io",
            (Entry::Bar(_), Some(Pool::Low)) => "low",
            (Entry::Bar(_), Some(Pool::High)) => "high",
            (Entry::Window(_), Some(Pool::Io)) => "io window",
            (Entry::Window(_), Some(Pool::Low)) => "low window",
            (Entry::Window(_), Some(Pool::High)) => "high window",
            (Entry::SpareMemory(_), _) => "low window spare",
            (_, None) | (Entry::SpareBuses(_), _) => "any window spare",
        }
    }

    pub fn label(&self) -> String {
        match self {
            Entry::Bar(bar) if bar.slots() == 2 => format!("BAR {}–{}", bar.slot, bar.slot + 1),
            Entry::Bar(bar) => format!("BAR {}", bar.slot),
            Entry::Window(window) => match window.pool {
                Pool::Io => "I/O".to_string(),
                Pool::Low => "memory".to_string(),
                Pool::High => "high".to_string(),
            },
            Entry::SpareMemory(_) | Entry::SpareBuses(_) => "spare".to_string(),
        }
    }

    /// Where a BAR starts, or the first and last address of a window or of spare memory; or spare buses.
    pub fn addresses(&self) -> String {
        match self {
            Entry::Bar(bar) => hexadecimal(bar.pool(), bar.address),
            Entry::Window(window) | Entry::SpareMemory(window) => {
                let spell = |address| hexadecimal(window.pool, address);
                format!("{}–{}", spell(window.base), spell(window.last))
            }
            Entry::SpareBuses((first, last)) if first == last => format!("bus {first:02X}"),
            Entry::SpareBuses((first, last)) => format!("buses {first:02X}–{last:02X}"),
        }
    }

    /// What a BAR's type bits say; nothing for anything else.
    pub fn kind(&self) -> Option<&'static str> {
        let Entry::Bar(bar) = self else { return None };
        Some(match bar.kind {
            Kind::Io => "I/O",
            Kind::Memory { is_wide: false, is_prefetchable: false } => "32-bit memory",
            Kind::Memory { is_wide: false, is_prefetchable: true } => "32-bit prefetchable",
            Kind::Memory { is_wide: true, is_prefetchable: false } => "64-bit memory",
            Kind::Memory { is_wide: true, is_prefetchable: true } => "64-bit prefetchable",
        })
    }

    fn pool(&self) -> Option<Pool> {
        match self {
            Entry::Bar(bar) => Some(bar.pool()),
            Entry::Window(window) | Entry::SpareMemory(window) => Some(window.pool),
            Entry::SpareBuses(_) => None,
        }
    }
}

/// Four digits in I/O space, else eight, and before them the upper word where there is one.
fn hexadecimal(pool: Pool, address: u64) -> String {
    match (pool, address >> 32) {
        (Pool::Io, _) => format!("{address:04X}"),
        (_, 0) => format!("{address:08X}"),
        (_, upper) => format!("{upper:X}_{:08X}", address & 0xFFFF_FFFF),
    }
}

#[cfg(test)]
mod tests {
    use super::*;

    #[test]
    fn addresses_as_the_pool_has_them() {
        assert_eq!(hexadecimal(Pool::Io, 0x40), "0040");
        assert_eq!(hexadecimal(Pool::Low, 0x10_0000), "00100000");
        assert_eq!(hexadecimal(Pool::High, 0x2_4000_0000), "2_40000000");
        assert_eq!(hexadecimal(Pool::High, 0xF_FFFF_FFFF_FFFF), "FFFFF_FFFFFFFF");
    }
}
