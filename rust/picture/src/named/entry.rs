//! The lines in a function's box: a BAR, an open window or spare room each, and what they say.

use super::Drawn;
use cartsundial::{PlacedBar, Pool, Size};
use std::ops::RangeInclusive;

pub enum Entry {
    Bar(PlacedBar),
    Window(Pool, RangeInclusive<u64>),
    /// The end of a bridge's low window, which is kept free.
    SpareMemory(RangeInclusive<u64>),
    /// The last buses of a bridge's range, first and last, which are kept free.
    SpareBuses(u8, u8),
}

impl Entry {
    /// A function's BARs, then its windows and what it keeps free.
    pub fn all(drawn: &Drawn) -> Vec<Entry> {
        let Drawn { function, spares, .. } = drawn;
        let mut entries: Vec<Entry> = function.bars().map(Entry::Bar).collect();
        if let Some(all) = function.windows() {
            let spare = all.low.clone().filter(|_| spares.memory > 0);
            let windows = [(Pool::Io, all.io), (Pool::Low, all.low), (Pool::High, all.high)];
            entries.extend(windows.into_iter().filter_map(|(pool, window)| Some(Entry::Window(pool, window?))));
            entries.extend(spare.map(|low| {
                Entry::SpareMemory((low.end() + 1).saturating_sub(u64::from(spares.memory) << 20)..=*low.end())
            }));
        }
        if let Some(buses) = function.buses().filter(|_| spares.buses > 0) {
            entries.push(Entry::SpareBuses(buses.subordinate.saturating_sub(spares.buses - 1), buses.subordinate));
        }
        entries
    }

    /// The style of its mark: a colour for the pool, filled for a BAR, open for a window and dashed for spare room.
    pub fn mark(&self) -> &'static str {
        match (self, self.pool()) {
            (Entry::Bar(_), Some(Pool::Io)) => "io",
            (Entry::Bar(_), Some(Pool::Low)) => "low",
            (Entry::Bar(_), Some(Pool::High)) => "high",
            (Entry::Window(..), Some(Pool::Io)) => "io window",
            (Entry::Window(..), Some(Pool::Low)) => "low window",
            (Entry::Window(..), Some(Pool::High)) => "high window",
            (Entry::SpareMemory(_), _) => "low window spare",
            (_, None) | (Entry::SpareBuses(..), _) => "any window spare",
        }
    }

    pub fn label(&self) -> String {
        match self {
            Entry::Bar(placed) if placed.bar.kind.slots() == 2 => format!("BAR {}–{}", placed.slot, placed.slot + 1),
            Entry::Bar(placed) => format!("BAR {}", placed.slot),
            Entry::Window(Pool::Io, _) => "I/O".to_string(),
            Entry::Window(Pool::Low, _) => "memory".to_string(),
            Entry::Window(Pool::High, _) => "high".to_string(),
            Entry::SpareMemory(_) | Entry::SpareBuses(..) => "spare".to_string(),
        }
    }

    /// The first and last address, or spare buses.
    pub fn addresses(&self) -> String {
        match (self, self.range()) {
            (Entry::SpareBuses(first, last), _) if first == last => format!("bus {first:02X}"),
            (Entry::SpareBuses(first, last), _) => format!("buses {first:02X}–{last:02X}"),
            (_, Some(range)) => {
                let spell = |address| hexadecimal(self.pool() == Some(Pool::Io), address);
                format!("{}–{}", spell(*range.start()), spell(*range.end()))
            }
            (_, None) => String::new(),
        }
    }

    /// `mem32 64K`, of anything but a BAR the size alone; nothing for spare buses.
    pub fn size(&self) -> Option<String> {
        let range = self.range()?;
        let size = Size((range.end() - range.start()).saturating_add(1));
        Some(match self {
            Entry::Bar(placed) => format!("{} {size}", placed.bar.kind),
            _ => size.to_string(),
        })
    }

    fn range(&self) -> Option<RangeInclusive<u64>> {
        match self {
            Entry::Bar(placed) => Some(placed.range()),
            Entry::Window(_, range) | Entry::SpareMemory(range) => Some(range.clone()),
            Entry::SpareBuses(..) => None,
        }
    }

    fn pool(&self) -> Option<Pool> {
        match self {
            Entry::Bar(placed) => placed.bar.kind.pool(),
            Entry::Window(pool, _) => Some(*pool),
            Entry::SpareMemory(_) => Some(Pool::Low),
            Entry::SpareBuses(..) => None,
        }
    }
}

/// Four digits in I/O space, else eight, and before them the upper word where there is one.
fn hexadecimal(is_io: bool, address: u64) -> String {
    match (is_io, address >> 32) {
        (true, _) => format!("{address:04X}"),
        (_, 0) => format!("{address:08X}"),
        (_, upper) => format!("{upper:X}_{:08X}", address & 0xFFFF_FFFF),
    }
}

#[cfg(test)]
mod tests {
    use super::*;

    #[test]
    fn addresses_as_the_pool_has_them() {
        assert_eq!(hexadecimal(true, 0x40), "0040");
        assert_eq!(hexadecimal(false, 0x10_0000), "00100000");
        assert_eq!(hexadecimal(false, 0x2_4000_0000), "2_40000000");
        assert_eq!(hexadecimal(false, 0xF_FFFF_FFFF_FFFF), "FFFFF_FFFFFFFF");
    }
}
