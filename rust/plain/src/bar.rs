//! BAR read-backs: what a function answers after all ones were written.

use crate::pool::{Item, Pool, Range};

/// The least size of a memory BAR (document 02, E9).
const LEAST_MEMORY: u64 = 128;

/// A read-back that no BAR gives (25).
#[derive(Clone, Copy, Debug, PartialEq, Eq)]
pub struct Malformed;

/// One BAR, as its read-back describes it.
#[derive(Clone, Copy, Debug, PartialEq, Eq)]
pub struct Bar {
    pub slot: usize,
    pub pool: Pool,
    pub is_io: bool,
    /// The register has an upper half in the next slot.
    pub is_wide: bool,
    /// The type bits of the register.
    pub kind: u32,
    /// Ones from the size bit up to bit 63, whatever the register's width.
    pub mask: u64,
}

impl Bar {
    /// The BAR that starts at `slot`; `None` when the slot is unused.
    pub fn at(read_backs: &[u32], slot: usize) -> Result<Option<Bar>, Malformed> {
        let low = read_backs[slot];
        if low == 0 {
            return Ok(None);
        }
        let bar =
            if low & 1 != 0 { Bar::io(low, slot) } else { Bar::memory(low, read_backs.get(slot + 1).copied(), slot) }?;
        Ok(Some(bar))
    }

    fn io(low: u32, slot: usize) -> Result<Bar, Malformed> {
        let upper = low >> 16;
        if low & 2 != 0 || (upper != 0 && upper != 0xFFFF) {
            return Err(Malformed);
        }
        Ok(Bar {
            slot,
            pool: Pool::Io,
            is_io: true,
            is_wide: false,
            kind: 1,
            mask: ones_to_top(u64::from(low & 0xFFFC) << 48, 48)?,
        })
    }

    fn memory(low: u32, next: Option<u32>, slot: usize) -> Result<Bar, Malformed> {
        let bits = u64::from(low & !0xF);
        let (is_wide, mask) = match low >> 1 & 3 {
            0 => (false, ones_to_top(bits << 32, 32)?),
            2 => {
                let upper = u64::from(next.ok_or(Malformed)?);
                (true, ones_to_top(upper << 32 | bits, 0)?)
            }
            _ => return Err(Malformed),
        };
        let prefetchable = low & 8 != 0;
        let bar = Bar {
            slot,
            pool: if is_wide && prefetchable { Pool::High } else { Pool::Low },
            is_io: false,
            is_wide,
            kind: low & 0xF,
            mask,
        };
        if bar.size() < LEAST_MEMORY {
            return Err(Malformed);
        }
        Ok(bar)
    }

    /// How many slots the BAR takes.
    pub fn slots(&self) -> usize {
        1 + usize::from(self.is_wide)
    }

    pub fn size(&self) -> u64 {
        self.mask.wrapping_neg()
    }

    /// The BAR as an item: its alignment is its size.
    pub fn item(&self) -> Item {
        Item { size: self.size(), align: self.size() }
    }

    /// Whether a register of this BAR may hold `value`, upper half included.
    pub fn admits(&self, value: u64) -> bool {
        value & !self.mask == u64::from(self.kind) && !(self.is_io && value > 0xFFFF)
    }

    /// The addresses of the BAR with this register value. They may end at 2^64 - 1.
    pub fn range(&self, value: u64) -> Range {
        Range { base: value & self.mask, last: value | !self.mask }
    }

    /// Whether the BAR with this register value holds `address`.
    pub fn holds(&self, value: u64, address: u64) -> bool {
        (value ^ address) & self.mask == 0
    }
}

/// The mask of a size field that was moved up by `shift` so that it ends at bit 63, moved back with ones above it.
fn ones_to_top(field: u64, shift: u32) -> Result<u64, Malformed> {
    let contiguous = field != 0 && field.leading_ones() + field.trailing_zeros() == 64;
    contiguous.then(|| ((field as i64) >> shift) as u64).ok_or(Malformed)
}

/// The BARs of read-backs that are known to be lawful, in slot order. Those of a type 1 function end in four zeros.
pub fn bars(read_backs: [u32; 6]) -> impl Iterator<Item = Bar> {
    let mut slot = 0;
    std::iter::from_fn(move || {
        while slot < read_backs.len() {
            match Bar::at(&read_backs, slot) {
                Ok(Some(bar)) => {
                    slot += bar.slots();
                    return Some(bar);
                }
                _ => slot += 1,
            }
        }
        None
    })
}

/// The first slot that is neither unused nor the start of a BAR, nor the upper half of one.
pub fn wrong_slot(read_backs: &[u32]) -> Option<usize> {
    let mut slot = 0;
    while slot < read_backs.len() {
        match Bar::at(read_backs, slot) {
            Ok(bar) => slot += bar.map_or(1, |bar| bar.slots()),
            Err(Malformed) => return Some(slot),
        }
    }
    None
}

#[cfg(test)]
mod tests {
    use super::*;

    fn size_at(read_backs: &[u32], slot: usize) -> Result<u64, Malformed> {
        Bar::at(read_backs, slot).map(|bar| bar.unwrap().size())
    }

    #[test]
    fn io_spellings() {
        for low in [0x0000_8001, 0xFFFF_8001] {
            assert_eq!(size_at(&[low], 0), Ok(0x8000));
        }
        assert_eq!(size_at(&[0xFFFF_FFFD], 0), Ok(4));
        assert_eq!(size_at(&[0x0000_FF01], 0), Ok(0x100));
        for low in [1, 0xFFFF_0001, 0x0001_FF01, 0xFFFF_FFFF, 0xFFFF_FF03, 0xFFFF_7F01, 0x8000_FF01] {
            assert_eq!(Bar::at(&[low], 0), Err(Malformed), "{low:08X}");
        }
    }

    #[test]
    fn memory_read_backs() {
        assert_eq!(size_at(&[0xFFFF_FF80], 0), Ok(128));
        assert_eq!(size_at(&[0xFFFF_FF88], 0), Ok(128));
        assert_eq!(size_at(&[0x8000_0008], 0), Ok(1 << 31));
        for low in [0xF0FF_F000, 8, 2, 6, 0xFFFF_F002, 0xFFFF_F006, 0x7FFF_F000, 4, 12] {
            assert_eq!(Bar::at(&[low], 0), Err(Malformed), "{low:08X}");
        }
        // 64, 32 and 16 bytes.
        for low in [0xFFFF_FFC0, 0xFFFF_FFC8, 0xFFFF_FFE0, 0xFFFF_FFE8, 0xFFFF_FFF0, 0xFFFF_FFF8] {
            assert_eq!(Bar::at(&[low], 0), Err(Malformed), "{low:08X}");
        }
    }

    #[test]
    fn wide_read_backs() {
        assert_eq!(size_at(&[0x0000_000C, 0xFFFF_FFFF], 0), Ok(1 << 32));
        assert_eq!(size_at(&[0x0000_0004, 0x8000_0000], 0), Ok(1 << 63));
        assert_eq!(size_at(&[0xFFFF_FF84, 0xFFFF_FFFF], 0), Ok(128));
        assert_eq!(size_at(&[0xFFFF_FF8C, 0xFFFF_FFFF], 0), Ok(128));
        for low in [0xFFFF_FFC4, 0xFFFF_FFCC, 0xFFFF_FFE4, 0xFFFF_FFEC, 0xFFFF_FFF4, 0xFFFF_FFFC] {
            assert_eq!(Bar::at(&[low, 0xFFFF_FFFF], 0), Err(Malformed), "{low:08X}");
        }
        assert_eq!(Bar::at(&[0xFFFF_F00C, 0], 0), Err(Malformed));
        assert_eq!(Bar::at(&[0xFFFF_F00C, 0xFFFF_FFFE], 0), Err(Malformed));
        assert_eq!(Bar::at(&[0, 0xFFFF_F00C], 1), Err(Malformed));
    }

    #[test]
    fn pools() {
        let pool = |low| Bar::at(&[low, 0xFFFF_FFFF], 0).unwrap().unwrap().pool;
        assert_eq!(pool(0xFFFF_F000), Pool::Low);
        assert_eq!(pool(0xFFFF_F008), Pool::Low);
        assert_eq!(pool(0xFFFF_F004), Pool::Low);
        assert_eq!(pool(0xFFFF_F00C), Pool::High);
        assert_eq!(pool(0xFFFF_FF01), Pool::Io);
    }
}
