//! What a plan's registers mean, by document 01: BARs, and the windows of bridges.

/// Where an address was taken from: the I/O pool, the low memory pool or the high one.
#[derive(Clone, Copy, Debug, PartialEq, Eq)]
pub enum Pool {
    Io,
    Low,
    High,
}

/// The addresses that a bridge hands down, from `base` to `last`, both inside.
#[derive(Clone, Copy, Debug, PartialEq, Eq)]
pub struct Window {
    pub pool: Pool,
    pub base: u64,
    pub last: u64,
}

impl Window {
    /// Registers that hold address bits 15:12 in bits 7:4.
    pub fn io(base: u8, limit: u8) -> Result<Option<Window>, &'static str> {
        if (base | limit) & 0xF != 0 {
            return Err("an I/O window's low digits are not 0");
        }
        Ok(Window::open(Pool::Io, u64::from(base) << 8, u64::from(limit) << 8 | 0xFFF))
    }

    /// Registers that hold address bits 31:20 in bits 15:4.
    pub fn low(base: u16, limit: u16) -> Result<Option<Window>, &'static str> {
        if (base | limit) & 0xF != 0 {
            return Err("a memory window's low digits are not 0");
        }
        Ok(Window::open(Pool::Low, u64::from(base) << 16, u64::from(limit) << 16 | 0xF_FFFF))
    }

    /// The same with low digit 1, and the upper words of both addresses.
    pub fn high(base: u16, limit: u16, upper_base: u32, upper_limit: u32) -> Result<Option<Window>, &'static str> {
        if base & 0xF != 1 || limit & 0xF != 1 {
            return Err("a high window's low digits are not 1");
        }
        let base = u64::from(upper_base) << 32 | u64::from(base & 0xFFF0) << 16;
        let last = u64::from(upper_limit) << 32 | u64::from(limit & 0xFFF0) << 16 | 0xF_FFFF;
        Ok(Window::open(Pool::High, base, last))
    }

    /// A window with base above limit is closed.
    fn open(pool: Pool, base: u64, last: u64) -> Option<Window> {
        (base <= last).then_some(Window { pool, base, last })
    }
}

/// The type bits of a BAR.
#[derive(Clone, Copy, Debug, PartialEq, Eq)]
pub enum Kind {
    Io,
    Memory { is_wide: bool, is_prefetchable: bool },
}

/// A BAR that was given an address. The plan does not print sizes.
#[derive(Clone, Copy, Debug, PartialEq, Eq)]
pub struct Bar {
    pub slot: usize,
    pub kind: Kind,
    pub address: u64,
}

impl Bar {
    /// The BARs of a function in slot order. A zero is an unused slot; a plan prints a 32-bit BAR at address 0 the same.
    pub fn all(values: &[u32]) -> Result<Vec<Bar>, &'static str> {
        let mut bars = Vec::new();
        let mut slot = 0;
        while slot < values.len() {
            if values[slot] == 0 {
                slot += 1;
                continue;
            }
            let bar = Bar::at(values, slot)?;
            slot += bar.slots();
            bars.push(bar);
        }
        Ok(bars)
    }

    fn at(values: &[u32], slot: usize) -> Result<Bar, &'static str> {
        let value = values[slot];
        if value & 1 != 0 {
            return Bar::io(value, slot);
        }
        let is_wide = match value >> 1 & 3 {
            0 => false,
            2 => true,
            _ => return Err("a memory BAR is neither 32 nor 64 bits wide"),
        };
        let upper = match (is_wide, values.get(slot + 1)) {
            (false, _) => 0,
            (true, Some(&upper)) => upper,
            (true, None) => return Err("a 64-bit BAR has no slot for its upper half"),
        };
        Ok(Bar {
            slot,
            kind: Kind::Memory { is_wide, is_prefetchable: value & 8 != 0 },
            address: u64::from(upper) << 32 | u64::from(value & !0xF),
        })
    }

    fn io(value: u32, slot: usize) -> Result<Bar, &'static str> {
        if value & 2 != 0 {
            return Err("an I/O BAR has bit 1 set");
        }
        if value > 0xFFFF {
            return Err("an I/O BAR is above FFFF");
        }
        Ok(Bar { slot, kind: Kind::Io, address: u64::from(value & !3) })
    }

    /// How many slots the BAR takes.
    pub fn slots(&self) -> usize {
        match self.kind {
            Kind::Memory { is_wide: true, .. } => 2,
            _ => 1,
        }
    }

    /// Prefetchable 64-bit BARs use the high pool, every other memory BAR the low one.
    pub fn pool(&self) -> Pool {
        match self.kind {
            Kind::Io => Pool::Io,
            Kind::Memory { is_wide: true, is_prefetchable: true } => Pool::High,
            Kind::Memory { .. } => Pool::Low,
        }
    }
}

#[cfg(test)]
mod tests {
    use super::*;

    #[test]
    fn windows_hold_their_limits_last_byte() {
        let io = Window { pool: Pool::Io, base: 0x4000, last: 0x5FFF };
        assert_eq!(Window::io(0x40, 0x50), Ok(Some(io)));
        let low = Window { pool: Pool::Low, base: 0xF900_0000, last: 0xF91F_FFFF };
        assert_eq!(Window::low(0xF900, 0xF910), Ok(Some(low)));
        let high = Window { pool: Pool::High, base: 0x2_4000_0000, last: 0x3_0FFF_FFFF };
        assert_eq!(Window::high(0x4001, 0x0FF1, 2, 3), Ok(Some(high)));
    }

    #[test]
    fn base_above_limit_is_closed() {
        assert_eq!(Window::io(0xF0, 0x00), Ok(None));
        assert_eq!(Window::low(0xFFF0, 0x0000), Ok(None));
        assert_eq!(Window::high(0xFFF1, 0x0001, 0, 0), Ok(None));
        assert_eq!(Window::high(0x0001, 0xFFF1, 3, 2), Ok(None));
    }

    #[test]
    fn zeros_open_the_first_granule() {
        assert_eq!(Window::io(0, 0), Ok(Some(Window { pool: Pool::Io, base: 0, last: 0xFFF })));
        assert_eq!(Window::low(0, 0), Ok(Some(Window { pool: Pool::Low, base: 0, last: 0xF_FFFF })));
    }

    #[test]
    fn window_registers_have_fixed_low_digits() {
        assert!(Window::io(0x41, 0x40).is_err());
        assert!(Window::low(0xF900, 0xF901).is_err());
        assert!(Window::high(0x4000, 0x4001, 2, 2).is_err());
        assert!(Window::high(0x4001, 0x4003, 2, 2).is_err());
    }

    #[test]
    fn type_bits_tell_the_kind() {
        let kinds = [
            (0x0000_4001, Kind::Io, 0x4000, Pool::Io),
            (0xF900_0000, Kind::Memory { is_wide: false, is_prefetchable: false }, 0xF900_0000, Pool::Low),
            (0xF900_0008, Kind::Memory { is_wide: false, is_prefetchable: true }, 0xF900_0000, Pool::Low),
            (0xF900_0004, Kind::Memory { is_wide: true, is_prefetchable: false }, 0x2_F900_0000, Pool::Low),
            (0xF900_000C, Kind::Memory { is_wide: true, is_prefetchable: true }, 0x2_F900_0000, Pool::High),
        ];
        for (value, kind, address, pool) in kinds {
            let bar = Bar::at(&[value, 2], 0).unwrap();
            assert_eq!((bar.kind, bar.address, bar.pool()), (kind, address, pool), "{value:08X}");
        }
    }

    #[test]
    fn a_64_bit_bar_takes_two_slots() {
        let bars = Bar::all(&[0x0000_000C, 0x10, 0, 0x4000_000C, 0x0000_4001, 0x0000_4001]).unwrap();
        let places: Vec<_> = bars.iter().map(|bar| (bar.slot, bar.slots(), bar.address)).collect();
        assert_eq!(places, [(0, 2, 0x10_0000_0000), (3, 2, 0x4001_4000_0000), (5, 1, 0x4000)]);
    }

    #[test]
    fn values_that_no_bar_holds() {
        assert!(Bar::all(&[0x4003]).is_err());
        assert!(Bar::all(&[0x1_0001]).is_err());
        assert!(Bar::all(&[0xF900_0002]).is_err());
        assert!(Bar::all(&[0xF900_0006, 0]).is_err());
        assert!(Bar::all(&[0, 0x4000_000C]).is_err());
    }
}
