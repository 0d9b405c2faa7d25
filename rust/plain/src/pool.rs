//! The three address pools and the arithmetic of placing.

/// The pools, in the order in which they are refused.
#[derive(Clone, Copy, Debug, PartialEq, Eq)]
pub enum Pool {
    Low,
    High,
    Io,
}

/// One value for each pool, indexed by `Pool as usize`.
pub type PerPool<T> = [T; 3];

impl Pool {
    pub const ALL: PerPool<Pool> = [Pool::Low, Pool::High, Pool::Io];

    /// A window's granule.
    pub const fn granule(self) -> u64 {
        match self {
            Pool::Low | Pool::High => 1 << 20,
            Pool::Io => 1 << 12,
        }
    }

    /// The number of a board whose items end past this pool.
    pub const fn refusal(self) -> u8 {
        31 + self as u8
    }
}

/// The edges of a pool, a window or a BAR, both inside.
#[derive(Clone, Copy, Debug)]
pub struct Range {
    pub base: u64,
    pub last: u64,
}

impl Range {
    pub fn is_closed(&self) -> bool {
        self.base > self.last
    }

    pub fn holds(&self, address: u64) -> bool {
        self.base <= address && address <= self.last
    }
}

/// The first multiple of `align`, a power of two, at or after `end`; `u64::MAX` where that is 2^64 or more.
///
/// No open pool reaches 2^52, so a sum that saturates is refused as the exact one would be.
pub fn align_up(end: u64, align: u64) -> u64 {
    match end.checked_add(align - 1) {
        Some(sum) => sum & !(align - 1),
        None => u64::MAX,
    }
}

/// The items of one bus in one pool, laid out so far.
#[derive(Clone, Copy, Debug)]
pub struct Extent {
    /// The end of the last item.
    pub end: u64,
    /// The largest alignment of an item, 0 when there is none.
    pub align: u64,
}

impl Extent {
    pub const EMPTY: Extent = Extent::from(0);

    pub const fn from(end: u64) -> Self {
        Extent { end, align: 0 }
    }

    pub fn is_empty(&self) -> bool {
        self.align == 0
    }

    /// Places one more item.
    pub fn add(&mut self, item: Item) {
        item.place(&mut self.end);
        self.align = self.align.max(item.align);
    }

    /// The window around these items and `spare` bytes of room after their rounded end, or nothing when it is closed.
    pub fn window(&self, pool: Pool, spare: u64) -> Option<Item> {
        let granule = pool.granule();
        let size = align_up(self.end, granule).saturating_add(spare);
        (!self.is_empty() || spare > 0).then_some(Item { size, align: self.align.max(granule) })
    }
}

/// A BAR or an open window before it has an address.
#[derive(Clone, Copy, Debug, PartialEq, Eq)]
pub struct Item {
    pub size: u64,
    pub align: u64,
}

impl Item {
    /// Places the item after `end`, moves `end` past it and returns its start.
    pub fn place(self, end: &mut u64) -> u64 {
        let start = align_up(*end, self.align);
        *end = start.saturating_add(self.size);
        start
    }
}
