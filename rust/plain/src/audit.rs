//! The audit (request E6 of document 02): whether a sheet that other firmware left keeps, for a host record, to what
//! every planned sheet keeps to.

use crate::bar;
use crate::board::{Host, HOST};
use crate::pool::{Pool, Range};
use crate::sheet::{check, Record, Sheet};

/// The number of the first check that the host record or the sheet fails, 0 when the sheet is accepted.
pub fn audit(host: &[u8], sheet: &[u8]) -> u8 {
    judge(host, sheet, Nesting::Kind).err().unwrap_or(0)
}

/// The same with 51 asked of the address space and not of the kind: a memory BAR or window lies in some memory window of
/// the bridge above, on the root bus in the low or the high pool. 0 when every address has one owner.
pub fn sound(host: &[u8], sheet: &[u8]) -> u8 {
    judge(host, sheet, Nesting::Space).err().unwrap_or(0)
}

/// The second verdict of a sheet without a host record: the sheet's own number, then as for a host that any sheet fits.
pub fn sound_alone(sheet: &[u8]) -> u8 {
    match check(sheet) {
        0 => sound(&widest_host(sheet), sheet),
        number => number,
    }
}

/// Buses from the first record's to FFh, and the widest pools that are lawful.
pub(crate) fn widest_host(sheet: &[u8]) -> [u8; HOST] {
    let first = Sheet::new(sheet).ok().and_then(|sheet| sheet.records().next()).map_or(0, |record| record.bus());
    let mut host = [0; HOST];
    host[..2].copy_from_slice(&[first, 0xFF]);
    host[2..10].copy_from_slice(&0xFFFF_FFFF_u64.to_be_bytes());
    host[10..18].copy_from_slice(&(1_u64 << 32).to_be_bytes());
    host[18..26].copy_from_slice(&((1_u64 << 52) - 1).to_be_bytes());
    host[26..].copy_from_slice(&0xFFFF_u32.to_be_bytes());
    host
}

/// The host record's 20 and 26, the sheet's own checks, then 50, 51 and 52.
fn judge(host: &[u8], sheet: &[u8], nesting: Nesting) -> Result<(), u8> {
    let host: &[u8; HOST] = host.try_into().map_err(|_| 20)?;
    let host = Host::parse(host);
    if !host.is_lawful() {
        return Err(26);
    }
    let sheet = Sheet::new(sheet)?;
    let tree = Tree::new(&host, sheet);
    if !tree.buses_nest() {
        return Err(50);
    }
    let mut items = Vec::new();
    for record in sheet.records() {
        add_items(record, &mut items);
    }
    if !items.iter().all(|item| tree.holds(item, nesting)) {
        return Err(51);
    }
    // One space on one bus.
    let keyed = items.iter().map(|item| ((item.bus, item.pool == Pool::Io), item.range.base, item.range.last));
    if !are_disjoint(keyed.collect()) {
        return Err(52);
    }
    Ok(())
}

/// Which windows, or pools, check 51 lets a BAR or window lie in: those of its kind, or of its address space.
#[derive(Clone, Copy)]
enum Nesting {
    Kind,
    Space,
}

impl Nesting {
    fn admits(self, item: Pool, outer: Pool) -> bool {
        match self {
            Nesting::Kind => item == outer,
            Nesting::Space => (item == Pool::Io) == (outer == Pool::Io),
        }
    }
}

/// A BAR, or an open window.
struct Item {
    bus: u8,
    /// Where document 01 puts its kind.
    pool: Pool,
    range: Range,
}

/// Adds the BARs and open windows of a function, enabled or not.
fn add_items(record: Record<'_>, items: &mut Vec<Item>) {
    let bus = record.bus();
    for bar in bar::bars(record.read_backs()) {
        items.push(Item { bus, pool: bar.pool, range: bar.range(record.value(&bar)) });
    }
    if record.is_bridge() {
        let windows = Pool::ALL.map(|pool| Item { bus, pool, range: record.window(pool) });
        items.extend(windows.into_iter().filter(|window| !window.range.is_closed()));
    }
}

/// What leads to a bus, by the bridges that have it as their secondary.
#[derive(Clone, Copy)]
enum Way<'a> {
    None,
    One(Record<'a>),
    Several,
}

/// The host, or the bridge just above.
enum Parent<'a> {
    Host(&'a Host),
    Bridge(Record<'a>),
}

impl Parent<'_> {
    /// Whether a bridge's buses lie in the parent's.
    fn spans(&self, bridge: Record<'_>) -> bool {
        let (first, last) = match self {
            Parent::Host(host) => (host.first_bus, host.last_bus),
            Parent::Bridge(above) => (above.secondary(), above.subordinate()),
        };
        first <= bridge.secondary() && bridge.subordinate() <= last
    }

    /// The pool, or the window of that kind.
    fn range(&self, pool: Pool) -> Range {
        match self {
            Parent::Host(host) => host.pools[pool as usize],
            Parent::Bridge(above) => above.window(pool),
        }
    }
}

/// The buses of a sheet, and what is above each.
struct Tree<'a> {
    host: &'a Host,
    sheet: Sheet<'a>,
    ways: [Way<'a>; 256],
}

impl<'a> Tree<'a> {
    fn new(host: &'a Host, sheet: Sheet<'a>) -> Tree<'a> {
        let mut ways = [Way::None; 256];
        for bridge in sheet.records().filter(|record| record.is_bridge()) {
            let way = &mut ways[usize::from(bridge.secondary())];
            *way = match way {
                Way::None => Way::One(bridge),
                Way::One(_) | Way::Several => Way::Several,
            };
        }
        Tree { host, sheet, ways }
    }

    /// The parent of a bus's functions. Only the root bus and one that a single bridge leads to have it.
    fn parent(&self, bus: u8) -> Option<Parent<'a>> {
        if bus == self.host.first_bus {
            return Some(Parent::Host(self.host));
        }
        match self.ways[usize::from(bus)] {
            Way::One(bridge) => Some(Parent::Bridge(bridge)),
            Way::None | Way::Several => None,
        }
    }

    /// Check 50.
    fn buses_nest(&self) -> bool {
        let host = Parent::Host(self.host);
        let on_root = self.sheet.records().next().is_none_or(|first| first.bus() == self.host.first_bus);
        let in_parents = self.sheet.records().all(|record| {
            self.parent(record.bus())
                .is_some_and(|parent| !record.is_bridge() || (parent.spans(record) && host.spans(record)))
        });
        let bridges = self.sheet.records().filter(|record| record.is_bridge());
        on_root
            && in_parents
            && are_disjoint(bridges.map(|bridge| (bridge.bus(), bridge.secondary(), bridge.subordinate())).collect())
    }

    /// Check 51 of one item. Nothing lies in a closed window or pool.
    fn holds(&self, item: &Item, nesting: Nesting) -> bool {
        self.parent(item.bus).is_some_and(|parent| {
            let admitted = Pool::ALL.into_iter().filter(|&pool| nesting.admits(item.pool, pool));
            admitted
                .map(|pool| parent.range(pool))
                .any(|outer| outer.base <= item.range.base && item.range.last <= outer.last)
        })
    }
}

/// Whether no two ranges of one key share a number; each is its key, its first number and its last, not below the first.
fn are_disjoint<K: Ord, N: Ord>(mut ranges: Vec<(K, N, N)>) -> bool {
    // In order of their first numbers, the ranges of a key are disjoint when each ends before the next starts.
    ranges.sort_unstable();
    ranges.windows(2).all(|pair| pair[0].0 != pair[1].0 || pair[0].2 < pair[1].1)
}
