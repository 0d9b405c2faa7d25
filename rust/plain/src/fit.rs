//! What does not fit of a board: the planner's number, whom it is about, and what the board needs of its host.
//!
//! Every item has an address here, as if nothing ran out. These are whole numbers, past the pools and past 2^64.

use crate::bar;
use crate::board::{Board, Function};
use crate::finding::{window_place, Party};
use crate::plan::plan;
use crate::pool::{PerPool, Pool, Range};

/// Addresses and ends are told up to 2^62.
const TOLD: u128 = 1 << 62;

/// What a board that passes its own checks needs; all 0 of another one.
#[derive(Clone, Copy, Debug, Default, PartialEq, Eq)]
pub struct Needs {
    /// Bus numbers: the root bus, and those of the bridges and their spares.
    pub buses: u64,
    /// Bytes of the low, the high and the I/O pool from its base, of a closed one from a multiple of its alignment.
    pub bytes: [u64; 3],
    /// The largest alignment of the root bus in each, at least the granule.
    pub aligns: [u64; 3],
}

#[derive(Clone, Copy, Debug, Default, PartialEq, Eq)]
pub struct Fit {
    pub number: u8,
    /// For 23 to 25 the first record that fails; for 31 to 33 the first item of the root bus that ends past its pool.
    pub party: Party,
    /// For 31 to 33 the item of that pool, on any bus, before which most room is lost to alignment.
    pub other: Party,
    pub needs: Needs,
}

/// The planner's number, but never 11; whom it is about, and what the board needs.
pub fn plan_where(bytes: &[u8]) -> Fit {
    let board = match Board::judge(bytes) {
        Ok(board) => board,
        Err((number, party)) => return Fit { number, party, ..Fit::default() },
    };
    let number = plan(bytes, &mut []).err().filter(|&number| number != 11).unwrap_or(0);
    let items = placed(&board);
    let needs = Needs {
        buses: buses(board.functions()),
        bytes: Pool::ALL.map(|pool| bytes_of(&board, &items, pool)),
        aligns: Pool::ALL.map(|pool| align_of(&items, pool)),
    };
    let pool = Pool::ALL.into_iter().find(|pool| pool.refusal() == number);
    let (party, other) = pool.map_or(Default::default(), |pool| {
        (first_out(&items, pool, &board.host.pools[pool as usize]), most_lost(&items, pool))
    });
    Fit { number, party, other, needs }
}

fn buses(functions: &[Function]) -> u64 {
    let taken = |bridge: &Function| 1 + u64::from(bridge.spares.buses);
    1 + functions.iter().filter(|function| function.is_bridge()).map(taken).sum::<u64>()
}

/// A BAR or an open window before it has an address.
#[derive(Clone, Copy)]
struct Item {
    party: Party,
    pool: Pool,
    size: u128,
    align: u128,
}

impl Item {
    /// Where it starts after this end.
    fn start(&self, end: u128) -> u128 {
        end.next_multiple_of(self.align)
    }
}

/// The same with its address.
struct Placed {
    item: Item,
    on_root: bool,
    /// The end of the item before it on its bus, or the start of the bus.
    before: u128,
    start: u128,
}

impl Placed {
    fn end(&self) -> u128 {
        self.start + self.item.size
    }

    /// The room lost to its alignment.
    fn lost(&self) -> u128 {
        self.start.min(TOLD) - self.before.min(TOLD)
    }
}

/// A bridge's windows.
type Windows = PerPool<Option<Item>>;

/// The items of a record: its BARs in slot order, then its open windows.
fn items(record: usize, function: &Function, windows: &Windows) -> impl Iterator<Item = Item> {
    let bars = bar::bars(function.read_backs).map(move |bar| {
        let (party, size) = (Party { record, place: bar.slot as u8 }, bar.size().into());
        Item { party, pool: bar.pool, size, align: size }
    });
    bars.chain(windows.iter().flatten().copied().collect::<Vec<_>>())
}

/// The windows of every record, the host's place first. A bridge's come from the records after it, so the last one is first.
fn windows(functions: &[Function]) -> Vec<Windows> {
    let mut all = vec![[None; 3]; functions.len() + 1];
    for record in (1..=functions.len()).rev().filter(|&record| functions[record - 1].is_bridge()) {
        let below = (record + 1..).zip(&functions[record..]).filter(|(_, one)| usize::from(one.parent) == record);
        let inside: Vec<Item> = below.flat_map(|(below, one)| items(below, one, &all[below])).collect();
        all[record] = Pool::ALL.map(|pool| window(record, &functions[record - 1], pool, &inside));
    }
    all
}

/// The window of a bridge around what lies on its bus, laid out from offset 0. Spare memory comes after the rounded end.
fn window(record: usize, bridge: &Function, pool: Pool, inside: &[Item]) -> Option<Item> {
    let granule = u128::from(pool.granule());
    let spare = if pool == Pool::Low { u128::from(bridge.spares.memory) * granule } else { 0 };
    let (mut end, mut align) = (0, 0);
    for item in inside.iter().filter(|item| item.pool == pool) {
        end = item.start(end) + item.size;
        align = item.align.max(align);
    }
    let size = end.next_multiple_of(granule) + spare;
    (size > 0).then_some(Item {
        party: Party { record, place: window_place(pool) },
        pool,
        size,
        align: align.max(granule),
    })
}

/// Where a pool is laid out from.
fn base(pool: &Range) -> u128 {
    if pool.is_closed() {
        0
    } else {
        pool.base.into()
    }
}

/// Every item with its address, in placing order.
fn placed(board: &Board) -> Vec<Placed> {
    let functions = board.functions();
    let windows = windows(functions);
    // The end so far of the bus below each record, the host's first.
    let mut ends = vec![[0; 3]; functions.len() + 1];
    ends[0] = board.host.pools.each_ref().map(base);
    let mut all = Vec::new();
    for (record, function) in (1..).zip(functions) {
        let bus = usize::from(function.parent);
        for item in items(record, function, &windows[record]) {
            let pool = item.pool as usize;
            let before = ends[bus][pool];
            let start = item.start(before);
            ends[bus][pool] = start + item.size;
            if item.party.place == window_place(item.pool) {
                ends[record][pool] = start;
            }
            all.push(Placed { item, on_root: bus == 0, before, start });
        }
    }
    all
}

/// What the root bus needs of a pool: from its base to the granule's edge after the last item.
fn bytes_of(board: &Board, items: &[Placed], pool: Pool) -> u64 {
    let last = items.iter().rfind(|one| one.on_root && one.item.pool == pool);
    let length = last.map_or(0, |last| {
        let end = last.end().next_multiple_of(pool.granule().into());
        end.min(TOLD) - base(&board.host.pools[pool as usize])
    });
    length as u64
}

/// From any multiple of this the root bus is laid out as from 0.
fn align_of(items: &[Placed], pool: Pool) -> u64 {
    let there = items.iter().filter(|one| one.on_root && one.item.pool == pool);
    there.map(|one| one.item.align as u64).fold(pool.granule().into(), u64::max)
}

/// The first item of the root bus whose last byte lies above the pool's last; of a closed pool the first item.
fn first_out(items: &[Placed], pool: Pool, range: &Range) -> Party {
    let is_out = |one: &Placed| range.is_closed() || one.end() - 1 > range.last.into();
    let out = items.iter().find(|one| one.on_root && one.item.pool == pool && is_out(one));
    out.map_or(Party::default(), |one| one.item.party)
}

/// The first of the items that lose most; nobody where none loses anything.
fn most_lost(items: &[Placed], pool: Pool) -> Party {
    let (mut party, mut most) = (Party::default(), 0);
    for one in items.iter().filter(|one| one.item.pool == pool) {
        if one.lost() > most {
            (party, most) = (one.item.party, one.lost());
        }
    }
    party
}
