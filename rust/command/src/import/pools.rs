//! A host's pools, for a sheet that is there and for a plan that is to be made.

use super::log::{Log, Window};
use super::Notes;
use cartsundial::{HostRecord, Pool};
use std::ops::RangeInclusive;

const FOUR_GIB: u64 = 1 << 32;
const LAST_HIGH: u64 = (1 << 52) - 1;
const MEMORY_GRANULE: u64 = 1 << 20;
const IO_GRANULE: u64 = 1 << 12;
/// Below it are the ports of the board's own devices.
const FIRST_PORT: u64 = 0x1000;

const POOLS: [Pool; 3] = [Pool::Low, Pool::High, Pool::Io];

/// What a pool can hold at all.
fn limits(pool: Pool) -> (u64, u64) {
    match pool {
        Pool::Low => (0, FOUR_GIB - 1),
        Pool::High => (FOUR_GIB, LAST_HIGH),
        Pool::Io => (0, 0xFFFF),
    }
}

fn granule(pool: Pool) -> u64 {
    match pool {
        Pool::Io => IO_GRANULE,
        _ => MEMORY_GRANULE,
    }
}

/// A BAR or an open window of the root bus.
pub struct Item {
    pub title: String,
    pub is_io: bool,
    pub range: RangeInclusive<u64>,
}

/// For a sheet: each pool is the hull of those root windows in which something of the root bus lies, widened to the granule.
/// As that is too wide, each BAR and window of the root bus is held against the windows themselves, and told.
pub fn used(buses: (u8, u8), on_root: &[Item], known: &[Window], notes: &mut Notes) -> HostRecord {
    let mut host = HostRecord { buses, ..HostRecord::CLOSED };
    for pool in POOLS {
        let windows = of_pool(pool, known);
        let mut hull: Option<(u64, u64)> = None;
        for Item { title, range, .. } in on_root.iter().filter(|item| is_of(pool, item)) {
            let window = windows.iter().find(|window| window.contains(range.start()) && window.contains(range.end()));
            if window.is_none() && is_known(pool, known) {
                notes.push(format!("{title} at {:x}-{:x} lies in no root window", range.start(), range.end()));
            }
            let (first, last) = window.unwrap_or(range).clone().into_inner();
            hull = Some(hull.map_or((first, last), |(low, high)| (low.min(first), high.max(last))));
        }
        if let Some((first, last)) = hull {
            let rest = granule(pool) - 1;
            set(&mut host, pool, (first & !rest).max(limits(pool).0), (last | rest).min(limits(pool).1));
        }
    }
    host
}

/// For a plan: the largest stretch of the root windows in which nothing fixed lies. Where no windows of a space are known, the
/// pools are those of the sheet.
pub fn free(used: &HostRecord, known: &[Window], log: &Log) -> HostRecord {
    let mut host = HostRecord { buses: used.buses, ..HostRecord::CLOSED };
    for pool in POOLS {
        let fixed = log.fixed(pool == Pool::Io);
        let stretches = of_pool(pool, known).into_iter().flat_map(|window| without(window, &fixed));
        let whole = stretches.filter_map(|stretch| shrunk(pool, stretch));
        if let Some((first, last)) = whole.max_by_key(|(first, last)| last - first) {
            set(&mut host, pool, first, last);
        }
    }
    if !is_known(Pool::Low, known) {
        (host.low, host.high) = (used.low, used.high);
    }
    if !is_known(Pool::Io, known) {
        host.io = used.io;
    }
    host
}

/// Whether a root window is known in the space of a pool.
pub fn is_known(pool: Pool, known: &[Window]) -> bool {
    known.iter().any(|window| window.is_io == (pool == Pool::Io))
}

fn set(host: &mut HostRecord, pool: Pool, first: u64, last: u64) {
    match pool {
        Pool::Low => host.low = (first as u32, last as u32),
        Pool::High => host.high = (first, last),
        Pool::Io => host.io = (first as u16, last as u16),
    }
}

/// The windows of a pool's space, as far as the pool reaches.
fn of_pool(pool: Pool, known: &[Window]) -> Vec<RangeInclusive<u64>> {
    let (first, last) = limits(pool);
    let of_space = known.iter().filter(|window| window.is_io == (pool == Pool::Io));
    let cut = of_space.map(|window| (*window.range.start()).max(first)..=(*window.range.end()).min(last));
    cut.filter(|range| !range.is_empty()).collect()
}

/// Whether it starts where the pool is, whatever its kind.
fn is_of(pool: Pool, item: &Item) -> bool {
    item.is_io == (pool == Pool::Io) && (limits(pool).0..=limits(pool).1).contains(item.range.start())
}

/// What is left of a window around what is fixed in it.
fn without(window: RangeInclusive<u64>, fixed: &[RangeInclusive<u64>]) -> Vec<RangeInclusive<u64>> {
    let mut inside: Vec<_> =
        fixed.iter().filter(|one| one.start() <= window.end() && window.start() <= one.end()).collect();
    inside.sort_by_key(|one| *one.start());
    let mut left = Vec::new();
    let mut next = *window.start();
    for one in inside {
        if *one.start() > next {
            left.push(next..=one.start() - 1);
        }
        next = next.max(one.end().saturating_add(1));
    }
    if next <= *window.end() {
        left.push(next..=*window.end());
    }
    left
}

/// The granules that lie wholly in a stretch.
fn shrunk(pool: Pool, stretch: RangeInclusive<u64>) -> Option<(u64, u64)> {
    let granule = granule(pool);
    let least = if pool == Pool::Io { FIRST_PORT } else { 0 };
    let first = (*stretch.start()).max(least).next_multiple_of(granule);
    let end = (stretch.end() + 1) / granule * granule;
    (first < end).then(|| (first, end - 1))
}
