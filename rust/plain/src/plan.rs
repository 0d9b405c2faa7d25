//! The planner: buses numbered and items placed, then the sheet written.
//!
//! Two passes over the records. The first sizes: it numbers the buses and lays out each bus from offset 0, so that a
//! bridge's windows are known when its last record was seen. The second places: a window's start is a multiple of every
//! alignment inside, so its content can be laid out again from that start, at the offsets of the first pass.

use crate::bar;
use crate::board::{Board, Function, Path, Spares};
use crate::pool::{Extent, Item, PerPool, Pool};
use crate::sheet::{self, Registers, RECORD};

/// Plans `board` into `sheet` and returns the sheet's length; nothing past it is written, and nothing at all when the
/// board is refused.
pub fn plan(board: &[u8], sheet: &mut [u8]) -> Result<usize, u8> {
    let board = Board::parse(board)?;
    let bridges = size(&board)?;
    let length = 1 + RECORD * board.functions().len();
    let room = sheet.get_mut(..length).ok_or(11)?;
    let (version, records) = room.split_first_mut().ok_or(11)?;
    *version = sheet::VERSION;
    place(&board, &bridges, records.as_chunks_mut().0);
    Ok(length)
}

/// A bridge's bus range and windows, without addresses.
#[derive(Clone, Copy)]
struct Bridge {
    secondary: u8,
    subordinate: u8,
    windows: PerPool<Option<Item>>,
}

impl Bridge {
    const EMPTY: Bridge = Bridge { secondary: 0, subordinate: 0, windows: [None; 3] };
}

/// The most bridges: one for each bus number but the first.
const MAX_BRIDGES: usize = 255;

/// A bus of the path in the first pass: whose it is, and what lies on it so far.
#[derive(Clone, Copy)]
struct BusSize {
    /// Its bridge's number in record order, and that bridge's spares; the root bus has neither.
    bridge: usize,
    spares: Spares,
    extents: PerPool<Extent>,
}

/// The first pass, and checks 30 to 33. The bridges are in record order.
fn size(board: &Board) -> Result<[Bridge; MAX_BRIDGES], u8> {
    let host = &board.host;
    let buses = |function: &Function| 1 + usize::from(function.spares.buses);
    let taken: usize = board.functions().iter().filter(|function| function.is_bridge()).map(buses).sum();
    if usize::from(host.first_bus) + taken > usize::from(host.last_bus) {
        return Err(30);
    }
    let mut bridges = [Bridge::EMPTY; MAX_BRIDGES];
    let mut count = 0;
    // The last bus number that was given to a bridge or kept as a spare.
    let mut last = host.first_bus;
    let root = host.pools.map(|pool| Extent::from(pool.base));
    let mut path = Path::new(BusSize { bridge: 0, spares: Spares::NONE, extents: root });
    for (record, function) in (1..).zip(board.functions()) {
        while path.record() != function.parent {
            close(&mut path, &mut bridges, &mut last);
        }
        let bus = &mut path.bus().extents;
        for bar in bar::bars(function.read_backs) {
            bus[bar.pool as usize].add(bar.item());
        }
        if function.is_bridge() {
            path.enter(record, BusSize { bridge: count, spares: function.spares, extents: [Extent::EMPTY; 3] });
            last += 1;
            bridges[count].secondary = last;
            count += 1;
        }
    }
    while path.record() != 0 {
        close(&mut path, &mut bridges, &mut last);
    }
    let root = &path.bus().extents;
    for (pool, extent) in Pool::ALL.into_iter().zip(root) {
        let range = &host.pools[pool as usize];
        if !extent.is_empty() && (range.is_closed() || extent.end - 1 > range.last) {
            return Err(pool.refusal());
        }
    }
    Ok(bridges)
}

/// Leaves a bridge's bus, which is now sized: its spare buses come after all buses below, its spare memory after all that
/// lies in its low window. Its windows are laid out on the bus above.
fn close(path: &mut Path<BusSize>, bridges: &mut [Bridge], last: &mut u8) {
    let Some((_, BusSize { bridge, spares, extents })) = path.leave() else { return };
    let bridge = &mut bridges[bridge];
    *last += spares.buses;
    bridge.subordinate = *last;
    let above = &mut path.bus().extents;
    for pool in Pool::ALL {
        let spare = if pool == Pool::Low { u64::from(spares.memory) * pool.granule() } else { 0 };
        let window = extents[pool as usize].window(pool, spare);
        bridge.windows[pool as usize] = window;
        if let Some(window) = window {
            above[pool as usize].add(window);
        }
    }
}

/// The second pass: every record of the sheet.
fn place(board: &Board, bridges: &[Bridge], records: &mut [[u8; RECORD]]) {
    let host = &board.host;
    let mut bridges = bridges.iter();
    // For each open bus its number and the end of its last item.
    let mut path = Path::new((host.first_bus, host.pools.map(|pool| pool.base)));
    for ((number, function), record) in (1..).zip(board.functions()).zip(records) {
        while path.record() != function.parent && path.leave().is_some() {}
        let (bus, ends) = path.bus();
        let bus = *bus;
        let mut registers = Registers::start(record, bus, function);
        place_bars(function, ends, &mut registers);
        if !function.is_bridge() {
            continue;
        }
        let Some(bridge) = bridges.next() else { return };
        registers.set_buses(bus, bridge.secondary, bridge.subordinate);
        let mut inside = [0; 3];
        for pool in Pool::ALL {
            let window = bridge.windows[pool as usize].map(|window| {
                let start = window.place(&mut ends[pool as usize]);
                inside[pool as usize] = start;
                (start, start + (window.size - 1))
            });
            registers.set_window(pool, window);
        }
        path.enter(number, (bridge.secondary, inside));
    }
}

fn place_bars(function: &Function, ends: &mut PerPool<u64>, registers: &mut Registers) {
    for bar in bar::bars(function.read_backs) {
        let start = bar.item().place(&mut ends[bar.pool as usize]);
        registers.set_bar(&bar, start);
    }
}
