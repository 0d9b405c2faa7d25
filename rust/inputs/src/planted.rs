//! Boards with one planted fault.

use crate::board::{Board, Function, CLOSED_HIGH, CLOSED_IO, CLOSED_LOW, MOST_FUNCTIONS};
use crate::random::Random;
use crate::trees;

/// The numbers that a board can be refused with.
pub const NUMBERS: [u8; 11] = [20, 21, 22, 23, 24, 25, 26, 30, 31, 32, 33];

/// The place that stands for a function as a whole.
const ID: u8 = 10;

pub struct Planted {
    pub board: Board,
    /// The record, from 1, and the place of the fault; zeros where it is in no record. `None` where a pool was cut: who finds no
    /// room then is for the test to say.
    pub party: Option<(u16, u8)>,
}

/// A board that would be planned but for one fault, which is refused with this number. `number` tells a board's, 0 where it is
/// planned.
pub fn board(wanted: u8, random: &mut Random, number: impl Fn(&Board) -> u8) -> Planted {
    loop {
        let mut board = trees::lawful(random);
        if board.functions.is_empty() || number(&board) != 0 {
            continue;
        }
        let at = random.below(board.functions.len() as u64) as usize;
        let party = plant(wanted, &mut board, at, random);
        if number(&board) == wanted {
            return Planted { board, party };
        }
    }
}

/// Plants a fault, in the record at this index where it is one of a record. A pool that is cut may still be enough, and not
/// every board has a bridge to number: then there is none.
fn plant(wanted: u8, board: &mut Board, at: usize, random: &mut Random) -> Option<(u16, u8)> {
    let record = at as u16 + 1;
    match wanted {
        20 => board.tail = vec![0; 1 + random.below(7) as usize],
        21 => board.version = [0, 3, 4, 255][random.below(4) as usize],
        22 => {
            let more = MOST_FUNCTIONS + 1 + random.below(3) as usize;
            let last = board.functions[at].clone();
            board.functions.resize(more, last);
        }
        23 => {
            misplace(board, at, random);
            return Some((record, ID));
        }
        24 => {
            spoil_header(&mut board.functions[at], random);
            return Some((record, ID));
        }
        25 => return Some((record, spoil_slot(&mut board.functions[at], random))),
        26 => board.buses = (random.below(255) as u8 + 1, 0),
        30 => board.buses.1 = (usize::from(board.buses.0) + board.bus_numbers()).saturating_sub(1) as u8,
        _ => {
            cut(board, usize::from(wanted) - 31, random);
            return None;
        }
    }
    Some((0, 0))
}

/// A parent that does not stand before the record, or the place of the sibling before it.
fn misplace(board: &mut Board, at: usize, random: &mut Random) {
    let before = |one: &&Function| one.parent == board.functions[at].parent;
    let sibling = board.functions[..at].iter().rev().find(before).map(|one| one.device_function);
    match sibling.filter(|_| random.chance(1, 2)) {
        Some(device_function) => board.functions[at].device_function = device_function,
        None => board.functions[at].parent = at as u16 + 1 + random.below(3) as u16,
    }
}

/// A header type that is none, or another length than it has.
fn spoil_header(function: &mut Function, random: &mut Random) {
    match random.below(3) {
        0 => function.header_type |= 2 << random.below(6),
        1 => function.read_backs.push(0),
        _ => {
            function.read_backs.pop();
        }
    }
}

/// A read-back that is none of a BAR, in any slot but an upper half, or in the upper half of a BAR; the slot that is wrong then.
fn spoil_slot(function: &mut Function, random: &mut Random) -> u8 {
    let mut starts = vec![0];
    while let Some(&slot) = starts.last() {
        let is_wide = function.read_backs[slot] & 7 == 4;
        let next = slot + if is_wide { 2 } else { 1 };
        if next >= function.read_backs.len() {
            break;
        }
        starts.push(next);
    }
    let slot = starts[random.below(starts.len() as u64) as usize];
    if function.read_backs[slot] & 7 == 4 && random.chance(1, 2) {
        function.read_backs[slot + 1] = 0;
    } else {
        function.read_backs[slot] = [2, 6, 0xFFFF_FFC0, 0xFFFF_FFFF, 0xF0FF_F000][random.below(5) as usize];
    }
    slot as u8
}

/// A pool that is closed, or has fewer granules.
fn cut(board: &mut Board, pool: usize, random: &mut Random) {
    let is_closed = random.chance(1, 4);
    match pool {
        0 if is_closed => board.low = CLOSED_LOW,
        1 if is_closed => board.high = CLOSED_HIGH,
        2 if is_closed => board.io = CLOSED_IO,
        0 => board.low.1 = fewer(board.low.0.into(), board.low.1.into(), 20, random) as u32,
        1 => board.high.1 = fewer(board.high.0, board.high.1, 20, random),
        _ => board.io.1 = fewer(board.io.0.into(), board.io.1.into(), 12, random) as u16,
    }
}

/// The last address of a pool with fewer granules of 2^`bits`, small numbers being likelier. A closed pool has none, and stays so.
fn fewer(base: u64, last: u64, bits: u32, random: &mut Random) -> u64 {
    if last < base {
        return last;
    }
    let granules = (last - base) >> bits;
    let most = (granules >> random.below(u64::from(u64::BITS - granules.leading_zeros()) + 1)).max(1);
    base + ((1 + random.below(most)) << bits) - 1
}
