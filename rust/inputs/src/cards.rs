//! Sheets for requests from card to card: command words with bus masters, and two cards far from each other.

use crate::board::{memory, Board};
use crate::foreign::{self, Record};
use crate::random::Random;

const RECORD: usize = 92;
/// A record's command word.
const COMMAND: usize = 4 + 4;

/// I/O, memory and bus master.
const ALL: u8 = 7;

/// Makes every function of a sheet a bus master with both spaces, or most, or leaves them.
pub fn enable(sheet: &mut [u8], random: &mut Random) {
    let most = match random.below(4) {
        0 => return,
        1 | 2 => 0,
        _ => 1 + random.below(3),
    };
    for record in sheet.get_mut(1..).unwrap_or_default().chunks_exact_mut(RECORD) {
        if most == 0 || random.chance(6, 7) {
            record[COMMAND] |= ALL;
        }
    }
}

/// A board with two cards, the first below so many bridges and the second, which has the only BAR, below so many others;
/// and their records.
pub fn apart(up: usize, down: usize) -> (Board, u16, u16) {
    let mut board = Board::new();
    let first = board.chain(0, 0x00, up);
    let start = board.end(first, if up == 0 { 0x00 } else { 0x08 }, &[]);
    let second = board.chain(0, 0x10, down);
    let owner = board.end(second, if down == 0 { 0x10 } else { 0x08 }, &[memory(12)]);
    for function in &mut board.functions {
        function.command = ALL.into();
    }
    (board, start, owner)
}

/// Where the only BAR of [`furthest`] is.
pub const FURTHEST: u64 = 0xF900_0000;

/// A sheet that no planner wrote, with every bus: record [`FURTHEST_START`] is a card below 127 bridges, the last record a
/// card below 128 others, with a BAR.
pub fn furthest() -> Vec<u8> {
    let end = |bus: u8| Record::end(u16::from_be_bytes([bus, 0xFF])).command(ALL.into());
    let bridge = |bus: u8, device_function: u8, secondary: u8, last: u8| {
        Record::bridge(u16::from_be_bytes([bus, device_function]), secondary, last).command(ALL.into())
    };
    // The root bus is that of the first record.
    let mut records = vec![bridge(0, 0x00, 1, 127)];
    records.extend((1..127).map(|bus| bridge(bus, 0, bus + 1, 127)));
    records.push(end(127));
    records.push(bridge(0, 0x08, 128, 255).low(0xF900, 0xF900));
    records.extend((128..255).map(|bus| bridge(bus, 0, bus + 1, 255).low(0xF900, 0xF900)));
    records.push(end(255).bar(0, memory(12), FURTHEST as u32));
    foreign::sheet(&records)
}

/// The record of the card that [`furthest`] starts at.
pub const FURTHEST_START: u16 = 128;
