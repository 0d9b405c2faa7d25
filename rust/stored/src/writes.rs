//! Runs of the program `script`: what each reads, a requester ID, a tag and then a board.

use crate::traces::Run;
use inputs::board::*;

/// The boot's requester ID, 01:00.7, and a first tag that wraps after two writes.
const START: [u8; 3] = [0x01, 0x07, 0xFE];

pub fn runs() -> Vec<Run> {
    [written(), refused(), long()].concat()
}

fn of(board: &Board) -> Vec<u8> {
    [&START[..], &board.bytes()].concat()
}

fn written() -> Vec<Run> {
    // Type 0 goes to the host's first bus, which need not be 0.
    let from_bus_5 = Board { buses: (5, 9), ..p10() };
    // Used BARs of every form with unused slots between them, and command words of zeros and ones.
    let mut bars = Board::new();
    bars.add(0, 0x00, 0x80, &[memory(7), 0, io(2), 0, high(20)[0], high(20)[1]]);
    bars.add(0, 0x01, 0x80, &[0, wide(12)[0], wide(12)[1], prefetchable(20)]);
    let bridge = bars.add(0, 0x08, 0x01, &[high(12)[0], high(12)[1]]);
    bars.end(bridge, 0x00, &[]);
    for (function, command) in bars.functions.iter_mut().zip([0, 0xFFFF, 0x0407, 0x0006]) {
        function.command = command;
    }
    let mut deep = Board::new();
    let last = deep.chain(0, 0, 32);
    deep.end(last, 0, &[memory(12)]);
    let mut spares = Board { buses: (0, 7), ..Board::version_2() };
    let bridge = spares.spare_bridge(0, 0x00, 2, 3);
    let below = spares.spare_bridge(bridge, 0x00, 3, 2);
    spares.end(below, 0x00, &[memory(12)]);
    spares.end(0, 0x08, &[memory(12)]);
    vec![
        ("p10", of(&p10())),
        ("p10-version-2", of(&p10().without_spares())),
        ("p10-from-bus-5", of(&from_bus_5)),
        ("no-functions", of(&Board::closed())),
        ("tree-001", of(&document_001())),
        ("bars-and-commands", of(&bars)),
        ("32-bridges-above", of(&deep)),
        ("spares", of(&spares)),
        ("longest", of(&longest())),
    ]
}

/// 255 bridges of nine writes and 257 other functions of seven: 4,094 writes, 73,692 bytes.
fn longest() -> Board {
    let mut board = Board::new();
    for device_function in 0..255 {
        let bridge = board.add(0, device_function, 0x81, &[memory(7); 2]);
        let ends: u16 = match device_function {
            0 => 256,
            1 => 1,
            _ => 0,
        };
        for below in 0..ends {
            board.add(bridge, below as u8, 0x80, &[memory(7); 6]);
        }
    }
    board
}

/// An input without its first three bytes has no board, and the planner's numbers.
fn refused() -> Vec<Run> {
    let mut no_bus = Board { buses: (0, 0), ..Board::new() };
    no_bus.bridge(0, 0);
    vec![
        ("no-input-refused-20", vec![]),
        ("one-byte-refused-20", START[..1].to_vec()),
        ("two-bytes-refused-20", START[..2].to_vec()),
        ("no-board-refused-20", START.to_vec()),
        ("version-refused-21", of(&Board { version: 3, ..p10() })),
        ("tail-refused-24", of(&Board { tail: vec![0, 6, 0, 0, 8, 0, 0, 0], ..p10() })),
        ("no-bus-refused-30", of(&no_bus)),
        ("closed-pool-refused-31", of(&Board { low: CLOSED_LOW, ..p10() })),
    ]
}

/// Inputs longer than any lawful board's.
fn long() -> Vec<Run> {
    let mut board = Board { functions: vec![], ..p10() };
    for _ in 0..600 {
        board.end(0, 0, &[]);
    }
    let long = of(&board);
    vec![("long-refused-22", long.clone()), ("long-and-a-byte-refused-20", [&long[..], &[0]].concat())]
}
