//! Requests from card to card (E11): to siblings, up and down again, to the host, and every refusal in its order.

use crate::lines::Lines;
use inputs::board::{self, high, io, memory, Board};
use inputs::cards;
use inputs::foreign::*;

/// I/O, memory and bus master.
const ALL: u16 = 7;

pub fn groups(lines: &mut Lines) {
    switch(lines);
    masters(lines);
    enables(lines);
    no_start(lines);
    order(lines);
    ways_up(lines);
    claims(lines);
    depth(lines);
}

/// A switch with two cards below it, and a card beside it. Records: 1 the switch's upper bridge, 2 a lower one, 3 its card,
/// 4 the other lower one, 5 and 6 its card of two functions, 7 the card on the root bus.
fn backplane() -> Board {
    let mut board = Board::new();
    let up = board.add(0, 0x00, 1, &[memory(12)]);
    let left = board.bridge(up, 0x00);
    board.end(left, 0x00, &[memory(14), io(5), 0, 0, high(20)[0], high(20)[1]]);
    let right = board.add(up, 0x08, 1, &[memory(12)]);
    board.add(right, 0x00, 0x80, &[memory(16), io(8)]);
    board.add(right, 0x01, 0x00, &[memory(7)]);
    board.end(0, 0x08, &[memory(20), io(4)]);
    for function in &mut board.functions {
        function.command = ALL;
    }
    board
}

/// The starts of all BARs of a planned backplane, from its listing's registers, and addresses that nobody has.
const LOW: [u64; 8] =
    [0x8000_0000, 0x8010_0000, 0x8020_0000, 0x8020_1000, 0x8030_0000, 0x8031_0000, 0x8040_0000, 0x9000_0000];
const IO: [u64; 5] = [0x1000, 0x2000, 0x2100, 0x3000, 0xF000];

fn everywhere(lines: &mut Lines, start: u16) {
    for address in LOW {
        lines.from(start, &request(MWR, address));
    }
    for address in IO {
        lines.from(start, &request(IOWR, address));
    }
    lines.from(start, &request(MRD, 0x10_0000_0000));
    lines.from(start, &request(MRD, 0x10_0010_0000));
}

fn switch(lines: &mut Lines) {
    lines.note("card to card over a switch: from each function to every BAR, and to addresses that nobody has");
    lines.board(&backplane().bytes());
    for start in [3, 5, 6, 7] {
        everywhere(lines, start);
    }
}

fn masters(lines: &mut Lines) {
    for id in [0x0000, 0x0100, 0x0200, 0x0108, 0x0300] {
        lines.note("one function without bus master: 44 from it and for what goes up through it");
        lines.board(&backplane().bytes());
        lines.command(id, 3);
        everywhere(lines, 3);
        everywhere(lines, 5);
    }
}

fn enables(lines: &mut Lines) {
    for (id, command) in [(0x0000, 4), (0x0108, 4), (0x0300, 4), (0x0300, 5), (0x0300, 6), (0x0008, 4), (0x0200, 4)] {
        lines.note("one function without a space: nobody claims for it, and its own BAR is still its own");
        lines.board(&backplane().bytes());
        lines.command(id, command);
        everywhere(lines, 3);
        everywhere(lines, 5);
        everywhere(lines, 7);
    }
}

fn no_start(lines: &mut Lines) {
    lines.note("45: record 0, a bridge, a record that is not there, a packet that is no memory or I/O request");
    lines.board(&backplane().bytes());
    for start in [0, 1, 2, 4, 8, 9, 0x0102, 0xFFFF] {
        lines.from(start, &request(MRD, LOW[0]));
    }
    for header in [
        configuration(CFGRD0, 0x0008, 0),
        configuration(CFGWR1, 0x0300, 4),
        completion(CPLD, 0x0200),
        message(MSG, 0b001, 0, LOW[0]),
        message(MSG, 0b100, 0x20, 0),
        message(MSGD, 0b010, 0, 0x0300 << 48),
    ] {
        lines.from(3, &header);
    }
    lines.note("45 before 40: a sheet with no functions");
    lines.sheet(&sheet(&[]));
    lines.from(1, &request(MRD, LOW[0]));
    lines.from(0, &request(MRD, LOW[0]));
}

fn order(lines: &mut Lines) {
    lines.note("the header's number, the sheet's, 45, the start's 44, its own BAR 40");
    let spoiled = |sheet: &mut Vec<u8>| sheet[0] = 2;
    let card = |command: u16| Record::end(0x0000).bar(0, memory(12), 0xF900_0000).command(command);
    let mut bad = sheet(&[card(3)]);
    spoiled(&mut bad);
    lines.sheet(&bad);
    lines.from(0, &request(MRD, 0xF900_0001));
    lines.from(0, &request(MRD, 0xF900_0000));
    lines.sheet(&sheet(&[card(3)]));
    lines.from(0, &request(MRD, 0xF900_0000));
    lines.from(1, &request(MRD, 0xF900_0000));
    for command in [4, 7] {
        lines.sheet(&sheet(&[card(command)]));
        lines.from(1, &request(MRD, 0xF900_0000));
        lines.from(1, &request(MRD, 0xF900_1000));
        lines.from(1, &request(IORD, 0x1000));
    }
    lines.note("a window of the bridge above holds the address, enabled or not: 40, before that bridge's 44");
    for command in [0, 2, 4, 6] {
        let bridge = Record::bridge(0x0000, 1, 1).low(0xF900, 0xF910).io(0x10, 0x10).command(command);
        lines.sheet(&sheet(&[bridge, Record::end(0x0100).command(ALL)]));
        for header in
            [request(MWR, 0xF91F_FFFC), request(MWR, 0xF920_0000), request(IOWR, 0x1FFC), request(IOWR, 0x2000)]
        {
            lines.from(2, &header);
        }
    }
}

/// Bridges above that are none, two, or lead to the root bus.
fn ways_up(lines: &mut Lines) {
    let end = |id: u16| Record::end(id).command(ALL);
    let bridge = |id: u16, secondary: u8, last: u8| Record::bridge(id, secondary, last).command(ALL);
    let sheets = [
        ("no bridge above: 40", vec![end(0x0000), end(0x0500)], 2),
        ("two bridges above: 41", vec![bridge(0x0000, 1, 1), bridge(0x0008, 1, 1), end(0x0100)], 3),
        ("two, and one of them no master", vec![bridge(0x0000, 1, 1).command(3), bridge(0x0008, 1, 1), end(0x0100)], 3),
        ("a bridge to the root bus: the host is above it", vec![end(0x0300), bridge(0x0000, 3, 3), end(0x0008)], 1),
        ("from below the bus of the first record", vec![end(0x0300), bridge(0x0000, 3, 3), end(0x0008)], 3),
        ("a bridge whose range leaves the bus out", vec![bridge(0x0000, 1, 1), bridge(0x0100, 2, 3), end(0x0200)], 3),
        ("a bridge that stands behind its card", vec![end(0x0000), end(0x0100), bridge(0x0008, 1, 1)], 2),
    ];
    for (why, records, start) in sheets {
        lines.note(why);
        lines.sheet(&sheet(&records));
        lines.from(start, &request(MWR, 0xF900_0000));
        lines.from(start, &request(IORD, 0x4000));
    }
}

/// Two claims on a bus on the way, and what the walk down finds.
fn claims(lines: &mut Lines) {
    let card = |id: u16| Record::end(id).bar(0, memory(20), 0xF900_0000).command(ALL);
    let start = |id: u16| Record::end(id).command(ALL);
    let bridge = |id: u16, secondary: u8| Record::bridge(id, secondary, secondary).low(0xF900, 0xF900).command(ALL);
    let closed = |id: u16, secondary: u8| Record::bridge(id, secondary, secondary).command(ALL);
    let sheets = [
        ("two claims on the start's bus: 41", vec![start(0x0000), card(0x0008), card(0x0010)], 1),
        ("two claims on the bus above: 41", vec![closed(0x0000, 1), start(0x0100), card(0x0008), card(0x0010)], 2),
        ("a BAR and a window", vec![start(0x0000), card(0x0008), bridge(0x0010, 2), card(0x0200)], 1),
        (
            "a window, and two claims below it: 41",
            vec![start(0x0000), bridge(0x0010, 2), card(0x0200), card(0x0208)],
            1,
        ),
        ("a window, and nobody below it: 40", vec![start(0x0000), bridge(0x0010, 2)], 1),
        ("a window, and a card below it", vec![start(0x0000), bridge(0x0010, 2), card(0x0200)], 1),
        ("one up and one down", vec![closed(0x0000, 1), start(0x0100), bridge(0x0010, 2), card(0x0200)], 2),
        (
            "the bridge come through has a BAR there",
            vec![closed(0x0000, 1).bar(0, memory(20), 0xF900_0000), start(0x0100)],
            2,
        ),
        ("a card disabled on the bus: up it goes", vec![closed(0x0000, 1), start(0x0100), card(0x0108).command(4)], 2),
    ];
    for (why, records, from) in sheets {
        lines.note(why);
        lines.sheet(&sheet(&records));
        lines.from(from, &request(MRD, 0xF900_0000));
        lines.from(from, &request(MRD, 0xF90F_FFFC));
        lines.from(from, &request(MRD, 0xF910_0000));
    }
}

fn depth(lines: &mut Lines) {
    lines.note("32 bridges up and 32 down; none up, none down");
    for (up, down) in [(32, 32), (0, 32), (32, 0), (0, 0)] {
        let (planned, start, _) = cards::apart(up, down);
        lines.board(&planned.bytes());
        lines.from(start, &request(MWR, planned.low.0.into()));
        lines.from(start, &request(MWR, u64::from(planned.low.0) + 0x1000));
        lines.from(start, &request(MWR, u64::from(planned.low.1) + 1));
    }
    lines.note("127 bridges up and 128 down");
    lines.sheet(&cards::furthest());
    lines.from(cards::FURTHEST_START, &request(MWR, cards::FURTHEST));
    lines.from(cards::FURTHEST_START, &request(MWR, cards::FURTHEST + 0x1000));
    lines.note("source document 001's tree, from one card to all");
    let mut tree = board::document_001();
    for function in &mut tree.functions {
        function.command = ALL;
    }
    lines.board(&tree.bytes());
    for megabytes in 0..8 {
        lines.from(4, &request(MRD, 0x8000_0000 + (megabytes << 20)));
        lines.from(14, &request(MRD, 0x8000_0000 + (megabytes << 20)));
    }
}
