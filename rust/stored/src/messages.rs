//! The router's lines for messages: every routing over planned sheets and others, and what is refused.

use crate::lines::Lines;
use crate::routing::{bridge_and_end, changed, put};
use inputs::board::{self, memory, Board};
use inputs::foreign::*;

pub fn groups(lines: &mut Lines) {
    every_routing(lines);
    by_address_and_by_id(lines);
    fields(lines);
    command_words(lines);
    planned_trees(lines);
    foreign_windows(lines);
    foreign_buses(lines);
    no_functions(lines);
    damaged(lines);
}

/// A code that the Base Specification sends by each routing: PM_PME, none by address, Vendor_Defined, PME_Turn_Off,
/// Assert_INTA, PME_TO_Ack.
const CODES: [u8; 6] = [0x18, 0x50, 0x7E, 0x19, 0x20, 0x1B];

/// A message with this routing; by address to F9000000, by ID to 01:00.0.
fn any(byte0: u8, routing: u8) -> Vec<u8> {
    let tail = match routing {
        0b001 => 0xF900_0000,
        0b010 => 0x0100 << 48,
        _ => 0,
    };
    message(byte0, routing, CODES[usize::from(routing)], tail)
}

fn by_address(address: u64) -> Vec<u8> {
    message(MSG, 0b001, 0x50, address)
}

fn by_id(id: u16) -> Vec<u8> {
    message(MSGD, 0b010, 0x7F, u64::from(id) << 48)
}

fn broadcast() -> Vec<u8> {
    any(MSG, 0b011)
}

fn put_every(lines: &mut Lines) {
    for byte0 in [MSG, MSGD] {
        for routing in 0..6 {
            lines.header(&any(byte0, routing));
        }
    }
}

fn every_routing(lines: &mut Lines) {
    lines.note("messages: P10, Msg and MsgD, routing 000 to 101; then 110 and 111 (2)");
    lines.board(&board::p10().bytes());
    put_every(lines);
    for byte0 in [MSG, MSGD] {
        for routing in [0b110, 0b111] {
            lines.header(&message(byte0, routing, 0x20, 0));
        }
    }
    lines.note("what bytes 8 to 15 hold is free where nothing is routed by them");
    for routing in [0b000, 0b011, 0b100, 0b101] {
        lines.header(&message(MSG, routing, 0xFF, u64::MAX));
        lines.header(&message(MSGD, routing, 0x00, 0xF900_0001));
    }
}

fn by_address_and_by_id(lines: &mut Lines) {
    lines.note("messages by address: P10's memory BARs, their edges, and its I/O BAR's address");
    for address in [0xF900_0000, 0xF900_0FFC, 0xF900_1000, 0xF8FF_FFFC, 0xF90F_FFFC, 0xF910_0000] {
        lines.header(&by_address(address));
    }
    for address in [0x2_4000_0000, 0x2_43FF_FFFC, 0x2_4400_0000, 0x2_3FFF_FFFC, 0x1_F900_0000, 0x4000_0000] {
        lines.header(&message(MSGD, 0b001, 0x50, address));
    }
    for address in [0x4000, 0, u64::MAX - 3] {
        lines.header(&by_address(address));
    }
    lines.note("messages by ID: the bridge, the function, and nobody; only bytes 8 and 9 are the ID");
    for id in [0x0000, 0x0100, 0x0001, 0x0008, 0x0101, 0x0108, 0x0200, 0x00FF, 0xFF00, 0xFFFF] {
        lines.header(&by_id(id));
    }
    for tail in [0x0100_FFFF_FFFF_FFFF, 0x0000_0100_0100_0100, 0x0001_0000_0000_0000, 0x0000_0000_0000_0100] {
        lines.header(&message(MSG, 0b010, 0x7E, tail));
    }
}

fn fields(lines: &mut Lines) {
    lines.note("a message arrives with every field as it was");
    let tail = [0x01, 0x23, 0x45, 0x67, 0x89, 0xAB, 0xCD, 0xEF];
    for (byte0, tail) in [
        (0x71, [0, 0, 0, 2, 0x40, 0x00, 0x0F, 0xFC]),
        (0x72, [0x01, 0x00, 0xDE, 0xAD, 0xBE, 0xEF, 0x00, 0x01]),
        (0x73, tail),
        (0x74, tail),
        (0x70, tail),
    ] {
        lines.header(&[&[byte0, 0x54, 0xF1, 0x05, 0xBE, 0xEF, 0xA5, 0x1E][..], &tail, &[0xFF, 0x00]].concat());
    }
    for byte0 in [0x31, 0x32, 0x33, 0x34, 0x35] {
        lines.header(&[byte0, 0x20, 0x40, 0x00, 0x12, 0x34, 0xFF, 0xFF, 0, 0, 0, 0, 0, 0, 0, 0]);
    }
    lines.note("1,024 dwords");
    lines.header(&changed(by_id(0x0100), &[(3, 0)]));
}

fn command_words(lines: &mut Lines) {
    lines.note("messages: P10 with command words rewritten; only by address do they matter");
    lines.board(&board::p10().bytes());
    for (id, word) in [
        (0x0100, 0x0001),
        (0x0100, 0x0002),
        (0x0000, 0x0001),
        (0x0000, 0xFFFD),
        (0x0000, 0x0002),
        (0x0100, 0x0000),
        (0x0000, 0x0000),
    ] {
        lines.command(id, word);
        lines.header(&by_address(0xF900_0000));
        lines.header(&by_address(0x2_4000_0000));
        lines.header(&by_id(0x0100));
    }
    lines.note("and with nothing enabled");
    put_every(lines);
    let mut board = Board::new();
    let bridge = board.add(0, 0, 1, &[memory(12), board::io(4)]);
    board.end(bridge, 0, &[memory(12), board::io(4)]);
    lines.note("messages: a bridge with BARs of its own");
    lines.board(&board.bytes());
    for address in [0x8000_0000, 0x8000_0FFC, 0x8000_1000, 0x8010_0000, 0x1000, 0x2000] {
        lines.header(&by_address(address));
    }
    lines.command(0x0000, 0x0005);
    lines.header(&by_address(0x8000_0000));
    lines.header(&by_address(0x8010_0000));
    lines.header(&by_id(0x0000));
}

fn planned_trees(lines: &mut Lines) {
    lines.note("messages: source document 001's tree, every bus, and all its functions");
    lines.board(&board::document_001().bytes());
    for bus in 0..=11 {
        lines.header(&by_id(bus << 8));
        lines.header(&by_id(bus << 8 | 8));
    }
    put_every(lines);
    let mut board = Board::new();
    let last = board.chain(0, 0, 32);
    board.end(last, 0x18, &[memory(12), board::io(8), board::high(24)[0], board::high(24)[1]]);
    lines.note("messages: 32 bridges");
    lines.board(&board.bytes());
    for header in [
        by_address(0x8000_0FFC),
        by_address(0x8000_1000),
        by_address(0x10_00FF_FFFC),
        by_address(0x10_0100_0000),
        by_address(0x1000),
        by_id(0x2018),
        by_id(0x1F00),
        by_id(0x2100),
        broadcast(),
    ] {
        lines.header(&header);
    }
    lines.command(0x0800, 0x0005);
    lines.header(&by_address(0x8000_0FFC));
    lines.header(&by_id(0x2018));
    lines.header(&broadcast());
}

fn foreign_windows(lines: &mut Lines) {
    let [bridge, end] = bridge_and_end();
    put(
        lines,
        "messages: a BAR outside the window above it: 40",
        &[bridge.clone(), end.clone().value(0, 0xFA00_0000)],
        &[by_address(0xFA00_0000), by_address(0xF900_0000), by_id(0x0100), broadcast()],
    );
    put(
        lines,
        "messages: two windows over one address: 41",
        &[bridge.clone(), end.clone(), Record::bridge(0x0008, 2, 2).low(0xF9F0, 0xFA00)],
        &[by_address(0xF9F0_0000), by_address(0xF900_0000), by_address(0xFA00_0000), by_id(0x0008), broadcast()],
    );
    lines.command(0x0008, 0x0001);
    lines.header(&by_address(0xF9F0_0000));
    put(
        lines,
        "messages: two functions' BARs, a bridge's BAR inside its own window, and both its windows",
        &[
            bridge.clone().bar(1, memory(20), 0xF910_0000).high(0xF921, 0xF921, 0, 0),
            end.clone(),
            Record::end(0x0101).bar(0, memory(13), 0xF900_0000),
        ],
        &[by_address(0xF900_0000), by_address(0xF900_1000), by_address(0xF910_0000), by_address(0xF920_0000)],
    );
    put(
        lines,
        "messages: an I/O BAR is no claim, a memory BAR at the same address is",
        &[
            Record::end(0x0000).bar(0, 0xFFFF_FF01, 0x4001).bar(1, memory(7), 0x4080),
            Record::end(0x0008).bar(2, 0xFFFF_FF01, 0x4001),
        ],
        &[by_address(0x4000), by_address(0x407C), by_address(0x4080), by_address(0x40FC), by_address(0x4100)],
    );
    put(
        lines,
        "messages: a BAR at address 0, and BARs that end at 4 GiB and at 2^64",
        &[Record::end(0x0000).bar(5, memory(7), 0).bar(0, memory(7), 0xFFFF_FF80).wide(1, 12, 7, u64::MAX - 0x7F)],
        &[
            by_address(0),
            by_address(0x7C),
            by_address(0x80),
            by_address(0xFFFF_FFFC),
            by_address(0x1_0000_0000),
            by_address(u64::MAX - 0x83),
            by_address(u64::MAX - 0x7F),
            by_address(u64::MAX - 3),
        ],
    );
}

fn foreign_buses(lines: &mut Lines) {
    put(
        lines,
        "messages: bus ranges that overlap",
        &[
            Record::bridge(0x0000, 1, 6),
            Record::bridge(0x0008, 5, 9),
            Record::end(0x0100),
            Record::end(0x0500),
            Record::bridge(0x0508, 7, 8),
            Record::end(0x0700),
        ],
        &[by_id(0x0100), by_id(0x0500), by_id(0x0600), by_id(0x0700), by_id(0x0800), by_id(0x0008), broadcast()],
    );
    put(
        lines,
        "messages: the first record is on bus 5; a broadcast lists also what no walk reaches",
        &[
            Record::end(0x0500).bar(0, memory(20), 0x1000_0000),
            Record::bridge(0x0000, 5, 9).low(0x1000, 0x1FF0),
            Record::bridge(0x0508, 9, 9).low(0x1010, 0x1010),
            Record::end(0x0900).bar(0, memory(20), 0x1010_0000),
            Record::end(0x0008).bar(0, memory(20), 0x1020_0000).command(0),
        ],
        &[
            by_address(0x1000_0000),
            by_address(0x1010_0000),
            by_address(0x1020_0000),
            by_id(0x0500),
            by_id(0x0900),
            by_id(0x0000),
            by_id(0x0008),
            broadcast(),
            any(MSGD, 0b100),
            any(MSG, 0b000),
        ],
    );
}

fn no_functions(lines: &mut Lines) {
    lines.note("messages: no functions: 40, before 43");
    lines.board(&Board::new().bytes());
    put_every(lines);
    lines.header(&message(MSG, 0b110, 0x20, 0));
    lines.header(&by_address(1));
}

fn damaged(lines: &mut Lines) {
    let headers: Vec<Vec<u8>> = vec![
        any(MSG, 0b100)[..11].to_vec(),
        any(MSG, 0b100)[..12].to_vec(),
        any(MSGD, 0b011)[..15].to_vec(),
        changed(any(MSG, 0b100), &[(0, 0x14)]),
        changed(any(MSGD, 0b011), &[(0, 0x53)]),
        changed(any(MSG, 0b000), &[(0, 0x38)]),
        message(MSG, 0b110, 0x20, 0)[..12].to_vec(),
        changed(message(MSGD, 0b111, 0x20, 0), &[(1, 0x01)]),
        changed(any(MSG, 0b100), &[(1, 0x80)]),
        changed(any(MSG, 0b011), &[(1, 0x08)]),
        changed(any(MSGD, 0b010), &[(1, 0x02)]),
        changed(any(MSGD, 0b001), &[(1, 0x01)]),
        changed(any(MSG, 0b000), &[(2, 0x04)]),
        changed(any(MSG, 0b101), &[(2, 0x08)]),
        changed(any(MSGD, 0b100), &[(2, 0x0C)]),
        by_address(0xF900_0001),
        by_address(0xF900_0002),
        changed(by_address(0xF900_0000), &[(0, 0x71), (15, 0x03)]),
        changed(any(MSG, 0b100), &[(3, 1)]),
        changed(any(MSG, 0b011), &[(2, 2)]),
        changed(by_address(0xF900_0003), &[(3, 1)]),
        changed(any(MSG, 0b101), &[(2, 0x04), (3, 1)]),
    ];
    lines.note("damaged messages over P10's sheet");
    lines.board(&board::p10().bytes());
    for header in &headers {
        lines.header(header);
    }
    lines.note("messages over a sheet that fails its checks, and over no bytes");
    lines.sheet(&sheet(&[Record::end(0x0100), Record::end(0x0100)]));
    put_every(lines);
    for header in headers.iter().step_by(3) {
        lines.header(header);
    }
    lines.sheet(&[]);
    put_every(lines);
    lines.header(&by_address(0xF900_0001));
}
