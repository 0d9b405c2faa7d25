//! Boards of version 2 (document 02, E10): spare buses and spare low memory, for the planner's lines and the router's.

use crate::lines::Lines;
use crate::planning::{put, tighten};
use inputs::board::*;
use inputs::foreign::*;
use inputs::random::Random;
use inputs::trees;

/// The most spares that a record can say.
const MOST_BUSES: u8 = 255;
const MOST_MEMORY: u16 = 65_535;

pub fn boards(lines: &mut Lines) {
    both_versions(lines);
    one_bridge(lines);
    trees_with_spares(lines);
    spares_alone(lines);
    buses(lines);
    low_pool(lines);
    lengths(lines);
    two_faults(lines);
    random_boards(lines);
}

/// Boards without spares in version 2: the plans of version 1.
fn both_versions(lines: &mut Lines) {
    put(lines, "P10 in version 2, no spares", &p10().without_spares());
    put(lines, "source document 001's tree in version 2, no spares", &document_001().without_spares());
    put(lines, "P8 in version 2", &Board::version_2());
    put(lines, "512 functions in version 2", &full(&[0, 0, 0, 0, 0, memory(12)]).without_spares());
}

fn one_bridge(lines: &mut Lines) {
    let spares = [(0, 0), (1, 0), (0, 1), (1, 1), (7, 16), (254, 256), (MOST_BUSES, 0), (0, 257), (0, MOST_MEMORY)];
    for (buses, memory) in spares {
        let mut board = Board { low: (0xF000_0000, 0xFFFF_FFFF), ..Board::version_2() };
        board.spare_bridge(0, 0, buses, memory);
        put(lines, &format!("a bridge with {buses} spare buses and {memory} MiB, nothing below"), &board);
    }
    let mut board = Board::version_2();
    let bridge = board.spare_bridge(0, 0, 2, 3);
    board.end(bridge, 0, &[memory(12), io(4), high(21)[0], high(21)[1]]);
    board.end(0, 8, &[memory(12), io(4), high(21)[0], high(21)[1]]);
    put(lines, "spares behind a card: the low window alone is larger", &board);
}

fn trees_with_spares(lines: &mut Lines) {
    let mut board = Board::version_2();
    let a = board.spare_bridge(0, 0x00, 2, 3);
    board.end(a, 0x00, &[memory(12)]);
    let b = board.spare_bridge(a, 0x08, 1, 2);
    let c = board.spare_bridge(b, 0x00, 0, 0);
    board.end(c, 0x00, &[memory(20)]);
    board.spare_bridge(a, 0x10, 3, 0);
    let last = board.spare_bridge(0, 0x08, 0, 0);
    board.end(last, 0x00, &[memory(12)]);
    put(lines, "inner spares inside the outer bridge and before its own, a later bridge after them", &board);
    let mut board = document_001().without_spares();
    for (at, bridge) in board.functions.iter_mut().filter_map(|function| function.spares.as_mut()).enumerate() {
        *bridge = Spares { buses: at as u8 % 3, memory: at as u16 % 4 };
    }
    put(lines, "source document 001's tree with spares", &board);
    for bits in [12, 20, 23] {
        let mut board = Board { low: (0x1010_0000, 0x1FFF_FFFF), ..Board::version_2() };
        let outer = board.spare_bridge(0, 0x00, 0, 16);
        let inner = board.spare_bridge(outer, 0x00, 0, 16);
        board.end(inner, 0x00, &[memory(bits)]);
        board.end(0, 0x08, &[memory(12)]);
        put(lines, &format!("16 MiB of spares twice align as the 2^{bits} bytes inside do"), &board);
    }
    let mut board = Board::version_2();
    let last = (0..32).fold(0, |above, _| board.spare_bridge(above, 0x00, 1, 1));
    board.end(last, 0x00, &[memory(12)]);
    put(lines, "32 bridges above a card, each with a spare bus and 1 MiB", &board);
    let mut board = Board::version_2();
    (0..33).fold(0, |above, _| board.spare_bridge(above, 0x00, 1, 1));
    board.spare_bridge(0, 0x08, 4, 1);
    put(lines, "33 bridges in a row with nothing but spares", &board);
    let mut board = Board::version_2();
    for device in 0..32 {
        let bridge = board.spare_bridge(0, device << 3, device % 5, u16::from(device % 7));
        for end in 0..15 {
            board.end(bridge, end << 3, &[memory(14)]);
        }
    }
    put(lines, "512 functions: 32 bridges with spares and 15 cards each", &board);
}

/// A window of spares alone is an item of its bus.
fn spares_alone(lines: &mut Lines) {
    let mut board = Board { low: (0xF000_0000, 0xFFFF_FFFF), ..Board::version_2() };
    let a = board.spare_bridge(0, 0x00, 0, 0);
    let b = board.spare_bridge(a, 0x00, 0, 0);
    board.spare_bridge(b, 0x00, 0, 1);
    board.spare_bridge(b, 0x08, 0, 0);
    board.end(b, 0x10, &[memory(12)]);
    put(lines, "1 MiB of spares opens the windows above; what follows lies behind it", &board);
    board.functions.pop();
    put(lines, "nothing but that MiB", &board);
    board.low = CLOSED_LOW;
    put(lines, "31: it has no room in a closed pool", &board);
    board.functions[2].spares = Some(Spares { buses: 9, memory: 0 });
    put(lines, "spare buses alone open no window", &board);
    let mut board = Board::version_2();
    let bridge = board.spare_bridge(0, 0x00, 0, 2);
    board.end(bridge, 0x00, &[io(4), high(20)[0], high(20)[1]]);
    put(lines, "the low window is of spares alone, the others of the card alone", &board);
}

fn buses(lines: &mut Lines) {
    for (first, last, spares) in [(0, 255, 253), (0, 254, 254), (250, 255, 4), (250, 255, 5), (7, 7, 0), (7, 8, 1)] {
        let mut board = Board { buses: (first, last), ..Board::version_2() };
        board.spare_bridge(0, 0x00, spares, 0);
        put(lines, &format!("a bridge and {spares} spare buses on buses {first} to {last}"), &board);
    }
    for last in [63, 62] {
        let mut board = Board { buses: (0, last), ..Board::version_2() };
        let outer = board.spare_bridge(0, 0x00, 10, 0);
        board.spare_bridge(outer, 0x00, 20, 0);
        board.spare_bridge(0, 0x08, 30, 0);
        put(lines, &format!("three bridges and 60 spare buses on buses 0 to {last}"), &board);
    }
    for count in [256, 512] {
        let mut board = Board::version_2();
        for at in 0..count {
            board.add(if at < 256 { 0 } else { 256 }, at as u8, 0x81, &[]);
        }
        board.functions.iter_mut().for_each(|bridge| bridge.spares = Some(Spares { buses: MOST_BUSES, memory: 0 }));
        put(lines, &format!("30: {count} bridges with 255 spare buses each, {} numbers", 256 * count), &board);
    }
}

fn low_pool(lines: &mut Lines) {
    for mebibytes in [4095, 4096, 4097] {
        let mut board = Board { low: (0, 0xFFFF_FFFF), ..Board::version_2() };
        board.spare_bridge(0, 0x00, 0, mebibytes);
        put(lines, &format!("{mebibytes} MiB of spares in a pool of 4,096"), &board);
    }
    for (mebibytes, last) in [(1, 0xF91F_FFFF), (2, 0xF91F_FFFF), (0, 0xF90F_FFFF)] {
        let mut board = Board { low: (0xF900_0000, last), ..Board::version_2() };
        let bridge = board.spare_bridge(0, 0x00, 0, mebibytes);
        board.end(bridge, 0x00, &[memory(12)]);
        put(lines, &format!("4 KiB and {mebibytes} MiB of spares in a pool to {last:08X}"), &board);
    }
    let mut board = Board { low: (0, 0xFFFF_FFFF), ..Board::version_2() };
    (0..33).fold(0, |above, _| board.spare_bridge(above, 0x00, 0, MOST_MEMORY));
    put(lines, "31: 33 bridges in a row, each with the most spares", &board);
    let mut board = Board { low: (0, 0xFFFF_FFFF), ..Board::version_2() };
    for device in 0..2 {
        let bridge = board.spare_bridge(0, device << 3, 0, MOST_MEMORY);
        board.end(bridge, 0x00, &[wide(63), wide(63), wide(12)].concat());
    }
    put(lines, "31: spares behind more than 2^64 bytes", &board);
}

fn lengths(lines: &mut Lines) {
    let none = Some(Spares::default());
    for (why, version, spares) in [
        ("24: a bridge of 17 bytes in version 1", 1, none),
        ("24: a bridge of 14 bytes in version 2", 2, None),
        ("21: version 3, a bridge of 17 bytes", 3, none),
        ("21: version 0, a bridge of 14 bytes", 0, None),
    ] {
        let mut board = p10();
        board.version = version;
        board.functions[0].spares = spares;
        put(lines, why, &board);
    }
    for version in [1, 2] {
        let mut board = if version == 1 { p10() } else { p10().without_spares() };
        board.functions[1].spares = none;
        put(lines, &format!("24: a type 0 function of 33 bytes in version {version}"), &board);
        for length in [15, 16, 18, 30] {
            let mut board = Board { version, ..Board::new() };
            board.tail = [&[0, length, 0, 0, 0, 1, 0, 3], &vec![0; usize::from(length) - 6][..]].concat();
            put(lines, &format!("24: a bridge of {length} bytes in version {version}"), &board);
        }
    }
    lines.note("20: version 2 alone");
    lines.board(&[2]);
}

/// Two faults, whose numbers show that spares change no order.
fn two_faults(lines: &mut Lines) {
    let mut good = Board { buses: (7, 12), low: (0x1000_0000, 0x1FFF_FFFF), ..Board::version_2() };
    let bridge = good.spare_bridge(0, 0x00, 2, 2);
    good.end(bridge, 0x00, &[memory(12)]);
    good.spare_bridge(0, 0x08, 1, 0);
    put(lines, "a lawful board of version 2, damaged twice below", &good);
    type Damage = fn(&mut Board);
    let faults: [(u8, Damage); 6] = [
        (24, |board| board.functions[2].spares = None),
        (26, |board| board.low.0 += 1),
        (23, |board| board.functions[2].device_function = 0),
        (25, |board| board.functions[1].read_backs[0] = 0xF0FF_F000),
        (30, |board| board.functions[0].spares = Some(Spares { buses: 3, memory: 2 })),
        (31, |board| board.functions[1].read_backs[0] = memory(29)),
    ];
    for pair in faults.windows(2) {
        let mut board = good.clone();
        pair[1].1(&mut board);
        put(lines, &format!("{}", pair[1].0), &board);
        pair[0].1(&mut board);
        put(lines, &format!("{} before {}", pair[0].0, pair[1].0), &board);
    }
}

/// Random boards with spares, each pool just large enough, and then the low one 1 MiB shorter.
fn random_boards(lines: &mut Lines) {
    let mut numbers = Random::new(20_012);
    for functions in [4, 6, 9, 12, 16, 24] {
        let style = Style { functions, bridges: 45, memory_bits: 22, io_bits: 3 };
        let board = trees::with_spares(&random(&mut numbers, &style), &mut numbers);
        let tight = tighten(&mut numbers, &board);
        put(lines, &format!("random, version 2, {functions} functions"), &tight);
        put(lines, "1 MiB less", &Board { low: (tight.low.0, tight.low.1.wrapping_sub(1 << 20)), ..tight });
    }
}

/// Nobody in spare room: addresses and buses that a bridge takes and no function has.
pub fn routes(lines: &mut Lines) {
    let mut board = Board { low: (0xF000_0000, 0xFFFF_FFFF), ..Board::version_2() };
    let outer = board.spare_bridge(0, 0x00, 2, 2);
    let inner = board.spare_bridge(outer, 0x00, 1, 1);
    board.end(inner, 0x00, &[memory(20)]);
    board.spare_bridge(outer, 0x08, 0, 3);
    board.end(0, 0x08, &[memory(20)]);
    lines.note("spare room: the inner bridge's from F0100000, a window of spares alone from F0200000, the outer one's from F0500000");
    lines.board(&board.bytes());
    for address in [
        0xF000_0000,
        0xF00F_FFFC,
        0xF010_0000,
        0xF01F_FFFC,
        0xF020_0000,
        0xF04F_FFFC,
        0xF050_0000,
        0xF06F_FFFC,
        0xF070_0000,
        0xF080_0000,
    ] {
        lines.header(&request(MRD, address));
    }
    lines.note("buses: 00, 01, 02, 03 spare, 04, 05 and 06 spare");
    for bus in 1..=7 {
        lines.header(&configuration(CFGRD1, bus << 8, 0));
        lines.header(&completion(CPLD, bus << 8));
    }
}
