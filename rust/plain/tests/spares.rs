//! Document 02's E10 by worked examples: spare buses and spare low memory of a board of version 2.

use inputs::board::{high, io, memory, Board, Spares};

fn plan(board: &Board) -> Result<Vec<u8>, u8> {
    let mut room = vec![0xA5; plain::FULL_SHEET];
    let answer = plain::plan(&board.bytes(), &mut room);
    let length = answer.unwrap_or(0);
    assert!(room[length..].iter().all(|&byte| byte == 0xA5));
    room.truncate(length);
    answer.map(|_| room)
}

fn number(board: &Board) -> u8 {
    plan(board).err().unwrap_or(0)
}

/// Secondary and subordinate of every bridge, in record order.
fn buses(board: &Board) -> Vec<(u8, u8)> {
    let sheet = plan(board).unwrap();
    let records = sheet[1..].chunks_exact(92).map(|record| &record[4..68]);
    let bridges = records.filter(|registers| registers[0x0E] & 0x7F == 1);
    bridges.map(|registers| (registers[0x19], registers[0x1A])).collect()
}

/// Base and limit register of every bridge's low window, in record order.
fn windows(board: &Board) -> Vec<(u16, u16)> {
    let sheet = plan(board).unwrap();
    let records = sheet[1..].chunks_exact(92).map(|record| &record[4..68]);
    let bridges = records.filter(|registers| registers[0x0E] & 0x7F == 1);
    let word = |registers: &[u8], at| u16::from_le_bytes([registers[at], registers[at + 1]]);
    bridges.map(|registers| (word(registers, 0x20), word(registers, 0x22))).collect()
}

const CLOSED: (u16, u16) = (0xFFF0, 0x0000);

/// Version 2 and a low pool from F0000000 on.
fn board() -> Board {
    Board { low: (0xF000_0000, 0xFFFF_FFFF), ..Board::version_2() }
}

#[test]
fn spares_of_one_bridge() {
    let with = |buses, memory| {
        let mut board = board();
        board.spare_bridge(0, 0, buses, memory);
        board
    };
    let answers = |buses, memory| (self::buses(&with(buses, memory))[0], windows(&with(buses, memory))[0]);
    assert_eq!(answers(0, 0), ((1, 1), CLOSED));
    assert_eq!(answers(1, 0), ((1, 2), CLOSED));
    assert_eq!(answers(0, 1), ((1, 1), (0xF000, 0xF000)));
    assert_eq!(answers(7, 16), ((1, 8), (0xF000, 0xF0F0)));
    assert_eq!(answers(254, 256), ((1, 255), (0xF000, 0xFFF0)));
    assert_eq!([number(&with(255, 0)), number(&with(0, 257)), number(&with(0, 65_535))], [30, 31, 31]);
    // 30 before 31, and neither after a fault of the board's own.
    assert_eq!(number(&with(255, 65_535)), 30);
    let mut wrong = with(255, 65_535);
    wrong.buses = (1, 0);
    assert_eq!(number(&wrong), 26);
}

/// Inner spares lie inside the outer bridge and come before its own; a later bridge numbers after them.
#[test]
fn inner_and_outer_buses() {
    let mut board = board();
    let a = board.spare_bridge(0, 0x00, 2, 0);
    let b = board.spare_bridge(a, 0x00, 1, 0);
    board.spare_bridge(b, 0x00, 0, 0);
    board.spare_bridge(a, 0x08, 3, 0);
    board.spare_bridge(0, 0x08, 0, 0);
    // A 1, B 2, C 3, B's spare 4; D 5 and its spares 6 to 8; A's spares 9 and 10; E 11.
    assert_eq!(buses(&board), [(1, 10), (2, 4), (3, 3), (5, 8), (11, 11)]);
    // What is on a bus behind spares has that bus in its ID.
    board.end(5, 0x18, &[memory(12)]);
    let sheet = plan(&board).unwrap();
    assert_eq!(plain::id_of(&sheet, 6), Ok(0x0B18));
}

/// Spare memory is added to the rounded end, the inner bridge's inside the outer one's.
#[test]
fn inner_and_outer_memory() {
    let mut board = board();
    let a = board.spare_bridge(0, 0x00, 0, 3);
    board.end(a, 0x00, &[memory(12)]);
    let b = board.spare_bridge(a, 0x08, 0, 2);
    board.end(b, 0x00, &[memory(20)]);
    board.end(0, 0x08, &[memory(20)]);
    // B: 1 + 2 MiB from offset 1 MiB of A's; A: 4 + 3 MiB; then the last card.
    assert_eq!(
        plain::listing(&plan(&board).unwrap()),
        "plan 5\n\
         0000 bridge 00000000 00000000 00 01 02 F0 00 F000 F060 FFF1 0001 00000000 00000000\n\
         0100 end F0000000 00000000 00000000 00000000 00000000 00000000\n\
         0108 bridge 00000000 00000000 01 02 02 F0 00 F010 F030 FFF1 0001 00000000 00000000\n\
         0200 end F0100000 00000000 00000000 00000000 00000000 00000000\n\
         0008 end F0700000 00000000 00000000 00000000 00000000 00000000\n"
    );
}

/// The alignment is that of what lies inside, 1 MiB at the least, whatever the spares.
#[test]
fn alignment_without_spares() {
    for (bits, start) in [(12, 0xF010), (20, 0xF010), (22, 0xF040)] {
        let mut board = board();
        board.end(0, 0x00, &[memory(12)]);
        let bridge = board.spare_bridge(0, 0x08, 0, 64);
        board.end(bridge, 0x00, &[memory(bits)]);
        let size = 1u16 << bits.saturating_sub(20);
        assert_eq!(windows(&board), [(start, start + ((size + 64 - 1) << 4))]);
    }
}

/// A window of spares alone is an item of its bus: the windows above open around it, and what follows lies behind it.
#[test]
fn spares_alone() {
    let mut board = board();
    let a = board.spare_bridge(0, 0x00, 0, 0);
    let b = board.spare_bridge(a, 0x00, 0, 0);
    board.spare_bridge(b, 0x00, 0, 1);
    board.spare_bridge(b, 0x08, 0, 0);
    board.end(b, 0x10, &[memory(12)]);
    assert_eq!(windows(&board), [(0xF000, 0xF010), (0xF000, 0xF010), (0xF000, 0xF000), CLOSED]);
    assert_eq!(plan(&board).unwrap()[1 + 4 * 92 + 4 + 0x10..][..4], 0xF010_0000u32.to_le_bytes());
    // A closed pool holds no spares either.
    board.functions.pop();
    board.low = (1, 0);
    assert_eq!(number(&board), 31);
    board.functions[2].spares = Some(Spares { buses: 9, memory: 0 });
    assert_eq!(windows(&board), [CLOSED; 4]);
}

/// P10 with spares at its bridge, and a second bridge that has nothing else.
#[test]
fn p10() {
    let mut board = inputs::board::p10().without_spares();
    board.functions[0].spares = Some(Spares { buses: 2, memory: 3 });
    board.spare_bridge(0, 0x08, 1, 1);
    assert_eq!(
        plain::listing(&plan(&board).unwrap()),
        "plan 3\n\
         0000 bridge 00000000 00000000 00 01 03 40 40 F900 F930 4001 43F1 00000002 00000002\n\
         0100 end F9000000 4000000C 00000002 00004001 00000000 00000000\n\
         0008 bridge 00000000 00000000 00 04 05 F0 00 F940 F940 FFF1 0001 00000000 00000000\n"
    );
}

/// High and I/O windows have no spares.
#[test]
fn other_pools() {
    let mut board = board();
    let bridge = board.spare_bridge(0, 0x00, 0, 5);
    board.end(bridge, 0x00, &[high(20)[0], high(20)[1], io(4)]);
    board.high = (1 << 32, (1 << 32) + 0xF_FFFF);
    board.io = (0x4000, 0x4FFF);
    assert_eq!(
        plain::listing(&plan(&board).unwrap()),
        "plan 2\n\
         0000 bridge 00000000 00000000 00 01 01 40 40 F000 F040 0001 0001 00000001 00000001\n\
         0100 end 0000000C 00000001 00004001 00000000 00000000 00000000\n"
    );
}

/// First bus + bridges + spare buses > last bus.
#[test]
fn buses_run_out() {
    for (first, last, buses, expected) in
        [(0, 255, 254, 0), (0, 255, 255, 30), (250, 255, 4, 0), (250, 255, 5, 30), (7, 7, 0, 30), (7, 8, 1, 30)]
    {
        let mut board = Board { buses: (first, last), ..board() };
        board.spare_bridge(0, 0x00, buses, 0);
        assert_eq!(number(&board), expected, "{first} {last} {buses}");
    }
    // Three bridges with 10, 20 and 30 spares take 63 numbers.
    for (last, expected) in [(63, 0), (62, 30)] {
        let mut board = Board { buses: (0, last), ..board() };
        let outer = board.spare_bridge(0, 0x00, 10, 0);
        board.spare_bridge(outer, 0x00, 20, 0);
        board.spare_bridge(0, 0x08, 30, 0);
        assert_eq!(number(&board), expected);
    }
    // 256 and 512 bridges with 255 spares each: 65,536 and 131,072 numbers, which no sum may wrap.
    for count in [256, 512] {
        let mut board = board();
        for at in 0..count {
            let parent = if at < 256 { 0 } else { 256 };
            board.add(parent, at as u8, 0x81, &[]);
        }
        board.functions.iter_mut().for_each(|bridge| bridge.spares = Some(Spares { buses: 255, memory: 0 }));
        assert_eq!(board.bus_numbers(), 256 * count);
        assert_eq!(number(&board), 30);
    }
}

/// 31 reads the larger windows, to the pool's last byte; sums of spares do not wrap.
#[test]
fn low_memory_runs_out() {
    let whole = Board { low: (0, 0xFFFF_FFFF), ..Board::version_2() };
    for (memory, expected) in [(4095, 0), (4096, 0), (4097, 31), (65_535, 31)] {
        let mut board = whole.clone();
        board.spare_bridge(0, 0x00, 0, memory);
        assert_eq!(number(&board), expected, "{memory}");
    }
    for (memory, expected) in [(1, 0), (2, 31)] {
        let mut board = Board { low: (0xF900_0000, 0xF91F_FFFF), ..Board::version_2() };
        let bridge = board.spare_bridge(0, 0x00, 0, memory);
        board.end(bridge, 0x00, &[self::memory(12)]);
        assert_eq!(number(&board), expected, "{memory}");
    }
    let mut board = whole;
    let last = (0..32).fold(0, |above, _| board.spare_bridge(above, 0x00, 0, 65_535));
    board.end(last, 0x00, &[memory(12)]);
    assert_eq!(number(&board), 31);
}

/// 32 bridges in a row, each with a spare bus and 1 MiB.
#[test]
fn deep() {
    let mut board = board();
    let last = (0..32).fold(0, |above, _| board.spare_bridge(above, 0x00, 1, 1));
    board.end(last, 0x00, &[memory(12)]);
    let range = |bridge: u8| (bridge, 32 + (33 - bridge));
    assert_eq!(buses(&board), (1..=32).map(range).collect::<Vec<_>>());
    let window = |bridge: u16| (0xF000, 0xF000 + ((33 - bridge) << 4));
    assert_eq!(windows(&board), (1..=32).map(window).collect::<Vec<_>>());
    assert_eq!(plain::audit(&board.host(), &plan(&board).unwrap()), 0);
}

#[test]
fn lengths_and_versions() {
    let one = |version, spares| {
        let mut board = Board { version, ..board() };
        board.bridge(0, 0x00);
        board.functions[0].spares = spares;
        number(&board)
    };
    let none = Some(Spares::default());
    assert_eq!([one(1, None), one(1, none), one(2, None), one(2, none)], [0, 24, 24, 0]);
    for version in [0, 3, 255] {
        assert_eq!([one(version, None), one(version, none)], [21, 21]);
    }
    // A type 0 record has 30 bytes in both.
    for version in [1, 2] {
        let mut board = Board { version, ..board() };
        board.end(0, 0x00, &[memory(12)]);
        assert_eq!(number(&board), 0);
        board.functions[0].spares = none;
        assert_eq!(number(&board), 24);
    }
    // Every other length of a bridge's.
    let bytes = |version: u8, length: u16| {
        let mut board = Board { version, ..board() };
        board.tail = [&length.to_be_bytes()[..], &[0, 0, 0, 1, 0, 3], &vec![0; usize::from(length) - 6]].concat();
        number(&board)
    };
    for length in 6..40 {
        assert_eq!(bytes(1, length) == 0, length == 14);
        assert_eq!(bytes(2, length) == 0, length == 17);
    }
    // The sheet stays version 1.
    assert_eq!(plan(&board()), Ok(vec![1]));
    assert_eq!(plain::check(&[2]), 21);
}

/// No function owns an address in spare room, nor an ID on a spare bus.
#[test]
fn nobody_in_spare_room() {
    let mut board = board();
    let bridge = board.spare_bridge(0, 0x00, 2, 2);
    board.end(bridge, 0x00, &[memory(20)]);
    let sheet = plan(&board).unwrap();
    let read = |address: u32| {
        let header = [&[0, 0, 0, 1, 0, 0, 5, 0x0F][..], &address.to_be_bytes()].concat();
        plain::route(&header, &sheet).map(|_| ())
    };
    assert_eq!([read(0xF000_0000), read(0xF00F_FFFC)], [Ok(()); 2]);
    assert_eq!([read(0xF010_0000), read(0xF02F_FFFC), read(0xF030_0000)], [Err(40); 3]);
    let configure = |bus: u8| plain::route(&[5, 0, 0, 1, 0, 0, 5, 0x0F, bus, 0, 0, 0], &sheet).map(|_| ());
    assert_eq!([configure(1), configure(2), configure(3), configure(4)], [Ok(()), Err(40), Err(40), Err(40)]);
}
