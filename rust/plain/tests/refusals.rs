//! The refusals of boards and sheets, and what a refused call leaves alone.

use inputs::board::{self, high, io, memory, wide, Board};
use inputs::foreign::{completion, configuration, request, sheet, Record, CFGRD0, CFGRD1, CPL, IORD, MRD};

/// The number for a board, which must leave the room alone.
fn refusal(bytes: &[u8]) -> u8 {
    let mut room = vec![0xA5; plain::FULL_SHEET];
    let number = plain::plan(bytes, &mut room).err().unwrap_or(0);
    assert!(number == 0 || room.iter().all(|&byte| byte == 0xA5));
    number
}

fn board_with(change: impl Fn(&mut Board)) -> u8 {
    let mut board = Board::new();
    let bridge = board.bridge(0, 0);
    board.end(bridge, 0, &[memory(12), io(4)]);
    board.end(0, 8, &high(20));
    assert_eq!(refusal(&board.bytes()), 0);
    change(&mut board);
    refusal(&board.bytes())
}

#[test]
fn board_20_21_22() {
    let good = board::p10().bytes();
    for length in 1..good.len() {
        // After the host or the bridge the board is whole.
        let whole = [33, 49].contains(&length);
        assert_eq!(refusal(&good[..length]), if whole { 0 } else { 20 }, "{length}");
    }
    assert_eq!(refusal(&[]), 20);
    assert_eq!([refusal(&[1]), refusal(&[2]), refusal(&[3])], [20, 20, 21]);
    assert_eq!(board_with(|board| board.tail = vec![0]), 20);
    assert_eq!(board_with(|board| board.tail = vec![0, 5, 0, 0, 0, 9, 0]), 20);
    assert_eq!(board_with(|board| board.version = 0), 21);
    let mut board = board::full(&[]);
    assert_eq!(board.functions.len(), 512);
    assert_eq!(refusal(&board.bytes()), 0);
    board.end(9, 9, &[]);
    assert_eq!(refusal(&board.bytes()), 22);
}

#[test]
fn board_24_26() {
    assert_eq!(board_with(|board| board.functions[1].header_type = 2), 24);
    assert_eq!(board_with(|board| board.functions[1].header_type = 0x81), 24);
    assert_eq!(board_with(|board| board.functions[1].read_backs.truncate(5)), 24);
    assert_eq!(board_with(|board| board.functions[0].read_backs.push(0)), 24);
    assert_eq!(board_with(|board| board.tail = vec![0, 6, 0, 0, 0x10, 0, 0, 0]), 24);
    assert_eq!(board_with(|board| board.buses = (2, 1)), 26);
    assert_eq!(board_with(|board| board.low.0 += 1), 26);
    assert_eq!(board_with(|board| board.low.1 -= 1), 26);
    assert_eq!(board_with(|board| board.high.0 = 0xFFF0_0000), 26);
    assert_eq!(board_with(|board| board.high.1 = (1 << 52) + 0xF_FFFF), 26);
    assert_eq!(board_with(|board| board.io.0 += 4), 26);
    assert_eq!(board_with(|board| board.io.1 -= 4), 26);
    assert_eq!(board_with(|board| board.high = (1, 0)), 32);
}

#[test]
fn board_23() {
    for parent in [1, 2, 3, 4, 0xFFFF] {
        let number = board_with(|board| board.functions[2].parent = parent);
        // Below the bridge it is lawful.
        assert_eq!(number, if parent == 1 { 0 } else { 23 });
    }
    assert_eq!(board_with(|board| board.functions[2].device_function = 0), 23);
    assert_eq!(board_with(|board| board.functions[2].device_function = 1), 23);
    assert_eq!(board_with(|board| board.functions[2].device_function = 9), 23);
    assert_eq!(
        board_with(|board| {
            board.functions[0].header_type = 0x81;
            board.functions[2].device_function = 7;
        }),
        0
    );
    for (length, end, number) in [(32, true, 0), (33, false, 0), (33, true, 23), (34, false, 23)] {
        let mut board = Board::new();
        let last = board.chain(0, 0, length);
        if end {
            board.end(last, 0, &[]);
        }
        assert_eq!(refusal(&board.bytes()), number);
    }
}

#[test]
fn board_25_to_33() {
    assert_eq!(board_with(|board| board.functions[0].read_backs[1] = wide(12)[0]), 25);
    assert_eq!(board_with(|board| board.functions[1].read_backs[5] = wide(12)[0]), 25);
    assert_eq!(board_with(|board| board.functions[1].read_backs[2] = 0xFFFF_0001), 25);
    assert_eq!(board_with(|board| board.buses = (7, 7)), 30);
    assert_eq!(board_with(|board| board.buses = (7, 8)), 0);
    assert_eq!(board_with(|board| board.low = (1, 0)), 31);
    assert_eq!(board_with(|board| board.functions[1].read_backs[4..].copy_from_slice(&wide(63))), 31);
    assert_eq!(board_with(|board| board.functions[1].read_backs[4..].copy_from_slice(&high(63))), 32);
    assert_eq!(board_with(|board| board.io = (0xF000, 0)), 33);
    let bytes = board::p10().bytes();
    for length in 0..185 {
        let mut room = vec![0xA5; length];
        assert_eq!(plain::plan(&bytes, &mut room), Err(11));
        assert!(room.iter().all(|&byte| byte == 0xA5));
    }
    assert_eq!(plain::plan(&bytes, &mut [0; 185]), Ok(185));
}

fn sheet_with(change: impl Fn(&mut Vec<Record>)) -> u8 {
    let mut records = vec![
        Record::bridge(0x0000, 1, 2).low(0xF900, 0xF900).bar(0, 0xFFFF_FF01, 0x4001),
        Record::end(0x0100).bar(0, memory(12), 0xF900_0000).wide(1, 12, 33, 0x6_0000_0000),
    ];
    assert_eq!(plain::check(&sheet(&records)), 0);
    change(&mut records);
    let mut bytes = sheet(&records);
    let number = plain::check(&bytes);
    let before = bytes.clone();
    let read = [0x00, 0, 0, 1, 0, 0, 0, 0x0F, 0xF9, 0, 0, 0];
    if number != 0 {
        assert_eq!(plain::lookup(&bytes, 0x0100), Err(number));
        assert_eq!(plain::set_command(&mut bytes, 0x0100, 0), number);
        assert_eq!(plain::route(&read, &bytes), Err(number));
        assert_eq!(plain::route(&read[..11], &bytes), Err(1));
        assert_eq!(bytes, before);
    }
    number
}

#[test]
fn sheet_20_21_22() {
    assert_eq!(plain::check(&[]), 20);
    assert_eq!(plain::check(&[1]), 0);
    assert_eq!(plain::check(&[2]), 21);
    assert_eq!(sheet_with(|records| records[1].length = 91), 20);
    assert_eq!(sheet_with(|records| records[0].length = 346), 20);
    let mut records: Vec<Record> = (0..512).map(Record::end).collect();
    assert_eq!(plain::check(&sheet(&records)), 0);
    records.push(Record::end(7).set(0x0E, 9));
    assert_eq!(plain::check(&sheet(&records)), 22);
    let bytes = sheet(&records[..2]);
    for length in 2..bytes.len() {
        assert_eq!(plain::check(&bytes[..length]), if length == 93 { 0 } else { 20 });
    }
}

#[test]
fn sheet_24_27_28() {
    assert_eq!(sheet_with(|records| records[1].registers[0x0E] = 2), 24);
    assert_eq!(sheet_with(|records| records[0].registers[0x0E] = 0xFF), 24);
    assert_eq!(sheet_with(|records| records[0].registers[0x0E] = 0x81), 0);
    assert_eq!(sheet_with(|records| records[0].registers[0x18] = 1), 27);
    assert_eq!(sheet_with(|records| records[0].registers[0x19] = 0), 27);
    assert_eq!(sheet_with(|records| records[0].registers[0x1A] = 0), 27);
    assert_eq!(sheet_with(|records| records[1].id = 0), 28);
}

/// Document 02's E9, on boards and sheets alike, of bridges too: a memory BAR of 128 bytes and one of 64, both of 32 bits and
/// of 64, and an I/O BAR of 4.
#[test]
fn least_bars() {
    let cases: [([u32; 2], u32, u8); 5] = [
        ([0xFFFF_FF80, 0], 0, 0),
        ([0xFFFF_FFC0, 0], 0, 25),
        ([0xFFFF_FF8C, 0xFFFF_FFFF], 12, 0),
        ([0xFFFF_FFCC, 0xFFFF_FFFF], 12, 25),
        ([0xFFFF_FFFD, 0], 1, 0),
    ];
    for ([first, second], kind, number) in cases {
        for (header_type, record) in [(0, Record::end(0x0000)), (1, Record::bridge(0x0000, 1, 1))] {
            let mut board = Board::new();
            board.add(0, 0, header_type, &[first, second]);
            assert_eq!(refusal(&board.bytes()), number, "{first:08X} of type {header_type}");
            let record = record.bar(0, first, kind).bar(1, second, 0);
            assert_eq!(plain::check(&sheet(&[record])), number, "{first:08X} of type {header_type}");
        }
    }
}

#[test]
fn sheet_25_29() {
    let bars = |index: usize, slot: usize, read_back: u32, value: u32| {
        sheet_with(|records| records[index] = records[index].clone().bar(slot, read_back, value))
    };
    assert_eq!(bars(1, 0, 0xF0FF_F000, 0xF900_0000), 25);
    assert_eq!(bars(1, 0, memory(12), 0xF900_0800), 25);
    assert_eq!(bars(1, 0, memory(12), 0xF900_0008), 25);
    assert_eq!(bars(1, 0, memory(12), 0), 0);
    assert_eq!(bars(1, 3, 0, 1), 25);
    assert_eq!(bars(1, 5, wide(12)[0], 4), 25);
    assert_eq!(bars(1, 2, 0xFFFF_FFFE, 7), 25);
    assert_eq!(bars(0, 0, 0xFFFF_FF01, 0x1_4001), 25);
    assert_eq!(bars(0, 0, 0xFFFF_FF01, 0x4000), 25);
    assert_eq!(bars(0, 0, 0xFFFF_FF01, 0x4081), 25);
    assert_eq!(bars(0, 0, 0x0000_FF01, 0xFF01), 0);
    assert_eq!(bars(0, 1, wide(12)[0], 4), 25);
    for slot in 2..6 {
        assert_eq!(sheet_with(|records| records[0].read_backs[slot] = memory(12)), 25);
    }
    for at in [0x1C, 0x1D, 0x20, 0x22, 0x24, 0x26] {
        assert_eq!(sheet_with(|records| records[0].registers[at] ^= 2), 29);
        assert_eq!(sheet_with(|records| records[0].registers[at] ^= 1), 29);
        assert_eq!(sheet_with(|records| records[0].registers[at] ^= 0x10), 0);
    }
    for at in [0x00, 0x06, 0x0F, 0x1B, 0x1E, 0x1F, 0x28, 0x2C, 0x30, 0x3F] {
        assert_eq!(sheet_with(|records| records[0].registers[at] = 0xFF), 0);
    }
}

#[test]
fn lookup_and_command() {
    let mut bytes = sheet(&[Record::end(0x0008), Record::end(0x0103)]);
    assert_eq!(plain::lookup(&bytes, 0x0008), Ok(5));
    assert_eq!(plain::lookup(&bytes, 0x0103), Ok(97));
    assert_eq!(plain::lookup(&bytes, 0x0803), Err(40));
    let before = bytes.clone();
    assert_eq!(plain::set_command(&mut bytes, 0x0803, 0), 40);
    assert_eq!(bytes, before);
    assert_eq!(plain::set_command(&mut bytes, 0x0103, 0xABCD), 0);
    assert_eq!(bytes[101..103], [0xCD, 0xAB]);
    bytes[101..103].copy_from_slice(&before[101..103]);
    assert_eq!(bytes, before);
}

#[test]
fn route_40_41_42() {
    let bridge = Record::bridge(0x0000, 1, 1).low(0xF900, 0xF900);
    let end = Record::end(0x0100).bar(0, memory(12), 0xF900_0000);
    let route = |records: &[Record], header: Vec<u8>| {
        plain::route(&header, &sheet(records)).map(|arrival| match arrival {
            plain::Arrival::Function { record, bridges, packet } => (record, bridges, packet.kind),
            other => panic!("{other}"),
        })
    };
    let good = [bridge.clone(), end.clone()];
    assert_eq!(route(&good, request(MRD, 0xF900_0000)), Ok((2, 1, plain::Kind::MRd)));
    assert_eq!(route(&good, configuration(CFGRD1, 0x0100, 0)), Ok((2, 1, plain::Kind::CfgRd0)));
    assert_eq!(route(&good, completion(CPL, 0x0000)), Ok((1, 0, plain::Kind::Cpl)));
    assert_eq!(route(&good, request(MRD, 0xF900_1000)), Err(40));
    assert_eq!(route(&good, request(IORD, 0xF900_0000)), Err(40));
    assert_eq!(route(&good, configuration(CFGRD1, 0x0200, 0)), Err(40));
    assert_eq!(route(&good, configuration(CFGRD0, 0x0200, 0)), Err(42));
    assert_eq!(route(&good, configuration(CFGRD1, 0x0000, 0)), Err(42));
    assert_eq!(route(&[], configuration(CFGRD1, 0x0000, 0)), Err(40));
    let outside = [bridge.clone(), end.clone().value(0, 0xFA00_0000)];
    assert_eq!(route(&outside, request(MRD, 0xFA00_0000)), Err(40));
    let contested = [bridge.clone(), end.clone(), Record::bridge(0x0008, 2, 2).low(0xF900, 0xF900)];
    assert_eq!(route(&contested, request(MRD, 0xF900_0000)), Err(41));
    let own = [bridge.bar(0, memory(20), 0xF900_0000), end];
    assert_eq!(route(&own, request(MRD, 0xF900_0000)), Err(41));
}
