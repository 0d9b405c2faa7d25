//! Document 01's examples P1 to P10 by the types, empty slices, and the refusals' numbers and words.

use cartsundial::{
    calls, check, plan, read, registers, route, set_command, write, Arrival, Delivery, Id, Kind, NoRefusal, Refusal,
    FULL_SHEET,
};
use inputs::board::{self, io, memory, Board};
use inputs::foreign::{configuration, message, request, sheet, Record, CFGRD0, CFGRD1, MRD, MSG, MSGD, MWR};
use std::thread;

fn planned(board: &Board) -> Result<Vec<u8>, Refusal> {
    let mut sheet = vec![0; FULL_SHEET];
    let length = plan(&board.bytes(), &mut sheet)?;
    sheet.truncate(length);
    Ok(sheet)
}

/// The one function that the header goes to.
fn delivered(header: &[u8], sheet: &[u8]) -> Result<Delivery, Refusal> {
    route(header, sheet).map(|arrival| arrival.delivery().expect("one function"))
}

/// A memory request with its Length code and enables.
fn header(byte0: u8, address: u64, length: u16, last: u8, first: u8) -> Vec<u8> {
    let mut header = request(byte0, address);
    header[2..4].copy_from_slice(&length.to_be_bytes());
    header[7] = last << 4 | first;
    header
}

#[test]
fn p1_to_p5() {
    assert_eq!(read(&request(MRD, 0)[..11]), Err(Refusal::ShortHeader));
    assert_eq!(read(&header(MRD, 0, 0, 0xF, 0xF)).map(|packet| packet.length()), Ok(1024));
    assert_eq!(read(&header(MRD, 4, 0, 0xF, 0xF)), Err(Refusal::BoundaryCrossed));
    assert!(read(&header(MWR, 0, 2, 0b0101, 0b1010)).is_ok());
    assert_eq!(read(&header(MWR, 0, 3, 0b0101, 0b1010)), Err(Refusal::ByteEnables));
    let mut wide = header(MRD, 1 << 32, 1, 0, 0xF);
    assert!(read(&wide).is_ok());
    wide[11] = 0;
    assert_eq!(read(&wide), Err(Refusal::UpperHalfZero));
}

#[test]
fn p6_to_p9() {
    let bridges = |count: u16| {
        let mut board = Board::new();
        (0..count).for_each(|device_function| {
            board.add(0, device_function as u8, 0x81, &[]);
        });
        planned(&board)
    };
    assert_eq!(bridges(255).map(|sheet| sheet.len()), Ok(1 + 92 * 255));
    assert_eq!(bridges(256), Err(Refusal::NoBuses));
    let mut board = Board { low: (0xF900_0000, 0xF90F_FFFF), ..Board::new() };
    board.end(0, 0x00, &[memory(20)]);
    assert!(planned(&board).is_ok());
    board.end(0, 0x08, &[memory(20)]);
    assert_eq!(planned(&board), Err(Refusal::NoLowRoom));
    assert_eq!(planned(&Board::new()), Ok(vec![1]));
    let mut board = Board::new();
    board.end(0, 0x00, &[0xF0FF_F000]);
    assert_eq!(planned(&board), Err(Refusal::ReadBack));
}

#[test]
fn p10() {
    let mut sheet = planned(&board::p10()).unwrap();
    assert_eq!(check(&sheet), Ok(()));
    let bridge = registers(&sheet, Id(0x0000)).unwrap();
    assert_eq!(bridge[0x18..0x1E], [0x00, 0x01, 0x01, 0x00, 0x40, 0x40]);
    assert_eq!(bridge[0x20..0x28], [0x00, 0xF9, 0x00, 0xF9, 0x01, 0x40, 0xF1, 0x43]);
    assert_eq!(bridge[0x28..0x30], [2, 0, 0, 0, 2, 0, 0, 0]);
    let card = registers(&sheet, Id(0x0100)).unwrap();
    assert_eq!(card[0x10..0x20], [0, 0, 0, 0xF9, 0x0C, 0, 0, 0x40, 2, 0, 0, 0, 0x01, 0x40, 0, 0]);
    assert_eq!(registers(&sheet, Id(0x0200)), Err(Refusal::NoOwner));

    let read_of = |address| request(MRD, address);
    let delivery = delivered(&read_of(0xF900_0FFC), &sheet).unwrap();
    assert_eq!((delivery.record, delivery.bridges), (2, 1));
    assert_eq!(Ok(delivery.packet), read(&read_of(0xF900_0FFC)));
    assert_eq!(route(&read_of(0xF900_1000), &sheet), Err(Refusal::NoOwner));
    // Configuration type 1 arrives as type 0.
    let delivery = delivered(&configuration(CFGRD1, 0x0100, 0x41), &sheet).unwrap();
    assert_eq!(Ok(delivery.packet), read(&configuration(CFGRD0, 0x0100, 0x41)));
    assert_eq!(route(&configuration(CFGRD0, 0x0100, 0x41), &sheet), Err(Refusal::ConfigurationType));

    assert_eq!(set_command(&mut sheet, Id(0x0000), 0x0001), Ok(()));
    assert_eq!(registers(&sheet, Id(0x0000)).unwrap()[0x04..0x06], [0x01, 0x00]);
    assert_eq!(route(&read_of(0xF900_0FFC), &sheet), Err(Refusal::NoOwner));
}

/// Messages over P10: one for each function, for the card alone, for the port, and up.
#[test]
fn messages() {
    let sheet = planned(&board::p10()).unwrap();
    let goes = |routing, tail| route(&message(MSG, routing, 0x50, tail), &sheet);
    let packet = |routing, tail| read(&message(MSG, routing, 0x50, tail)).unwrap();
    assert_eq!(goes(0b011, 7), Ok(Arrival::Every { functions: 2, packet: packet(0b011, 7) }));
    assert_eq!(goes(0b100, 7), Ok(Arrival::Port { packet: packet(0b100, 7) }));
    for (routing, tail) in [(0b001, 0xF900_0FFC), (0b010, 0x0100 << 48 | 7)] {
        let (id, packet) = (Id(0x0100), packet(routing, tail));
        assert_eq!(goes(routing, tail), Ok(Arrival::Function(Delivery { record: 2, id, bridges: 1, packet })));
    }
    assert_eq!(goes(0b001, 0xF900_1000), Err(Refusal::NoOwner));
    assert_eq!(goes(0b010, 0x0200 << 48), Err(Refusal::NoOwner));
    assert_eq!(goes(0b000, 0), Err(Refusal::Upward));
    assert_eq!(goes(0b101, 0), Err(Refusal::Upward));

    // 43 is tried where 42 is, after 40 for a sheet with no functions.
    for routing in 0..6 {
        assert_eq!(route(&message(MSG, routing, 0x50, 0), &[1]), Err(Refusal::NoOwner));
    }
    let mut numbers = [0xA5; calls::ROUTE + 2];
    let broadcast = message(MSG, 0b011, 0x50, 7);
    assert_eq!(calls::route(&broadcast, &sheet, &mut numbers[..calls::ROUTE + 1]), 11);
    assert_eq!(numbers, [0xA5; calls::ROUTE + 2]);
    assert_eq!(calls::route(&broadcast, &sheet, &mut numbers), 0);
    assert_eq!((&numbers[..2], &numbers[calls::ROUTE..]), (&[0, 2][..], &[1, 2][..]));
}

/// A message for every function of the largest sheet.
#[test]
fn broadcast_to_512() {
    let sheet = planned(&board::full(&[])).unwrap();
    let arrival = route(&message(MSGD, 0b011, 0x50, 0), &sheet).unwrap();
    assert!(matches!(arrival, Arrival::Every { functions: 512, .. }));
    assert_eq!((arrival.packet().kind(), arrival.delivery()), (Kind::MsgD, None));
}

/// Two cards with one window: last winter's fault.
#[test]
fn contested() {
    let mut board = Board::new();
    board.end(0, 0x00, &[memory(12), io(4)]);
    board.end(0, 0x08, &[memory(12), io(4)]);
    let mut sheet = planned(&board).unwrap();
    assert_eq!(sheet[1 + 92 + 4 + 0x11], 0x10);
    sheet[1 + 92 + 4 + 0x11] = 0;
    assert_eq!(route(&request(MWR, 0x8000_0000), &sheet), Err(Refusal::Contested));
}

#[test]
fn empty_slices() {
    assert_eq!(read(&[]), Err(Refusal::ShortHeader));
    assert_eq!(plan(&[], &mut []), Err(Refusal::Frame));
    assert_eq!(plan(&Board::new().bytes(), &mut []), Err(Refusal::ShortRoom));
    assert_eq!(check(&[]), Err(Refusal::Frame));
    assert_eq!(registers(&[], Id(0)), Err(Refusal::Frame));
    assert_eq!(set_command(&mut [], Id(0), 0), Err(Refusal::Frame));
    assert_eq!(route(&[], &[]), Err(Refusal::ShortHeader));
    let header = request(MRD, 0xF900_0FFC);
    assert_eq!(route(&header, &[]), Err(Refusal::Frame));
    let packet = read(&header).unwrap();
    assert_eq!(write(&packet, &mut []), Err(Refusal::ShortRoom));
    assert_eq!(calls::read(&header, &mut []), 11);
    assert_eq!(calls::write(&[], &mut [], &mut []), 11);
    assert_eq!(calls::write(&packet.to_numbers(), &mut [0; 12], &mut []), 11);
    assert_eq!(calls::lookup(&[1], 0, &mut []), 40);
    let sheet = planned(&board::p10()).unwrap();
    assert_eq!(calls::lookup(&sheet, 0x0100, &mut []), 11);
    assert_eq!(calls::route(&header, &sheet, &mut []), 11);
}

/// 64 KiB for any call, and 16 for what the thread's library takes and for the frames around the call.
const SMALL_STACK: usize = (64 + 16) << 10;

/// The deepest board, and a sheet with 255 bridges in a row, on a small stack.
#[test]
fn deep_on_a_small_stack() {
    let mut board = Board::new();
    for device in 0..4 {
        let last = board.chain(0, device << 3, 32);
        for device_function in 0..96 {
            board.add(last, device_function, 0x80, &[memory(14)]);
        }
    }
    let bridge = |bus: u8| Record::bridge(u16::from_be_bytes([bus, 0]), bus + 1, 255).low(0xF900, 0xF970);
    let mut records: Vec<Record> = (0..255).map(bridge).collect();
    records.push(Record::end(0xFF00).bar(0, memory(20), 0xF920_0000));
    let (board, sheet) = (board.bytes(), sheet(&records));
    let calls = move || {
        let mut room = vec![0; FULL_SHEET];
        let length = plan(&board, &mut room);
        (length, delivered(&request(MRD, 0xF920_0000), &sheet).map(|delivery| (delivery.record, delivery.bridges)))
    };
    let answers = thread::Builder::new().stack_size(SMALL_STACK).spawn(calls).unwrap().join().unwrap();
    assert_eq!(answers, (Ok(FULL_SHEET), Ok((256, 255))));
}

#[test]
fn refusals() {
    for &refusal in Refusal::ALL {
        assert_eq!(Refusal::try_from(u32::from(refusal.number())), Ok(refusal));
    }
    for number in [0, 12, 19, 34, 39, 49, 53, 66, 256 + 40] {
        assert_eq!(Refusal::try_from(number), Err(NoRefusal));
    }
    assert!(Refusal::ALL.is_sorted());
    assert_eq!(Refusal::NoOwner.to_string(), "refused 40: no owner");
    assert_eq!(Id(0x01FB).to_string(), "01:1F.3");
}
