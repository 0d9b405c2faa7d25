//! The write script: performed on a model, write by write, with the walk written out here and no checks of the sheet.

mod decoded;

use decoded::{functions, requests, Function};
use inputs::board::{self, memory, p10, Board, Style};
use inputs::random::Random;
use plain::Kind;

const RECORD: usize = 92;
const REGISTERS: usize = 4;

fn scripted(board: &Board, requester: u16, tag: u8) -> Result<Vec<u8>, u8> {
    let mut room = vec![0; 73_692];
    let length = plain::script(&board.bytes(), requester, tag, &mut room)?;
    room.truncate(length);
    Ok(room)
}

fn planned(board: &Board) -> Vec<u8> {
    let mut room = vec![0; plain::FULL_SHEET];
    let length = plain::plan(&board.bytes(), &mut room).unwrap();
    room.truncate(length);
    room
}

/// The planned sheet with every register 0 but the header types.
fn model(sheet: &[u8]) -> Vec<u8> {
    let mut model = sheet.to_vec();
    for record in model[1..].chunks_exact_mut(RECORD) {
        let header_type = record[REGISTERS + 0x0E];
        record[REGISTERS..REGISTERS + 64].fill(0);
        record[REGISTERS + 0x0E] = header_type;
    }
    model
}

/// A configuration write's target: the function that has the ID, over bridges whose ranges have its bus.
fn by_id(functions: &[Function], id: u16) -> Option<usize> {
    let target = (id >> 8) as u8;
    let mut bus = functions.first()?.bus();
    for _ in 0..256 {
        if bus == target {
            return functions.iter().position(|function| function.id == id);
        }
        let on_bus = functions.iter().filter(|function| function.bus() == bus).filter_map(|function| function.bridge);
        let ways: Vec<u8> =
            on_bus.filter(|range| range.0 <= target && target <= range.1).map(|range| range.0).collect();
        let [secondary] = ways[..] else { return None };
        bus = secondary;
    }
    None
}

/// The record and the bridges crossed, or the number.
fn by_address(functions: &[Function], is_io: bool, address: u128) -> Result<(usize, usize), u8> {
    let mut bus = functions.first().ok_or(40)?.bus();
    for crossed in 0..256 {
        let mut claims = Vec::new();
        for (index, function) in functions.iter().enumerate() {
            if function.bus() != bus || !function.enables(is_io) {
                continue;
            }
            let holds = |range: &&decoded::Range| range.holds(is_io, address);
            claims.extend(function.bars.iter().filter(holds).map(|_| (index, None)));
            claims.extend(function.windows.iter().filter(holds).map(|_| (index, function.bridge)));
        }
        match claims[..] {
            [] => return Err(40),
            [(index, None)] => return Ok((index, crossed)),
            [(_, Some((secondary, _)))] => bus = secondary,
            _ => return Err(41),
        }
    }
    panic!("a walk without an end");
}

/// The functions of a model, where the type bits of I/O BARs and high windows may not be written yet.
fn read(model: &[u8]) -> Vec<Function> {
    let mut typed = model.to_vec();
    for record in typed[1..].chunks_exact_mut(RECORD) {
        let mut slot = 0;
        while slot < 6 {
            let type_bits = record[71 + 4 * slot] & 7;
            if type_bits & 1 == 1 {
                record[REGISTERS + 0x10 + 4 * slot] |= 1;
            }
            slot += if type_bits == 4 { 2 } else { 1 };
        }
        if record[REGISTERS + 0x0E] & 0x7F == 1 {
            record[REGISTERS + 0x24] |= 1;
            record[REGISTERS + 0x26] |= 1;
        }
    }
    functions(&typed)
}

#[test]
fn performed() {
    let mut numbers = Random::new(14);
    let mut performed = 0;
    for _ in 0..400 {
        let style = Style {
            functions: 1 + numbers.below(24) as usize,
            bridges: 10 + numbers.below(60),
            memory_bits: 8 + numbers.below(16) as u32,
            io_bits: 3 + numbers.below(6) as u32,
        };
        let board = board::random(&mut numbers, &style);
        let (requester, tag) = (numbers.word() as u16, numbers.word() as u8);
        let Ok(script) = scripted(&board, requester, tag) else { continue };
        performed += 1;
        let sheet = planned(&board);
        let last = functions(&sheet);
        let mut state = model(&sheet);
        for (number, record) in script.chunks_exact(18).enumerate() {
            assert_eq!(record[..2], [0, 16]);
            let packet = plain::read(&record[2..14]).unwrap();
            assert_eq!((packet.requester, packet.tag), (requester, tag.wrapping_add(number as u8).into()));
            let on_root = (packet.target >> 8) as u8 == last[0].bus();
            assert_eq!(packet.kind, if on_root { Kind::CfgWr0 } else { Kind::CfgWr1 });
            let index = by_id(&read(&state), packet.target).expect("a write that arrives");
            assert_eq!(last[index].id, packet.target);
            let at = 1 + RECORD * index + REGISTERS + usize::from(record[13]);
            for byte in 0..4 {
                if record[9] >> byte & 1 == 1 {
                    state[at + byte] = record[14 + byte];
                } else {
                    assert_eq!(record[14 + byte], 0);
                }
            }
            let now = read(&state);
            for header in requests(&last, &mut numbers).chunks(31).map(|some| &some[0]) {
                let packet = plain::read(header).unwrap();
                let is_io = matches!(packet.kind, Kind::IORd | Kind::IOWr);
                let outcome = by_address(&now, is_io, packet.address.into());
                assert!(outcome == Err(40) || outcome == by_address(&last, is_io, packet.address.into()));
            }
        }
        assert!(state == sheet);
    }
    assert!(performed > 200, "{performed}");
}

/// The writes of P10, by ID, register, enables and data.
#[test]
fn p10_written() {
    let script = scripted(&p10(), 0x0010, 0xFE).unwrap();
    let writes: Vec<(u16, u8, u8, [u8; 4])> = script
        .chunks_exact(18)
        .map(|record| {
            let id = u16::from_be_bytes([record[10], record[11]]);
            (id, record[13], record[9], record[14..].try_into().unwrap())
        })
        .collect();
    let expected = [
        (0x0000, 0x18, 0b0111, [0x00, 0x01, 0x01, 0x00]),
        (0x0000, 0x1C, 0b0011, [0x40, 0x40, 0x00, 0x00]),
        (0x0000, 0x20, 0b1111, [0x00, 0xF9, 0x00, 0xF9]),
        (0x0000, 0x24, 0b1111, [0x01, 0x40, 0xF1, 0x43]),
        (0x0000, 0x28, 0b1111, [0x02, 0x00, 0x00, 0x00]),
        (0x0000, 0x2C, 0b1111, [0x02, 0x00, 0x00, 0x00]),
        (0x0100, 0x10, 0b1111, [0x00, 0x00, 0x00, 0xF9]),
        (0x0100, 0x14, 0b1111, [0x0C, 0x00, 0x00, 0x40]),
        (0x0100, 0x18, 0b1111, [0x02, 0x00, 0x00, 0x00]),
        (0x0100, 0x1C, 0b1111, [0x01, 0x40, 0x00, 0x00]),
        (0x0000, 0x04, 0b0011, [0x03, 0x00, 0x00, 0x00]),
        (0x0100, 0x04, 0b0011, [0x03, 0x00, 0x00, 0x00]),
    ];
    assert_eq!(writes, expected);
    let tags: Vec<u8> = script.chunks_exact(18).map(|record| record[8]).collect();
    assert_eq!(tags, [0xFE, 0xFF, 0, 1, 2, 3, 4, 5, 6, 7, 8, 9]);
    assert_eq!(script[..14], [0, 16, 0x44, 0, 0, 1, 0x00, 0x10, 0xFE, 0x07, 0, 0, 0, 0x18]);
}

#[test]
fn refused_and_short() {
    let board = p10().bytes();
    for size in 0..12 * 18 {
        let mut room = vec![0xA5; size];
        assert_eq!(plain::script(&board, 0, 0, &mut room), Err(11));
        assert!(room.iter().all(|&byte| byte == 0xA5));
    }
    assert_eq!(plain::script(&Board { buses: (1, 0), ..p10() }.bytes(), 0, 0, &mut []), Err(26));
    assert_eq!(plain::script(&[], 0, 0, &mut []), Err(20));
    assert_eq!(plain::script(&Board::new().bytes(), 0, 0, &mut []), Ok(0));
    // Nobody has more writes: 255 bridges with two BARs, 257 cards with six.
    let mut board = Board { low: (0, 0xFFFF_FFFF), ..Board::new() };
    let bars = [memory(7); 6];
    for device in 0..=254 {
        board.add(0, device, 0x81, &bars[..2]);
    }
    for device in 0..=255 {
        board.add(255, device, 0x80, &bars);
    }
    let length = plain::script(&board.bytes(), 0, 0, &mut vec![0; 100_000]).unwrap();
    assert_eq!(length, 18 * (255 * 9 + 256 * 7));
}
