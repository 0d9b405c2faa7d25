//! Messages (request E1 of document 02): read, written and routed.

use inputs::board::{self, memory, Board};
use inputs::foreign::{message, sheet, Record, MSG, MSGD};
use inputs::random::Random;
use inputs::{aim, header, numbers, registers};
use plain::{read, route, to_numbers, write, write_numbers, Arrival, Form, Kind, Packet};

/// Assert_INTA, routing 100; MsgD by ID to 01:00.0.
const LOCAL: [u8; 16] = [0x34, 0, 0, 0, 0x12, 0x34, 0x56, 0x20, 0, 0, 0, 0, 0, 0, 0, 0];
const BY_ID: [u8; 16] = [0x72, 0, 0, 1, 0x12, 0x34, 0x56, 0x7E, 0x01, 0x00, 0, 0, 0, 0, 0, 0];
const BY_ADDRESS: [u8; 16] = [0x31, 0, 0, 0, 0x12, 0x34, 0x56, 0x50, 0, 0, 0, 2, 0x40, 0, 0x0F, 0xFC];

fn changed(mut header: [u8; 16], changes: &[(usize, u8)]) -> Result<Packet, u8> {
    for &(at, byte) in changes {
        header[at] = byte;
    }
    read(&header)
}

#[test]
fn fields() {
    let header = [0x74, 0x54, 0xF1, 0x05, 0x12, 0x34, 0x56, 0x7E, 0x01, 0x23, 0x45, 0x67, 0x89, 0xAB, 0xCD, 0xEF];
    let packet = read(&header).unwrap();
    assert_eq!((packet.kind, packet.form), (Kind::MsgD, Form::Four));
    assert_eq!((packet.tc, packet.attr, packet.td, packet.ep, packet.at), (5, 7, true, true, 0));
    assert_eq!((packet.length, packet.requester, packet.tag), (0x105, 0x1234, 0x56));
    assert_eq!((packet.routing, packet.code, packet.tail), (4, 0x7E, 0x0123_4567_89AB_CDEF));
    assert_eq!(
        to_numbers(&packet),
        [14, 4, 5, 7, 1, 1, 0, 0x105, 0x1234, 0x56, 4, 0x7E, 0x0123_4567_89AB_CDEF, 0, 0, 0, 0, 0, 0, 0]
    );
    assert_eq!(
        packet.to_string(),
        "MsgD 4dw tc 5 attr 7 td 1 ep 1 at 0 length 261 requester 1234 tag 056 routing 4 code 7E tail 0123456789ABCDEF"
    );
    assert_eq!(
        read(&LOCAL).unwrap().to_string(),
        "Msg 4dw tc 0 attr 0 td 0 ep 0 at 0 length 0 requester 1234 tag 056 routing 4 code 20 tail 0000000000000000"
    );
}

#[test]
fn pairs() {
    for routing in 0..8 {
        for byte0 in [MSG, MSGD] {
            // 110 and 111 are unknown, whatever else is wrong; so is a message of three dwords.
            let number = if routing < 6 { None } else { Some(2) };
            assert_eq!(changed(LOCAL, &[(0, byte0 | routing)]).err(), number);
            let short = if routing < 6 { 1 } else { 2 };
            for length in 12..16 {
                assert_eq!(read(&message(byte0, routing, 0, 0)[..length]), Err(short));
            }
            assert_eq!(read(&message(byte0, routing, 0, 0)[..11]), Err(1));
            assert_eq!(changed(LOCAL, &[(0, (byte0 ^ 0x20) | routing), (1, 1)]), Err(2));
        }
        assert!(routing > 5 || changed(LOCAL, &[(0, MSG | routing)]).unwrap().routing == routing);
    }
    assert!(read(&[&BY_ID[..], &[0xFF; 9]].concat()).is_ok());
    // AtomicOps and prefixes are still known and not carried.
    for byte0 in [0x4C, 0x4D, 0x4E, 0x6C, 0x6D, 0x6E, 0x80, 0x9F] {
        assert_eq!(changed(LOCAL, &[(0, byte0)]), Err(3));
    }
}

#[test]
fn rule_4() {
    for header in [LOCAL, BY_ID, BY_ADDRESS] {
        for bit in [0x80, 0x08, 0x02, 0x01] {
            assert_eq!(changed(header, &[(1, bit)]), Err(4));
        }
        for at in [0x04, 0x08, 0x0C] {
            // 4 before 5.
            assert_eq!(changed(header, &[(2, at), (3, 9)]), Err(4));
        }
        // TC, all Attr, TD and EP are free.
        assert!(changed(header, &[(1, 0x74), (2, 0xF0)]).is_ok());
    }
    for bits in [1, 2, 3] {
        for routing in 0..6 {
            for byte0 in [MSG, MSGD] {
                let number = read(&message(byte0, routing, 0, 0x2_4000_0FFC | bits)).err();
                assert_eq!(number, if routing == 1 { Some(4) } else { None });
            }
        }
        // They are those of byte 15.
        assert!(changed(BY_ADDRESS, &[(11, bits as u8)]).is_ok());
    }
}

#[test]
fn rule_5() {
    for change in [(3, 1), (3, 0xFF), (2, 1), (2, 2)] {
        assert_eq!(changed(LOCAL, &[change]), Err(5));
        assert_eq!(changed(BY_ADDRESS, &[change]), Err(5));
    }
    assert_eq!(changed(LOCAL, &[(0, 0x74)]).unwrap().length, 1024);
    assert_eq!(changed(LOCAL, &[(0, 0x74), (3, 1)]).unwrap().length, 1);
    assert_eq!(changed(LOCAL, &[(0, 0x74), (2, 3), (3, 0xFF)]).unwrap().length, 1023);
}

#[test]
fn rules_6_to_9_do_not_apply() {
    // An upper half of zero, 1,024 dwords from the last one of a page on, and every code.
    for code in 0..=255 {
        for routing in 0..6 {
            let packet = changed(BY_ADDRESS, &[(0, MSGD | routing), (7, code), (11, 0)]).unwrap();
            assert_eq!((packet.routing, packet.code, packet.tail), (routing, code, 0x4000_0FFC));
            assert_eq!(packet.length, 1024);
            assert!(read(&message(MSG, routing, code, u64::MAX << 2)).is_ok());
        }
    }
}

/// What the writer says to numbers with some of them changed.
fn written(header: &[u8; 16], changes: &[(usize, u64)]) -> Result<usize, u8> {
    let mut numbers = to_numbers(&read(header).unwrap());
    for &(at, number) in changes {
        numbers[at] = number;
    }
    let mut room = [0xA5; 20];
    let result = write_numbers(&numbers, &mut room);
    assert!(room[result.unwrap_or(0)..].iter().all(|&byte| byte == 0xA5));
    result
}

#[test]
fn numbers_are_written() {
    let numbers = [13, 4, 7, 5, 0, 1, 0, 0, 0xBEEF, 0xA5, 5, 0x1B, 0xFEDC_BA98_7654_3211, 0, 0, 0, 0, 0, 0, 0];
    let mut room = [0; 16];
    assert_eq!(write_numbers(&numbers, &mut room), Ok(16));
    assert_eq!(room, [0x35, 0x74, 0x50, 0, 0xBE, 0xEF, 0xA5, 0x1B, 0xFE, 0xDC, 0xBA, 0x98, 0x76, 0x54, 0x32, 0x11]);
    let numbers = [14, 4, 0, 0, 1, 0, 0, 1024, 0x0100, 0, 1, 0xFF, 0xF900_0FFC, 0, 0, 0, 0, 0, 0, 0];
    assert_eq!(write_numbers(&numbers, &mut room), Ok(16));
    assert_eq!(room, [0x71, 0, 0x80, 0, 0x01, 0, 0, 0xFF, 0, 0, 0, 0, 0xF9, 0, 0x0F, 0xFC]);
}

#[test]
fn writer_refuses() {
    for header in [&LOCAL, &BY_ID, &BY_ADDRESS] {
        assert_eq!(written(header, &[]), Ok(16));
        // 2 before 10: a kind above 14, a form not carried, routing 110 and 111.
        for change in [(0, 15), (1, 3), (1, 5), (10, 6), (10, 7)] {
            assert_eq!(written(header, &[change, (2, 8), (9, 256)]), Err(2));
        }
        // Too wide, and 10 before 4.
        for change in [(2, 8), (3, 8), (4, 2), (5, 2), (6, 4), (7, 1025), (8, 1 << 16), (9, 256), (10, 8), (11, 256)] {
            assert_eq!(written(header, &[change]), Err(10), "{change:?}");
            assert_eq!(written(header, &[(change.0, u64::MAX)]), Err(10), "{change:?}");
        }
        assert_eq!(written(header, &[(10, 256 + 6)]), Err(10));
        for absent in 13..20 {
            assert_eq!(written(header, &[(absent, 1), (6, 1)]), Err(10));
        }
        for at in 1..4 {
            assert_eq!(written(header, &[(6, at)]), Err(4));
        }
    }
    for length in [1, 2, 1024] {
        assert_eq!(written(&LOCAL, &[(7, length), (6, 1)]), Err(10));
        assert_eq!(written(&BY_ID, &[(7, length)]), Ok(16));
    }
    assert_eq!(written(&BY_ID, &[(7, 0), (6, 1)]), Err(10));
    assert_eq!(written(&BY_ADDRESS, &[(12, u64::MAX)]), Err(4));
    assert_eq!(written(&BY_ADDRESS, &[(12, u64::MAX - 3)]), Ok(16));
    assert_eq!(written(&BY_ADDRESS, &[(12, 0)]), Ok(16));
    assert_eq!(written(&LOCAL, &[(12, u64::MAX)]), Ok(16));
    for packet in [LOCAL, BY_ID, BY_ADDRESS].map(|header| read(&header).unwrap()) {
        for length in 0..16 {
            let mut room = vec![0xA5; length];
            assert_eq!(write(&packet, &mut room), Err(11));
            assert!(room.iter().all(|&byte| byte == 0xA5));
        }
        assert_eq!(write(&Packet { at: 1, ..packet }, &mut []), Err(4));
        // Fields of other kinds.
        for other in [
            Packet { last_enables: 1, ..packet },
            Packet { first_enables: 1, ..packet },
            Packet { address: 4, ..packet },
            Packet { target: 1, ..packet },
            Packet { completer: 1, ..packet },
        ] {
            assert_eq!(write(&other, &mut [0; 16]), Err(10));
        }
    }
}

#[test]
fn other_kinds_have_no_message_fields() {
    for header in [
        &[0x00, 0, 0, 1, 0x12, 0x34, 0x56, 0x0F, 0xF9, 0, 0, 0][..],
        &[0x02, 0, 0, 1, 0x12, 0x34, 0x56, 0x0F, 0, 0, 0x40, 0],
        &[0x45, 0, 0, 1, 0x12, 0x34, 0x56, 0x0F, 0x01, 0, 0x0F, 0xFC],
        &[0x0A, 0, 0, 0, 0x01, 0, 0x2F, 0xFF, 0x12, 0x34, 0x56, 0x7F],
    ] {
        let packet = read(header).unwrap();
        assert_eq!((packet.routing, packet.code, packet.tail), (0, 0, 0));
        for other in [Packet { routing: 1, ..packet }, Packet { code: 1, ..packet }, Packet { tail: 1, ..packet }] {
            assert_eq!(write(&other, &mut [0; 16]), Err(10));
        }
    }
}

#[test]
fn round_trips() {
    let mut random = Random::new(9);
    let (mut read_back, mut written_back) = (0, 0);
    for _ in 0..200_000 {
        let mut header = [0; 16];
        header[..8].copy_from_slice(&random.word().to_be_bytes());
        header[8..].copy_from_slice(&random.word().to_be_bytes());
        header[0] = [MSG, MSGD][random.below(2) as usize] | random.below(6) as u8;
        header[1] &= 0x74;
        if random.chance(7, 8) {
            header[2] &= 0xF3;
        }
        if header[0] & 0x40 == 0 && random.chance(7, 8) {
            header[2] &= 0xFC;
            header[3] = 0;
        }
        if let Ok(packet) = read(&header) {
            written_back += 1;
            let mut rooms = ([0; 16], [0; 16]);
            assert_eq!(write(&packet, &mut rooms.0), Ok(16));
            assert_eq!(write_numbers(&to_numbers(&packet), &mut rooms.1), Ok(16));
            assert_eq!(rooms, (header, header));
        }
        let mut numbers = [0; 20];
        numbers[0] = 13 + random.below(2);
        numbers[1] = 4;
        for (at, most) in [(2, 8), (3, 8), (4, 2), (5, 2), (8, 1 << 16), (9, 256), (10, 6), (11, 256)] {
            numbers[at] = random.below(most);
        }
        numbers[6] = if random.chance(1, 8) { random.below(4) } else { 0 };
        numbers[7] = if numbers[0] == 13 { 0 } else { random.below(1026) };
        numbers[12] = random.word();
        let mut room = [0; 16];
        if write_numbers(&numbers, &mut room).is_ok() {
            read_back += 1;
            assert_eq!(read(&room).map(|packet| to_numbers(&packet)), Ok(numbers));
        }
    }
    assert!(written_back > 100_000 && read_back > 100_000, "{written_back} {read_back}");
}

fn planned(board: &Board) -> Vec<u8> {
    let mut room = vec![0; plain::FULL_SHEET];
    let length = plain::plan(&board.bytes(), &mut room).unwrap();
    room.truncate(length);
    room
}

/// A message by address or by ID: its record and bridges.
fn owner(header: &[u8], sheet: &[u8]) -> Result<(u16, u16), u8> {
    match route(header, sheet)? {
        Arrival::Function { record, bridges, packet } => {
            assert_eq!(read(header), Ok(packet));
            Ok((record, bridges))
        }
        other => panic!("{other}"),
    }
}

fn by_address(address: u64) -> Vec<u8> {
    message(MSG, 0b001, 0x50, address)
}

fn by_id(id: u16) -> Vec<u8> {
    message(MSGD, 0b010, 0x7E, u64::from(id) << 48)
}

#[test]
fn by_address_over_p10() {
    let mut sheet = planned(&board::p10());
    for address in [0xF900_0000, 0xF900_0FFC, 0x2_4000_0000, 0x2_43FF_FFFC] {
        assert_eq!(owner(&by_address(address), &sheet), Ok((2, 1)));
        assert_eq!(owner(&message(MSGD, 0b001, 0xFF, address), &sheet), Ok((2, 1)));
    }
    // Past the BARs, and the I/O BAR's address.
    for address in [0xF900_1000, 0xF8FF_FFFC, 0x2_4400_0000, 0x1_F900_0000, 0x4000, 0, u64::MAX - 3] {
        assert_eq!(owner(&by_address(address), &sheet), Err(40));
    }
    assert_eq!(route(&by_address(0xF900_0002), &sheet), Err(4));
    // The memory enables, of the function and of the bridge.
    for (id, words) in [(0x0100, [0, 1, 2, 0xFFFD]), (0x0000, [0, 1, 2, 0xFFFD])] {
        for word in words {
            assert_eq!(plain::set_command(&mut sheet, id, word), 0);
            let expected = if word & 2 != 0 { Ok((2, 1)) } else { Err(40) };
            assert_eq!(owner(&by_address(0xF900_0000), &sheet), expected);
            assert_eq!(owner(&by_id(0x0100), &sheet), Ok((2, 1)));
        }
        assert_eq!(plain::set_command(&mut sheet, id, 3), 0);
    }
}

#[test]
fn by_id_over_p10() {
    let sheet = planned(&board::p10());
    assert_eq!(owner(&by_id(0x0000), &sheet), Ok((1, 0)));
    assert_eq!(owner(&by_id(0x0100), &sheet), Ok((2, 1)));
    // Only bytes 8 and 9 are the ID.
    assert_eq!(owner(&message(MSG, 0b010, 0, 0x0100_FFFF_FFFF_FFFF), &sheet), Ok((2, 1)));
    assert_eq!(owner(&message(MSG, 0b010, 0, 0x0000_0100_0100_0100), &sheet), Ok((1, 0)));
    for id in [0x0001, 0x0008, 0x0101, 0x0108, 0x0200, 0xFFFF] {
        assert_eq!(owner(&by_id(id), &sheet), Err(40));
    }
}

#[test]
fn every_function_and_the_port() {
    let mut sheet = planned(&board::p10());
    for id in [0x0000, 0x0100] {
        assert_eq!(plain::set_command(&mut sheet, id, 0), 0);
    }
    let header = message(MSGD, 0b011, 0x19, 0x0123_4567_89AB_CDEF);
    let packet = read(&header).unwrap();
    let arrival = route(&header, &sheet).unwrap();
    assert_eq!(arrival, Arrival::Every { functions: 2, packet });
    let text =
        "MsgD 4dw tc 0 attr 0 td 0 ep 0 at 0 length 1 requester 0210 tag 045 routing 3 code 19 tail 0123456789ABCDEF";
    assert_eq!(arrival.to_string(), format!("all 2 {text}"));
    let twenty = [14, 4, 0, 0, 0, 0, 0, 1, 0x0210, 0x45, 3, 0x19, 0x0123_4567_89AB_CDEF, 0, 0, 0, 0, 0, 0, 0];
    assert_eq!(arrival.numbers(), [&[0, 2][..], &twenty, &[1, 2]].concat());

    let header = message(MSG, 0b100, 0x20, 0);
    let packet = read(&header).unwrap();
    let arrival = route(&header, &sheet).unwrap();
    assert_eq!(arrival, Arrival::Port { packet });
    let text =
        "Msg 4dw tc 0 attr 0 td 0 ep 0 at 0 length 0 requester 0210 tag 045 routing 4 code 20 tail 0000000000000000";
    assert_eq!(arrival.to_string(), format!("port {text}"));
    let twenty = [13, 4, 0, 0, 0, 0, 0, 0, 0x0210, 0x45, 4, 0x20, 0, 0, 0, 0, 0, 0, 0, 0];
    assert_eq!(arrival.numbers(), [&[0, 0][..], &twenty].concat());

    let header = by_id(0x0100);
    let arrival = route(&header, &sheet).unwrap();
    let twenty = [14, 4, 0, 0, 0, 0, 0, 1, 0x0210, 0x45, 2, 0x7E, 0x0100 << 48, 0, 0, 0, 0, 0, 0, 0];
    assert_eq!(arrival.numbers(), [&[2, 1][..], &twenty].concat());
}

#[test]
fn up_is_43() {
    let sheet = planned(&board::p10());
    for byte0 in [MSG, MSGD] {
        for routing in [0b000, 0b101] {
            for tail in [0, 0xF900_0000, 0x0100 << 48] {
                assert_eq!(route(&message(byte0, routing, 0x18, tail), &sheet), Err(43));
            }
        }
    }
}

#[test]
fn order_of_numbers() {
    let twice = sheet(&[Record::end(0x0100), Record::end(0x0100)]);
    for routing in 0..6 {
        for byte0 in [MSG, MSGD] {
            let header = message(byte0, routing, 0x14, 0);
            // The header, then the sheet, then 40 where there are no functions.
            assert_eq!(route(&message(byte0 ^ 0x20, routing, 0x14, 0), &[]), Err(2));
            assert_eq!(route(&header[..15], &[]), Err(1));
            assert_eq!(route(&header, &[]), Err(20));
            assert_eq!(route(&header, &[2]), Err(21));
            assert_eq!(route(&header, &twice), Err(28));
            assert_eq!(route(&header, &[1]), Err(40));
        }
    }
}

#[test]
fn foreign_sheets() {
    let bridge = Record::bridge(0x0000, 1, 1).low(0xF900, 0xF900);
    let end = Record::end(0x0100).bar(0, memory(12), 0xF900_0000);
    let outside = sheet(&[bridge.clone(), end.clone().value(0, 0xFA00_0000)]);
    assert_eq!(owner(&by_address(0xFA00_0000), &outside), Err(40));
    let windows = [bridge.clone(), end.clone(), Record::bridge(0x0008, 2, 2).low(0xF900, 0xF900)];
    assert_eq!(owner(&by_address(0xF900_0000), &sheet(&windows)), Err(41));
    let ranges = sheet(&[bridge.clone(), end.clone(), Record::bridge(0x0008, 1, 2)]);
    assert_eq!(owner(&by_id(0x0100), &ranges), Err(41));
    assert_eq!(owner(&by_id(0x0008), &ranges), Ok((3, 0)));
    // A broadcast lists also what no walk reaches.
    let unreached = sheet(&[end, Record::end(0x0700), Record::end(0x0000)]);
    let header = message(MSG, 0b011, 0, 0);
    let packet = read(&header).unwrap();
    assert_eq!(route(&header, &unreached), Ok(Arrival::Every { functions: 3, packet }));
    assert_eq!(owner(&by_id(0x0700), &unreached), Err(40));
    // Every function of a full sheet, once, in record order.
    let full: Vec<Record> = (0..512).map(Record::end).collect();
    let numbers = route(&header, &sheet(&full)).unwrap().numbers();
    assert_eq!(numbers.len(), 22 + 512);
    assert_eq!(numbers[..2], [0, 512]);
    assert!(numbers[22..].iter().copied().eq(1..=512));
}

/// The random packets have messages of both kinds, every routing and every code, and spoilt ones get every number.
#[test]
fn random_packets() {
    let mut random = Random::new(10);
    let (mut routings, mut codes, mut answers) = ([[0; 6]; 2], [0; 256], [0; 12]);
    for _ in 0..200_000 {
        let mut packet = numbers::lawful(&mut random);
        assert_eq!(read(&numbers::header(&packet)).map(|packet| to_numbers(&packet)), Ok(packet));
        if packet[numbers::KIND] < 13 {
            continue;
        }
        routings[packet[numbers::KIND] as usize - 13][packet[numbers::ROUTING] as usize] += 1;
        codes[packet[numbers::CODE] as usize] += 1;
        numbers::spoil(&mut packet, &mut random);
        answers[usize::from(write_numbers(&packet, &mut [0; 16]).err().unwrap_or(0))] += 1;
    }
    assert!(routings.iter().flatten().all(|&count| count > 1000), "{routings:?}");
    assert!(codes.iter().all(|&count| count > 50), "{codes:?}");
    assert!([0, 2, 4, 10].iter().all(|&number| answers[number] > 100), "{answers:?}");
}

/// The random headers have messages that get every number a message can get, and ones aimed at a sheet every answer.
#[test]
fn random_headers() {
    let mut random = Random::new(11);
    let mut numbers = [0; 12];
    for _ in 0..200_000 {
        let bytes = header::any(&mut random);
        if let Some(0x30..=0x37 | 0x70..=0x77) = bytes.first() {
            numbers[usize::from(read(&bytes).err().unwrap_or(0))] += 1;
        }
    }
    assert!([0, 1, 2, 4, 5].iter().all(|&number| numbers[number] > 100), "{numbers:?}");
    assert_eq!(numbers.iter().sum::<u32>(), [0, 1, 2, 4, 5].iter().map(|&number| numbers[number]).sum());

    let mut seen = [[0; 7]; 6];
    for _ in 0..20_000 {
        let sheet = registers::foreign(&mut random);
        for _ in 0..8 {
            let bytes = aim::header(&sheet, &mut random);
            let Ok(Packet { kind: Kind::Msg | Kind::MsgD, routing, .. }) = read(&bytes) else { continue };
            let answer = match route(&bytes, &sheet) {
                Ok(Arrival::Function { .. }) => 0,
                Ok(Arrival::Every { .. }) => 1,
                Ok(Arrival::Port { .. }) => 2,
                Ok(Arrival::Host { .. }) => panic!("the host has it already"),
                Err(40) => 3,
                Err(41) => 4,
                Err(43) => 5,
                Err(number) => {
                    assert_eq!(number, plain::check(&sheet));
                    6
                }
            };
            seen[usize::from(routing)][answer] += 1;
        }
    }
    // By routing: a function, every function, the port, 40, 41, 43, the sheet's number.
    let can = [
        [0, 0, 0, 1, 0, 1, 1],
        [1, 0, 0, 1, 1, 0, 1],
        [1, 0, 0, 1, 1, 0, 1],
        [0, 1, 0, 1, 0, 0, 1],
        [0, 0, 1, 1, 0, 0, 1],
        [0, 0, 0, 1, 0, 1, 1],
    ];
    assert_eq!(seen.map(|answers| answers.map(|count| u8::from(count > 0))), can, "{seen:?}");
}
