//! The header codec: every refusal, the round trips, and the packet as numbers.

use inputs::numbers;
use inputs::random::Random;
use plain::{read, to_numbers, write, write_numbers, Form, Kind, Packet};

const READ: [u8; 12] = [0x00, 0, 0, 1, 0x12, 0x34, 0x56, 0x0F, 0xF9, 0, 0, 0];
const READ64: [u8; 16] = [0x20, 0, 0, 1, 0x12, 0x34, 0x56, 0x0F, 0, 0, 0, 1, 0xF9, 0, 0, 0];
const IO: [u8; 12] = [0x02, 0, 0, 1, 0x12, 0x34, 0x56, 0x0F, 0, 0, 0x40, 0];
const CONFIGURATION: [u8; 12] = [0x45, 0, 0, 1, 0x12, 0x34, 0x56, 0x0F, 0x01, 0x00, 0x0F, 0xFC];
const COMPLETION: [u8; 12] = [0x0A, 0, 0, 0, 0x01, 0x00, 0x2F, 0xFF, 0x12, 0x34, 0x56, 0x7F];

fn changed<const N: usize>(mut header: [u8; N], changes: &[(usize, u8)]) -> Result<Packet, u8> {
    for &(at, byte) in changes {
        header[at] = byte;
    }
    read(&header)
}

#[test]
fn fields() {
    let packet = read(&CONFIGURATION).unwrap();
    assert_eq!((packet.kind, packet.form), (Kind::CfgWr1, Form::Three));
    assert_eq!((packet.target, packet.register, packet.address), (0x0100, 0x3FF, 0));
    assert_eq!((packet.requester, packet.tag, packet.length), (0x1234, 0x56, 1));
    let packet = read(&COMPLETION).unwrap();
    assert_eq!((packet.completer, packet.requester, packet.length), (0x0100, 0x1234, 0));
    assert_eq!((packet.status, packet.bcm, packet.byte_count, packet.lower_address), (1, false, 0xFFF, 0x7F));
    let packet = changed(READ, &[(1, 0x54), (2, 0xF8), (3, 2), (7, 0x96)]).unwrap();
    assert_eq!((packet.tc, packet.attr, packet.td, packet.ep, packet.at), (5, 7, true, true, 2));
    assert_eq!((packet.last_enables, packet.first_enables), (9, 6));
}

#[test]
fn every_byte_0() {
    let requests = [0x00, 0x20, 0x01, 0x21, 0x40, 0x60, 0x02, 0x42, 0x04, 0x44, 0x05, 0x45];
    let completions = [0x0A, 0x4A, 0x0B, 0x4B];
    let messages = [0x30, 0x31, 0x32, 0x33, 0x34, 0x35, 0x70, 0x71, 0x72, 0x73, 0x74, 0x75];
    let carried = [&requests[..], &completions, &messages].concat();
    for byte0 in 0..=255 {
        let mut header = [0; 16];
        header[0] = byte0;
        let known = matches!(byte0, 0x4C..=0x4E | 0x6C..=0x6E | 0x80..=0x9F);
        let number = read(&header).err();
        let expected = if carried.contains(&byte0) {
            number.filter(|number| *number > 3)
        } else {
            Some(if known { 3 } else { 2 })
        };
        assert_eq!(number, expected, "{byte0:02X}");
        assert_eq!(read(&header[..11]), Err(1));
        let short = read(&header[..12]).err();
        let four_dwords = carried.contains(&byte0) && byte0 & 0x20 != 0;
        assert_eq!(short, if four_dwords { Some(1) } else { number }, "{byte0:02X}");
    }
}

#[test]
fn rule_1() {
    for length in 0..12 {
        assert_eq!(read(&READ[..length]), Err(1));
    }
    for length in 12..16 {
        assert_eq!(read(&READ64[..length]), Err(1));
    }
    assert!(read(&[&READ[..], &[0xFF; 9]].concat()).is_ok());
}

#[test]
fn rule_4() {
    // Bits 7 and 3 of byte 1 are the tag's (request E5).
    for bit in [0x02, 0x01] {
        assert_eq!(changed(READ, &[(1, bit)]), Err(4));
        assert_eq!(changed(IO, &[(1, bit | 0x10)]), Err(4));
    }
    for bits in [1, 2, 3] {
        assert_eq!(changed(READ, &[(11, bits)]), Err(4));
        assert_eq!(changed(READ64, &[(15, bits), (11, 0)]), Err(4));
        assert_eq!(changed(IO, &[(11, bits), (3, 9)]), Err(4));
        assert_eq!(changed(CONFIGURATION, &[(11, bits), (3, 9)]), Err(4));
        assert_eq!(changed(COMPLETION, &[(2, bits << 2), (3, 1), (6, 0xE0)]), Err(4));
    }
    for bit in [0x10, 0x20, 0x40, 0x80] {
        assert_eq!(changed(CONFIGURATION, &[(10, bit)]), Err(4));
    }
    assert_eq!(changed(COMPLETION, &[(11, 0x80)]), Err(4));
    assert_eq!(changed(READ, &[(2, 0x0C), (7, 0xFF)]), Err(4));
    assert!(changed(READ, &[(2, 0x08)]).is_ok());
}

#[test]
fn rule_5() {
    for header in [IO, CONFIGURATION] {
        for change in [(1, 0x10), (1, 0x04), (2, 0x10), (2, 0x04), (2, 0x0C), (3, 0), (3, 2), (2, 1), (7, 0x1F)] {
            assert_eq!(changed(header, &[change]), Err(5), "{change:?}");
        }
        for change in [(2, 0xC0), (7, 0x00), (7, 0x0A)] {
            assert!(changed(header, &[change]).is_ok());
        }
    }
    assert_eq!(changed(COMPLETION, &[(3, 1), (6, 0x60)]), Err(5));
    assert_eq!(changed(COMPLETION, &[(0, 0x0B), (2, 1)]), Err(5));
    assert_eq!(changed(COMPLETION, &[(0, 0x4A)]).unwrap().length, 1024);
    assert_eq!(changed(COMPLETION, &[(0, 0x4B), (3, 5)]).unwrap().length, 5);
}

#[test]
fn rules_6_to_8() {
    assert_eq!(changed(READ64, &[(11, 0), (7, 0xFF)]), Err(6));
    assert_eq!(changed(READ, &[(7, 0x1F)]), Err(7));
    assert!(changed(READ, &[(7, 0x00)]).is_ok());
    for enables in 0..=255 {
        let (last, first) = (enables >> 4, enables & 15);
        let contiguous = [15, 14, 12, 8].contains(&first) && [15, 7, 3, 1].contains(&last);
        let three = changed(READ, &[(3, 3), (7, enables)]).err();
        assert_eq!(three, if contiguous { None } else { Some(7) });
    }
    assert!(changed(READ, &[(3, 2), (7, 0xFF), (10, 0x0F), (11, 0xF8)]).is_ok());
    assert_eq!(changed(READ, &[(3, 2), (7, 0xFF), (10, 0x0F), (11, 0xFC)]), Err(8));
    assert_eq!(changed(READ, &[(3, 3), (7, 0xF5), (10, 0x0F), (11, 0xFC)]), Err(7));
    assert_eq!(changed(READ64, &[(3, 0), (7, 0xFF), (15, 4)]), Err(8));
    assert!(changed(READ64, &[(3, 0), (7, 0xFF)]).is_ok());
}

/// Two dwords (request E2): gaps from an 8-byte edge on, elsewhere the patterns of three.
#[test]
fn two_dwords() {
    // Byte 7, last enables high: the sixteen patterns that Length 3 has.
    let patterns = [0x1, 0x3, 0x7, 0xF].map(|last| [0x8, 0xC, 0xE, 0xF].map(|first| last << 4 | first)).concat();
    for enables in 0..=255 {
        let some_in_both = enables & 0x0F != 0 && enables & 0xF0 != 0;
        let pattern = patterns.contains(&enables);
        for (low, lawful) in [(0x00, some_in_both), (0x04, pattern), (0x08, some_in_both), (0xFC, pattern)] {
            let number = if lawful { None } else { Some(7) };
            for byte0 in [0x00, 0x01, 0x40] {
                let changes = [(0, byte0), (3, 2), (7, enables), (11, low)];
                assert_eq!(changed(READ, &changes).err(), number, "{changes:02X?}");
                let changes = [(0, byte0 | 0x20), (3, 2), (7, enables), (15, low)];
                assert_eq!(changed(READ64, &changes).err(), number, "{changes:02X?}");
            }
            let two = [(7, 2), (10, u64::from(enables >> 4)), (11, u64::from(enables & 15)), (12, low.into())];
            assert_eq!(written(&READ, &two).err(), number, "{two:02X?}");
            let two = [two[0], two[1], two[2], (12, 1 << 32 | u64::from(low))];
            assert_eq!(written(&READ64, &two).err(), number, "{two:02X?}");
        }
    }
    // The edge is the start address's, whichever byte of it the enables have first.
    assert!(changed(READ, &[(3, 2), (7, 0x18), (11, 0x04)]).is_ok());
    assert_eq!(changed(READ, &[(3, 2), (7, 0x28), (11, 0x04)]), Err(7));
    assert!(changed(READ, &[(3, 2), (7, 0x28)]).is_ok());
    // In the four-dword form the upper half has no part in it.
    assert_eq!(changed(READ64, &[(3, 2), (7, 0x5A), (11, 8), (15, 4)]), Err(7));
    assert!(changed(READ64, &[(3, 2), (7, 0x5A), (11, 4)]).is_ok());
}

/// At FFCh two dwords cross the boundary: a lawful pattern is 8, any other 7, which is tried before.
#[test]
fn two_dwords_at_the_boundary() {
    let at = |enables, low| changed(READ, &[(3, 2), (7, enables), (10, 0x0F), (11, low)]).err();
    assert_eq!((at(0xFF, 0xFC), at(0x18, 0xFC), at(0x3E, 0xFC)), (Some(8), Some(8), Some(8)));
    assert_eq!((at(0xA5, 0xFC), at(0x5A, 0xFC), at(0xF0, 0xFC)), (Some(7), Some(7), Some(7)));
    assert_eq!((at(0xF1, 0xFC), at(0x8F, 0xFC), at(0x00, 0xFC)), (Some(7), Some(7), Some(7)));
    // At FF8h they end on it.
    assert_eq!((at(0xFF, 0xF8), at(0xA5, 0xF8), at(0x81, 0xF8), at(0x0F, 0xF8)), (None, None, None, Some(7)));
    // At FF4h they end before it, and no gap is lawful.
    assert_eq!((at(0xFF, 0xF4), at(0xA5, 0xF4)), (None, Some(7)));
    // 6 before both.
    assert_eq!(changed(READ64, &[(3, 2), (7, 0xA5), (11, 0), (14, 0x0F), (15, 0xFC)]), Err(6));
    // The writer: 10 before 7, 7 before 8, 8 before 11.
    let write = |last, first, room: &mut [u8]| {
        let mut packet = read(&READ).unwrap();
        (packet.length, packet.address) = (2, 0xF900_0FFC);
        (packet.last_enables, packet.first_enables) = (last, first);
        write(&packet, room)
    };
    assert_eq!(write(0x10, 0x5, &mut [0; 12]), Err(10));
    assert_eq!(write(0xA, 0x5, &mut []), Err(7));
    assert_eq!(write(0xF, 0xF, &mut []), Err(8));
}

/// The random packets have two dwords on and off the edge, the former often with gaps; spoilt ones have gaps off it.
#[test]
fn random_two_dwords() {
    let mut random = Random::new(12);
    let has_gap = |packet: &numbers::Numbers| {
        let [last, first] = [packet[numbers::LAST], packet[numbers::FIRST]];
        !([8, 12, 14, 15].contains(&first) && [1, 3, 7, 15].contains(&last))
    };
    // On the edge and off it: without a gap, with one.
    let (mut lawful, mut answers) = ([[0; 2]; 2], [[0; 12]; 2]);
    for _ in 0..200_000 {
        let address = 0x2_4000_0F00 + 4 * random.below(64);
        let mut packet = match random.below(2) {
            0 => numbers::memory(&mut random),
            _ => numbers::request(&mut random, false, address),
        };
        if packet[numbers::LENGTH] != 2 {
            continue;
        }
        assert_eq!(read(&numbers::header(&packet)).map(|packet| to_numbers(&packet)), Ok(packet));
        let side = packet[numbers::ADDRESS] as usize / 4 % 2;
        lawful[side][usize::from(has_gap(&packet))] += 1;
        let mut moved = packet;
        moved[numbers::ADDRESS] ^= 4;
        numbers::spoil(&mut packet, &mut random);
        if side == 0 && packet == moved {
            let number = read(&numbers::header(&packet)).err().unwrap_or(0);
            answers[usize::from(has_gap(&packet))][usize::from(number)] += 1;
        }
    }
    assert!(lawful[0][0] > 100 && lawful[0][1] > 1000 && lawful[1][0] > 1000, "{lawful:?}");
    assert_eq!(lawful[1][1], 0);
    assert!(answers[0][0] > 100 && answers[0][8] > 100 && answers[1][7] > 1000, "{answers:?}");
    assert_eq!((answers[0][7], answers[1][0], answers[1][8]), (0, 0, 0));
}

#[test]
fn rule_9() {
    for kind in [0x0A, 0x0B, 0x4A, 0x4B] {
        for status in 0..8 {
            let number = changed(COMPLETION, &[(0, kind), (6, status << 5)]).err();
            assert_eq!(number, if [0, 1, 2, 4].contains(&status) { None } else { Some(9) });
        }
    }
}

/// What the writer says to numbers with some of them changed.
fn written(header: &[u8], changes: &[(usize, u64)]) -> Result<usize, u8> {
    let mut numbers = to_numbers(&read(header).unwrap());
    for &(at, number) in changes {
        numbers[at] = number;
    }
    let mut room = [0xA5; 20];
    let result = write_numbers(&numbers, &mut room);
    let end = result.unwrap_or(0);
    assert!(room[end..].iter().all(|&byte| byte == 0xA5));
    result
}

#[test]
fn writer_refuses() {
    assert_eq!(written(&READ, &[]), Ok(12));
    assert_eq!(written(&READ64, &[]), Ok(16));
    for changes in [[(0, 15)], [(0, u64::MAX)], [(1, 2)], [(1, 5)]] {
        assert_eq!(written(&READ, &changes), Err(2));
    }
    for header in [&IO, &CONFIGURATION, &COMPLETION] {
        assert_eq!(written(header, &[(1, 4), (2, 99)]), Err(2));
    }
    // Too wide, or a field that the kind does not have.
    let wide: [u64; 20] =
        [0, 0, 8, 8, 2, 2, 4, 1025, 1 << 16, 1024, 16, 16, 1 << 32, 1 << 16, 1024, 1 << 16, 8, 2, 4096, 128];
    for (at, &number) in wide.iter().enumerate().skip(2) {
        for header in [&READ, &IO, &CONFIGURATION, &COMPLETION] {
            assert_eq!(written(header, &[(at, number)]), Err(10), "{at}");
            assert_eq!(written(header, &[(at, u64::MAX)]), Err(10), "{at}");
        }
    }
    assert_eq!(written(&READ64, &[(12, u64::MAX - 3)]), Ok(16));
    for (header, absent) in [
        (&READ, &[13, 14, 15, 16, 17, 18, 19][..]),
        (&IO, &[13, 14, 15, 16, 17, 18, 19]),
        (&CONFIGURATION, &[12, 15, 16, 17, 18, 19]),
        (&COMPLETION, &[7, 10, 11, 12, 13, 14]),
    ] {
        for &at in absent {
            assert_eq!(written(header, &[(at, 1), (6, 3)]), Err(10), "{at}");
        }
    }
    for header in [&READ, &IO, &CONFIGURATION] {
        assert_eq!(written(header, &[(7, 0), (12, 0)]), Err(10));
    }
    // Rules 4 to 9, then the room.
    assert_eq!(written(&READ, &[(12, 2)]), Err(4));
    assert_eq!(written(&READ, &[(6, 3), (10, 1)]), Err(4));
    assert_eq!(written(&COMPLETION, &[(6, 1), (16, 3)]), Err(4));
    assert_eq!(written(&IO, &[(6, 3)]), Err(5));
    assert_eq!(written(&IO, &[(7, 1024)]), Err(5));
    assert_eq!(written(&CONFIGURATION, &[(7, 2)]), Err(5));
    assert_eq!(written(&READ64, &[(12, 0xF900_0000), (10, 1)]), Err(6));
    assert_eq!(written(&READ, &[(10, 1)]), Err(7));
    assert_eq!(written(&READ, &[(7, 1024), (10, 15), (12, 4)]), Err(8));
    assert_eq!(written(&COMPLETION, &[(16, 3)]), Err(9));
    let packet = read(&READ64).unwrap();
    for length in 0..16 {
        let mut room = vec![0xA5; length];
        assert_eq!(write(&packet, &mut room), Err(11));
        assert!(room.iter().all(|&byte| byte == 0xA5));
    }
}

#[test]
fn header_read_is_written_back() {
    let mut numbers = Random::new(3);
    let bytes0 = [0x00, 0x20, 0x01, 0x21, 0x40, 0x60, 0x02, 0x42, 0x04, 0x44, 0x05, 0x45, 0x0A, 0x4A, 0x0B, 0x4B];
    let mut accepted = 0;
    for _ in 0..400_000 {
        let mut header = [0; 16];
        header[..8].copy_from_slice(&numbers.word().to_be_bytes());
        header[8..].copy_from_slice(&numbers.word().to_be_bytes());
        header[0] = bytes0[numbers.below(16) as usize];
        header[1] &= 0xFC;
        if numbers.chance(1, 2) {
            header[1] &= 0x88;
            header[2] &= 0xC0;
            header[3] = numbers.below(4) as u8;
        }
        if numbers.chance(1, 2) {
            header[7] &= 0x0F;
        }
        header[10] &= 0x0F;
        header[11] &= 0x7C;
        header[15] &= 0xFC;
        let Ok(packet) = read(&header) else { continue };
        accepted += 1;
        let mut room = [0xA5; 16];
        let length = write(&packet, &mut room).unwrap();
        assert_eq!(length, 4 * packet.form as usize);
        assert_eq!(room[..length], header[..length]);
        assert!(room[length..].iter().all(|&byte| byte == 0xA5));
        let mut again = [0; 16];
        assert_eq!(write_numbers(&to_numbers(&packet), &mut again), Ok(length));
        assert_eq!(again[..length], header[..length]);
    }
    assert!(accepted > 40_000, "{accepted}");
}

#[test]
fn packet_written_is_read_back() {
    let mut numbers = Random::new(4);
    let mut accepted = 0;
    for _ in 0..400_000 {
        let kind = numbers.below(13);
        let memory = kind < 3;
        let completion = kind >= 9;
        let plain_fields = (3..9).contains(&kind) && numbers.chance(9, 10);
        let mut pick = |bound: u64, there: bool| if there { numbers.below(bound) } else { 0 };
        let mut packet = [0; 20];
        packet[0] = kind;
        packet[1] = 3 + pick(2, memory);
        packet[2] = pick(8, !plain_fields);
        packet[3] = pick(8, !plain_fields);
        packet[4] = pick(2, true);
        packet[5] = pick(2, true);
        packet[6] = pick(4, memory);
        packet[7] = if plain_fields { 1 } else { pick(4, true) * pick(257, true) };
        packet[8] = pick(1 << 16, true);
        packet[9] = pick(1024, true);
        packet[10] = pick(16, memory);
        packet[11] = pick(16, !completion);
        packet[12] = pick(1 << 40, kind < 5) & !3 & if packet[1] == 3 { 0xFFFF_FFFF } else { u64::MAX };
        packet[13] = pick(1 << 16, (5..9).contains(&kind));
        packet[14] = pick(1024, (5..9).contains(&kind));
        packet[15] = pick(1 << 16, completion);
        packet[16] = pick(8, completion);
        packet[17] = pick(2, completion);
        packet[18] = pick(4096, completion);
        packet[19] = pick(128, completion);
        if memory && packet[7] == 1 {
            packet[10] = 0;
        }
        let mut room = [0; 16];
        if write_numbers(&packet, &mut room).is_ok() {
            accepted += 1;
            assert_eq!(read(&room).map(|packet| to_numbers(&packet)), Ok(packet));
        }
    }
    assert!(accepted > 50_000, "{accepted}");
}
