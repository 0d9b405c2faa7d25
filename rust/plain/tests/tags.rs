//! Tags of ten bits (request E5 of document 02): byte 1 bit 7 is tag bit 9 and bit 3 is tag bit 8, in non-posted
//! requests and completions; in memory writes and messages these two are zero.

use inputs::board;
use inputs::random::Random;
use inputs::{aim, header, numbers, registers, trace};
use plain::{annotate, read, route, to_numbers, write, write_numbers, Arrival, Kind, Packet};

/// Every kind with a tag of ten bits, in each of its forms, with tag 056h. Over P10's sheet each has an owner.
const LONG: [(Kind, &[u8]); 14] = [
    (Kind::MRd, &[0x00, 0, 0, 1, 0x12, 0x34, 0x56, 0x0F, 0xF9, 0, 0, 0]),
    (Kind::MRd, &[0x20, 0, 0, 1, 0x12, 0x34, 0x56, 0x0F, 0, 0, 0, 2, 0x40, 0, 0, 0]),
    (Kind::MRdLk, &[0x01, 0, 0, 1, 0x12, 0x34, 0x56, 0x0F, 0xF9, 0, 0, 0]),
    (Kind::MRdLk, &[0x21, 0, 0, 1, 0x12, 0x34, 0x56, 0x0F, 0, 0, 0, 2, 0x40, 0, 0, 0]),
    (Kind::IORd, &[0x02, 0, 0, 1, 0x12, 0x34, 0x56, 0x0F, 0, 0, 0x40, 0]),
    (Kind::IOWr, &[0x42, 0, 0, 1, 0x12, 0x34, 0x56, 0x0F, 0, 0, 0x40, 0]),
    (Kind::CfgRd0, &[0x04, 0, 0, 1, 0x12, 0x34, 0x56, 0x0F, 0x00, 0x00, 0, 0]),
    (Kind::CfgWr0, &[0x44, 0, 0, 1, 0x12, 0x34, 0x56, 0x0F, 0x00, 0x00, 0, 0]),
    (Kind::CfgRd1, &[0x05, 0, 0, 1, 0x12, 0x34, 0x56, 0x0F, 0x01, 0x00, 0, 0]),
    (Kind::CfgWr1, &[0x45, 0, 0, 1, 0x12, 0x34, 0x56, 0x0F, 0x01, 0x00, 0, 0]),
    (Kind::Cpl, &[0x0A, 0, 0, 0, 0x12, 0x34, 0x00, 0x04, 0x01, 0x00, 0x56, 0]),
    (Kind::CplD, &[0x4A, 0, 0, 1, 0x12, 0x34, 0x00, 0x04, 0x01, 0x00, 0x56, 0]),
    (Kind::CplLk, &[0x0B, 0, 0, 0, 0x12, 0x34, 0x00, 0x04, 0x01, 0x00, 0x56, 0]),
    (Kind::CplDLk, &[0x4B, 0, 0, 1, 0x12, 0x34, 0x00, 0x04, 0x01, 0x00, 0x56, 0]),
];

/// The kinds with a tag of eight bits: memory writes of both forms, and messages of every routing.
const SHORT: [(Kind, &[u8]); 14] = [
    (Kind::MWr, &[0x40, 0, 0, 1, 0x12, 0x34, 0x56, 0x0F, 0xF9, 0, 0, 0]),
    (Kind::MWr, &[0x60, 0, 0, 1, 0x12, 0x34, 0x56, 0x0F, 0, 0, 0, 2, 0x40, 0, 0, 0]),
    (Kind::Msg, &[0x30, 0, 0, 0, 0x12, 0x34, 0x56, 0x18, 0, 0, 0, 0, 0, 0, 0, 0]),
    (Kind::Msg, &[0x31, 0, 0, 0, 0x12, 0x34, 0x56, 0x50, 0, 0, 0, 0, 0xF9, 0, 0, 0]),
    (Kind::Msg, &[0x32, 0, 0, 0, 0x12, 0x34, 0x56, 0x7E, 0x01, 0, 0, 0, 0, 0, 0, 0]),
    (Kind::Msg, &[0x33, 0, 0, 0, 0x12, 0x34, 0x56, 0x19, 0, 0, 0, 0, 0, 0, 0, 0]),
    (Kind::Msg, &[0x34, 0, 0, 0, 0x12, 0x34, 0x56, 0x20, 0, 0, 0, 0, 0, 0, 0, 0]),
    (Kind::Msg, &[0x35, 0, 0, 0, 0x12, 0x34, 0x56, 0x1B, 0, 0, 0, 0, 0, 0, 0, 0]),
    (Kind::MsgD, &[0x70, 0, 0, 1, 0x12, 0x34, 0x56, 0x18, 0, 0, 0, 0, 0, 0, 0, 0]),
    (Kind::MsgD, &[0x71, 0, 0, 1, 0x12, 0x34, 0x56, 0x50, 0, 0, 0, 0, 0xF9, 0, 0, 0]),
    (Kind::MsgD, &[0x72, 0, 0, 1, 0x12, 0x34, 0x56, 0x7E, 0x01, 0, 0, 0, 0, 0, 0, 0]),
    (Kind::MsgD, &[0x73, 0, 0, 1, 0x12, 0x34, 0x56, 0x19, 0, 0, 0, 0, 0, 0, 0, 0]),
    (Kind::MsgD, &[0x74, 0, 0, 1, 0x12, 0x34, 0x56, 0x20, 0, 0, 0, 0, 0, 0, 0, 0]),
    (Kind::MsgD, &[0x75, 0, 0, 1, 0x12, 0x34, 0x56, 0x1B, 0, 0, 0, 0, 0, 0, 0, 0]),
];

/// Tags at their edges, each with byte 1 and with the byte of its low half.
const TAGS: [(u16, u8, u8); 10] = [
    (0, 0x00, 0x00),
    (1, 0x00, 0x01),
    (255, 0x00, 0xFF),
    (256, 0x08, 0x00),
    (511, 0x08, 0xFF),
    (512, 0x80, 0x00),
    (767, 0x80, 0xFF),
    (768, 0x88, 0x00),
    (1022, 0x88, 0xFE),
    (1023, 0x88, 0xFF),
];

fn changed(header: &[u8], changes: &[(usize, u8)]) -> Vec<u8> {
    let mut header = header.to_vec();
    for &(at, byte) in changes {
        header[at] = byte;
    }
    header
}

/// The byte of the tag's low half: 6, in completions 10.
fn low_byte(kind: Kind) -> usize {
    match kind {
        Kind::Cpl | Kind::CplD | Kind::CplLk | Kind::CplDLk => 10,
        _ => 6,
    }
}

#[test]
fn each_bit_of_byte_1() {
    for (kind, header) in LONG {
        let without = read(header).unwrap();
        assert_eq!((without.kind, without.tag), (kind, 0x056));
        for (byte1, tag, text) in [(0x08, 0x156, " tag 156 "), (0x80, 0x256, " tag 256 "), (0x88, 0x356, " tag 356 ")] {
            let header = changed(header, &[(1, byte1)]);
            let packet = read(&header).unwrap();
            // Nothing but the tag is another.
            assert_eq!(packet, Packet { tag, ..without });
            assert_eq!(to_numbers(&packet)[9], tag.into());
            assert_eq!(packet.to_string(), without.to_string().replace(" tag 056 ", text));
        }
    }
    for (kind, header) in SHORT {
        let packet = read(header).unwrap();
        assert_eq!((packet.kind, packet.tag, to_numbers(&packet)[9]), (kind, 0x056, 0x056));
        assert!(packet.to_string().contains(" tag 056 "));
        for byte1 in [0x08, 0x80, 0x88] {
            assert_eq!(read(&changed(header, &[(1, byte1)])), Err(4), "{kind:?}");
            // Whatever byte 6 is.
            assert_eq!(read(&changed(header, &[(1, byte1), (6, 0)])), Err(4), "{kind:?}");
        }
    }
}

#[test]
fn text() {
    let packet = read(&[0x00, 0xFC, 0, 1, 0x12, 0x34, 0x5A, 0x0F, 0xF9, 0, 0x0F, 0xFC]).unwrap();
    assert_eq!(
        packet.to_string(),
        "MRd 3dw tc 7 attr 4 td 0 ep 0 at 0 length 1 requester 1234 tag 35A last 0 first F address 00000000F9000FFC"
    );
    let packet = read(&[0x4A, 0x80, 0, 1, 0x12, 0x34, 0x00, 0x04, 0x01, 0x00, 0x07, 0x7C]).unwrap();
    assert_eq!(
        packet.to_string(),
        "CplD 3dw tc 0 attr 0 td 0 ep 0 at 0 length 1 requester 0100 tag 207 completer 1234 status 0 bcm 0 count 4 \
         lower 7C"
    );
    assert_eq!(to_numbers(&packet), [10, 3, 0, 0, 0, 0, 0, 1, 0x0100, 0x207, 0, 0, 0, 0, 0, 0x1234, 0, 0, 4, 0x7C]);
}

/// Every byte 1 with every kind: TC 6:4, Attr2 bit 2, the tag's two bits, bit 1 and TH.
#[test]
fn every_byte_1() {
    for (kind, header) in LONG.into_iter().chain(SHORT) {
        let is_short = matches!(kind, Kind::MWr | Kind::Msg | Kind::MsgD);
        let is_fixed = matches!(header[0], 0x02 | 0x42 | 0x04 | 0x44 | 0x05 | 0x45);
        for byte1 in 0..=255 {
            let answer = read(&changed(header, &[(1, byte1)]));
            if byte1 & 0x03 != 0 || is_short && byte1 & 0x88 != 0 {
                assert_eq!(answer, Err(4), "{kind:?} {byte1:02X}");
            } else if is_fixed && byte1 & 0x74 != 0 {
                // I/O and configuration have no TC and no Attr.
                assert_eq!(answer, Err(5), "{kind:?} {byte1:02X}");
            } else {
                let packet = answer.unwrap();
                assert_eq!((packet.tc, packet.attr), (byte1 / 16 % 8, byte1 & 4));
                assert_eq!(packet.tag, 0x056 + u16::from(byte1 / 128) * 512 + u16::from(byte1 / 8 % 2) * 256);
            }
        }
    }
}

/// What both writers make of the header's packet with another tag; what is not written stays as it was.
fn with_tag(header: &[u8], tag: u64) -> Result<Vec<u8>, u8> {
    let packet = read(header).unwrap();
    let mut numbers = to_numbers(&packet);
    numbers[9] = tag;
    let mut room = [0xA5; 20];
    let answer = write_numbers(&numbers, &mut room);
    assert!(room[answer.unwrap_or(0)..].iter().all(|&byte| byte == 0xA5));
    if let Ok(tag) = tag.try_into() {
        let mut other = [0xA5; 20];
        assert_eq!(write(&Packet { tag, ..packet }, &mut other), answer);
        assert_eq!(other, room);
    }
    answer.map(|length| room[..length].to_vec())
}

#[test]
fn edges() {
    for (kind, header) in LONG {
        for (tag, byte1, low) in TAGS {
            let tagged = changed(header, &[(1, byte1), (low_byte(kind), low)]);
            assert_eq!(read(&tagged).unwrap().tag, tag, "{kind:?}");
            assert_eq!(with_tag(header, tag.into()), Ok(tagged), "{kind:?}");
        }
        for tag in [1024, 1025, 1279, 2047, 2048, 0x8000, 0xFFFF, 0x1_0000, 0x1_0056, u64::MAX] {
            assert_eq!(with_tag(header, tag), Err(10), "{kind:?} {tag}");
        }
    }
    for (kind, header) in SHORT {
        for (tag, byte1, low) in TAGS {
            let tagged = changed(header, &[(1, byte1), (6, low)]);
            if tag < 256 {
                assert_eq!(read(&tagged).unwrap().tag, tag, "{kind:?}");
                assert_eq!(with_tag(header, tag.into()), Ok(tagged), "{kind:?}");
            } else {
                assert_eq!(read(&tagged), Err(4), "{kind:?} {tag}");
                assert_eq!(with_tag(header, tag.into()), Err(10), "{kind:?} {tag}");
            }
        }
        for tag in [257, 1024, 0xFF00, 0xFFFF, 0x1_0000, 0x1_0056, u64::MAX] {
            assert_eq!(with_tag(header, tag), Err(10), "{kind:?} {tag}");
        }
    }
}

#[test]
fn every_tag() {
    for (kind, header) in LONG {
        for tag in 0..1024 {
            let written = with_tag(header, tag.into()).unwrap();
            assert_eq!(read(&written).unwrap().tag, tag, "{kind:?}");
        }
    }
}

/// The tag's low half is one byte: of a completion not byte 6, of a configuration request not byte 10.
#[test]
fn other_bytes() {
    let completion = [0x4B, 0x88, 0, 1, 0x12, 0x34, 0x1F, 0xFF, 0x01, 0x00, 0x00, 0x7F];
    let packet = read(&completion).unwrap();
    assert_eq!((packet.tag, packet.bcm, packet.byte_count), (0x300, true, 0xFFF));
    let configuration = [0x05, 0x88, 0, 1, 0x12, 0x34, 0x00, 0x0F, 0x01, 0x00, 0x0F, 0xFC];
    let packet = read(&configuration).unwrap();
    assert_eq!((packet.tag, packet.register), (0x300, 0x3FF));
}

#[test]
fn reading_order() {
    let read = |header: &[u8], changes: &[(usize, u8)]| read(&changed(header, changes)).err();
    let write = [0x40, 0, 0, 1, 0x12, 0x34, 0x56, 0x0F, 0xF9, 0, 0, 0];
    let write64 = [0x60, 0, 0, 1, 0x12, 0x34, 0x56, 0x0F, 0, 0, 0, 2, 0x40, 0, 0, 0];
    let message = [0x34, 0, 0, 0, 0x12, 0x34, 0x56, 0x20, 0, 0, 0, 0, 0, 0, 0, 0];
    for bit in [0x80, 0x08] {
        // 1, 2 and 3 before 4.
        assert_eq!(read(&write[..11], &[(1, bit)]), Some(1));
        assert_eq!(read(&write64[..15], &[(1, bit)]), Some(1));
        assert_eq!(read(&message[..12], &[(1, bit)]), Some(1));
        assert_eq!(read(&message, &[(0, 0x36), (1, bit)]), Some(2));
        assert_eq!(read(&write, &[(0, 0x4C), (1, bit)]), Some(3));
        // 4 before 5 to 8.
        assert_eq!(read(&message, &[(1, bit), (3, 1)]), Some(4));
        assert_eq!(read(&write64, &[(1, bit), (11, 0)]), Some(4));
        assert_eq!(read(&write, &[(1, bit), (7, 0xFF)]), Some(4));
        assert_eq!(read(&write, &[(1, bit), (3, 2), (7, 0xFF), (10, 0x0F), (11, 0xFC)]), Some(4));
    }
    // Where the tag has these bits every other rule is as it was.
    let [mrd, mrd64, io, configuration, completion] = [0, 1, 4, 8, 10].map(|at| LONG[at].1);
    for byte1 in [0x80, 0x08, 0x88] {
        assert_eq!(read(&mrd[..11], &[(1, byte1)]), Some(1));
        assert_eq!(read(&mrd64[..15], &[(1, byte1)]), Some(1));
        assert_eq!(read(mrd, &[(0, 0x03), (1, byte1)]), Some(2));
        assert_eq!(read(mrd, &[(0, 0x80), (1, byte1)]), Some(3));
        assert_eq!(read(mrd, &[(1, byte1), (11, 1)]), Some(4));
        assert_eq!(read(configuration, &[(1, byte1), (10, 0x10)]), Some(4));
        assert_eq!(read(completion, &[(1, byte1), (11, 0x80)]), Some(4));
        assert_eq!(read(io, &[(1, byte1), (3, 2)]), Some(5));
        assert_eq!(read(completion, &[(1, byte1), (3, 1)]), Some(5));
        assert_eq!(read(mrd64, &[(1, byte1), (11, 0)]), Some(6));
        assert_eq!(read(mrd, &[(1, byte1), (7, 0xFF)]), Some(7));
        assert_eq!(read(mrd, &[(1, byte1), (3, 2), (7, 0xFF), (10, 0x0F), (11, 0xFC)]), Some(8));
        assert_eq!(read(completion, &[(1, byte1), (6, 0x60)]), Some(9));
    }
}

#[test]
fn writing_order() {
    let written = |header: &[u8], changes: &[(usize, u64)], room: usize| {
        let mut numbers = to_numbers(&read(header).unwrap());
        for &(at, number) in changes {
            numbers[at] = number;
        }
        write_numbers(&numbers, &mut vec![0; room])
    };
    let [mrd, mrd64, io, completion] = [0, 1, 4, 10].map(|at| LONG[at].1);
    let [mwr, mwr64, message] = [0, 1, 6].map(|at| SHORT[at].1);
    for tag in [1024, u64::MAX] {
        // 2 before 10.
        assert_eq!(written(mrd, &[(9, tag), (1, 5)], 16), Err(2));
        assert_eq!(written(mrd, &[(9, tag), (0, 15)], 16), Err(2));
        // 10 before 4 to 9 and 11.
        assert_eq!(written(mrd, &[(9, tag), (6, 3)], 16), Err(10));
        assert_eq!(written(io, &[(9, tag), (2, 1)], 16), Err(10));
        assert_eq!(written(mrd64, &[(9, tag), (12, 0xF900_0000)], 16), Err(10));
        assert_eq!(written(mrd, &[(9, tag), (10, 1)], 16), Err(10));
        assert_eq!(written(mrd, &[(9, tag), (7, 2), (10, 15), (12, 0xFFC)], 16), Err(10));
        assert_eq!(written(completion, &[(9, tag), (16, 3)], 16), Err(10));
        assert_eq!(written(mrd, &[(9, tag)], 0), Err(10));
    }
    for tag in [256, 512, 1023, 1024] {
        assert_eq!(written(mwr, &[(9, tag), (1, 5)], 16), Err(2));
        assert_eq!(written(message, &[(9, tag), (10, 6)], 16), Err(2));
        assert_eq!(written(mwr, &[(9, tag), (12, 1)], 16), Err(10));
        assert_eq!(written(message, &[(9, tag), (6, 1)], 16), Err(10));
        assert_eq!(written(mwr64, &[(9, tag), (12, 0)], 16), Err(10));
        assert_eq!(written(mwr, &[(9, tag)], 11), Err(10));
        // The same numbers as another kind.
        assert_eq!(written(mwr, &[(9, tag), (0, 0)], 12), if tag < 1024 { Ok(12) } else { Err(10) });
    }
    assert_eq!(written(mrd, &[(9, 1023)], 11), Err(11));
    assert_eq!(written(mrd, &[(9, 1023), (6, 3)], 11), Err(4));
}

fn p10() -> Vec<u8> {
    let mut room = vec![0; 185];
    assert_eq!(plain::plan(&board::p10().bytes(), &mut room), Ok(185));
    room
}

#[test]
fn delivered_as_it_was() {
    let sheet = p10();
    for (kind, header) in LONG {
        for (tag, byte1, low) in TAGS {
            let header = changed(header, &[(1, byte1), (low_byte(kind), low)]);
            let arrival = route(&header, &sheet).unwrap();
            let Arrival::Function { record, bridges, packet } = arrival else { panic!("{arrival}") };
            // Type 0 is for the bridge on the root bus.
            let (owner, arrived) = match kind {
                Kind::CfgRd0 | Kind::CfgWr0 => ((1, 0), kind),
                Kind::CfgRd1 => ((2, 1), Kind::CfgRd0),
                Kind::CfgWr1 => ((2, 1), Kind::CfgWr0),
                _ => ((2, 1), kind),
            };
            assert_eq!((record, bridges), owner, "{kind:?}");
            assert_eq!(packet, Packet { kind: arrived, ..read(&header).unwrap() });
            assert_eq!((packet.tag, arrival.numbers()[11]), (tag, tag.into()));
            assert!(arrival.to_string().contains(&format!(" tag {tag:03X} ")));
        }
        // The numbers of a route do not depend on it.
        for (sheet, number) in [(&[][..], 20), (&[2], 21), (&[1], 40)] {
            assert_eq!(route(&changed(header, &[(1, 0x88)]), sheet), Err(number));
        }
    }
    let wrong = [0x04, 0x88, 0, 1, 0x12, 0x34, 0x56, 0x0F, 0x01, 0x00, 0, 0];
    assert_eq!(route(&wrong, &sheet), Err(42));
    for (_, header) in SHORT {
        for byte1 in [0x80, 0x08, 0x88] {
            for sheet in [&sheet[..], &[], &[1]] {
                assert_eq!(route(&changed(header, &[(1, byte1)]), sheet), Err(4));
            }
        }
    }
}

#[test]
fn annotated() {
    let long: Vec<Vec<u8>> = LONG.iter().map(|(_, header)| changed(header, &[(1, 0x88)])).collect();
    let short: Vec<Vec<u8>> =
        SHORT.iter().flat_map(|(_, header)| [0x80, 0x08].map(|bit| changed(header, &[(1, bit)]))).collect();
    let headers = [long, short].concat();
    let mut lines = "1 MRd owner 2\n2 MRd owner 2\n3 MRdLk owner 2\n4 MRdLk owner 2\n5 IORd owner 2\n6 IOWr owner 2\n\
                     7 CfgRd0 owner 1\n8 CfgWr0 owner 1\n9 CfgRd1 owner 2\n10 CfgWr1 owner 2\n11 Cpl owner 2\n\
                     12 CplD owner 2\n13 CplLk owner 2\n14 CplDLk owner 2\n"
        .to_string();
    for number in 15..=42 {
        lines += &format!("{number} - refused 4\n");
    }
    assert_eq!(annotate(&p10(), &trace::of(&headers)), lines);
}

/// The random packets have every tag that is lawful for their kind, often at an edge; spoilt ones have others.
#[test]
fn random_packets() {
    let mut random = Random::new(15);
    let most = |kind| if [2, 13, 14].contains(&kind) { 255 } else { 1023 };
    // By kind: tags below 256, with bit 8, with bit 9 and with both; spoilt ones of 256 and of 1,024.
    let (mut lawful, mut spoilt) = ([[0; 4]; 15], [[0; 2]; 15]);
    let mut edges = [0; 6];
    for _ in 0..400_000 {
        let before = numbers::lawful(&mut random);
        let (kind, tag) = (before[numbers::KIND], before[numbers::TAG]);
        assert_eq!(read(&numbers::header(&before)).map(|packet| to_numbers(&packet)), Ok(before));
        lawful[kind as usize][tag as usize / 256] += 1;
        for (edge, count) in [255, 256, 511, 512, 768, 1023].iter().zip(&mut edges) {
            *count += u32::from(tag == *edge);
        }
        let mut packet = before;
        numbers::spoil(&mut packet, &mut random);
        let tag = packet[numbers::TAG];
        let mut only_tag = before;
        only_tag[numbers::TAG] = tag;
        if packet != only_tag {
            continue;
        }
        let answer = write_numbers(&packet, &mut [0; 16]).err();
        assert_eq!(answer, if tag <= most(kind) { None } else { Some(10) }, "{packet:?}");
        // The header has ten bits of it.
        let answer = read(&numbers::header(&packet)).map(|packet| u64::from(packet.tag));
        assert_eq!(answer, if tag % 1024 <= most(kind) { Ok(tag % 1024) } else { Err(4) }, "{packet:?}");
        spoilt[kind as usize][0] += u32::from(tag == 256);
        spoilt[kind as usize][1] += u32::from(tag == 1024);
    }
    for kind in 0..15 {
        let [eight, others @ ..] = lawful[kind as usize];
        assert!(eight > 500, "{lawful:?}");
        if most(kind) == 255 {
            assert!(others == [0; 3] && spoilt[kind as usize][0] > 10, "{lawful:?} {spoilt:?}");
        } else {
            assert!(others.iter().all(|&count| count > 500) && spoilt[kind as usize][1] > 10, "{lawful:?} {spoilt:?}");
        }
    }
    assert!(edges.iter().all(|&count| count > 1000), "{edges:?}");
}

/// The random headers, and those aimed at a sheet, have bits 7 and 3 of byte 1 with every kind.
#[test]
fn random_headers() {
    let mut random = Random::new(16);
    // By byte 0: bit 3 alone, bit 7 alone, and both. By number: with a tag of ten bits, and of eight.
    let (mut seen, mut answers) = ([[0; 3]; 256], [[0; 2]; 10]);
    for round in 0..200_000 {
        let bytes = match round % 2 {
            0 => header::any(&mut random),
            _ => aim::header(&registers::foreign(&mut random), &mut random),
        };
        let [byte0, byte1, ..] = bytes[..] else { continue };
        let bits = match byte1 & 0x8B {
            0x08 => 0,
            0x80 => 1,
            0x88 => 2,
            _ => continue,
        };
        seen[usize::from(byte0)][bits] += 1;
        let is_short = matches!(byte0, 0x40 | 0x60 | 0x30..=0x35 | 0x70..=0x75);
        answers[usize::from(read(&bytes).err().unwrap_or(0))][usize::from(is_short)] += 1;
    }
    for (_, header) in LONG.iter().chain(&SHORT) {
        let counts = seen[usize::from(header[0])];
        assert!(counts.iter().all(|&count| count > 10), "{:02X}: {counts:?}", header[0]);
    }
    // A tag of ten bits goes with every number, also with 0; eight with 1 and 4 alone.
    let [long, short] = [0, 1].map(|column| answers.map(|counts| counts[column]));
    assert!(long.iter().all(|&count| count > 10), "{answers:?}");
    assert!(short[1] > 10 && short[4] > 100 && short[1] + short[4] == short.iter().sum(), "{answers:?}");
}
