//! A packet as a Rust value: made, compared, matched on, written and shown.

use cartsundial::{
    read, write, Body, CompletionKind, Enables, Fields, Form, Id, Kind, MemoryKind, MessageKind, Packet, Refusal,
    Routing,
};
use inputs::foreign::{completion, configuration, message, request, CFGRD1, CPLD, MRD, MSG, MSGD, MWR};
use std::collections::HashSet;

/// Headers of both lengths, and of every class.
fn headers() -> [Vec<u8>; 6] {
    [
        request(MRD, 0xF900_0FFC),
        request(MWR, 0x2_4000_0000),
        configuration(CFGRD1, 0x0100, 0x41),
        completion(CPLD, 0x0100),
        message(MSG, 0b100, 0x20, 0),
        message(MSGD, 0b010, 0x7E, 0x0100_0000_0000_0001),
    ]
}

#[test]
fn by_kind() {
    let packets = headers().map(|header| read(&header).unwrap());
    let kinds = [Kind::MRd, Kind::MWr, Kind::CfgRd1, Kind::CplD, Kind::Msg, Kind::MsgD];
    assert_eq!(packets.map(|packet| packet.kind()), kinds);
    assert_eq!(packets.map(|packet| packet.form().bytes()), [12, 16, 12, 12, 16, 16]);
    assert_eq!(packets.map(|packet| packet.length()), [1, 1, 1, 1, 0, 1]);
    let [memory, wide, configuration, completion, local, by_id] = packets.map(|packet| packet.body());
    let enables = Enables { last: 0, first: 0xF };
    let form = Form::ThreeDwords;
    assert_eq!(memory, Body::Memory { kind: MemoryKind::MRd, form, enables, address: 0xF900_0FFC });
    assert!(matches!(wide, Body::Memory { form: Form::FourDwords, address: 0x2_4000_0000, .. }));
    assert!(matches!(configuration, Body::Configuration { target: Id(0x0100), register: 0x41, .. }));
    assert!(matches!(completion, Body::Completion { kind: CompletionKind::CplD, .. }));
    let (kind, routing) = (MessageKind::Msg, Routing::Local);
    assert_eq!(local, Body::Message { kind, routing, code: 0x20, tail: 0 });
    let (kind, routing) = (MessageKind::MsgD, Routing::ById);
    assert_eq!(by_id, Body::Message { kind, routing, code: 0x7E, tail: 0x0100_0000_0000_0001 });
}

#[test]
fn equal_by_its_header() {
    let packets = headers().map(|header| read(&header).unwrap());
    assert_eq!(HashSet::from(packets).len(), packets.len());
    for (header, packet) in headers().iter().zip(packets) {
        assert_eq!(packet.header(), header);
        // Bytes after the header are no part of it.
        let longer = [&header[..], &[0xA5; 4]].concat();
        assert_eq!(read(&longer), Ok(packet));
    }
}

#[test]
fn made_of_its_fields() {
    for header in headers() {
        let packet = read(&header).unwrap();
        let fields = Fields::from(packet);
        assert_eq!(fields.tag, packet.tag());
        assert_eq!(Packet::try_from(fields), Ok(packet));
        assert_eq!(Packet::try_from(&fields), Ok(packet));
        let other = Packet::new(&Fields { tag: 0x77, ..fields }).unwrap();
        assert_ne!(other, packet);
        assert_eq!(other.fields(), Fields { tag: 0x77, ..fields });
    }
}

#[test]
fn a_value_too_wide() {
    let fields = read(&request(MRD, 1 << 32)).unwrap().fields();
    let Body::Memory { kind, enables, address, .. } = fields.body else { panic!("{fields:?}") };
    let body = Body::Memory { kind, form: Form::ThreeDwords, enables, address };
    let written = Body::Memory { kind: MemoryKind::MWr, form: Form::FourDwords, enables, address };
    for wide in [
        Fields { tc: 8, ..fields },
        Fields { attr: 8, ..fields },
        Fields { at: 4, ..fields },
        Fields { length: 0, ..fields },
        Fields { length: 1025, ..fields },
        Fields { tag: 1024, ..fields },
        Fields { tag: 256, body: written, ..fields },
        Fields { body, ..fields },
    ] {
        let mut room = [0xA5; 16];
        assert_eq!(Packet::new(&wide), Err(Refusal::TooWide));
        assert_eq!(wide.write(&mut room), Err(Refusal::TooWide));
        assert_eq!(room, [0xA5; 16]);
    }
}

/// Less room than the header needs, just as much, and more, for the packet and for its fields.
#[test]
fn rooms() {
    for header in headers() {
        let packet = read(&header).unwrap();
        for length in 0..20 {
            let mut rooms = [vec![0xA5; length], vec![0xA5; length]];
            let mut then = rooms[0].clone();
            let answer = if length < header.len() {
                Err(Refusal::ShortRoom)
            } else {
                then[..header.len()].copy_from_slice(&header);
                Ok(header.len())
            };
            assert_eq!(write(&packet, &mut rooms[0]), answer);
            assert_eq!(packet.fields().write(&mut rooms[1]), answer);
            assert_eq!(rooms, [then.clone(), then]);
        }
    }
}

#[test]
fn text() {
    let packet = read(&request(MRD, 0xF900_0FFC)).unwrap();
    assert_eq!(
        packet.to_string(),
        "MRd 3dw tc 0 attr 0 td 0 ep 0 at 0 length 1 requester 0000 tag 021 last 0 first F address 00000000F9000FFC"
    );
    assert_eq!(
        format!("{packet:?}"),
        "Packet { tc: 0, attr: 0, td: false, ep: false, at: 0, length: 1, requester: Id(0), tag: 33, \
         body: Memory { kind: MRd, form: ThreeDwords, enables: Enables { last: 0, first: 15 }, address: 4177530876 } }"
    );
}

/// A message has its routing, code and tail where a request has its enables and address.
#[test]
fn messages() {
    let routings =
        [Routing::ToRoot, Routing::ByAddress, Routing::ById, Routing::Broadcast, Routing::Local, Routing::Gathered];
    for routing in routings {
        let packet = read(&message(MSGD, routing.number(), 0x7E, 0x0100_0000_0000_0004)).unwrap();
        let body = Body::Message { kind: MessageKind::MsgD, routing, code: 0x7E, tail: 0x0100_0000_0000_0004 };
        assert_eq!(packet.body(), body);
        let numbers = packet.to_numbers();
        assert_eq!(numbers[..10], [14, 4, 0, 0, 0, 0, 0, 1, 0x0210, 0x45]);
        assert_eq!(numbers[10..], [routing.number().into(), 0x7E, 0x0100_0000_0000_0004, 0, 0, 0, 0, 0, 0, 0]);
        assert_eq!(
            packet.to_string(),
            format!(
                "MsgD 4dw tc 0 attr 0 td 0 ep 0 at 0 length 1 requester 0210 tag 045 \
                 routing {} code 7E tail 0100000000000004",
                routing.number()
            )
        );
    }
    // Routings that have no meaning, a Length without data, and an address's low bits.
    assert_eq!(read(&message(MSG, 0b110, 0x20, 0)), Err(Refusal::UnknownPair));
    let fields = read(&message(MSG, 0b001, 0x20, 0x2_4000_0000)).unwrap().fields();
    assert_eq!(Packet::new(&Fields { length: 1, ..fields }), Err(Refusal::TooWide));
    let Body::Message { kind, routing, code, tail } = fields.body else { panic!("{fields:?}") };
    let body = Body::Message { kind, routing, code, tail: tail + 2 };
    assert_eq!(Packet::new(&Fields { body, ..fields }), Err(Refusal::ReservedBits));
}

#[test]
fn kinds() {
    for (code, kind) in (0..).zip(Kind::ALL) {
        assert_eq!(kind.code(), code);
    }
    assert_eq!(Kind::from(MemoryKind::MWr), Kind::MWr);
    assert_eq!(Kind::from(MessageKind::MsgD), Kind::MsgD);
}

/// Each is the header that its bytes say, and what is given beyond a field is refused.
#[test]
fn common_packets() {
    let (me, other) = (Id(0x0300), Id(0x0100));
    let read_four = Packet::memory_read(me, 7, 0x1000, 4).unwrap();
    let made = [
        (read_four, "MRd 3dw tc 0 attr 0 td 0 ep 0 at 0 length 4 requester 0300 tag 007 last F first F address 0000000000001000"),
        (
            Packet::memory_write(me, 7, 1 << 32, 1).unwrap(),
            "MWr 4dw tc 0 attr 0 td 0 ep 0 at 0 length 1 requester 0300 tag 007 last 0 first F address 0000000100000000",
        ),
        (
            Packet::io_read(me, 7, 0x4000).unwrap(),
            "IORd 3dw tc 0 attr 0 td 0 ep 0 at 0 length 1 requester 0300 tag 007 last 0 first F address 0000000000004000",
        ),
        (
            Packet::io_write(me, 7, 0x4000).unwrap(),
            "IOWr 3dw tc 0 attr 0 td 0 ep 0 at 0 length 1 requester 0300 tag 007 last 0 first F address 0000000000004000",
        ),
        (
            Packet::configuration_read(me, 7, other, 0x10, 0).unwrap(),
            "CfgRd1 3dw tc 0 attr 0 td 0 ep 0 at 0 length 1 requester 0300 tag 007 last 0 first F target 0100 register 004",
        ),
        (
            Packet::configuration_write(me, 7, other, 0x10, 1).unwrap(),
            "CfgWr0 3dw tc 0 attr 0 td 0 ep 0 at 0 length 1 requester 0300 tag 007 last 0 first F target 0100 register 004",
        ),
        (
            Packet::completion_with_data(other, &read_four, 4).unwrap(),
            "CplD 3dw tc 0 attr 0 td 0 ep 0 at 0 length 4 requester 0300 tag 007 completer 0100 status 0 bcm 0 count 16 lower 00",
        ),
        (
            Packet::completion_without_data(other, &Packet::io_write(me, 7, 0x4000).unwrap()).unwrap(),
            "Cpl 3dw tc 0 attr 0 td 0 ep 0 at 0 length 0 requester 0300 tag 007 completer 0100 status 0 bcm 0 count 4 lower 00",
        ),
        (
            Packet::message(me, 0, Routing::Local, 0x20, 0).unwrap(),
            "Msg 4dw tc 0 attr 0 td 0 ep 0 at 0 length 0 requester 0300 tag 000 routing 4 code 20 tail 0000000000000000",
        ),
    ];
    for (packet, text) in made {
        assert_eq!(packet.to_string(), text);
        assert_eq!(read(packet.header()), Ok(packet));
    }
    assert_eq!(Packet::memory_read(me, 1024, 0, 1), Err(Refusal::TooWide));
    assert_eq!(Packet::memory_read(me, 0, 2, 1), Err(Refusal::ReservedBits));
    assert_eq!(Packet::memory_read(me, 0, 0, 0), Err(Refusal::TooWide));
    assert_eq!(Packet::configuration_read(me, 0, other, 0x12, 0), Err(Refusal::ReservedBits));
    assert_eq!(Packet::configuration_read(me, 0, other, 0x1000, 0), Err(Refusal::TooWide));
}

#[test]
fn ids() {
    for id in (0..=u16::MAX).map(Id) {
        assert_eq!(id.to_string().parse(), Ok(id));
        assert_eq!(Id::new(id.bus(), id.device(), id.function()), Some(id));
    }
    assert_eq!("0000:1f:1F.7".parse(), Ok(Id(0x1FFF)));
    assert_eq!((Id::new(0, 32, 0), Id::new(0, 0, 8)), (None, None));
    for text in ["", "00:00", "00.0", "100:00.0", "00:20.0", "00:00.8", "00:00.0 ", "+1:00.0", "0001:00:00.0"] {
        assert!(text.parse::<Id>().is_err(), "{text}");
    }
    assert_eq!(format!("{:<9}|{:>9}", Id(0x0100), Id(0x0100)), "01:00.0  |  01:00.0");
    assert_eq!(format!("{:?}", Refusal::NoOwner), "Refusal(40: no owner)");
}
