//! Headers read, and packets written.

use crate::lent::{hex, Lent};
use crate::tally::{Call, Tally};
use crate::typed;
use cartsundial::{calls, Packet, Refusal};
use inputs::random::Random;
use inputs::{header, numbers};

pub fn compare(random: &mut Random, rounds: u64, tally: &mut Tally) {
    for _ in 0..1_000_000 * rounds {
        read(&header::any(random), random, tally);
    }
    for _ in 0..800_000 * rounds {
        let mut packet = numbers::lawful(random);
        lawful(&packet, random);
        if random.chance(1, 2) {
            numbers::spoil(&mut packet, random);
        }
        write(&packet, random, tally);
    }
}

pub fn read(bytes: &[u8], random: &mut Random, tally: &mut Tally) {
    let answer = plain::read(bytes);
    let numbers = answer.map(|packet| plain::to_numbers(&packet));
    let mut header = Lent::holding(bytes, random);
    let header_before = header.clone();
    let mut packet = Lent::answer(calls::PACKET, random);
    let (number, packet_then) = packet.expected(&numbers);
    let returned = calls::read(header.slice(), packet.slice());
    tally.count(Call::Read, returned);
    assert_eq!(returned, number, "read {}", hex(bytes));
    assert!(packet == packet_then && header == header_before, "read {}: what was lent", hex(bytes));

    let judged = calls::judge(header.slice());
    tally.count(Call::Judge, judged);
    assert_eq!(judged, answer.err().unwrap_or(0).into(), "judge {}", hex(bytes));
    assert!(header == header_before, "judge {}: what was lent", hex(bytes));

    let typed = cartsundial::read(bytes).map_err(|refusal| refusal.number());
    assert_eq!(typed.map(|packet| packet.to_numbers()), numbers, "read {}", hex(bytes));
    if let (Ok(typed), Ok(packet), Ok(numbers)) = (typed, answer, numbers) {
        let length = 4 * packet.form as usize;
        assert_eq!(typed.header(), &bytes[..length], "read {}", hex(bytes));
        assert_eq!(typed.to_string(), packet.to_string());
        assert_eq!(typed::common(&typed), numbers[..10], "read {}", hex(bytes));
        // The same packet is made of its fields, and of its numbers by the library's writer.
        assert_eq!(Packet::new(&typed.fields()), Ok(typed), "make {}", hex(bytes));
        assert_eq!(Packet::from_numbers(&numbers), Ok(typed), "make {}", hex(bytes));
    }
}

/// A lawful packet is read from its layout, whatever else the two implementations agree on.
fn lawful(packet: &numbers::Numbers, random: &mut Random) {
    let bytes = numbers::header(packet);
    let typed = Packet::from_numbers(packet).unwrap_or_else(|refusal| panic!("{refusal}: {packet:?}"));
    assert_eq!(cartsundial::read(&bytes), Ok(typed), "{packet:?}");
    assert_eq!(Some(typed.fields()), typed::fields(packet));
    let mut room = Lent::bytes(bytes.len(), random);
    let then = room.with(&bytes);
    assert_eq!(cartsundial::write(&typed, room.slice()), Ok(bytes.len()), "{packet:?}");
    assert!(room == then);
}

fn write(packet: &numbers::Numbers, random: &mut Random, tally: &mut Tally) {
    let length = match random.below(8) {
        0 => random.below(20) as usize,
        1 => 12,
        2 => 17 + random.below(20) as usize,
        _ => 16,
    };
    let mut room = Lent::bytes(length, random);
    let before = room.clone();
    let mut plain_room = room.clone();
    let answer = plain::write_numbers(packet, plain_room.slice());
    assert!(answer.is_ok() || plain_room == before);

    let mut given = Lent::numbers(calls::PACKET + random.below(3) as usize, random).with(packet);
    let given_before = given.clone();
    let mut written = Lent::answer(1, random);
    let length = answer.map(|length| [length as u64]);
    let (number, written_then) = written.expected(&length);
    let returned = calls::write(given.slice(), room.slice(), written.slice());
    tally.count(Call::Write, returned);
    assert_eq!(returned, number, "write {packet:?}");
    let room_then = if number == 0 { &plain_room } else { &before };
    assert!(room == *room_then && written == written_then && given == given_before, "write {packet:?}: what was lent");

    // Through the types: made of the numbers and then written; likewise of the fields, where the numbers fit their types,
    // and straight from them.
    type Written<'a> = &'a dyn Fn(&mut [u8]) -> Result<usize, Refusal>;
    let typed = |way: &str, write: Written| {
        let mut room = before.clone();
        let typed_answer = write(room.slice()).map_err(|refusal| refusal.number());
        assert_eq!(typed_answer, answer, "write {way} {packet:?}");
        assert!(room == plain_room, "write {way} {packet:?}: the room");
    };
    typed("numbers", &|room| cartsundial::write(&Packet::from_numbers(packet)?, room));
    if let Some(fields) = typed::fields(packet) {
        assert_eq!(fields.to_numbers(), *packet);
        typed("a packet", &|room| cartsundial::write(&Packet::new(&fields)?, room));
        typed("fields", &|room| fields.write(room));
    }
    if random.chance(1, 64) {
        // Fewer numbers than a packet has.
        let few = random.below(calls::PACKET as u64) as usize;
        let mut room = before.clone();
        let mut written = Lent::answer(1, random);
        let written_before = written.clone();
        let returned = calls::write(&packet[..few], room.slice(), written.slice());
        tally.count(Call::Write, returned);
        assert_eq!(returned, 11);
        assert!(room == before && written == written_before);
    }
}
