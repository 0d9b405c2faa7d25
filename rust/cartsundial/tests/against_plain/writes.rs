//! Boards as configuration writes.

use crate::lent::{hex, Lent};
use crate::tally::{Call, Tally};
use cartsundial::{calls, Id};
use inputs::random::Random;
use inputs::trees;

/// One write's record.
const RECORD: usize = 18;

pub fn compare(random: &mut Random, rounds: u64, tally: &mut Tally) {
    for _ in 0..30_000 * rounds {
        let board = if random.chance(1, 2) { trees::lawful(random).bytes() } else { trees::any(random) };
        script(&board, any_requester(random), any_tag(random), random, tally);
    }
}

/// An ID, and rarely one that is too wide.
fn any_requester(random: &mut Random) -> u32 {
    if random.chance(1, 32) {
        random.word() as u32
    } else {
        u32::from(random.word() as u16)
    }
}

fn any_tag(random: &mut Random) -> u32 {
    if random.chance(1, 32) {
        random.word() as u32 & 0x1FF
    } else {
        u32::from(random.word() as u8)
    }
}

/// Written by both into the same room.
pub fn script(board: &[u8], requester: u32, tag: u32, random: &mut Random, tally: &mut Tally) {
    let in_plain = |room: &mut [u8]| match (u16::try_from(requester), u8::try_from(tag)) {
        (Ok(requester), Ok(tag)) => plain::script(board, requester, tag, room),
        _ => Err(10),
    };
    let length = match in_plain(&mut vec![0; cartsundial::FULL_SCRIPT]) {
        Ok(length) => room_length(length, random),
        Err(_) => random.below(400) as usize,
    };
    let mut room = Lent::bytes(length, random);
    let before = room.clone();
    let mut plain_room = room.clone();
    let answer = in_plain(plain_room.slice());
    assert!(answer.is_ok() || plain_room == before);

    let mut given = Lent::holding(board, random);
    let given_before = given.clone();
    let mut written = Lent::answer(1, random);
    let (number, written_then) = written.expected(&answer.map(|length| [length as u64]));
    let returned = calls::script(given.slice(), requester, tag, room.slice(), written.slice());
    tally.count(Call::Script, returned);
    assert_eq!(returned, number, "script {requester:X} {tag:X} {}", hex(board));
    let room_then = if number == 0 { &plain_room } else { &before };
    assert!(room == *room_then, "script {requester:X} {tag:X} {}: the script", hex(board));
    assert!(written == written_then && given == given_before, "script {}: what was lent", hex(board));

    if let (Ok(requester), Ok(tag)) = (u16::try_from(requester), u8::try_from(tag)) {
        typed(board, requester, tag, before, answer, &mut plain_room);
    }
}

/// The same by the Rust types, and the writes one by one.
fn typed(
    board: &[u8],
    requester: u16,
    tag: u8,
    before: Lent<u8>,
    answer: Result<usize, u8>,
    plain_room: &mut Lent<u8>,
) {
    let mut room = before;
    let typed = cartsundial::write_script(board, Id(requester), tag, room.slice());
    assert_eq!(typed.map_err(|refusal| refusal.number()), answer, "script {}", hex(board));
    assert!(room == *plain_room, "script {}: the script", hex(board));
    let Ok(length) = answer else { return };
    let script = &plain_room.slice()[..length];
    let mut writes = cartsundial::writes(script);
    for record in script.chunks_exact(RECORD) {
        let write = writes.next().expect("a write for each record");
        let packet = cartsundial::read(&write.header).expect("a header that is read");
        assert_eq!(packet.to_numbers()[11], write.enables.into());
        assert_eq!(packet.to_numbers()[13], write.id.0.into());
        assert_eq!(packet.to_numbers()[14] * 4, write.register.into());
        assert_eq!(write.data, record[14..]);
    }
    assert_eq!(writes.next(), None);
}

/// Room for a script: just enough, one less, more, or any.
fn room_length(length: usize, random: &mut Random) -> usize {
    match random.below(8) {
        0 => length.saturating_sub(1),
        1 => random.below(length as u64 + 1) as usize,
        2 => length + 1 + random.below(200) as usize,
        _ => length,
    }
}
