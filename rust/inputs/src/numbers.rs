//! Packets as twenty numbers, lawful or not, and the headers that they make.

use crate::random::Random;
use std::ops::Range;

pub type Numbers = [u64; 20];

/// The places of the fields.
pub const KIND: usize = 0;
pub const FORM: usize = 1;
pub const TC: usize = 2;
pub const ATTR: usize = 3;
pub const TD: usize = 4;
pub const EP: usize = 5;
pub const AT: usize = 6;
pub const LENGTH: usize = 7;
pub const REQUESTER: usize = 8;
pub const TAG: usize = 9;
pub const LAST: usize = 10;
pub const FIRST: usize = 11;
pub const ADDRESS: usize = 12;
pub const TARGET: usize = 13;
pub const REGISTER: usize = 14;
pub const COMPLETER: usize = 15;
pub const STATUS: usize = 16;
pub const BCM: usize = 17;
pub const COUNT: usize = 18;
pub const LOWER: usize = 19;
/// Those of a message, in place of enables and address.
pub const ROUTING: usize = 10;
pub const CODE: usize = 11;
pub const TAIL: usize = 12;

/// The kinds of memory requests, MRd, MRdLk and MWr.
const MEMORY: Range<u64> = 0..3;
/// The kind of memory writes.
const MWR: u64 = 2;
/// The kinds of messages, Msg and MsgD.
const MESSAGES: Range<u64> = 13..15;

/// Byte 0 of each kind in the three-dword form, which no message has; a message's with routing 000.
const BYTE0: [u32; 15] = [0x00, 0x01, 0x40, 0x02, 0x42, 0x04, 0x44, 0x05, 0x45, 0x0A, 0x4A, 0x0B, 0x4B, 0x10, 0x50];

/// How many bits each field has in a header, and in a message's.
const WIDTHS: [u32; 20] = [8, 3, 3, 3, 1, 1, 2, 10, 16, 10, 4, 4, 64, 16, 10, 16, 3, 1, 12, 7];
const MESSAGE_WIDTHS: [u32; 20] = [8, 3, 3, 3, 1, 1, 2, 10, 16, 10, 3, 8, 64, 16, 10, 16, 3, 1, 12, 7];

fn widths(kind: u64) -> &'static [u32; 20] {
    if MESSAGES.contains(&kind) {
        &MESSAGE_WIDTHS
    } else {
        &WIDTHS
    }
}

/// The bits that a tag may have: the upper two of a memory write and of a message are zero.
fn tag_bits(kind: u64) -> u32 {
    if kind == MWR || MESSAGES.contains(&kind) {
        8
    } else {
        10
    }
}

/// A lawful packet of any kind.
pub fn lawful(random: &mut Random) -> Numbers {
    match random.below(10) {
        0..=3 => memory(random),
        4 => io(random),
        5 => configuration(random),
        6 | 7 => completion(random),
        _ => message(random),
    }
}

/// A lawful memory request.
pub fn memory(random: &mut Random) -> Numbers {
    let mut numbers = start(random, MEMORY);
    numbers[TC] = random.below(8);
    numbers[ATTR] = random.below(8);
    numbers[AT] = random.below(3);
    let length = match random.below(8) {
        0..=2 => 1,
        3 => 2,
        4 => 1024,
        5 => 1 + random.below(1024),
        _ => 3 + random.below(16),
    };
    numbers[LENGTH] = length;
    // Often up to the very end of the page.
    let room = 1024 - length;
    let offset = if random.chance(1, 4) { room } else { random.below(room + 1) };
    let page = match random.below(4) {
        0 => 0,
        1 => 0xF_FFFF,
        _ => random.below(1 << 20),
    };
    numbers[ADDRESS] = page << 12 | offset << 2;
    if random.chance(1, 2) {
        numbers[FORM] = 4;
        numbers[ADDRESS] |= upper(random) << 32;
    }
    set_enables(&mut numbers, random);
    numbers
}

/// A nonzero upper half, often of one bit.
fn upper(random: &mut Random) -> u64 {
    match random.below(4) {
        0 => 1 << random.below(32),
        1 => 0xFFFF_FFFF,
        _ => 1 + random.below(0xFFFF_FFFF),
    }
}

/// Lawful enables for the packet's Length and address: two dwords may have gaps if they start on an 8-byte edge.
fn set_enables(numbers: &mut Numbers, random: &mut Random) {
    (numbers[LAST], numbers[FIRST]) = match numbers[LENGTH] {
        1 => (0, random.below(16)),
        2 if numbers[ADDRESS].is_multiple_of(8) => (1 + random.below(15), 1 + random.below(15)),
        _ => (0xF >> random.below(4), 0xF << random.below(4) & 0xF),
    };
}

/// A lawful I/O request.
pub fn io(random: &mut Random) -> Numbers {
    let mut numbers = start(random, 3..5);
    numbers[LENGTH] = 1;
    numbers[FIRST] = random.below(16);
    numbers[ADDRESS] = random.word() & if random.chance(1, 2) { 0xFFFC } else { 0xFFFF_FFFC };
    numbers
}

/// A lawful configuration request.
pub fn configuration(random: &mut Random) -> Numbers {
    let mut numbers = start(random, 5..9);
    numbers[LENGTH] = 1;
    numbers[FIRST] = random.below(16);
    numbers[TARGET] = random.below(1 << 16);
    numbers[REGISTER] = random.below(1 << 10);
    numbers
}

/// A lawful completion.
pub fn completion(random: &mut Random) -> Numbers {
    let mut numbers = start(random, 9..13);
    numbers[TC] = random.below(8);
    numbers[ATTR] = random.below(8);
    // Cpl and CplLk have no Length.
    numbers[LENGTH] = if numbers[KIND] % 2 == 1 { 0 } else { 1 + random.below(1024) };
    numbers[COMPLETER] = random.below(1 << 16);
    numbers[STATUS] = [0, 0, 1, 2, 4][random.below(5) as usize];
    numbers[BCM] = random.below(2);
    numbers[COUNT] = random.below(1 << 12);
    numbers[LOWER] = random.below(1 << 7);
    numbers
}

/// A lawful message of any routing and code.
pub fn message(random: &mut Random) -> Numbers {
    let routing = random.below(6);
    let tail = match random.below(4) {
        0 => 0,
        // An address below 4 GiB.
        1 => random.below(1 << 32),
        2 => upper(random) << 32 | random.below(1 << 32),
        _ => random.word(),
    };
    message_by(random, routing, tail)
}

/// A lawful message with this routing, for what bytes 8 to 15 name: an address is taken without its low two bits.
pub fn message_by(random: &mut Random, routing: u64, tail: u64) -> Numbers {
    let mut numbers = start(random, MESSAGES);
    numbers[FORM] = 4;
    numbers[TC] = random.below(8);
    numbers[ATTR] = random.below(8);
    // Msg has no Length.
    numbers[LENGTH] = match numbers[KIND] {
        13 => 0,
        _ if random.chance(1, 4) => 1024,
        _ => 1 + random.below(1024),
    };
    numbers[ROUTING] = routing;
    numbers[CODE] = random.below(1 << 8);
    numbers[TAIL] = if routing == 0b001 { tail & !3 } else { tail };
    numbers
}

/// What every kind has.
fn start(random: &mut Random, kinds: Range<u64>) -> Numbers {
    let mut numbers = [0; 20];
    numbers[KIND] = kinds.start + random.below(kinds.end - kinds.start);
    numbers[FORM] = 3;
    numbers[TD] = random.below(2);
    numbers[EP] = random.below(2);
    numbers[REQUESTER] = random.below(1 << 16);
    numbers[TAG] = tag(random, tag_bits(numbers[KIND]));
    numbers
}

/// Any of so many bits, often one of eight, or at an edge of either of the two upper ones.
fn tag(random: &mut Random, bits: u32) -> u64 {
    let tag = match random.below(8) {
        0 => [0x000, 0x0FF, 0x100, 0x1FF, 0x200, 0x2FF, 0x300, 0x3FF][random.below(8) as usize],
        1 | 2 => random.below(1 << 8),
        _ => random.below(1 << 10),
    };
    tag & ((1 << bits) - 1)
}

/// A lawful memory or I/O request of one dword, or of as many as the page has room for, at an address.
pub fn request(random: &mut Random, is_io: bool, address: u64) -> Numbers {
    if is_io {
        let mut numbers = io(random);
        numbers[ADDRESS] = address & 0xFFFF_FFFC;
        return numbers;
    }
    let mut numbers = memory(random);
    numbers[ADDRESS] = address & !3;
    numbers[FORM] = if address >> 32 == 0 { 3 } else { 4 };
    if (address & 0xFFC) + 4 * numbers[LENGTH] > 0x1000 {
        numbers[LENGTH] = 1;
    }
    set_enables(&mut numbers, random);
    numbers
}

/// Gives one or two fields another value: at an edge of the field, past it, or any. A request of two dwords often keeps
/// its enables and starts 4 bytes off instead, where gaps are lawful if they were not, or the other way round. At times
/// only the tag is another: in bits 8 and 9, which memory writes and messages do not have, or bit 10, which none has.
pub fn spoil(numbers: &mut Numbers, random: &mut Random) {
    if MEMORY.contains(&numbers[KIND]) && numbers[LENGTH] == 2 && random.chance(1, 2) {
        numbers[ADDRESS] ^= 4;
        return;
    }
    if random.chance(1, 12) {
        numbers[TAG] ^= (1 + random.below(7)) << 8;
        return;
    }
    for _ in 0..1 + random.below(2) {
        let field = random.below(20) as usize;
        let width = if field == TAG { tag_bits(numbers[KIND]) } else { widths(numbers[KIND])[field] };
        let most = u64::MAX >> (64 - width);
        numbers[field] = match random.below(10) {
            0 => 0,
            1 => 1,
            2 => most,
            3 => most.wrapping_add(1),
            4 => numbers[field] ^ 1 << random.below(u64::from(width)),
            5 => [0xFF, 0x100, 0xFFFF, 0x1_0000, 0xFFFF_FFFF, 1 << 32][random.below(6) as usize],
            6 => u64::MAX,
            7 => numbers[field].wrapping_add(1),
            8 => random.word(),
            _ => random.word() & most,
        };
    }
}

/// The header of these numbers by the layout alone: of a value too wide for its field the low bits are taken, of a tag
/// ten, whatever the kind.
pub fn header(numbers: &Numbers) -> Vec<u8> {
    let kind = numbers[KIND] % BYTE0.len() as u64;
    let widths = widths(kind);
    let field = |field: usize| (numbers[field] & (u64::MAX >> (64 - widths[field]))) as u32;
    let has_four = numbers[FORM] == 4;
    let routing = if MESSAGES.contains(&kind) { field(ROUTING) } else { 0 };
    let first = (BYTE0[kind as usize] | u32::from(has_four) << 5 | routing) << 24
        | (field(TAG) & 0x200) << 14
        | field(TC) << 20
        | (field(TAG) & 0x100) << 11
        | (field(ATTR) & 4) << 16
        | field(TD) << 15
        | field(EP) << 14
        | (field(ATTR) & 3) << 12
        | field(AT) << 10
        | field(LENGTH);
    let transaction = field(REQUESTER) << 16 | (field(TAG) & 0xFF) << 8;
    let request = transaction | field(LAST) << 4 | field(FIRST);
    let completion = field(COMPLETER) << 16 | field(STATUS) << 13 | field(BCM) << 12 | field(COUNT);
    let mut dwords = match kind {
        0..=4 => vec![first, request, numbers[ADDRESS] as u32],
        5..=8 => vec![first, request, field(TARGET) << 16 | field(REGISTER) << 2],
        9..=12 => vec![first, completion, transaction | field(LOWER)],
        _ => vec![first, transaction | field(CODE), numbers[TAIL] as u32],
    };
    if has_four {
        // The address's upper half, or the tail's.
        dwords.insert(2, (numbers[ADDRESS] >> 32) as u32);
    }
    dwords.into_iter().flat_map(u32::to_be_bytes).collect()
}
