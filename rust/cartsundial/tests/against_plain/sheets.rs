//! Sheets checked, functions looked up, command words rewritten.

use crate::lent::{hex, Lent};
use crate::tally::{Call, Tally};
use cartsundial::{calls, Id};
use inputs::random::Random;
use inputs::{aim, audit, ends, registers, trees};

pub fn compare(random: &mut Random, rounds: u64, tally: &mut Tally) {
    for _ in 0..80_000 * rounds {
        let mut sheet = any(random);
        check(&sheet, random, tally);
        for _ in 0..2 {
            lookup(&sheet, any_id(&sheet, random), random, tally);
            id(&sheet, any_record(&sheet, random), random, tally);
            any_command(&mut sheet, random, tally);
        }
        check(&sheet, random, tally);
    }
}

/// A sheet that was planned, or that no planner wrote; often with other registers, and sometimes wrong.
pub fn any(random: &mut Random) -> Vec<u8> {
    let mut sheet = if random.chance(1, 2) { registers::foreign(random) } else { planned(random) };
    if random.chance(1, 3) {
        registers::rewrite(&mut sheet, random);
    }
    if random.chance(1, 3) {
        for _ in 0..1 + random.below(2) {
            registers::spoil(&mut sheet, random);
        }
    }
    sheet
}

/// A sheet for packets by both ends: any, one that an audit accepts, or one on which the ways up and down differ.
pub fn any_for_ends(random: &mut Random) -> Vec<u8> {
    let mut sheet = match random.below(8) {
        0..=2 => ends::sheet(random),
        3 => audit::nested(random).1,
        4 | 5 => planned(random),
        _ => return any(random),
    };
    match random.below(12) {
        0 => registers::rewrite(&mut sheet, random),
        1 => registers::spoil(&mut sheet, random),
        _ => {}
    }
    sheet
}

/// A planned sheet with ranges of other kinds where they are.
pub fn of_other_kinds(random: &mut Random) -> Vec<u8> {
    let mut sheet = planned(random);
    audit::split_kinds(&mut sheet, random);
    sheet
}

/// A planned sheet with all of its functions enabled, or most.
pub fn planned(random: &mut Random) -> Vec<u8> {
    let mut room = vec![0; plain::FULL_SHEET];
    loop {
        let mut board = trees::lawful(random);
        let all = random.chance(1, 2);
        for function in &mut board.functions {
            function.command |= if all || random.chance(5, 6) { 3 } else { 0 };
        }
        if let Ok(length) = plain::plan(&board.bytes(), &mut room) {
            room.truncate(length);
            return room;
        }
    }
}

pub fn check(bytes: &[u8], random: &mut Random, tally: &mut Tally) {
    let number = plain::check(bytes);
    let mut sheet = Lent::holding(bytes, random);
    let before = sheet.clone();
    let returned = calls::check(sheet.slice());
    tally.count(Call::Check, returned);
    assert_eq!(returned, number.into(), "check {}", hex(bytes));
    assert!(sheet == before, "check {}: the sheet", hex(bytes));
}

/// The number for an ID above FFFFh, which no function has.
fn unowned(sheet: &[u8]) -> u8 {
    match plain::check(sheet) {
        0 => 40,
        number => number,
    }
}

/// An ID of the sheet or one like it, and rarely one that is too wide.
fn any_id(sheet: &[u8], random: &mut Random) -> u32 {
    let id = u32::from(aim::id(sheet, random));
    match random.below(32) {
        0 => id | 1 << (16 + random.below(16)),
        1 => random.word() as u32,
        _ => id,
    }
}

pub fn lookup(bytes: &[u8], id: u32, random: &mut Random, tally: &mut Tally) {
    let answer = match u16::try_from(id) {
        Ok(id) => plain::lookup(bytes, id).map(|offset| [offset as u64]),
        Err(_) => Err(unowned(bytes)),
    };
    let mut sheet = Lent::holding(bytes, random);
    let before = sheet.clone();
    let mut offset = Lent::answer(1, random);
    let (number, offset_then) = offset.expected(&answer);
    let returned = calls::lookup(sheet.slice(), id, offset.slice());
    tally.count(Call::Lookup, returned);
    assert_eq!(returned, number, "lookup {id:X} in {}", hex(bytes));
    assert!(offset == offset_then && sheet == before, "lookup {id:X} in {}: what was lent", hex(bytes));

    if let Ok(id) = u16::try_from(id) {
        match (cartsundial::registers(bytes, Id(id)), answer) {
            (Ok(part), Ok([offset])) => assert!(std::ptr::eq(part.as_slice(), &bytes[offset as usize..][..64])),
            (Err(refusal), Err(number)) => assert_eq!(refusal.number(), number),
            (part, answer) => panic!("lookup {id:X} in {}: {part:?}, {answer:?}", hex(bytes)),
        }
    }
}

/// A record of the sheet, one before or past them, and rarely any number.
pub fn any_record(sheet: &[u8], random: &mut Random) -> u32 {
    if random.chance(1, 32) {
        return random.word() as u32;
    }
    random.below(sheet.len() as u64 / 92 + 3) as u32
}

pub fn id(bytes: &[u8], record: u32, random: &mut Random, tally: &mut Tally) {
    let answer = plain::id_of(bytes, record as usize).map(|id| [id.into()]);
    let mut sheet = Lent::holding(bytes, random);
    let before = sheet.clone();
    let mut id = Lent::answer(1, random);
    let (number, id_then) = id.expected(&answer);
    let returned = calls::id(sheet.slice(), record, id.slice());
    tally.count(Call::Id, returned);
    assert_eq!(returned, number, "id of {record} in {}", hex(bytes));
    assert!(id == id_then && sheet == before, "id of {record} in {}: what was lent", hex(bytes));

    let Ok(record) = u16::try_from(record) else { return };
    let typed = cartsundial::id_of(bytes, record).map(|id| [id.0.into()]).map_err(|refusal| refusal.number());
    assert_eq!(typed, answer, "id of {record} in {}", hex(bytes));
    let found = cartsundial::functions(bytes).ok().and_then(|mut all| all.find(|one| one.record == record));
    assert_eq!(found.map(|one| [one.id.0.into()]), answer.ok(), "function {record} of {}", hex(bytes));
    if let Some(one) = found {
        assert_eq!(cartsundial::registers(bytes, one.id), Ok(one.registers), "function {record} of {}", hex(bytes));
    }
}

/// Any word for a function of the sheet, and rarely one that is too wide.
pub fn any_command(sheet: &mut [u8], random: &mut Random, tally: &mut Tally) {
    let id = any_id(sheet, random);
    let word = if random.chance(1, 16) { random.word() as u32 } else { u32::from(random.word() as u16) };
    command(sheet, id, word, random, tally);
}

/// Rewrites a command word of the sheet, which stays rewritten.
pub fn command(bytes: &mut [u8], id: u32, command: u32, random: &mut Random, tally: &mut Tally) {
    let before = hex_if_small(bytes);
    let mut sheet = Lent::holding(bytes, random);
    let sheet_before = sheet.clone();
    let number = match (u16::try_from(id), u16::try_from(command)) {
        (_, Err(_)) => 10,
        (Err(_), Ok(_)) => unowned(bytes),
        (Ok(id), Ok(command)) => {
            let mut typed = bytes.to_vec();
            let number = plain::set_command(bytes, id, command);
            let refusal = cartsundial::set_command(&mut typed, Id(id), command).err();
            assert_eq!(refusal.map_or(0, |refusal| refusal.number()), number);
            assert!(typed == bytes, "command {id:X} {command:X} in {before}: the sheet");
            number
        }
    };
    let returned = calls::command(sheet.slice(), id, command);
    tally.count(Call::Command, returned);
    assert_eq!(returned, number.into(), "command {id:X} {command:X} in {before}");
    assert!(sheet == sheet_before.with(bytes), "command {id:X} {command:X} in {before}: the sheet");
    assert!(number == 0 || sheet == sheet_before, "command {id:X} {command:X} in {before}: refused, and changed");
}

/// The sheet before a change, for the report; not of a large one, which would take longer than the call.
fn hex_if_small(bytes: &[u8]) -> String {
    if bytes.len() < 1000 {
        hex(bytes)
    } else {
        format!("a sheet of {} bytes", bytes.len())
    }
}
