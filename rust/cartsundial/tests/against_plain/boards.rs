//! Boards planned, and what does not fit of them.

use crate::lent::{hex, Lent};
use crate::tally::{Call, Tally};
use cartsundial::{calls, Needs, PlanParty};
use inputs::board::Board;
use inputs::planted::{self, Planted};
use inputs::random::Random;
use inputs::trees;

/// A sheet's record with its two-byte length.
const RECORD: usize = 92;

pub fn compare(random: &mut Random, rounds: u64, tally: &mut Tally) {
    for _ in 0..200_000 * rounds {
        plan(&trees::any(random), random, tally);
    }
    for _ in 0..6_000 * rounds {
        let board = trees::lawful(random);
        edges(&board, random, tally);
    }
    // One fault each, and the record that it was planted in.
    for wanted in planted::NUMBERS {
        for _ in 0..1_000 * rounds {
            let Planted { board, party } = planted::board(wanted, random, number);
            let found = fit(&board.bytes(), random, tally);
            let named = (found.party.record as u16, found.party.place);
            assert_eq!(found.number, wanted, "{}", hex(&board.bytes()));
            assert!(party.is_none_or(|party| party == named), "{wanted} {named:?} {}", hex(&board.bytes()));
        }
    }
}

/// The number of a board, 0 where it is planned.
fn number(board: &Board) -> u8 {
    plain::plan(&board.bytes(), &mut [0; plain::FULL_SHEET]).err().unwrap_or(0)
}

/// The board's bytes planned by both, in the same room.
pub fn plan(board: &[u8], random: &mut Random, tally: &mut Tally) {
    let mut full = vec![0; plain::FULL_SHEET];
    let length = match plain::plan(board, &mut full) {
        Ok(length) => room_length(length, random),
        Err(_) => random.below(400) as usize,
    };
    let mut room = Lent::bytes(length, random);
    let before = room.clone();
    let mut plain_room = room.clone();
    let answer = plain::plan(board, plain_room.slice());
    assert!(answer.is_ok() || plain_room == before);

    let mut given = Lent::holding(board, random);
    let given_before = given.clone();
    let mut written = Lent::answer(1, random);
    let length = answer.map(|length| [length as u64]);
    let (number, written_then) = written.expected(&length);
    let returned = calls::plan(given.slice(), room.slice(), written.slice());
    tally.count(Call::Plan, returned);
    if let Some(&version) = board.first() {
        tally.board(version, returned);
    }
    if let (0, Ok(length)) = (returned, answer) {
        tally.planned((length - 1) / RECORD);
    }
    assert_eq!(returned, number, "plan {}", hex(board));
    let room_then = if number == 0 { &plain_room } else { &before };
    assert!(room == *room_then, "plan {}: the sheet", hex(board));
    assert!(written == written_then && given == given_before, "plan {}: what was lent", hex(board));

    if random.chance(1, 4) {
        let mut room = before.clone();
        let typed = cartsundial::plan(board, room.slice());
        assert_eq!(typed.map_err(|refusal| refusal.number()), answer, "plan {}", hex(board));
        assert!(room == plain_room, "plan {}: the sheet", hex(board));
    }
    fit(board, random, tally);
}

/// What does not fit, by both, in a slice of any length; returns plain Rust's answer.
fn fit(board: &[u8], random: &mut Random, tally: &mut Tally) -> plain::Fit {
    let fit = plain::plan_where(board);
    let plain::Fit { number, party, other, needs } = fit;
    let plain::Needs { buses, bytes: [low, high, io], aligns: [low_align, high_align, io_align] } = needs;
    let parties = [party.record as u64, party.place.into(), other.record as u64, other.place.into()];
    let found = [&parties[..], &[buses, low, high, io, low_align, high_align, io_align]].concat();
    let mut given = Lent::holding(board, random);
    let given_before = given.clone();
    let mut who = Lent::answer(calls::PLAN_WHO, random);
    let (expected, who_then) = match (who.slice().len(), number) {
        (calls::PLAN_WHO.., _) => (number.into(), who.with(&found)),
        (8.., _) => (number.into(), who.with(&found[..8])),
        (_, 0) => (calls::SHORT, who.clone()),
        (_, _) => (number.into(), who.clone()),
    };
    let returned = calls::plan_where(given.slice(), who.slice());
    tally.count(Call::PlanWhere, returned);
    assert_eq!(returned, expected, "what does not fit: {}", hex(board));
    assert!(who == who_then, "what does not fit: {}: {:?}, not {found:?}", hex(board), who.slice());
    assert!(given == given_before, "what does not fit: {}: what was lent", hex(board));

    if random.chance(1, 4) {
        let typed = cartsundial::plan_where(board);
        let party =
            |party: Option<PlanParty>| party.map_or([0; 2], |party| [party.record.into(), party.place.number()]);
        let (refusal, both, needs) = match typed {
            Ok(needs) => (0, [[0; 2]; 2], needs),
            Err(one) => {
                (one.refusal.number(), [party(one.party), party(one.lost_before)], one.needs.unwrap_or_default())
            }
        };
        assert_eq!((refusal, both.concat()), (number, found[..4].to_vec()), "what does not fit: {}", hex(board));
        let expected = Needs { buses: buses as u32, low, high, io, low_align, high_align, io_align };
        assert_eq!(needs, expected, "what is needed: {}", hex(board));
    }
    fit
}

/// Room for a sheet: just enough, one less, more, or any.
fn room_length(length: usize, random: &mut Random) -> usize {
    match random.below(8) {
        0 => length - 1,
        1 => random.below(length as u64) as usize,
        2 => plain::FULL_SHEET,
        3 => length + 1 + random.below(200) as usize,
        _ => length,
    }
}

/// Each pool at the least size with which the board is planned, and one granule below.
fn edges(board: &Board, random: &mut Random, tally: &mut Tally) {
    let is_planned = |board: &Board| plain::plan(&board.bytes(), &mut [0; plain::FULL_SHEET]).is_ok();
    if !is_planned(board) {
        return plan(&board.bytes(), random, tally);
    }
    for pool in 0..3 {
        let granules = granules(board, pool);
        let (mut below, mut enough) = (0, granules);
        while below + 1 < enough {
            let middle = below + (enough - below) / 2;
            if is_planned(&with_granules(board, pool, middle)) {
                enough = middle;
            } else {
                below = middle;
            }
        }
        for count in [below, enough] {
            if count > 0 {
                plan(&with_granules(board, pool, count).bytes(), random, tally);
            }
        }
    }
}

/// The number of granules of an open pool, 0 of a closed one.
fn granules(board: &Board, pool: usize) -> u64 {
    let size = |base: u64, last: u64, granule: u32| if base > last { 0 } else { (last - base + 1) >> granule };
    match pool {
        0 => size(board.low.0.into(), board.low.1.into(), 20),
        1 => size(board.high.0, board.high.1, 20),
        _ => size(board.io.0.into(), board.io.1.into(), 12),
    }
}

fn with_granules(board: &Board, pool: usize, count: u64) -> Board {
    let mut board = board.clone();
    match pool {
        0 => board.low.1 = (u64::from(board.low.0) + (count << 20) - 1) as u32,
        1 => board.high.1 = board.high.0 + (count << 20) - 1,
        _ => board.io.1 = (u64::from(board.io.0) + (count << 12) - 1) as u16,
    }
    board
}
