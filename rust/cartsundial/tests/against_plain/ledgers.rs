//! Histories of a ledger: from empty, where the types go along, and from any numbers.

use crate::lent::{hex, Lent};
use crate::tally::{Call, Tally};
use cartsundial::{calls, Completed, Ledger, RequestKind};
use inputs::ledger::{History, Step};
use inputs::random::Random;
use plain::ledger::{self, PLACES};

type Words = [u64; PLACES];

/// What became of the request, where one was completed.
type Answer = Result<Option<ledger::Completed>, u8>;

const TRACE: &[u8] = include_bytes!("../../../../docs/example/requests");

pub fn compare(random: &mut Random, rounds: u64, tally: &mut Tally) {
    let mut filled = 0;
    for _ in 0..400 * rounds {
        let mut history = History::new(random);
        let (mut words, mut typed) = ([0; PLACES], Ledger::default());
        for _ in 0..100 + random.below(1500) {
            let step = history.next(random);
            let answer = call(&mut words, &step, random, tally);
            follow(&mut typed, &step, answer, &words);
            filled += u64::from(ledger::count(&words) == PLACES);
        }
        count(&words, random, tally);
    }
    assert!(filled > 0, "no ledger was full");
    for _ in 0..400 * rounds {
        let mut history = History::new(random);
        let mut words = any_words(&history, random);
        for _ in 0..100 + random.below(400) {
            let _ = call(&mut words, &history.next(random), random, tally);
        }
        count(&words, random, tally);
    }
}

/// The trace of docs/example.
pub fn chosen(random: &mut Random, tally: &mut Tally) {
    let (mut words, mut typed) = ([0; PLACES], Ledger::default());
    let mut rest = &TRACE[1..];
    while let Some((&length, after)) = rest.split_first_chunk() {
        let (header, after) = after.split_at(u16::from_be_bytes(length).into());
        for step in [Step::Open(header.to_vec()), Step::Complete(header.to_vec())] {
            let answer = call(&mut words, &step, random, tally);
            follow(&mut typed, &step, answer, &words);
        }
        rest = after;
    }
}

/// Any numbers are a ledger: at random, under the history's keys, all in use or few.
fn any_words(history: &History, random: &mut Random) -> Words {
    let used = 1 + random.below(8);
    std::array::from_fn(|_| {
        let (requester, tag) = history.keys()[random.below(history.keys().len() as u64) as usize];
        let key = requester << 10 | tag;
        match random.below(4) {
            _ if !random.chance(used, 8) => random.word() >> 32 >> random.below(33),
            0 => random.word(),
            1 => (key + 1) << 32 | random.word() >> 32,
            _ => (key + 1) << 32 | random.below(1 << 14),
        }
    })
}

/// One call by both, on a slice of 256 numbers or more; at times on a shorter one.
fn call(words: &mut Words, step: &Step, random: &mut Random, tally: &mut Tally) -> Answer {
    let before = *words;
    type ByLibrary = fn(&mut [u64], &[u8]) -> u32;
    let (call, by_library, header, answer): (_, ByLibrary, _, Answer) = match step {
        Step::Open(header) => (Call::Open, calls::ledger_open, header, ledger::open(words, header).map(|()| None)),
        Step::Complete(header) => {
            (Call::Complete, calls::ledger_complete, header, ledger::complete(words, header).map(Some))
        }
    };
    assert!(answer.is_ok() || *words == before);
    let past = if random.chance(1, 4) { random.below(4) as usize } else { 0 };
    let mut lent = Lent::numbers(PLACES + past, random).with(&before);
    let then = lent.with(words);
    let returned = by_library(lent.slice(), header);
    tally.count(call, returned);
    assert_eq!(returned, answer.map_or_else(u32::from, |_| 0), "{call:?} {} in {before:X?}", hex(header));
    assert!(lent == then, "{call:?} {} in {before:X?}: what was lent", hex(header));

    if random.chance(1, 256) {
        let mut lent = Lent::numbers(random.below(PLACES as u64) as usize, random);
        let then = lent.clone();
        let returned = by_library(lent.slice(), header);
        tally.count(call, returned);
        assert_eq!(returned, 11);
        assert!(lent == then);
    }
    answer
}

/// The same by the types, from an empty ledger on: `words` is what it then holds.
fn follow(typed: &mut Ledger, step: &Step, answer: Answer, words: &Words) {
    let followed = match step {
        Step::Open(header) => typed.open(header).map(|()| None),
        Step::Complete(header) => typed.complete(header).map(|completed| match completed {
            Completed::Closed => Some(ledger::Completed::Closed),
            Completed::Open { left } => Some(ledger::Completed::Open(left.into())),
        }),
    };
    assert_eq!(followed.map_err(|refusal| refusal.number()), answer);
    assert_eq!(typed.len(), ledger::count(words));
    let class = |kind| match kind {
        RequestKind::Read => 0b100,
        RequestKind::LockedRead => 0b101,
        RequestKind::ConfigurationRead => 0b110,
        RequestKind::Write => 0b000,
        RequestKind::ConfigurationWrite => 0b010,
    };
    let shown = typed.requests().map(|open| {
        let key = u64::from(open.requester.0) << 10 | u64::from(open.tag);
        (key + 1) << 32 | u64::from(open.left) << 3 | class(open.kind)
    });
    assert!(shown.eq(words.iter().copied().filter(|&word| word != 0)));
}

fn count(words: &Words, random: &mut Random, tally: &mut Tally) {
    let mut out = Lent::answer(1, random);
    let (number, then) = out.expected(&Ok([ledger::count(words) as u64]));
    let returned = calls::ledger_count(words, out.slice());
    tally.count(Call::Count, returned);
    assert_eq!(returned, number);
    assert!(out == then);
    let short = out.clone();
    tally.count(Call::Count, calls::ledger_count(&words[..PLACES - 1], out.slice()));
    assert!(out == short);
}
