//! A call on a ledger of open requests, by how many are open: the proved one beside plain Rust's array searched by key.

use crate::measure::{compare, Times};
use crate::table;
use cartsundial::calls;
use plain::ledger::{self, PLACES};
use std::hint::black_box;

type Words = [u64; PLACES];

/// How many requests are open.
const OPEN: [usize; 3] = [1, 64, PLACES];

pub fn print() {
    table::head("call", &OPEN.map(|open| format!("{open} open")));
    let row = |name: &str, calls: &dyn Fn(usize) -> Vec<Call>, number: u32, is_timed: &dyn Fn(usize) -> bool| {
        let cells = OPEN.map(|open| match is_timed(open) {
            true => table::cell(&time(open, &calls(open), number)),
            false => table::NONE.into(),
        });
        table::row(name, &cells);
    };
    let all = [0, 0];
    let (any, full) = (|_| true, |open| open == PLACES);
    let more = |open: usize| vec![Open(request(open)), Complete(completion(open, all))];
    let again = |open: usize| vec![Complete(completion(open - 1, all)), Open(request(open - 1))];
    row("a request opened, and completed", &more, 0, &|open| !full(open));
    row("the last completed, and opened again", &again, 0, &any);
    row("an open key refused, 61", &|open| vec![Open(request(open - 1))], 61, &any);
    row("a request refused, 62", &|open| vec![Open(request(open))], 62, &full);
    row("a completion refused, 63", &|open| vec![Complete(completion(open, all))], 63, &any);
}

/// A memory read of 1,024 dwords under a tag.
fn request(tag: usize) -> [u8; 12] {
    [0, (tag >> 8) as u8 * 8, 0, 0, 0x12, 0x34, tag as u8, 0xFF, 0x10, 0, 0, 0]
}

/// A success with one dword of it; with another Length code, so many.
fn completion(tag: usize, length: [u8; 2]) -> [u8; 12] {
    [0x4A, (tag >> 8) as u8 * 8, length[0], length[1], 0, 1, 0, 4, 0x12, 0x34, tag as u8, 0]
}

enum Call {
    Open([u8; 12]),
    Complete([u8; 12]),
}
use Call::{Complete, Open};

/// With so many open, the calls one after the other, which leave the words as they were; the last gives the number. The time
/// is a call's.
fn time(open: usize, calls: &[Call], number: u32) -> Times {
    let mut words = [0; PLACES];
    (0..open).for_each(|tag| assert_eq!(ledger::open(&mut words, &request(tag)), Ok(())));
    let mut sides = (words, words);
    assert_eq!((plain_calls(&mut sides.0, calls), proved_calls(&mut sides.1, calls)), (number, number));
    assert!(sides.0 == words && sides.1 == words);
    let Times { plain, proved } = compare(
        || plain_calls(black_box(&mut sides.0), black_box(calls)),
        || proved_calls(black_box(&mut sides.1), black_box(calls)),
    );
    let count = calls.len() as f64;
    Times { plain: plain / count, proved: proved / count }
}

fn plain_calls(words: &mut Words, calls: &[Call]) -> u32 {
    calls.iter().fold(0, |_, call| match call {
        Open(header) => plain_open(words, header),
        Complete(header) => plain_complete(words, header),
    })
}

fn proved_calls(words: &mut Words, calls: &[Call]) -> u32 {
    calls.iter().fold(0, |_, call| match call {
        Open(header) => calls::ledger_open(words, header),
        Complete(header) => calls::ledger_complete(words, header),
    })
}

#[inline(never)]
fn plain_open(words: &mut Words, header: &[u8]) -> u32 {
    ledger::open(words, header).map_or_else(u32::from, |()| 0)
}

#[inline(never)]
fn plain_complete(words: &mut Words, header: &[u8]) -> u32 {
    ledger::complete(words, header).map_or_else(u32::from, |_| 0)
}
