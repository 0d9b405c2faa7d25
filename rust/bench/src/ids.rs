//! Check 28, an ID twice: the proved check of a whole sheet beside a search by pairs alone, and what clearing the marks
//! costs a small sheet.

use crate::measure::{compare, Times};
use crate::subjects::planned;
use crate::table;
use inputs::board::{high, memory, Board};
use std::hint::black_box;
use std::iter::successors;

/// A record with its length.
const RECORD: usize = 92;
/// The ID's place in it.
const ID: usize = 2;
/// A bridge and the functions behind it.
const GROUP: usize = 16;

pub fn print() {
    let columns: Vec<String> = sizes().map(|functions| format!("{functions} functions")).collect();
    table::head("IDs", &columns);
    for at in 0..all(GROUP).len() {
        let cells: Vec<String> = sizes().map(|functions| table::cell(&time(&all(functions)[at]))).collect();
        table::row(all(GROUP)[at].ids, &cells);
    }
    let small = [0, 1, 2, 3, 4, 5, 8, 16];
    table::head("functions", &small.map(|functions| functions.to_string()));
    let times = small.map(small_sheet);
    table::row("clearing", &times.each_ref().map(|times| table::figure(times.plain)));
    table::row("check", &times.each_ref().map(|times| table::figure(times.proved)));
}

/// Four times as many each time, up to a full sheet.
pub fn sizes() -> impl Iterator<Item = usize> {
    let most = (plain::FULL_SHEET - 1) / RECORD;
    successors(Some(16), move |&n| (n < most).then_some((4 * n).min(most)))
}

struct Subject {
    ids: &'static str,
    sheet: Vec<u8>,
    number: u32,
}

/// The sheet as it is, and with one record's ID put into the next.
fn all(functions: usize) -> [Subject; 3] {
    let twice = |ids, first: usize| {
        let mut sheet = sheet(functions);
        let at = |record: usize| 1 + RECORD * record + ID;
        sheet.copy_within(at(first)..at(first) + 2, at(first + 1));
        Subject { ids, sheet, number: 28 }
    };
    [
        Subject { ids: "all different", sheet: sheet(functions), number: 0 },
        twice("the last two the same", functions - 2),
        twice("the first two the same", 0),
    ]
}

/// The sheet of bridges, each with up to 15 endpoints behind it.
fn sheet(functions: usize) -> Vec<u8> {
    let mut board = Board::new();
    let card = [memory(14), high(20)[0], high(20)[1]];
    for first in (0..functions).step_by(GROUP) {
        let bridge = board.bridge(0, ((first / GROUP) << 3) as u8);
        for end in 1..GROUP.min(functions - first) {
            // Several functions to a device.
            board.add(bridge, end as u8 - 1, 0x80, &card);
        }
    }
    planned(&board.bytes())
}

fn time(subject: &Subject) -> Times {
    let Subject { sheet, number, .. } = subject;
    assert_eq!((check(sheet), by_pairs(sheet)), (*number, *number == 28));
    compare(|| by_pairs(black_box(sheet)), || check(black_box(sheet)))
}

/// What clearing the marks takes alone, and the check.
fn small_sheet(functions: usize) -> Times {
    let sheet = sheet(functions);
    assert_eq!(check(&sheet), 0);
    compare(clear, || check(black_box(&sheet)))
}

#[inline(never)]
fn check(sheet: &[u8]) -> u32 {
    cartsundial::calls::check(sheet)
}

/// Each ID compared with each after it, up to the first that is the same.
#[inline(never)]
fn by_pairs(sheet: &[u8]) -> bool {
    let (records, _) = sheet[1..].as_chunks::<RECORD>();
    let id = |record: &[u8; RECORD]| [record[ID], record[ID + 1]];
    records.iter().enumerate().any(|(n, record)| records[n + 1..].iter().any(|later| id(later) == id(record)))
}

#[inline(never)]
fn clear() {
    black_box(&mut [0u64; 1024]);
}
