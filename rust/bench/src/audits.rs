//! Both verdicts on a sheet, and who fails: how they grow with the functions of one bus and of many, and where they take
//! longest.

use crate::ids::sizes;
use crate::measure::{compare, Times};
use crate::subjects::{plain_calls, planned, proved_calls};
use crate::table;
use inputs::board::{high, memory, Board};
use std::hint::black_box;

/// A bus has so many IDs.
const IDS: usize = 256;
/// Functions to a bus, where there are many.
const FEW: usize = 16;
/// A record with its length, its ID in it, and BAR 0.
const RECORD: usize = 92;
const ID: usize = 2;
const BAR: usize = 4 + 0x10;

pub fn print() {
    let columns: Vec<String> = sizes().map(|functions| format!("{functions} functions")).collect();
    table::head("sheet", &columns);
    row("audit, all on the root bus", |functions| (functions <= IDS).then(|| audit(&Subject::of(one_bus(functions)))));
    row("audit, 16 to a bus", |functions| Some(audit(&Subject::of(many_buses(functions)))));
    row("audit, half on each of two buses, six BARs each", |functions| Some(audit(&Subject::of(two_buses(functions)))));
    row("sound, all on the root bus", |functions| (functions <= IDS).then(|| sound(&Subject::of(one_bus(functions)))));
    row("sound, 16 to a bus", |functions| Some(sound(&Subject::of(many_buses(functions)))));
    row("sound, half on each of two buses, six BARs each", |functions| Some(sound(&Subject::of(two_buses(functions)))));
    row("audit_where, 16 to a bus, 28: the last two have one ID", |functions| {
        Some(found(&Subject::of(many_buses(functions)).last_from(ID, 2, 2), 28))
    });
    row("audit_where, 16 to a bus, 51: the last lies past its window", |functions| {
        Some(found(&Subject::of(many_buses(functions)).moved(), 51))
    });
    row("audit_where, 16 to a bus, 52: the last two overlap", |functions| {
        Some(found(&Subject::of(many_buses(functions)).last_from(BAR, 4, 2), 52))
    });
    row("audit_where, two buses, six BARs each, 52: the last two overlap", |functions| {
        Some(found(&Subject::of(two_buses(functions)).last_from(BAR, 4, 2), 52))
    });
}

fn row(name: &str, time: impl Fn(usize) -> Option<Times>) {
    let cells: Vec<String> =
        sizes().map(|functions| time(functions).map_or(table::NONE.into(), |times| table::cell(&times))).collect();
    table::row(name, &cells);
}

/// A host record and a sheet.
struct Subject {
    host: Vec<u8>,
    sheet: Vec<u8>,
}

impl Subject {
    fn of(board: Board) -> Subject {
        Subject { host: board.host().to_vec(), sheet: planned(&board.bytes()) }
    }

    /// Where the record stands that is so many from the end.
    fn record(&self, from_end: usize) -> usize {
        self.sheet.len() - RECORD * from_end
    }

    /// So many bytes of the last record are those of a record before it.
    fn last_from(mut self, at: usize, length: usize, from_end: usize) -> Subject {
        let (from, to) = (self.record(from_end) + at, self.record(1) + at);
        self.sheet.copy_within(from..from + length, to);
        self
    }

    /// The last record's BAR 0 lies where nothing on its bus may: just past its bridge's low window.
    fn moved(mut self) -> Subject {
        let at = self.record(1) + BAR;
        let bar = u32::from_le_bytes([self.sheet[at], self.sheet[at + 1], self.sheet[at + 2], self.sheet[at + 3]]);
        self.sheet[at..at + 4].copy_from_slice(&(bar + (1 << 20)).to_le_bytes());
        self
    }
}

/// Endpoints on the root bus.
fn one_bus(functions: usize) -> Board {
    let mut board = Board::new();
    add_ends(&mut board, 0, functions, &[memory(14), high(20)[0], high(20)[1]]);
    board
}

/// Bridges on the root bus, each with endpoints behind it.
fn many_buses(functions: usize) -> Board {
    let mut board = Board::new();
    for first in (0..functions).step_by(FEW) {
        let bridge = board.bridge(0, ((first / FEW) << 3) as u8);
        add_ends(&mut board, bridge, FEW - 1, &[memory(14), high(20)[0], high(20)[1]]);
    }
    board
}

/// As many ranges as a sheet has, on as few buses as can be: half of the functions on the root bus, the last of them a bridge
/// to the other half.
fn two_buses(functions: usize) -> Board {
    let mut board = Board::new();
    let half = functions / 2;
    let card = [memory(7); 6];
    add_ends(&mut board, 0, half - 1, &card);
    let bridge = board.add(0, (half - 1) as u8, 0x01, &[]);
    add_ends(&mut board, bridge, half, &card);
    board
}

/// Several functions to a device.
fn add_ends(board: &mut Board, parent: u16, count: usize, card: &[u32]) {
    for end in 0..count {
        board.add(parent, end as u8, 0x80, card);
    }
}

fn audit(Subject { host, sheet }: &Subject) -> Times {
    assert_eq!((plain::audit(host, sheet), proved_calls::audit(host, sheet)), (0, 0));
    compare(
        || plain_calls::audit(black_box(host), black_box(sheet)),
        || proved_calls::audit(black_box(host), black_box(sheet)),
    )
}

fn sound(Subject { host, sheet }: &Subject) -> Times {
    assert_eq!((plain::sound(host, sheet), proved_calls::sound(host, sheet)), (0, 0));
    compare(
        || plain_calls::sound(black_box(host), black_box(sheet)),
        || proved_calls::sound(black_box(host), black_box(sheet)),
    )
}

/// Both sides find the same, under this number.
fn found(Subject { host, sheet }: &Subject, number: u32) -> Times {
    let plain::Finding { party, other, .. } = plain::audit_where(host, sheet);
    let who = [party.record as u64, party.place.into(), other.record as u64, other.place.into()];
    assert_eq!((plain::audit(host, sheet).into(), proved_calls::audit_where(host, sheet)), (number, (number, who)));
    compare(
        || plain_calls::audit_where(black_box(host), black_box(sheet)),
        || proved_calls::audit_where(black_box(host), black_box(sheet)),
    )
}
