//! Boards and their sheets: a board planned and scripted, its sheet checked and judged, a read of its last card from the host
//! and from its first card, and both ends of what the first card sends.

use crate::measure::{compare, Times};
use crate::subjects::{plain_calls, proved_calls, Backplane};
use crate::table;
use cartsundial::Sender;
use inputs::foreign::{completion, CPLD};
use std::hint::black_box;

/// A sheet's record, and the command word in it.
const RECORD: usize = 92;
const COMMAND: usize = 4 + 4;
const BUS_MASTER: u8 = 4;
/// The low pool's last address in a board: a length and six bytes into the host record.
const LOW_LAST: usize = 1 + 2 + 6;

pub fn print() {
    let backplanes = Backplane::all();
    let columns: Vec<String> = backplanes.iter().map(|backplane| backplane.name.clone()).collect();
    table::head("call", &columns);
    let row = |call: &str, time: fn(&Backplane) -> Times| {
        let cells: Vec<String> = backplanes.iter().map(|backplane| table::cell(&time(backplane))).collect();
        table::row(call, &cells);
    };
    row("plan", plan);
    row("plan, into room made and zeroed within the time", plan_fresh);
    row("plan_where, of a planned board", plan_where);
    row("plan_where, 31: the low pool is closed", plan_where_refused);
    row("the write script", script);
    row("check", check);
    row("audit", audit);
    row("sound", sound);
    row("audit_where, of an accepted sheet", audit_where);
    row("route, a read of the last card", route);
    row("route_from, the same from the first card", route_from);
    row("route_sent, the same by its requester", sent_request);
    row("route_sent, a completion of the first card for the last", sent_completion);
    row("route_sent, the first card's completion for the host", sent_up);
}

fn plan_where(backplane: &Backplane) -> Times {
    where_of(&backplane.board, 0)
}

fn plan_where_refused(backplane: &Backplane) -> Times {
    let mut board = backplane.board.clone();
    board[LOW_LAST..LOW_LAST + 4].fill(0);
    where_of(&board, 31)
}

fn where_of(board: &[u8], number: u8) -> Times {
    assert_eq!((plain::plan_where(board).number, proved_calls::plan_where(board).0), (number, number.into()));
    compare(|| plain_calls::plan_where(black_box(board)), || proved_calls::plan_where(black_box(board)))
}

fn plan(backplane: &Backplane) -> Times {
    let board = &backplane.board;
    let mut sheets = (vec![0; plain::FULL_SHEET], vec![0; plain::FULL_SHEET]);
    let times = compare(
        || plain_calls::plan(black_box(board), black_box(&mut sheets.0)).is_ok(),
        || proved_calls::plan(black_box(board), black_box(&mut sheets.1)).is_ok(),
    );
    assert!(sheets.0 == sheets.1);
    times
}

fn plan_fresh(backplane: &Backplane) -> Times {
    let board = &backplane.board;
    let fresh = || vec![0; plain::FULL_SHEET];
    compare(
        || plain_calls::plan(black_box(board), black_box(&mut fresh())).is_ok(),
        || proved_calls::plan(black_box(board), black_box(&mut fresh())).is_ok(),
    )
}

fn script(backplane: &Backplane) -> Times {
    let board = &backplane.board;
    let mut rooms = (vec![0; cartsundial::FULL_SCRIPT], vec![0; cartsundial::FULL_SCRIPT]);
    let times = compare(
        || plain_calls::script(black_box(board), black_box(&mut rooms.0)).is_ok(),
        || proved_calls::script(black_box(board), black_box(&mut rooms.1)).is_ok(),
    );
    assert!(rooms.0 == rooms.1);
    times
}

fn check(backplane: &Backplane) -> Times {
    let sheet = &backplane.sheet;
    compare(|| plain_calls::check(black_box(sheet)), || proved_calls::check(black_box(sheet)).is_ok())
}

fn audit(Backplane { host, sheet, .. }: &Backplane) -> Times {
    compare(
        || plain_calls::audit(black_box(host), black_box(sheet)),
        || proved_calls::audit(black_box(host), black_box(sheet)),
    )
}

fn sound(Backplane { host, sheet, .. }: &Backplane) -> Times {
    assert_eq!((plain::sound(host, sheet), proved_calls::sound(host, sheet)), (0, 0));
    compare(
        || plain_calls::sound(black_box(host), black_box(sheet)),
        || proved_calls::sound(black_box(host), black_box(sheet)),
    )
}

fn audit_where(Backplane { host, sheet, .. }: &Backplane) -> Times {
    compare(
        || plain_calls::audit_where(black_box(host), black_box(sheet)),
        || proved_calls::audit_where(black_box(host), black_box(sheet)),
    )
}

fn route(Backplane { header, sheet, .. }: &Backplane) -> Times {
    compare(
        || plain_calls::route(black_box(header), black_box(sheet)).is_ok(),
        || proved_calls::route(black_box(header), black_box(sheet)).is_ok(),
    )
}

/// The sheet with every function a bus master, and its first card.
fn masters(backplane: &Backplane) -> (Vec<u8>, u16) {
    let mut sheet = backplane.sheet.clone();
    sheet[1..].chunks_exact_mut(RECORD).for_each(|record| record[COMMAND] |= BUS_MASTER);
    let first = (1..).zip(sheet[1..].chunks_exact(RECORD)).find(|(_, record)| record[4 + 0x0E] & 0x7F == 0);
    let first = first.expect("a board with cards").0;
    (sheet, first)
}

/// The first card reads.
fn route_from(backplane: &Backplane) -> Times {
    let header = &backplane.header;
    let (sheet, first) = masters(backplane);
    let sent = plain_calls::route_from(first, header, &sheet).expect("a request that is delivered").numbers();
    let proved = proved_calls::route_from(first, header, &sheet).expect("a request that is delivered");
    assert_eq!(sent[..2], [proved.record().unwrap_or(0).into(), proved.bridges().unwrap_or(0).into()]);
    compare(
        || plain_calls::route_from(first, black_box(header), black_box(&sheet)).is_ok(),
        || proved_calls::route_from(first, black_box(header), black_box(&sheet)).is_ok(),
    )
}

/// The host's own ID, which no function has.
const HOST: u16 = 0xFFFF;

fn sent_request(backplane: &Backplane) -> Times {
    sent(backplane, |_| backplane.header.clone())
}

fn sent_completion(backplane: &Backplane) -> Times {
    sent(backplane, |last| completion(CPLD, last))
}

fn sent_up(backplane: &Backplane) -> Times {
    sent(backplane, |_| completion(CPLD, HOST))
}

/// A header that the first card sends, made for the ID of the last.
fn sent(backplane: &Backplane, header: impl Fn(u16) -> Vec<u8>) -> Times {
    let (sheet, first) = masters(backplane);
    let id = |record: usize| plain::id_of(&sheet, record).expect("a record of the sheet");
    let mut header = header(id(sheet.len() / RECORD));
    header[4..6].copy_from_slice(&id(first.into()).to_be_bytes());
    let answer = plain_calls::sent(HOST, &header, &sheet).expect("a packet that arrives");
    let proved = proved_calls::sent(HOST, &header, &sheet).expect("a packet that arrives");
    assert_eq!((answer.sender.number(), proved.sender), (first.into(), Sender::Record(first)));
    let arrived = [proved.arrival.record().unwrap_or(0).into(), proved.arrival.bridges().unwrap_or(0).into()];
    assert_eq!(answer.arrival.numbers()[..2], arrived);
    compare(
        || plain_calls::sent(HOST, black_box(&header), black_box(&sheet)).is_ok(),
        || proved_calls::sent(HOST, black_box(&header), black_box(&sheet)).is_ok(),
    )
}
