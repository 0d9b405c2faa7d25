//! Labels: a million headers over a full sheet, each whole answer summed, by the yardstick and by those that are held
//! against it. Build with `--profile lto`.

use crate::measure::{compare, median, Times};
use crate::subjects::planned;
use crate::table;
use inputs::labels;
use std::hint::black_box;
use std::time::Instant;
use yardstick::{Index, ANSWER};

/// Functions of a sheet, and the bridges above the deepest of them.
const SHEETS: &[(usize, usize)] = &[(16, 8), (64, 16), (256, 16), (512, 16), (512, 32)];

const HEADERS: usize = 1_000_000;

/// How many times each engine labels all headers.
const ROUNDS: usize = 25;

/// The router walks: it gets the first headers only.
const ROUTED: usize = 20_000;

/// A sum over the whole answers for the headers.
type Engine<'a> = Box<dyn Fn(&[[u8; 16]]) -> u64 + 'a>;

/// The engines, the yardstick first; then a header by the Rust types, and the index built, in microseconds.
const COLUMNS: [&str; 6] =
    ["yardstick", "yardstick, by a call", "proved", "plain", "`Index::find`, to the call", "built, µs, to plain"];

pub fn print() {
    table::head("sheet", &COLUMNS.map(String::from));
    let planned = SHEETS.iter().map(|&(functions, depth)| Subject::planned(functions, depth));
    planned.chain([Subject::skewed()]).for_each(|subject| row(&subject));
}

/// A sheet, and the host record that it is accepted for.
struct Subject {
    name: String,
    host: Vec<u8>,
    sheet: Vec<u8>,
}

impl Subject {
    fn planned(functions: usize, depth: usize) -> Subject {
        let board = labels::board(functions, depth);
        let name = format!("{functions}, depth {depth}");
        Subject { name, host: board.host().to_vec(), sheet: planned(&board.bytes()) }
    }

    fn skewed() -> Subject {
        let (host, sheet) = labels::skewed();
        Subject { name: "512, skewed".into(), host: host.to_vec(), sheet }
    }

    /// Room for its index.
    fn room(&self) -> Vec<u8> {
        vec![0; 1024 + 256 * (self.sheet.len() / 92)]
    }
}

/// Each answer is looked at where it lies, as its caller would find it.
fn by_types(subject: &Subject) -> Times {
    let Subject { host, sheet, .. } = subject;
    let headers = labels::headers(sheet, 1 << 16);
    let host = cartsundial::HostRecord::from_bytes(host[..].try_into().expect("30 bytes"));
    let index = cartsundial::Index::build(&host, sheet, subject.room()).expect("the sheet is accepted");
    let mut answer = [0; ANSWER];
    let mut turns = (headers.iter().cycle(), headers.iter().cycle());
    compare(
        || {
            turns
                .0
                .next()
                .map(|header| black_box(cartsundial::calls::find(header, index.bytes(), black_box(&mut answer))))
        },
        || turns.1.next().map(|header| black_box(&index.find(header)).is_ok()),
    )
}

/// In microseconds.
fn build(subject: &Subject) -> Times {
    let Subject { host, sheet, .. } = subject;
    let (mut plains, mut proveds) = (subject.room(), subject.room());
    let times = compare(
        || plain::build(black_box(host), sheet, &mut plains),
        || cartsundial::calls::index(black_box(host), sheet, &mut proveds),
    );
    Times { plain: times.plain / 1000.0, proved: times.proved / 1000.0 }
}

fn row(subject: &Subject) {
    let medians = medians(subject);
    let engines = medians.iter().map(|&time| table::beside(time, medians[0]));
    let cells: Vec<String> = engines.chain([by_types(subject), build(subject)].iter().map(table::cell)).collect();
    table::row(&subject.name, &cells);
}

/// Nanoseconds a header of each engine, medians over the rounds.
fn medians(subject: &Subject) -> Vec<f64> {
    let Subject { host, sheet, .. } = subject;
    let headers = labels::headers(sheet, HEADERS);
    let index = Index::build(sheet);
    let mut bytes = subject.room();
    assert_eq!(cartsundial::calls::index(host, sheet, &mut bytes), 0);
    let engines: [Engine<'_>; 4] = [
        Box::new(|headers| summed(headers, |header, answer| index.label(header, answer).into())),
        Box::new(|headers| summed(headers, |header, answer| called(&index, header, answer))),
        Box::new(|headers| summed(headers, |header, answer| cartsundial::calls::find(header, &bytes, answer))),
        Box::new(|headers| summed(headers, |header, answer| plain_find(header, &bytes, answer))),
    ];
    // What the router answers, on both sides, is what the yardstick does.
    let first = &headers[..ROUTED];
    let routed = summed(first, |header, answer| cartsundial::calls::route(header, sheet, answer));
    engines.iter().for_each(|engine| assert_eq!(engine(first), routed));

    let sum = engines[0](&headers);
    let mut rounds = [const { Vec::new() }; 4];
    for _ in 0..ROUNDS {
        for (engine, times) in engines.iter().zip(&mut rounds) {
            let start = Instant::now();
            assert_eq!(engine(black_box(&headers)), sum);
            times.push(start.elapsed().as_nanos() as f64 / HEADERS as f64);
        }
    }
    rounds.into_iter().map(median).collect()
}

/// The numbers of all answers, added up; of a refusal its number.
#[inline(always)]
fn summed(headers: &[[u8; 16]], label: impl Fn(&[u8], &mut [u64; ANSWER]) -> u32) -> u64 {
    let mut answer = [0; ANSWER];
    headers.iter().fold(0, |sum: u64, header| {
        let number = label(header, &mut answer);
        let whole = if number == 0 { answer.iter().fold(0, |sum: u64, &n| sum.wrapping_add(n)) } else { number.into() };
        sum.wrapping_add(whole)
    })
}

/// As the C call is: in a function of its own, with its answer in memory.
#[inline(never)]
fn called(index: &Index, header: &[u8], answer: &mut [u64; ANSWER]) -> u32 {
    index.label(header, answer).into()
}

/// Plain Rust's search in the index, whose answer is a type of its own first.
#[inline(never)]
fn plain_find(header: &[u8], index: &[u8], answer: &mut [u64; ANSWER]) -> u32 {
    match plain::find(header, index) {
        Ok(plain::Arrival::Function { record, bridges, packet }) => {
            (answer[0], answer[1]) = (record.into(), bridges.into());
            answer[2..].copy_from_slice(&plain::to_numbers(&packet));
            0
        }
        Ok(_) => unreachable!("there are no messages"),
        Err(number) => number.into(),
    }
}
