//! docs/FORMATS.md shows a whole sheet under its board. It must be the sheet that the library leaves, byte for byte. (The
//! other examples there go to the proved programs: docs/examples.sh.) docs/example has a board, its sheet, a trace and its
//! labels, which must belong together, and a trace of requests with what the example `ledger` says of it.

#[allow(dead_code)]
#[path = "../examples/ledger.rs"]
mod ledger;

use cartsundial::{lines, plan, FULL_SHEET};

const FORMATS: &str = include_str!("../../../docs/FORMATS.md");

const BOARD: &[u8] = include_bytes!("../../../docs/example/board");
/// The sheet after its length, as the program `annotate` reads it.
const SHEET: &[u8] = include_bytes!("../../../docs/example/sheet");
const TRACE: &[u8] = include_bytes!("../../../docs/example/trace");
const TRACE_TEXT: &str = include_str!("../../../docs/example/trace.txt");
const LABELS: &str = include_str!("../../../docs/example/labels.txt");
const REQUESTS: &[u8] = include_bytes!("../../../docs/example/requests");
const REQUESTS_TEXT: &str = include_str!("../../../docs/example/requests.txt");
const UNANSWERED: &str = include_str!("../../../docs/example/unanswered.txt");

/// The bytes that the lines spell, each without its comment.
fn bytes<'a>(lines: impl Iterator<Item = &'a str>) -> Vec<u8> {
    let code = |line: &'a str| line.split('#').next().unwrap_or("");
    let digits: String = lines.flat_map(|line| code(line).chars().filter(|digit| *digit != ' ')).collect();
    let pair = |at| u8::from_str_radix(&digits[at..at + 2], 16).unwrap();
    (0..digits.len()).step_by(2).map(pair).collect()
}

#[test]
fn the_whole_sheet() {
    let section = FORMATS.split("### A whole sheet\n").nth(1).unwrap();
    let block = |mark: &str| section.split(mark).nth(1).unwrap().split("```").next().unwrap();
    let board = bytes(block("```plan\n").lines());
    let sheet = bytes(block("```routes\nsheet ").lines().take_while(|line| !line.starts_with("lookup")));
    let mut room = [0; FULL_SHEET];
    let length = plan(&board, &mut room).unwrap();
    assert_eq!(room[..length], sheet);
}

#[test]
fn the_example() {
    let mut room = [0; FULL_SHEET];
    let length = plan(BOARD, &mut room).unwrap();
    assert!(SHEET == [&(length as u16).to_be_bytes(), &room[..length]].concat());
    assert!(TRACE == bytes(TRACE_TEXT.lines()));
    let labels: String = lines(&room[..length], TRACE).map(|line| format!("{line}\n")).collect();
    assert_eq!(labels, LABELS);
}

#[test]
fn the_requests() {
    assert!(REQUESTS == bytes(REQUESTS_TEXT.lines()));
    assert_eq!(ledger::report(REQUESTS), UNANSWERED);
}
