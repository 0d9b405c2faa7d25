//! The test programs, which read lines.
//!
//! Of `test_headers` a line is a header in hexadecimal, `-` the header of no bytes. Of the two others it is a word and then
//! bytes in hexadecimal, with spaces before, between and after them as one likes; `test_boards` has `board` alone.
//!
//! - `board` plans the bytes; it prints the plan or `refused N`, and a plan becomes the current sheet.
//! - `sheet` makes the bytes the current sheet and prints `sheet N` with the number of its check.
//! - `command`, an ID and a command word: rewrites it in the current sheet and prints `command N`.
//! - `lookup`, an ID: prints `lookup OFFSET` or `refused N`.
//! - `header` prints `record R bridges B`, for a broadcast `all N`, for a message that ends at the port `port`, and the
//!   packet as it arrives, or `refused N`.
//! - `from`, a record and a header: prints the same for a header that starts at the function with this record, for the host
//!   `host bridges B`.
//!
//! A blank line and one that starts with `#` are passed over. Any other line is answered `not a line`, one of more bytes than
//! `test_routes` has room for `line too long`.

use crate::cards::route_from;
use crate::packet::{read, write};
use crate::plan::plan;
use crate::route::route;
use crate::sheet::{check, listing, lookup, set_command, FULL_SHEET};
use crate::trace::refused;

/// How many bytes a line of `test_routes` can hold.
const LONGEST: usize = 65_536;

/// `test_headers`.
pub fn test_headers(input: &[u8]) -> Vec<u8> {
    let is_header = |line: &&str| !line.starts_with('#') && !line.bytes().all(|byte| byte == b' ');
    lines(input, |text| text.filter(is_header).map(header_line).collect())
}

/// `test_boards`.
pub fn test_boards(input: &[u8]) -> Vec<u8> {
    lines(input, |text| text.filter_map(request).map(|line| board_line(line).unwrap_or_else(not_a_line)).collect())
}

/// `test_routes`.
pub fn test_routes(input: &[u8]) -> Vec<u8> {
    let mut sheet = Vec::new();
    let mut answer = |line: &str| route_line(line, &mut sheet).unwrap_or_else(not_a_line);
    lines(input, |text| text.filter_map(request).map(&mut answer).collect())
}

fn lines(input: &[u8], mut answers: impl FnMut(std::str::Split<'_, char>) -> String) -> Vec<u8> {
    answers(String::from_utf8_lossy(input).split('\n')).into_bytes()
}

fn not_a_line() -> String {
    "not a line\n".to_string()
}

fn header_line(line: &str) -> String {
    let Some(header) = (if line == "-" { Some(vec![]) } else { bytes(line) }) else {
        return "not hexadecimal\n".to_string();
    };
    let packet = match read(&header) {
        Ok(packet) => packet,
        Err(number) => return refused(number),
    };
    let mut room = [0; 16];
    let length = write(&packet, &mut room).unwrap_or_else(|number| panic!("{packet}: {number}"));
    assert_eq!(room[..length], header[..length], "{packet}");
    format!("{packet} same\n")
}

/// A line without the spaces around it, where it is neither blank nor a comment.
fn request(line: &str) -> Option<&str> {
    let line = line.trim_matches(' ');
    (!line.is_empty() && !line.starts_with('#')).then_some(line)
}

fn word_and_bytes(line: &str) -> Option<(&str, Vec<u8>)> {
    let (word, rest) = line.split_once(' ').unwrap_or((line, ""));
    Some((word, bytes(rest)?))
}

fn board_line(line: &str) -> Option<String> {
    match word_and_bytes(line)? {
        ("board", board) => Some(planned(&board).map_or_else(refused, |sheet| listing(&sheet))),
        _ => None,
    }
}

fn route_line(line: &str, sheet: &mut Vec<u8>) -> Option<String> {
    let (word, bytes) = word_and_bytes(line)?;
    if bytes.len() > LONGEST {
        return Some("line too long\n".to_string());
    }
    Some(match (word, &bytes[..]) {
        ("board", board) => match planned(board) {
            Ok(planned) => {
                *sheet = planned;
                listing(sheet)
            }
            Err(number) => refused(number),
        },
        ("sheet", bytes) => {
            *sheet = bytes.to_vec();
            format!("sheet {}\n", check(sheet))
        }
        ("command", &[a, b, c, d]) => {
            format!("command {}\n", set_command(sheet, u16::from_be_bytes([a, b]), u16::from_be_bytes([c, d])))
        }
        ("lookup", &[a, b]) => match lookup(sheet, u16::from_be_bytes([a, b])) {
            Ok(offset) => format!("lookup {offset}\n"),
            Err(number) => refused(number),
        },
        ("header", header) => route(header, sheet).map_or_else(refused, |arrival| format!("{arrival}\n")),
        ("from", [a, b, header @ ..]) => route_from(u16::from_be_bytes([*a, *b]).into(), header, sheet)
            .map_or_else(refused, |sending| format!("{sending}\n")),
        _ => return None,
    })
}

fn planned(board: &[u8]) -> Result<Vec<u8>, u8> {
    let mut room = vec![0; FULL_SHEET];
    let length = plan(board, &mut room)?;
    room.truncate(length);
    Ok(room)
}

/// Pairs of hexadecimal digits, with spaces between bytes.
fn bytes(text: &str) -> Option<Vec<u8>> {
    let mut bytes = Vec::with_capacity(text.len() / 2);
    for part in text.split(' ') {
        let (pairs, []) = part.as_bytes().as_chunks() else { return None };
        for &[high, low] in pairs {
            let digit = |byte: u8| char::from(byte).to_digit(16);
            bytes.push((digit(high)? << 4 | digit(low)?) as u8);
        }
    }
    Some(bytes)
}
