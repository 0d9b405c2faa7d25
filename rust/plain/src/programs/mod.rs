//! What each program prints for its whole standard input.

mod lines;

pub use lines::{test_boards, test_headers, test_routes};

use crate::audit::audit as audited;
use crate::board::{Host, HOST};
use crate::script::{script as written, RECORD};
use crate::sheet::{listing, FULL_SHEET};
use crate::trace::{annotate as annotated, follow as followed, refused};

/// `plan`: a board.
pub fn plan(board: &[u8]) -> Vec<u8> {
    let mut room = vec![0; FULL_SHEET];
    let planned = crate::plan::plan(board, &mut room);
    planned.map_or_else(refused, |length| listing(&room[..length])).into_bytes()
}

/// `annotate`: a sheet after its two-byte length, then a trace.
pub fn annotate(input: &[u8]) -> Vec<u8> {
    sheet_and_trace(input).map_or_else(refused, |(sheet, trace)| annotated(sheet, trace)).into_bytes()
}

/// `audit`: the 30 bytes of a host record, then a sheet.
pub fn audit(input: &[u8]) -> Vec<u8> {
    let (host, sheet) = input.split_at(input.len().min(HOST));
    let line = match audited(host, sheet) {
        0 => "accepted\n".to_string(),
        number => refused(number),
    };
    line.into_bytes()
}

/// `label`: the 30 bytes of a host record, a sheet after its two-byte length, then a trace.
pub fn label(input: &[u8]) -> Vec<u8> {
    labelled(input).unwrap_or_else(refused).into_bytes()
}

/// `follow`: the host's own ID, two bytes, a sheet after its two-byte length, then a trace.
pub fn follow(input: &[u8]) -> Vec<u8> {
    let lines = input.split_first_chunk().ok_or(20).and_then(|(&host_id, rest)| {
        let (sheet, trace) = sheet_and_trace(rest)?;
        followed(u16::from_be_bytes(host_id).into(), sheet, trace)
    });
    lines.unwrap_or_else(refused).into_bytes()
}

/// `script`: a requester ID, a tag, then a board.
pub fn script(input: &[u8]) -> Vec<u8> {
    let mut room = vec![0; RECORD * 9 * 512];
    let (start, board) = input.split_first_chunk().map_or(([0; 3], &[][..]), |(start, board)| (*start, board));
    let [high, low, tag] = start;
    match written(board, u16::from_be_bytes([high, low]), tag, &mut room) {
        Ok(length) => {
            room.truncate(length);
            room
        }
        Err(number) => refused(number).into_bytes(),
    }
}

/// The lines of the trace, or the number of what is refused before it: the audit's order, and the sheet read as `annotate`
/// reads it. An index answers as the router does, so the router's lines are its lines.
fn labelled(input: &[u8]) -> Result<String, u8> {
    let (host, rest) = input.split_first_chunk::<HOST>().ok_or(20)?;
    if !Host::parse(host).is_lawful() {
        return Err(26);
    }
    let (sheet, trace) = sheet_and_trace(rest)?;
    match audited(host, sheet) {
        0 => Ok(annotated(sheet, trace)),
        number => Err(number),
    }
}

/// A sheet after its two-byte length, and what follows it.
fn sheet_and_trace(input: &[u8]) -> Result<(&[u8], &[u8]), u8> {
    let (&length, rest) = input.split_first_chunk().ok_or(20)?;
    let length = usize::from(u16::from_be_bytes(length));
    // At once, whatever follows.
    if length > FULL_SHEET {
        return Err(22);
    }
    rest.split_at_checked(length).ok_or(20)
}
