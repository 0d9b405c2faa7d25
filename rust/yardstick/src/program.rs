//! The whole job on streams: what the program `label` does.

use crate::Index;
use std::io::{self, Read, Write};

/// The length of a host record, and of the largest sheet.
const HOST: usize = 30;
const FULL_SHEET: usize = 47_105;

/// More than the longest record with its length, so that a record always fits behind what is left of a piece.
const PIECE: usize = 1 << 17;

const VERSION: u8 = 1;

/// Reads a host record, a sheet after its two-byte length, and a trace, and writes a line for each record of the trace. The
/// sheet is taken as one that the audit accepts for the host record.
pub fn label(input: &mut impl Read, out: &mut impl Write) -> io::Result<()> {
    match read_sheet(input)? {
        Ok(sheet) => label_trace(&Index::build(&sheet), input, out),
        Err(number) => writeln!(out, "refused {number}"),
    }
}

/// The sheet, or the number of an input that has none.
fn read_sheet(input: &mut impl Read) -> io::Result<Result<Vec<u8>, u8>> {
    let mut front = Vec::new();
    input.by_ref().take(HOST as u64 + 2).read_to_end(&mut front)?;
    let Some(&length) = front.get(HOST..).and_then(<[u8]>::first_chunk) else { return Ok(Err(20)) };
    let length = usize::from(u16::from_be_bytes(length));
    if length > FULL_SHEET {
        return Ok(Err(22));
    }
    let mut sheet = Vec::new();
    input.by_ref().take(length as u64).read_to_end(&mut sheet)?;
    Ok(if sheet.len() == length { Ok(sheet) } else { Err(20) })
}

fn label_trace(index: &Index, input: &mut impl Read, out: &mut impl Write) -> io::Result<()> {
    let mut version = Vec::new();
    input.by_ref().take(1).read_to_end(&mut version)?;
    match version[..] {
        [VERSION] => {}
        [] => return writeln!(out, "refused 20"),
        _ => return writeln!(out, "refused 21"),
    }
    let mut labelled = Labelled { index, number: 0, lines: Vec::new() };
    let mut piece = vec![0; PIECE];
    let mut filled = 0;
    loop {
        let read = match input.read(&mut piece[filled..]) {
            Err(error) if error.kind() == io::ErrorKind::Interrupted => continue,
            read => read?,
        };
        if read == 0 {
            break;
        }
        filled += read;
        let left = labelled.put_records(&piece[..filled]);
        piece.copy_within(filled - left..filled, 0);
        filled = left;
        out.write_all(&labelled.lines)?;
        labelled.lines.clear();
    }
    if filled > 0 {
        out.write_all(b"cut\n")?;
    }
    out.flush()
}

struct Labelled<'a> {
    index: &'a Index,
    /// Of the last record.
    number: u64,
    /// That are not written yet.
    lines: Vec<u8>,
}

impl Labelled<'_> {
    /// Puts the lines of the records that are whole. Returns how many bytes are left.
    fn put_records(&mut self, mut rest: &[u8]) -> usize {
        while let Some((length, after)) = rest.split_first_chunk() {
            let Some((header, after)) = after.split_at_checked(u16::from_be_bytes(*length).into()) else { break };
            self.number = self.number.wrapping_add(1);
            self.index.put_line(self.number, header, &mut self.lines);
            rest = after;
        }
        rest.len()
    }
}
