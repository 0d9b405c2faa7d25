//! A plan as configuration writes.

use crate::{accepted, calls, Id, Refusal};

/// The length of the longest script: 4,094 writes of 18 bytes.
pub const FULL_SCRIPT: usize = 73_692;

/// One write's record: a two-byte length, 12 header bytes, 4 data bytes.
const RECORD: usize = 18;
/// Where its parts start.
const HEADER: usize = 2;
const ENABLES: usize = HEADER + 7;
const TARGET: usize = HEADER + 8;
const REGISTER: usize = HEADER + 10;
const DATA: usize = HEADER + 12;

/// Plans `board` and writes the plan as configuration writes to the start of `script`; returns their length, at most
/// [`FULL_SCRIPT`]. Nothing past it is written. [`writes`] goes through them.
///
/// `requester` is the boot code's own ID; tags start at `first_tag` and go one up each write, from 255 to 0.
pub fn write_script(board: &[u8], requester: Id, first_tag: u8, script: &mut [u8]) -> Result<usize, Refusal> {
    let mut written = [0];
    accepted(calls::script(board, requester.0.into(), first_tag.into(), script, &mut written))?;
    Ok(written[0] as usize)
}

/// One configuration write of a script.
#[derive(Clone, Copy, Debug, PartialEq, Eq, Hash)]
pub struct RegisterWrite {
    /// The function that it is for.
    pub id: Id,
    /// The offset of its dword in the function's configuration space.
    pub register: u16,
    /// Which of the dword's bytes are written: bit 0 is that of the lowest offset.
    pub enables: u8,
    /// The dword's bytes by rising offset; those that are not written are 0.
    pub data: [u8; 4],
    /// The whole header, type 0 for the root bus and type 1 below.
    pub header: [u8; 12],
}

impl RegisterWrite {
    /// The offsets and the bytes that are written.
    pub fn bytes(self) -> impl Iterator<Item = (u16, u8)> {
        let enables = self.enables;
        (self.register..)
            .zip(self.data)
            .enumerate()
            .filter(move |(byte, _)| enables >> byte & 1 == 1)
            .map(|(_, pair)| pair)
    }
}

/// The writes of a script, in their order. Ends before a record that is none of [`write_script`]'s.
pub fn writes(script: &[u8]) -> Writes<'_> {
    Writes { rest: script }
}

/// The iterator that [`writes`] returns.
#[derive(Clone, Debug)]
pub struct Writes<'a> {
    rest: &'a [u8],
}

impl Iterator for Writes<'_> {
    type Item = RegisterWrite;

    fn next(&mut self) -> Option<RegisterWrite> {
        let (record, rest) = self.rest.split_first_chunk::<RECORD>()?;
        if record[..HEADER] != [0, 16] {
            return None;
        }
        self.rest = rest;
        let [high, low] = [record[REGISTER], record[REGISTER + 1]];
        Some(RegisterWrite {
            id: Id(u16::from_be_bytes([record[TARGET], record[TARGET + 1]])),
            register: u16::from_be_bytes([high & 0xF, low & 0xFC]),
            enables: record[ENABLES] & 0xF,
            data: *record[DATA..].first_chunk().expect("four bytes after the header"),
            header: *record[HEADER..].first_chunk().expect("twelve bytes after the length"),
        })
    }

    fn size_hint(&self) -> (usize, Option<usize>) {
        (0, Some(self.rest.len() / RECORD))
    }
}
