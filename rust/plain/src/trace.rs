//! The trace annotator (request E4 of document 02): a line for each header of a trace, whole or fed in pieces, over a sheet
//! or by an index (E8); or with both ends of each packet (E15 of document 03).
//!
//! A trace is version byte 1, then records of a two-byte length and as many header bytes.

use std::{fmt, mem};

use crate::index::Index;
use crate::packet::{self, Packet};
use crate::route::{Arrival, Owners};
use crate::sent::{self, Ends};
use crate::sheet::Sheet;

const VERSION: u8 = 1;
/// The longest header. What a record has beyond it is not looked at.
const FRONT: usize = 16;

/// The lines of a whole trace over a sheet.
pub fn annotate(sheet: &[u8], trace: &[u8]) -> String {
    whole(owner_line(Sheet::new(sheet)), trace)
}

/// The lines of a whole trace by an index that was built, or by any bytes.
pub fn label(index: &[u8], trace: &[u8]) -> String {
    whole(owner_line(Ok(Index::new(index))), trace)
}

/// The lines of a whole trace with both ends, where the host's own ID is `host_id`: up to FFFFh, else 10.
pub fn follow(host_id: u64, sheet: &[u8], trace: &[u8]) -> Result<String, u8> {
    let host_id = sent::id(host_id)?;
    Ok(whole(ends_line(host_id, Sheet::new(sheet)), trace))
}

/// With what writes the line of a record whose header was read.
fn whole(line_of: impl Fn(u64, Packet) -> String, trace: &[u8]) -> String {
    let Some((&version, mut rest)) = trace.split_first() else { return refused(20) };
    if version != VERSION {
        return refused(21);
    }
    let mut lines = String::new();
    let mut number: u64 = 1;
    while let Some((&length, after)) = rest.split_first_chunk() {
        let Some((header, after)) = after.split_at_checked(u16::from_be_bytes(length).into()) else { break };
        lines += &line(number, header, &line_of);
        number = number.wrapping_add(1);
        rest = after;
    }
    if !rest.is_empty() {
        lines += CUT;
    }
    lines
}

const CUT: &str = "cut\n";

pub(crate) fn refused(number: u8) -> String {
    format!("refused {number}\n")
}

/// A record's line: `3 - refused 4` where its header is not read.
fn line(number: u64, header: &[u8], line_of: impl Fn(u64, Packet) -> String) -> String {
    match packet::read(header) {
        Ok(packet) => line_of(number, packet),
        Err(refusal) => format!("{number} - refused {refusal}\n"),
    }
}

/// `1 MRd owner 2`, `2 IOWr refused 40`, `4 Msg owner all` or `5 Msg owner port`: by what answers for a packet, or with the
/// number that refuses all of them.
fn owner_line(owners: Result<impl Owners, u8>) -> impl Fn(u64, Packet) -> String {
    move |number, packet| {
        // As read: a configuration request of type 1 arrives as type 0.
        let kind = packet.kind;
        match owners.as_ref().map_err(|&number| number).and_then(|owners| owners.route(packet)) {
            Ok(arrival) => format!("{number} {kind:?} owner {}\n", place(&arrival)),
            Err(refusal) => format!("{number} {kind:?} refused {refusal}\n"),
        }
    }
}

/// `4 MWr from 3 to host`, `6 MRd from host to 4` or `7 MWr from 3 refused 44`; over a sheet that fails its checks, which has no
/// senders, `1 MRd refused 27`.
fn ends_line(host_id: u16, sheet: Result<Sheet<'_>, u8>) -> impl Fn(u64, Packet) -> String + '_ {
    move |number, packet| {
        let kind = packet.kind;
        let ends = match sheet {
            Ok(sheet) => Ends { host_id, sheet },
            Err(refusal) => return format!("{number} {kind:?} refused {refusal}\n"),
        };
        let sender = ends.sender(&packet);
        match ends.arrival(sender, packet) {
            Ok(arrival) => format!("{number} {kind:?} from {sender} to {}\n", place(&arrival)),
            Err(refusal) => format!("{number} {kind:?} from {sender} refused {refusal}\n"),
        }
    }
}

/// Where a packet goes, in one word: a record number, `host`, `all` or `port`.
fn place(arrival: &Arrival) -> Place {
    match *arrival {
        Arrival::Function { record, .. } => Place::Record(record),
        Arrival::Host { .. } => Place::Word("host"),
        Arrival::Every { .. } => Place::Word("all"),
        Arrival::Port { .. } => Place::Word("port"),
    }
}

enum Place {
    Record(u16),
    Word(&'static str),
}

impl fmt::Display for Place {
    fn fmt(&self, f: &mut fmt::Formatter<'_>) -> fmt::Result {
        match self {
            Place::Record(record) => write!(f, "{record}"),
            Place::Word(word) => f.write_str(word),
        }
    }
}

/// How far a trace has been read.
#[derive(Clone, Debug, PartialEq, Eq)]
pub struct Annotator {
    /// The records read whole, modulo 2^64.
    records: u64,
    stage: Stage,
}

#[derive(Clone, Debug, PartialEq, Eq)]
enum Stage {
    /// No byte was read.
    Fresh,
    /// The first byte was another version's.
    OtherVersion,
    /// Every record so far is whole.
    Between,
    /// The high byte of a record's length was read.
    HalfLength(u8),
    /// A record's length was read and not all of its header: how many bytes are to come, and the front of those read.
    Inside { left: u16, front: Vec<u8> },
}

impl Default for Annotator {
    fn default() -> Annotator {
        Annotator::new()
    }
}

impl Annotator {
    /// Before the first byte.
    pub fn new() -> Annotator {
        Annotator { records: 0, stage: Stage::Fresh }
    }

    /// After the version byte and so many whole records, modulo 2^64: the next record's number is one more.
    pub fn after(records: u64) -> Annotator {
        Annotator { records, stage: Stage::Between }
    }

    /// Reads the trace's next piece and writes its lines at the start of `room`; how many bytes they are. In short room
    /// (11) the piece is not taken and nothing is written.
    pub fn feed(&mut self, sheet: &[u8], piece: &[u8], room: &mut [u8]) -> Result<usize, u8> {
        self.feed_by(owner_line(Sheet::new(sheet)), piece, room)
    }

    /// The same by an index that was built, or by any bytes.
    pub fn feed_index(&mut self, index: &[u8], piece: &[u8], room: &mut [u8]) -> Result<usize, u8> {
        self.feed_by(owner_line(Ok(Index::new(index))), piece, room)
    }

    /// The same with both ends, where the host's own ID is `host_id`: up to FFFFh, else 10.
    pub fn feed_ends(&mut self, host_id: u64, sheet: &[u8], piece: &[u8], room: &mut [u8]) -> Result<usize, u8> {
        let host_id = sent::id(host_id)?;
        self.feed_by(ends_line(host_id, Sheet::new(sheet)), piece, room)
    }

    fn feed_by(&mut self, line_of: impl Fn(u64, Packet) -> String, piece: &[u8], room: &mut [u8]) -> Result<usize, u8> {
        let mut then = self.clone();
        let mut lines = String::new();
        for &byte in piece {
            then.take(byte, &line_of, &mut lines);
        }
        let length = put(&lines, room)?;
        *self = then;
        Ok(length)
    }

    /// Writes the line that the trace gets if it ends here, if any; how many bytes it is, or 11.
    pub fn finish(&self, room: &mut [u8]) -> Result<usize, u8> {
        match self.stage {
            Stage::Fresh => put(&refused(20), room),
            Stage::HalfLength(_) | Stage::Inside { .. } => put(CUT, room),
            Stage::Between | Stage::OtherVersion => Ok(0),
        }
    }

    fn take(&mut self, byte: u8, line_of: impl Fn(u64, Packet) -> String, lines: &mut String) {
        self.stage = match mem::replace(&mut self.stage, Stage::Between) {
            Stage::Fresh if byte == VERSION => Stage::Between,
            Stage::Fresh => {
                *lines += &refused(21);
                Stage::OtherVersion
            }
            Stage::OtherVersion => Stage::OtherVersion,
            Stage::Between => Stage::HalfLength(byte),
            Stage::HalfLength(high) => self.inside(u16::from_be_bytes([high, byte]), Vec::new(), line_of, lines),
            Stage::Inside { left, mut front } => {
                if front.len() < FRONT {
                    front.push(byte);
                }
                self.inside(left - 1, front, line_of, lines)
            }
        };
    }

    /// A record of which so many bytes are to come. With none left it is whole, and its line is written.
    fn inside(
        &mut self,
        left: u16,
        front: Vec<u8>,
        line_of: impl Fn(u64, Packet) -> String,
        lines: &mut String,
    ) -> Stage {
        if left > 0 {
            return Stage::Inside { left, front };
        }
        self.records = self.records.wrapping_add(1);
        *lines += &line(self.records, &front, line_of);
        Stage::Between
    }
}

/// Writes the lines at the start of `room`, or nothing (11).
fn put(lines: &str, room: &mut [u8]) -> Result<usize, u8> {
    room.get_mut(..lines.len()).ok_or(11)?.copy_from_slice(lines.as_bytes());
    Ok(lines.len())
}
