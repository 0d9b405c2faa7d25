//! The lines of a whole trace, one by one.

use crate::{Annotator, Engine, Label, LONGEST_LINE};
use core::fmt;
use core::iter::FusedIterator;
use core::ops::Deref;

/// How many records of the trace are fed at a time, at most: the iterator holds room for so many lines. A sheet is checked
/// once for each of these pieces.
const RECORDS: usize = 64;

const ROOM: usize = RECORDS * LONGEST_LINE;

/// A line of an annotated trace, without its newline: a `str`. [`label`](Line::label) takes it apart.
#[derive(Clone, Copy, PartialEq, Eq, Hash)]
pub struct Line {
    /// The line, and zeros past its end.
    bytes: [u8; LONGEST_LINE],
    length: usize,
}

impl Line {
    fn new(text: &[u8]) -> Line {
        let mut bytes = [0; LONGEST_LINE];
        bytes[..text.len()].copy_from_slice(text);
        Line { bytes, length: text.len() }
    }

    /// What the line says.
    pub fn label(&self) -> Label {
        self.parse().expect("a line of the library")
    }
}

impl Deref for Line {
    type Target = str;

    fn deref(&self) -> &str {
        core::str::from_utf8(&self.bytes[..self.length]).expect("a line has letters, digits, spaces and -")
    }
}

impl AsRef<str> for Line {
    fn as_ref(&self) -> &str {
        self
    }
}

impl fmt::Display for Line {
    fn fmt(&self, f: &mut fmt::Formatter<'_>) -> fmt::Result {
        f.pad(self)
    }
}

impl fmt::Debug for Line {
    fn fmt(&self, f: &mut fmt::Formatter<'_>) -> fmt::Result {
        fmt::Debug::fmt(&**self, f)
    }
}

/// The lines of a whole trace, over a sheet or by an index, the last one of a trace that is cut or has no bytes among them.
/// [`Engine`] says what each costs; a sheet is checked once for 64 records.
///
/// ```
/// use cartsundial::{lines, Label, Refusal};
///
/// // Two records: a memory read, over a sheet with no functions, and one of no bytes; then half a length.
/// let trace = [1, 0, 12, 0, 0, 0, 1, 0, 0, 0x21, 0x0F, 0xF9, 0, 0x0F, 0xFC, 0, 0, 0];
/// let mut lines = lines(&[1], &trace);
/// let first = lines.next().unwrap();
/// assert_eq!(&*first, "1 MRd refused 40");
/// assert!(matches!(first.label(), Label::Refused { number: 1, refusal: Refusal::NoOwner, .. }));
/// assert_eq!(&*lines.next().unwrap(), "2 - refused 1");
/// assert_eq!(lines.next().unwrap().label(), Label::Cut);
/// assert!(lines.next().is_none());
/// ```
pub fn lines<'a>(by: impl Into<Engine<'a>>, trace: &'a [u8]) -> Lines<'a> {
    Lines {
        by: by.into(),
        rest: trace,
        annotator: Annotator::new(),
        stage: Stage::First,
        room: [0; ROOM],
        start: 0,
        end: 0,
    }
}

/// See [`lines()`].
#[derive(Clone)]
pub struct Lines<'a> {
    by: Engine<'a>,
    /// What was not fed yet.
    rest: &'a [u8],
    annotator: Annotator,
    stage: Stage,
    /// The lines that were not given yet are from `start` to `end`.
    room: [u8; ROOM],
    start: usize,
    end: usize,
}

/// What comes when the lines in the room are given.
#[derive(Clone, Copy)]
enum Stage {
    /// The version byte, and the first records.
    First,
    /// More records, or the end.
    Records,
    /// Nothing.
    Finished,
}

impl Lines<'_> {
    /// The next line in the room.
    fn pending(&mut self) -> Option<Line> {
        let pending = &self.room[self.start..self.end];
        let length = pending.iter().position(|&byte| byte == b'\n')?;
        self.start += length + 1;
        Some(Line::new(&pending[..length]))
    }

    /// Fills the room with the lines of the next piece, or with the last line.
    fn fill(&mut self) {
        let length = if self.rest.is_empty() {
            self.stage = Stage::Finished;
            self.annotator.finish(&mut self.room)
        } else {
            let version = matches!(self.stage, Stage::First).into();
            let (piece, rest) = self.rest.split_at(piece_length(self.rest, version));
            self.rest = rest;
            self.stage = Stage::Records;
            self.annotator.feed(self.by, piece, &mut self.room)
        };
        if self.annotator.is_of_other_version() {
            self.stage = Stage::Finished;
        }
        (self.start, self.end) = (0, length.expect("there is room for the lines of a piece"));
    }
}

/// The length of the next piece, after so many bytes of it: the next [`RECORDS`] records, or all the rest, where it has
/// fewer that are whole.
fn piece_length(rest: &[u8], start: usize) -> usize {
    let mut end = start;
    for _ in 0..RECORDS {
        let Some(length) = rest[end..].first_chunk() else { return rest.len() };
        let after = end + length.len() + usize::from(u16::from_be_bytes(*length));
        if after > rest.len() {
            return rest.len();
        }
        end = after;
    }
    end
}

impl Iterator for Lines<'_> {
    type Item = Line;

    fn next(&mut self) -> Option<Line> {
        loop {
            if let Some(line) = self.pending() {
                return Some(line);
            }
            if matches!(self.stage, Stage::Finished) {
                return None;
            }
            self.fill();
        }
    }
}

impl FusedIterator for Lines<'_> {}

impl fmt::Debug for Lines<'_> {
    fn fmt(&self, f: &mut fmt::Formatter<'_>) -> fmt::Result {
        f.debug_struct("Lines")
            .field("by", &self.by)
            .field("rest", &self.rest.len())
            .field("annotator", &self.annotator)
            .finish_non_exhaustive()
    }
}
