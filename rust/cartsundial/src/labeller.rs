//! The annotator as an `io::Write`.

use crate::{Annotator, Engine};
use std::fmt;
use std::io::{self, ErrorKind, Write};
use std::ops::Range;
use std::vec;
use std::vec::Vec;

/// How many bytes of a trace are taken at a time.
const PIECE: usize = 4096;

/// Takes the bytes of a trace, in pieces of any size, and writes its lines to `W` as they come: over a sheet or by an index.
/// *With the feature `std`.*
///
/// [`Engine`] says what each costs; a sheet is checked once for each piece, which has up to 4 KiB.
///
/// Each piece's lines go to `W` together, with [`Write::write`]. Where `W` fails, they are kept and are written first by the
/// next call, which tells the error if `W` fails again: no line is lost, and none comes twice. The last line of a trace that
/// is cut, or has no bytes, comes with [`finish`](Labeller::finish), and nothing comes when the labeller is dropped.
///
/// ```
/// use cartsundial::Labeller;
/// use std::io::{self, Write};
///
/// let trace = [1, 0, 12, 0, 0, 0, 1, 0, 0, 0x21, 0x0F, 0xF9, 0, 0x0F, 0xFC, 0, 0, 0];
/// let mut labeller = Labeller::new(&[1], Vec::new());
/// io::copy(&mut &trace[..], &mut labeller)?;
/// assert_eq!(labeller.get_ref(), b"1 MRd refused 40\n2 - refused 1\n");
/// labeller.finish()?;
/// assert_eq!(labeller.into_inner(), b"1 MRd refused 40\n2 - refused 1\ncut\n");
/// # Ok::<(), io::Error>(())
/// ```
#[must_use = "the last line comes with `finish`"]
pub struct Labeller<'a, W: Write> {
    by: Engine<'a>,
    annotator: Annotator,
    has_ended: bool,
    /// Room for the lines of any piece. Those that are not written yet are `pending`.
    room: Vec<u8>,
    pending: Range<usize>,
    out: W,
}

impl<'a, W: Write> Labeller<'a, W> {
    /// For a trace from its start, over this sheet or by this index.
    pub fn new(by: impl Into<Engine<'a>>, out: W) -> Labeller<'a, W> {
        Labeller {
            by: by.into(),
            annotator: Annotator::new(),
            has_ended: false,
            room: vec![0; Annotator::room_for(PIECE)],
            pending: 0..0,
            out,
        }
    }

    /// Ends the trace: writes its last line, if it gets one, and flushes `W`. Where `W` fails, call it again: what was not
    /// written yet is kept. Behind the last line no more of the trace is taken.
    pub fn finish(&mut self) -> io::Result<()> {
        self.write_pending()?;
        if !self.has_ended {
            let length = self.annotator.finish(&mut self.room).expect("there is room for a line");
            (self.pending, self.has_ended) = (0..length, true);
        }
        self.flush()
    }

    /// How far the trace was read.
    pub fn annotator(&self) -> &Annotator {
        &self.annotator
    }

    /// Where the lines go.
    pub fn get_ref(&self) -> &W {
        &self.out
    }

    /// Where the lines go, to make room there. What is written to it by another way stands between the lines.
    pub fn get_mut(&mut self) -> &mut W {
        &mut self.out
    }

    /// Where the lines go. Those that `W` did not take, and the last one unless the trace was [finished](Labeller::finish),
    /// are lost.
    pub fn into_inner(self) -> W {
        self.out
    }

    /// Writes the lines that are not written yet.
    fn write_pending(&mut self) -> io::Result<()> {
        while !self.pending.is_empty() {
            match self.out.write(&self.room[self.pending.clone()]) {
                Ok(0) => return Err(ErrorKind::WriteZero.into()),
                Ok(length) => self.pending.start += length,
                Err(error) if error.kind() == ErrorKind::Interrupted => {}
                Err(error) => return Err(error),
            }
        }
        Ok(())
    }
}

impl<W: Write> Write for Labeller<'_, W> {
    /// Takes a piece from the start of `trace` and returns its length, 4,096 at most. An error is about the lines of an
    /// earlier piece, or the trace has ended: nothing of this one was taken. After another version's byte nothing is looked
    /// at, and all of it is taken.
    fn write(&mut self, trace: &[u8]) -> io::Result<usize> {
        self.write_pending()?;
        if self.has_ended {
            return Err(io::Error::new(ErrorKind::InvalidInput, "the trace has ended"));
        }
        if self.annotator.is_of_other_version() {
            return Ok(trace.len());
        }
        let piece = &trace[..trace.len().min(PIECE)];
        let length =
            self.annotator.feed(self.by, piece, &mut self.room).expect("there is room for the lines of a piece");
        self.pending = 0..length;
        // The piece is taken, so what goes wrong here must wait for the next call.
        let _ = self.write_pending();
        Ok(piece.len())
    }

    /// Writes the lines of all whole records, and flushes `W`.
    fn flush(&mut self) -> io::Result<()> {
        self.write_pending()?;
        self.out.flush()
    }
}

impl<W: Write + fmt::Debug> fmt::Debug for Labeller<'_, W> {
    fn fmt(&self, f: &mut fmt::Formatter<'_>) -> fmt::Result {
        f.debug_struct("Labeller")
            .field("by", &self.by)
            .field("annotator", &self.annotator)
            .field("pending", &self.pending.len())
            .field("out", &self.out)
            .finish_non_exhaustive()
    }
}
