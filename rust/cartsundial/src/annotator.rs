//! A trace annotated in pieces.

use crate::calls::{self, TRACE};
use crate::{accepted, Engine, Refusal};

/// No line of a trace is longer, with its newline: a number of 20 digits, a kind of 6 letters, a sender, and a refusal,
/// with room to spare.
pub const LONGEST_LINE: usize = 51;

/// Where the state has its stage, and the number of the last whole record.
const STAGE: usize = 0;
const RECORD_NUMBER: usize = 2;

/// The stages after a first byte that is another version's, and between two records.
const OTHER_VERSION: u64 = 1;
const BETWEEN: u64 = 2;

/// How far a trace was read. The trace goes in piece by piece; out comes a line for each record, with the record's last
/// byte.
///
/// Wherever the cuts fall, the lines of the pieces together, and the state after them, are those of the trace in one
/// piece, given the same sheet throughout, or its index; that is proved. Two annotators that were fed the same bytes are equal.
///
/// Each piece is fed together with what it is labelled by, an [`Engine`]: a reference to a sheet or to an
/// [`Index`](crate::Index), or [both ends](Engine::both_ends). A sheet is checked for each piece, so feed some KiB at a time.
///
/// [`lines()`](crate::lines()) takes a whole trace. With the feature `std`, `Labeller` is an `io::Write`.
///
/// ```
/// use cartsundial::{plan, Annotator, Refusal, FULL_SHEET};
///
/// // A board: the host with its pools, and a card of 4 KiB memory.
/// let mut board = vec![1, 0, 30, 0, 255, 0xF9, 0, 0, 0, 0xF9, 0xFF, 0xFF, 0xFF];
/// board.extend([0xFF, 0xFF, 0xFF, 0xFF, 0xFF, 0xFF, 0xFF, 0xFF, 0, 0, 0, 0, 0, 0, 0, 0, 0xFF, 0xFF, 0, 0]);
/// board.extend([0, 30, 0, 0, 0, 0, 0, 2, 0xFF, 0xFF, 0xF0, 0]);
/// board.extend([0; 20]);
/// let mut sheet = vec![0; FULL_SHEET];
/// let length = plan(&board, &mut sheet)?;
/// let sheet = &sheet[..length];
///
/// // A trace: the version, then two memory reads of one dword, each after its length.
/// let mut trace = vec![1];
/// trace.extend([0, 12, 0, 0, 0, 1, 0, 0, 0x21, 0x0F, 0xF9, 0, 0x0F, 0xFC]);
/// trace.extend([0, 12, 0, 0, 0, 1, 0, 0, 0x22, 0x0F, 0xF9, 0, 0x10, 0x00]);
///
/// let mut annotator = Annotator::new();
/// let mut room = [0; Annotator::room_for(20)];
/// let length = annotator.feed(sheet, &trace[..20], &mut room)?;
/// assert_eq!(&room[..length], b"1 MRd owner 1\n");
///
/// // Inside the second record. If the trace ended here it would be cut.
/// let length = annotator.finish(&mut room)?;
/// assert_eq!(&room[..length], b"cut\n");
///
/// // In short room nothing changes, and the piece can be fed again.
/// assert_eq!(annotator.feed(sheet, &trace[20..], &mut [0; 16]), Err(Refusal::ShortRoom));
/// let length = annotator.feed(sheet, &trace[20..], &mut room)?;
/// assert_eq!(&room[..length], b"2 MRd refused 40\n");
/// assert_eq!(annotator.finish(&mut room), Ok(0));
/// assert_eq!(annotator.record_number(), 2);
/// # Ok::<(), Refusal>(())
/// ```
#[derive(Clone, Debug, Default, PartialEq, Eq, Hash)]
pub struct Annotator {
    state: [u64; TRACE],
}

impl Annotator {
    /// Before the first byte.
    pub const fn new() -> Annotator {
        Annotator { state: [0; TRACE] }
    }

    /// After the version byte and so many whole records: for a part of a trace that was cut between records. Its lines are
    /// those that it gets within the trace.
    pub const fn after(records: u64) -> Annotator {
        let mut state = [0; TRACE];
        state[STAGE] = BETWEEN;
        state[RECORD_NUMBER] = records;
        Annotator { state }
    }

    /// Room that the lines of any piece of so many bytes fit: one line for the record under way, and one for each two
    /// bytes, which is a record of no bytes.
    pub const fn room_for(piece: usize) -> usize {
        (piece / 2 + 1).saturating_mul(LONGEST_LINE)
    }

    /// Takes the trace's next piece, which may hold no bytes, and writes the line of each record that ends in it, a newline
    /// after each, at the start of `lines`. Returns how many bytes these are.
    ///
    /// Only [`Refusal::ShortRoom`] comes back, where they do not fit. Then the piece is not taken, and may be fed again with
    /// more room, or in smaller pieces. A sheet that fails its checks is in the lines: `1 MRd refused 27`.
    pub fn feed<'e>(&mut self, by: impl Into<Engine<'e>>, piece: &[u8], lines: &mut [u8]) -> Result<usize, Refusal> {
        let mut written = [0];
        accepted(by.into().feed(&mut self.state, piece, lines, &mut written))?;
        Ok(written[0] as usize)
    }

    /// Writes the line that the trace gets if it ends here, at most [`LONGEST_LINE`] bytes, and returns how many: `cut`
    /// inside a record, `refused 20` where there was no byte, else none. More may follow, as if nothing had been asked.
    pub fn finish(&self, lines: &mut [u8]) -> Result<usize, Refusal> {
        let mut written = [0];
        accepted(calls::annotate_end(&self.state, lines, &mut written))?;
        Ok(written[0] as usize)
    }

    /// The number of the last record that was read whole, 0 before the first. After 2^64 - 1 comes 0.
    pub const fn record_number(&self) -> u64 {
        self.state[RECORD_NUMBER]
    }

    /// Whether the trace's first byte was another version's: no line comes after its `refused 21`, whatever is fed.
    pub const fn is_of_other_version(&self) -> bool {
        self.state[STAGE] == OTHER_VERSION
    }
}
