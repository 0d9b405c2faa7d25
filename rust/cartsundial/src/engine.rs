//! What the headers of a trace are labelled by.

use crate::calls::{self, TRACE};
use crate::{Id, Index};
use core::fmt;

/// What the headers of a trace are labelled by: a sheet, over which each is routed, or an [`Index`], in which each is
/// searched. It is made of a reference to either, so that [`lines()`](crate::lines()), [`Annotator`](crate::Annotator) and
/// `Labeller` take both. [Both ends](Engine::both_ends) are told over a sheet, with the host's own ID.
///
/// By an index the lines are those over the sheet that it was built from, wherever the trace is cut; that is proved. They
/// do not cost the same:
///
/// | by | before | each piece | each header |
/// |---|---|---|---|
/// | an index, of a sheet that the audit accepts | built once: 7 µs for 16 functions, 0.4 ms for 512 | nothing | 35 to 45 ns |
/// | a sheet, which may be any bytes | nothing | its check, 25 ns a function | 0.2 µs over 16 functions, 3 over 256, 7 to 9 over 512 |
/// | both ends, over a sheet | nothing | its check | as a sheet, and the search for the sender |
#[derive(Clone, Copy)]
pub struct Engine<'a>(Bytes<'a>);

#[derive(Clone, Copy)]
enum Bytes<'a> {
    Sheet(&'a [u8]),
    Index(&'a [u8]),
    BothEnds(Id, &'a [u8]),
}

impl<'a> Engine<'a> {
    /// Both ends of each packet, over a sheet, which may be any bytes: from whom it comes and to whom it goes, where the host's
    /// own ID is `host_id`. The lines are those of [`sent`](crate::sent()) on each record, and where that refuses it of
    /// [`sender`](crate::sender).
    ///
    /// ```
    /// use cartsundial::{lines, Engine, Id, Label, Owner, Sender};
    ///
    /// // A sheet of one card, 00:01.0, with bus master; and a trace of what it sends up: a message, and a memory write.
    /// let mut sheet = vec![1, 0, 90, 0x00, 0x08];
    /// sheet.extend([0; 88]);
    /// sheet[5 + 4] = 7;
    /// let mut trace = vec![1, 0, 16, 0x30, 0, 0, 0, 0x00, 0x08, 0, 0x18, 0, 0, 0, 0, 0, 0, 0, 0];
    /// trace.extend([0, 12, 0x40, 0, 0, 1, 0x00, 0x08, 0, 0x0F, 0x7F, 0x3A, 0x10, 0x00]);
    ///
    /// let both = Engine::both_ends(Id(0), &sheet);
    /// let mut lines = lines(both, &trace);
    /// assert_eq!(&*lines.next().unwrap(), "1 Msg from 1 to host");
    /// let label = lines.next().unwrap().label();
    /// assert!(matches!(label, Label::Owned { sender: Some(Sender::Record(1)), owner: Owner::Host, .. }));
    /// ```
    pub fn both_ends<S: AsRef<[u8]> + ?Sized>(host_id: Id, sheet: &'a S) -> Engine<'a> {
        Engine(Bytes::BothEnds(host_id, sheet.as_ref()))
    }

    /// Takes a piece of a trace: the library's number.
    #[inline]
    pub(crate) fn feed(self, state: &mut [u64; TRACE], piece: &[u8], lines: &mut [u8], written: &mut [u64; 1]) -> u32 {
        match self.0 {
            Bytes::Sheet(sheet) => calls::annotate(state, sheet, piece, lines, written),
            Bytes::Index(index) => calls::label(state, index, piece, lines, written),
            Bytes::BothEnds(id, sheet) => calls::follow(id.0.into(), state, sheet, piece, lines, written),
        }
    }
}

/// A sheet, which may be any bytes.
impl<'a, S: AsRef<[u8]> + ?Sized> From<&'a S> for Engine<'a> {
    fn from(sheet: &'a S) -> Engine<'a> {
        Engine(Bytes::Sheet(sheet.as_ref()))
    }
}

impl<'a, S: AsRef<[u8]>, B: AsRef<[u8]>> From<&'a Index<S, B>> for Engine<'a> {
    fn from(index: &'a Index<S, B>) -> Engine<'a> {
        Engine(Bytes::Index(index.bytes()))
    }
}

/// Which it is, and how many bytes it has.
impl fmt::Debug for Engine<'_> {
    fn fmt(&self, f: &mut fmt::Formatter<'_>) -> fmt::Result {
        match self.0 {
            Bytes::Sheet(sheet) => write!(f, "Sheet({} bytes)", sheet.len()),
            Bytes::Index(index) => write!(f, "Index({} bytes)", index.len()),
            Bytes::BothEnds(id, sheet) => write!(f, "BothEnds({id}, {} bytes)", sheet.len()),
        }
    }
}
