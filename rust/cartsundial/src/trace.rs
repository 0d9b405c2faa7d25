//! A trace's records: read one by one, and written.

use crate::Refusal;
#[cfg(feature = "alloc")]
use alloc::{vec, vec::Vec};

/// The version of a trace, its first byte.
const VERSION: u8 = 1;

/// The headers of a trace, each as its record has it: bytes may follow a header, and a record may be too short for one.
/// A trace of no bytes is 20, one of another version 21.
///
/// ```
/// use cartsundial::{headers, Refusal};
///
/// let mut records = headers(&[1, 0, 2, 0xAA, 0xBB, 0, 0, 0])?;
/// assert_eq!(records.next(), Some(&[0xAA, 0xBB][..]));
/// assert_eq!(records.next(), Some(&[][..]));
/// assert_eq!(records.next(), None);
/// assert!(records.is_cut());
/// # Ok::<(), Refusal>(())
/// ```
pub fn headers(trace: &[u8]) -> Result<Headers<'_>, Refusal> {
    match trace.split_first() {
        None => Err(Refusal::Frame),
        Some((&VERSION, rest)) => Ok(Headers { rest }),
        Some(_) => Err(Refusal::Version),
    }
}

/// See [`headers()`].
#[derive(Clone, Debug)]
pub struct Headers<'a> {
    rest: &'a [u8],
}

impl<'a> Headers<'a> {
    /// Of records alone, without a version byte before them: a part of a trace that was cut between two.
    pub const fn of_records(records: &'a [u8]) -> Headers<'a> {
        Headers { rest: records }
    }

    /// What was not read yet.
    pub const fn rest(&self) -> &'a [u8] {
        self.rest
    }

    /// Whether the trace ends inside the record that comes next.
    pub fn is_cut(&self) -> bool {
        !self.rest.is_empty() && self.clone().next().is_none()
    }
}

impl<'a> Iterator for Headers<'a> {
    type Item = &'a [u8];

    fn next(&mut self) -> Option<&'a [u8]> {
        let (length, after) = self.rest.split_first_chunk()?;
        let (header, after) = after.split_at_checked(u16::from_be_bytes(*length).into())?;
        self.rest = after;
        Some(header)
    }
}

/// A trace that is written, header by header. *With the feature `alloc`.*
///
/// ```
/// use cartsundial::{headers, Refusal, TraceWriter};
///
/// let mut trace = TraceWriter::new();
/// trace.push(&[0, 0, 0, 1, 0, 0, 0x21, 0x0F, 0xF9, 0, 0x0F, 0xFC])?;
/// assert_eq!(headers(trace.bytes())?.count(), 1);
/// assert_eq!(trace.push(&[0; 65_536]), Err(Refusal::TooWide));
/// # Ok::<(), Refusal>(())
/// ```
#[cfg(feature = "alloc")]
#[derive(Clone, Debug, PartialEq, Eq)]
pub struct TraceWriter {
    bytes: Vec<u8>,
}

#[cfg(feature = "alloc")]
impl TraceWriter {
    /// A trace without records.
    pub fn new() -> TraceWriter {
        TraceWriter { bytes: vec![VERSION] }
    }

    /// Writes a record with these bytes. More than 65,535 do not fit its length: 10.
    pub fn push(&mut self, header: &[u8]) -> Result<(), Refusal> {
        let length = u16::try_from(header.len()).map_err(|_| Refusal::TooWide)?;
        self.bytes.extend(length.to_be_bytes());
        self.bytes.extend(header);
        Ok(())
    }

    /// The trace so far.
    pub fn bytes(&self) -> &[u8] {
        &self.bytes
    }

    /// The trace.
    pub fn into_bytes(self) -> Vec<u8> {
        self.bytes
    }
}

#[cfg(feature = "alloc")]
impl Default for TraceWriter {
    fn default() -> TraceWriter {
        TraceWriter::new()
    }
}
