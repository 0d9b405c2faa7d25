//! The index of a sheet: a search in place of the walk.

use crate::{accepted, arrival, calls, functions, Arrival, HostRecord, Refusal};
use core::fmt;
#[cfg(feature = "std")]
use std::{vec, vec::Vec};

/// The length of the index of the largest sheet.
pub const FULL_INDEX: usize = index_length(functions::MOST);

/// The length of the index of a sheet with so many functions.
pub const fn index_length(functions: usize) -> usize {
    1024 + 256 * functions
}

/// A sheet with its index: for many headers over one sheet that has one owner for every address. A reference to it is an
/// [`Engine`](crate::Engine), by which traces are labelled.
///
/// The sheet `S` and the bytes `B` that the index is built in are lent or owned: slices, arrays, or vectors. While the index
/// is there the sheet cannot change. Another, or the same with a command word rewritten, needs another index.
///
/// ```
/// use cartsundial::{index_length, lines, route, HostRecord, Index, Refusal};
///
/// let host = HostRecord {
///     buses: (0, 255),
///     low: (0xF900_0000, 0xF9FF_FFFF),
///     high: (0x2_4000_0000, 0x2_7FFF_FFFF),
///     io: (0x4000, 0x4FFF),
/// };
/// // A function on bus 0 with a memory BAR of 4 KiB at F9000000, enabled.
/// let mut sheet = [0; 93];
/// sheet[..3].copy_from_slice(&[1, 0, 90]);
/// sheet[5 + 0x04] = 2;
/// sheet[5 + 0x10..][..4].copy_from_slice(&0xF900_0000_u32.to_le_bytes());
/// sheet[69..73].copy_from_slice(&0xFFFF_F000_u32.to_be_bytes());
///
/// let mut bytes = [0; index_length(1)];
/// let index = Index::build(&host, &sheet, &mut bytes)?;
/// // A memory read of one dword at F9000FFC.
/// let header = [0, 0, 0, 1, 0, 0, 0x21, 0x0F, 0xF9, 0, 0x0F, 0xFC];
/// assert_eq!(index.find(&header)?.delivery().map(|delivery| delivery.record), Some(1));
/// assert_eq!(index.find(&header), route(&header, &sheet));
/// // The same header as a trace, which has a version byte, and a length before each header.
/// let trace = [&[1, 0, 12], &header[..]].concat();
/// assert_eq!(&*lines(&index, &trace).next().unwrap(), "1 MRd owner 1");
/// # Ok::<(), Refusal>(())
/// ```
#[derive(Clone, Copy)]
pub struct Index<S, B> {
    sheet: S,
    bytes: B,
}

impl<S: AsRef<[u8]>, B: AsRef<[u8]> + AsMut<[u8]>> Index<S, B> {
    /// Builds the index at the start of `bytes`, of which it takes [`index_length`]. The audit's numbers are the refusals,
    /// then 11 for fewer bytes; a refusal leaves them as they were.
    pub fn build(host: &HostRecord, sheet: S, mut bytes: B) -> Result<Index<S, B>, Refusal> {
        accepted(calls::index(&host.bytes(), sheet.as_ref(), bytes.as_mut()))?;
        Ok(Index { sheet, bytes })
    }

    /// The same for every sheet that is [`sound`](crate::sound()), by its numbers. Of a sheet that the audit accepts the two
    /// leave the same bytes.
    pub fn sound(host: &HostRecord, sheet: S, mut bytes: B) -> Result<Index<S, B>, Refusal> {
        accepted(calls::index_sound(&host.bytes(), sheet.as_ref(), bytes.as_mut()))?;
        Ok(Index { sheet, bytes })
    }

    /// The same for a sheet without a host record, by the numbers of [`sound_alone`](crate::sound_alone).
    pub fn alone(sheet: S, mut bytes: B) -> Result<Index<S, B>, Refusal> {
        accepted(calls::index_alone(sheet.as_ref(), bytes.as_mut()))?;
        Ok(Index { sheet, bytes })
    }
}

#[cfg(feature = "std")]
impl<S: AsRef<[u8]>> Index<S, Vec<u8>> {
    /// Builds the index in a vector of its length, [`FULL_INDEX`] at most, however long the sheet is. *With the feature
    /// `std`.*
    pub fn new(host: &HostRecord, sheet: S) -> Result<Index<S, Vec<u8>>, Refusal> {
        let bytes = vec![0; index_length(functions::most_in(sheet.as_ref()))];
        Index::build(host, sheet, bytes)
    }
}

impl<S: AsRef<[u8]>, B: AsRef<[u8]>> Index<S, B> {
    /// Where the header goes: for every header what [`route`](crate::route) answers over the sheet.
    pub fn find(&self, header: &[u8]) -> Result<Arrival, Refusal> {
        arrival::asked(header, self.sheet(), |answer| calls::find(header, self.bytes(), answer))
    }

    /// The sheet.
    pub fn sheet(&self) -> &[u8] {
        self.sheet.as_ref()
    }

    /// The bytes that the index was built in, for [`calls::find`] and [`calls::label`].
    pub fn bytes(&self) -> &[u8] {
        self.bytes.as_ref()
    }
}

/// How many bytes the two have.
impl<S: AsRef<[u8]>, B: AsRef<[u8]>> fmt::Debug for Index<S, B> {
    fn fmt(&self, f: &mut fmt::Formatter<'_>) -> fmt::Result {
        write!(f, "Index(sheet of {} bytes, in {} bytes)", self.sheet().len(), self.bytes().len())
    }
}
