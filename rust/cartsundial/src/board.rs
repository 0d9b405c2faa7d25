//! A board's records, and what its bridges keep free.

use crate::{plan, Refusal};

/// Where a record has its header type, and a bridge of version 2 its spares.
const HEADER_TYPE: usize = 3;
const SPARES: usize = 14;

/// What a bridge keeps free below it, for a card that is plugged in later.
#[derive(Clone, Copy, Debug, Default, PartialEq, Eq, Hash)]
pub struct Spares {
    /// Bus numbers: the last ones of its range, right after all buses below it.
    pub buses: u8,
    /// Low memory in MiB, at the end of its low window.
    pub memory: u16,
}

impl Spares {
    /// How many bytes they are, the last of a bridge's record in version 2.
    pub const BYTES: usize = 3;

    /// From the record's last bytes.
    pub const fn from_bytes(bytes: &[u8; Spares::BYTES]) -> Spares {
        Spares { buses: bytes[0], memory: u16::from_be_bytes([bytes[1], bytes[2]]) }
    }

    /// The record's last bytes.
    pub const fn bytes(&self) -> [u8; Spares::BYTES] {
        let [high, low] = self.memory.to_be_bytes();
        [self.buses, high, low]
    }
}

/// A bridge of a board.
#[derive(Clone, Copy, Debug, PartialEq, Eq, Hash)]
pub struct Bridge {
    /// The board's record, from 1.
    pub record: u16,
    /// None of either in version 1.
    pub spares: Spares,
}

/// The bridges of a lawful board of either version, in record order. A board that is not lawful is refused with its
/// number, 20 to 26; that its buses or its room run out does not matter here.
///
/// ```
/// use cartsundial::{bridges, Bridge, Refusal, Spares};
///
/// // A host with all pools closed, and a bridge that keeps two buses free.
/// let mut board = vec![2, 0, 30, 0, 255, 1, 0, 0, 0, 0, 0, 0, 0];
/// board.extend([1, 0, 0, 0, 0, 0, 0, 0, 0, 0, 0, 0, 0, 0, 0, 0, 1, 0, 0, 0]);
/// board.extend([0, 17, 0, 0, 0, 1, 0, 3, 0, 0, 0, 0, 0, 0, 0, 0]);
/// board.extend(Spares { buses: 2, memory: 0 }.bytes());
/// let all: Vec<Bridge> = bridges(&board)?.collect();
/// assert_eq!(all, [Bridge { record: 1, spares: Spares { buses: 2, memory: 0 } }]);
/// # Ok::<(), Refusal>(())
/// ```
pub fn bridges(board: &[u8]) -> Result<impl Iterator<Item = Bridge> + '_, Refusal> {
    lawful(board)?;
    let is_bridge = |part: &[u8]| part.get(HEADER_TYPE).is_some_and(|byte| byte & 0x7F == 1);
    let of_bridges = records(board).enumerate().skip(1).filter(move |(_, (part, _))| is_bridge(part));
    Ok(of_bridges.map(|(record, (part, _))| {
        let end = part.get(SPARES..).and_then(<[u8]>::first_chunk);
        Bridge { record: record as u16, spares: end.map_or(Spares::default(), Spares::from_bytes) }
    }))
}

/// The number of a board that is not lawful, 20 to 26.
pub(crate) fn lawful(board: &[u8]) -> Result<(), Refusal> {
    match number_of(board) {
        Some(refusal) if !is_lawful(refusal) => Err(refusal),
        _ => Ok(()),
    }
}

/// Whether a board that is refused so in no room at all has passed its own checks.
fn is_lawful(refusal: Refusal) -> bool {
    use Refusal::*;
    matches!(refusal, ShortRoom | NoBuses | NoLowRoom | NoHighRoom | NoIoRoom)
}

/// What the board is refused with in no room at all. Short room comes last, so 30 to 33 are the same in any room.
pub(crate) fn number_of(board: &[u8]) -> Option<Refusal> {
    plan(board, &mut []).err()
}

/// The board's records, the host's first, each without its length, and where each ends; as far as they are whole.
pub(crate) fn records(board: &[u8]) -> impl Iterator<Item = (&[u8], usize)> {
    let mut start = 1;
    core::iter::from_fn(move || {
        let (length, rest) = board.get(start..)?.split_first_chunk()?;
        let part = rest.get(..usize::from(u16::from_be_bytes(*length)))?;
        start += length.len() + part.len();
        Some((part, start))
    })
}
