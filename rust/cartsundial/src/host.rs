//! A host record, and the sheets that fit it.

use crate::{accepted, calls, Pool, Refusal};
use core::ops::RangeInclusive;

/// A board's host record: its buses and its pools, each by its first and its last. A pool with its first address above its
/// last is closed.
#[derive(Clone, Copy, Debug, PartialEq, Eq, Hash)]
pub struct HostRecord {
    /// The host's first bus, the root bus, and its last.
    pub buses: (u8, u8),
    /// The low memory pool: 1 MiB edges.
    pub low: (u32, u32),
    /// The high memory pool: 1 MiB edges, from 4 GiB to below 2^52.
    pub high: (u64, u64),
    /// The I/O pool: 4 KiB edges.
    pub io: (u16, u16),
}

impl HostRecord {
    /// The length of a host record, without the two bytes of its length.
    pub const BYTES: usize = 30;

    /// All buses, and every pool closed.
    pub const CLOSED: HostRecord =
        HostRecord { buses: (0, 0xFF), low: (u32::MAX, 0), high: (u64::MAX, 0), io: (u16::MAX, 0) };

    /// Of a board, of which no more is looked at: 20 where there is none, 21 for another version.
    pub fn of_board(board: &[u8]) -> Result<HostRecord, Refusal> {
        match board {
            [1 | 2, 0, 30, rest @ ..] => rest.first_chunk().map(HostRecord::from_bytes).ok_or(Refusal::Frame),
            [1 | 2, ..] | [] => Err(Refusal::Frame),
            _ => Err(Refusal::Version),
        }
    }

    /// From the bytes after the record's length, in a board those from 3 on.
    pub const fn from_bytes(b: &[u8; HostRecord::BYTES]) -> HostRecord {
        HostRecord {
            buses: (b[0], b[1]),
            low: (u32::from_be_bytes([b[2], b[3], b[4], b[5]]), u32::from_be_bytes([b[6], b[7], b[8], b[9]])),
            high: (
                u64::from_be_bytes([b[10], b[11], b[12], b[13], b[14], b[15], b[16], b[17]]),
                u64::from_be_bytes([b[18], b[19], b[20], b[21], b[22], b[23], b[24], b[25]]),
            ),
            io: (u16::from_be_bytes([b[26], b[27]]), u16::from_be_bytes([b[28], b[29]])),
        }
    }

    /// The addresses of a pool; `None` where it is closed.
    pub fn pool(&self, pool: Pool) -> Option<RangeInclusive<u64>> {
        let (first, last) = match pool {
            Pool::Low => (self.low.0.into(), self.low.1.into()),
            Pool::High => self.high,
            Pool::Io => (self.io.0.into(), self.io.1.into()),
        };
        (first <= last).then_some(first..=last)
    }

    /// How many bytes a pool has, 0 where it is closed.
    pub fn room(&self, pool: Pool) -> u64 {
        self.pool(pool).map_or(0, |range| (range.end() - range.start()).saturating_add(1))
    }

    /// How many bus numbers there are, 0 where the first is above the last.
    pub fn bus_numbers(&self) -> u32 {
        (u32::from(self.buses.1) + 1).saturating_sub(self.buses.0.into())
    }

    /// The record's bytes, each number's high byte first.
    pub fn bytes(&self) -> [u8; HostRecord::BYTES] {
        let mut bytes = [0; HostRecord::BYTES];
        bytes[..2].copy_from_slice(&[self.buses.0, self.buses.1]);
        bytes[2..6].copy_from_slice(&self.low.0.to_be_bytes());
        bytes[6..10].copy_from_slice(&self.low.1.to_be_bytes());
        bytes[10..18].copy_from_slice(&self.high.0.to_be_bytes());
        bytes[18..26].copy_from_slice(&self.high.1.to_be_bytes());
        bytes[26..28].copy_from_slice(&self.io.0.to_be_bytes());
        bytes[28..].copy_from_slice(&self.io.1.to_be_bytes());
        bytes
    }
}

/// Judges a sheet, whoever wrote it, for a host: the host's own check (26), the sheet's (20 to 29), then whether its buses
/// are a tree below the host (50), whether each BAR and open window lies in the window or pool above it (51), and whether
/// no two of them overlap on a bus (52).
///
/// Every sheet from [`plan`](crate::plan) is accepted for its own host record. Over an accepted sheet
/// [`route`](crate::route) gives a memory or I/O request to the one function whose BAR holds the address, where that
/// function and all bridges above it are enabled, and else refuses it with 40, never 41.
///
/// ```
/// use cartsundial::{audit, HostRecord, Refusal};
///
/// let host = HostRecord {
///     buses: (0, 255),
///     low: (0xF900_0000, 0xF9FF_FFFF),
///     high: (0x2_4000_0000, 0x2_7FFF_FFFF),
///     io: (0x4000, 0x4FFF),
/// };
/// // A function on bus 0 with a memory BAR of 4 KiB: first at F9FFF000, then one page on, past the pool.
/// let mut sheet = [0; 93];
/// sheet[..3].copy_from_slice(&[1, 0, 90]);
/// sheet[5 + 0x10..][..4].copy_from_slice(&0xF9FF_F000_u32.to_le_bytes());
/// sheet[69..73].copy_from_slice(&0xFFFF_F000_u32.to_be_bytes());
/// assert_eq!(audit(&host, &sheet), Ok(()));
/// sheet[5 + 0x10..][..4].copy_from_slice(&0xFA00_0000_u32.to_le_bytes());
/// assert_eq!(audit(&host, &sheet), Err(Refusal::NotNested));
/// ```
pub fn audit(host: &HostRecord, sheet: &[u8]) -> Result<(), Refusal> {
    accepted(calls::audit(&host.bytes(), sheet))
}

/// One owner for every address: [`audit`], but for 51, which is asked of the address space and not of the kind. A memory BAR
/// or an open memory window lies in the low or the high window of the bridge above, whichever its own kind is, and on the root
/// bus in the low or the high pool. So firmware may leave prefetchable windows below 4 GiB.
///
/// Every accepted sheet is sound. Over a sound one no two functions have BARs over one address, and [`route`](crate::route)
/// answers as over an accepted one: to the one function whose BAR holds the address, where that function and all bridges above
/// it are enabled, and else 40, never 41. [`Index::sound`](crate::Index::sound) makes its index.
///
/// ```
/// use cartsundial::{audit, sound, HostRecord, Refusal};
///
/// let host = HostRecord { low: (0xF900_0000, 0xF9FF_FFFF), ..HostRecord::CLOSED };
/// // A bridge to bus 1 with a prefetchable window, F9000000 to F90FFFFF, and the others closed.
/// let mut sheet = [0; 93];
/// sheet[..3].copy_from_slice(&[1, 0, 90]);
/// sheet[5 + 0x0E] = 1;
/// sheet[5 + 0x19..][..5].copy_from_slice(&[1, 1, 0, 0xF0, 0x00]);
/// sheet[5 + 0x20..][..8].copy_from_slice(&[0xF0, 0xFF, 0x00, 0x00, 0x01, 0xF9, 0x01, 0xF9]);
/// assert_eq!(audit(&host, &sheet), Err(Refusal::NotNested));
/// assert_eq!(sound(&host, &sheet), Ok(()));
/// // One MiB below, it is outside of every pool.
/// sheet[5 + 0x24..][..4].copy_from_slice(&[0xF1, 0xF8, 0xF1, 0xF8]);
/// assert_eq!(sound(&host, &sheet), Err(Refusal::NotNested));
/// ```
pub fn sound(host: &HostRecord, sheet: &[u8]) -> Result<(), Refusal> {
    accepted(calls::sound(&host.bytes(), sheet))
}

/// [`sound`] of a sheet without a host record: the sheet's own number first, then as for a host that is as wide as a lawful one
/// can be, with the buses from the first record's on. It is accepted exactly where some host record makes it [`sound`]; where
/// the pools of its own host end it does not say.
///
/// ```
/// use cartsundial::{sound_alone, Refusal};
///
/// // A function on bus 0 with two memory BARs of 4 KiB, side by side, then one over the other.
/// let mut sheet = [0; 93];
/// sheet[..3].copy_from_slice(&[1, 0, 90]);
/// for (slot, address) in [0xF900_0000_u32, 0xF900_1000].into_iter().enumerate() {
///     sheet[5 + 0x10 + 4 * slot..][..4].copy_from_slice(&address.to_le_bytes());
///     sheet[69 + 4 * slot..][..4].copy_from_slice(&0xFFFF_F000_u32.to_be_bytes());
/// }
/// assert_eq!(sound_alone(&sheet), Ok(()));
/// sheet[5 + 0x15] = 0x00;
/// assert_eq!(sound_alone(&sheet), Err(Refusal::NotDisjoint));
/// ```
pub fn sound_alone(sheet: &[u8]) -> Result<(), Refusal> {
    accepted(calls::sound_alone(sheet))
}
