//! The ledger of open requests.

use crate::{accepted, calls, Id, Packet, Refusal};
use core::fmt;

/// Where the parts of a word are: docs/FORMATS.md, The ledger.
const KEY: u32 = 32;
const TAG_BITS: u32 = 10;
const LEFT: u32 = 3;
const READ: u64 = 1 << 2;
const CONFIGURATION: u64 = 1 << 1;
const LOCKED: u64 = 1 << 0;

/// The non-posted requests that wait for completions, up to 256, by requester ID and tag.
///
/// ```
/// use cartsundial::{Completed, Id, Ledger, Refusal, RequestKind};
///
/// // A memory read of four dwords by 12:06.4 under tag 7, and two completions with two dwords each.
/// let request = [0x00, 0, 0, 4, 0x12, 0x34, 7, 0xFF, 0x10, 0, 0, 0];
/// let part = [0x4A, 0, 0, 2, 0, 1, 0, 16, 0x12, 0x34, 7, 0];
///
/// let mut ledger = Ledger::default();
/// assert_eq!(ledger.complete(&part), Err(Refusal::NotOpen));
/// ledger.open(&request)?;
/// assert_eq!(ledger.open(&request), Err(Refusal::AlreadyOpen));
/// assert_eq!(ledger.complete(&part)?, Completed::Open { left: 2 });
/// let open = ledger.requests().next().unwrap();
/// assert_eq!((open.requester, open.tag, open.kind, open.left), (Id(0x1234), 7, RequestKind::Read, 2));
/// assert_eq!(ledger.complete(&part)?, Completed::Closed);
/// assert!(ledger.is_empty());
/// # Ok::<(), Refusal>(())
/// ```
#[derive(Clone, PartialEq, Eq)]
pub struct Ledger {
    words: [u64; calls::LEDGER],
}

/// What became of a request by a completion.
#[derive(Clone, Copy, Debug, PartialEq, Eq, Hash)]
pub enum Completed {
    /// It is open no more.
    Closed,
    /// A read, of which there is more to come.
    Open {
        /// Dwords still to come.
        left: u16,
    },
}

/// A request that is open.
#[derive(Clone, Copy, Debug, PartialEq, Eq, Hash)]
pub struct OpenRequest {
    /// Who asked.
    pub requester: Id,
    /// Its tag, ten bits.
    pub tag: u16,
    /// What it asked for.
    pub kind: RequestKind,
    /// Dwords still to come; of a write 1.
    pub left: u16,
}

/// The kind of an open request, as far as the ledger keeps it.
#[derive(Clone, Copy, Debug, PartialEq, Eq, Hash)]
pub enum RequestKind {
    /// MRd or IORd.
    Read,
    /// MRdLk.
    LockedRead,
    /// CfgRd0 or CfgRd1.
    ConfigurationRead,
    /// IOWr.
    Write,
    /// CfgWr0 or CfgWr1.
    ConfigurationWrite,
}

impl Ledger {
    /// A ledger with no request open.
    pub const fn new() -> Ledger {
        Ledger { words: [0; calls::LEDGER] }
    }

    /// Opens the request of a header. The refusals are those of [`read()`](crate::read), then 60 for anything but a non-posted
    /// request, 61 where its requester and tag are open already, and 62 where 256 requests are open.
    pub fn open(&mut self, header: &[u8]) -> Result<(), Refusal> {
        accepted(calls::ledger_open(&mut self.words, header))
    }

    /// Completes the request with a completion's requester and tag. The refusals are those of [`read()`](crate::read), then 60
    /// for anything but a completion, 63 where no such request is open, 64 where the two do not go together, and 65 for more
    /// dwords than are still to come.
    pub fn complete(&mut self, header: &[u8]) -> Result<Completed, Refusal> {
        accepted(calls::ledger_complete(&mut self.words, header))?;
        // From empty on a key has one place.
        let packet = Packet::of_accepted(header);
        let key = key(packet.requester(), packet.tag());
        let open = self.words.iter().find(|&word| word >> KEY == key);
        Ok(open.map_or(Completed::Closed, |&word| Completed::Open { left: left(word) }))
    }

    /// How many requests are open, at most 256.
    pub fn len(&self) -> usize {
        let mut count = [0];
        calls::ledger_count(&self.words, &mut count);
        count[0] as usize
    }

    /// Whether no request is open.
    pub fn is_empty(&self) -> bool {
        self.len() == 0
    }

    /// What is open, by place: a place that was freed is used again, so this is not the order of opening.
    pub fn requests(&self) -> impl Iterator<Item = OpenRequest> + '_ {
        self.words.iter().filter(|&word| word >> KEY != 0).map(|&word| OpenRequest::of(word))
    }
}

impl Default for Ledger {
    fn default() -> Ledger {
        Ledger::new()
    }
}

/// What is open.
impl fmt::Debug for Ledger {
    fn fmt(&self, f: &mut fmt::Formatter<'_>) -> fmt::Result {
        f.debug_set().entries(self.requests()).finish()
    }
}

impl OpenRequest {
    fn of(word: u64) -> OpenRequest {
        let key = (word >> KEY) - 1;
        OpenRequest {
            requester: Id((key >> TAG_BITS) as u16),
            tag: (key & ((1 << TAG_BITS) - 1)) as u16,
            kind: RequestKind::of(word),
            left: left(word),
        }
    }
}

impl RequestKind {
    fn of(word: u64) -> RequestKind {
        match (word & READ != 0, word & CONFIGURATION != 0) {
            (true, _) if word & LOCKED != 0 => RequestKind::LockedRead,
            (true, false) => RequestKind::Read,
            (true, true) => RequestKind::ConfigurationRead,
            (false, false) => RequestKind::Write,
            (false, true) => RequestKind::ConfigurationWrite,
        }
    }

    /// Whether it asked for data.
    pub const fn is_read(self) -> bool {
        matches!(self, RequestKind::Read | RequestKind::LockedRead | RequestKind::ConfigurationRead)
    }
}

/// `read`, `configuration write`.
impl fmt::Display for RequestKind {
    fn fmt(&self, f: &mut fmt::Formatter<'_>) -> fmt::Result {
        f.pad(match self {
            RequestKind::Read => "read",
            RequestKind::LockedRead => "locked read",
            RequestKind::ConfigurationRead => "configuration read",
            RequestKind::Write => "write",
            RequestKind::ConfigurationWrite => "configuration write",
        })
    }
}

fn key(requester: Id, tag: u16) -> u64 {
    (u64::from(requester.0) << TAG_BITS | u64::from(tag)) + 1
}

/// At most 1,024: a request's Length.
fn left(word: u64) -> u16 {
    (word as u32 >> LEFT) as u16
}
