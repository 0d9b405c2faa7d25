//! The ledger of open requests (request E12 of document 02): non-posted requests by requester ID and tag, until completions
//! close them.

use crate::packet::{self, Family, Kind, Packet};

/// How many requests may be open.
pub const PLACES: usize = 256;

/// A word's key is in its upper half. No request has the key 0: the place is free.
const KEY: u32 = 32;
const FREE: u64 = 0;
/// Under the key the dwords still to come, from this bit on.
const LEFT: u32 = 3;
/// Then what is asked for.
const READ: u64 = 1 << 2;
const CONFIGURATION: u64 = 1 << 1;
const LOCKED: u64 = 1 << 0;

const SUCCESS: u8 = 0b000;
const RETRY: u8 = 0b010;

/// What became of a request by a completion.
#[derive(Clone, Copy, Debug, PartialEq, Eq)]
pub enum Completed {
    Closed,
    /// A read, with so many dwords still to come.
    Open(u32),
}

/// Opens the request of a header in a ledger. Refused: the header's number, 60, 61, 62.
pub fn open(ledger: &mut [u64; PLACES], header: &[u8]) -> Result<(), u8> {
    let packet = packet::read(header)?;
    let asked = asked(packet.kind).ok_or(60)?;
    let key = key(&packet);
    if place(ledger, key).is_some() {
        return Err(61);
    }
    let free = place(ledger, FREE).ok_or(62)?;
    ledger[free] = key << KEY | u64::from(packet.length) << LEFT | asked;
    Ok(())
}

/// Completes a request of a ledger by a header. Refused: the header's number, 60, 63, 64, 65.
pub fn complete(ledger: &mut [u64; PLACES], header: &[u8]) -> Result<Completed, u8> {
    let packet = packet::read(header)?;
    if packet.kind.family() != Family::Completion {
        return Err(60);
    }
    let place = place(ledger, key(&packet)).ok_or(63)?;
    let word = ledger[place];
    if packet.status == RETRY && word & CONFIGURATION == 0 {
        return Err(64);
    }
    if packet.status == SUCCESS {
        let with_data = matches!(packet.kind, Kind::CplD | Kind::CplDLk);
        let locked = matches!(packet.kind, Kind::CplLk | Kind::CplDLk);
        if with_data != (word & READ != 0) || locked != (word & LOCKED != 0) {
            return Err(64);
        }
        let left = (word as u32 >> LEFT).checked_sub(packet.length.into()).ok_or(65)?;
        if with_data && left > 0 {
            ledger[place] -= u64::from(packet.length) << LEFT;
            return Ok(Completed::Open(left));
        }
    }
    ledger[place] = 0;
    Ok(Completed::Closed)
}

/// How many requests are open.
pub fn count(ledger: &[u64; PLACES]) -> usize {
    ledger.iter().filter(|&word| word >> KEY != FREE).count()
}

/// What a word says of a non-posted request; a memory write and a message are posted, and a completion is none.
fn asked(kind: Kind) -> Option<u64> {
    match kind {
        Kind::MRd | Kind::IORd => Some(READ),
        Kind::MRdLk => Some(READ | LOCKED),
        Kind::IOWr => Some(0),
        Kind::CfgRd0 | Kind::CfgRd1 => Some(READ | CONFIGURATION),
        Kind::CfgWr0 | Kind::CfgWr1 => Some(CONFIGURATION),
        Kind::MWr | Kind::Cpl | Kind::CplD | Kind::CplLk | Kind::CplDLk | Kind::Msg | Kind::MsgD => None,
    }
}

/// Requester ID and all ten bits of the tag, as one number from 1.
fn key(packet: &Packet) -> u64 {
    (u64::from(packet.requester) << 10 | u64::from(packet.tag)) + 1
}

/// The first place with a key.
fn place(ledger: &[u64; PLACES], key: u64) -> Option<usize> {
    ledger.iter().position(|word| word >> KEY == key)
}
