//! Both ends of a packet: from whom it comes, and where it goes.

use crate::calls::{self, ANY_SENT, SENT, SHORT};
use crate::{accepted, refused, Arrival, Id, Packet, Refusal};

/// From whom a packet comes, by the ID that its header names.
#[derive(Clone, Copy, Debug, PartialEq, Eq, Hash)]
pub enum Sender {
    /// The host. An ID that no function of the sheet has is taken for it.
    Host,
    /// The function with this record of the sheet, from 1.
    Record(u16),
}

impl Sender {
    /// 0 is the host.
    #[inline]
    fn of(number: u64) -> Sender {
        match number as u16 {
            0 => Sender::Host,
            record => Sender::Record(record),
        }
    }
}

/// Both ends of a packet.
#[derive(Clone, Copy, Debug, PartialEq, Eq, Hash)]
pub struct Sent {
    /// From whom it comes.
    pub sender: Sender,
    /// Where it goes, and the packet as it arrives.
    pub arrival: Arrival,
}

/// From whom a packet comes, where the host's own ID is `host_id`; also of one that [`sent`](sent()) then refuses.
///
/// A completion names its sender by its completer ID, any other header by its requester ID. Configuration requests and messages
/// that are broadcast come from the host, whoever they name; so do headers with the host's own ID, or with one that no function
/// of the sheet has. Nobody asks whether the sender told the truth. Refused are only a header that is not read, and then a sheet
/// that fails its checks.
pub fn sender(host_id: Id, header: &[u8], sheet: &[u8]) -> Result<Sender, Refusal> {
    let mut sender = [0];
    accepted(calls::sender(host_id.0.into(), header, sheet, &mut sender))?;
    Ok(Sender::of(sender[0]))
}

/// From whom a packet comes and where it goes, where the host's own ID is `host_id`: from the host as [`route`](crate::route()) has
/// it; a function's memory or I/O request as [`route_from`](crate::route_from) has it; its completions and messages by ID to another
/// function or to the host, and its other messages to the host or to the port.
///
/// A packet that is refused has a sender too, unless its header is not read or the sheet fails its checks. [`Refusal`] alone does
/// not say who it is; [`sender`] does:
///
/// ```
/// use cartsundial::{sender, sent, Arrival, Id, Refusal, Sender};
///
/// // A sheet of one card, 00:01.0, with bus master off; the host's own ID is 00:00.0.
/// let mut sheet = vec![1, 0, 90, 0x00, 0x08];
/// sheet.extend([0; 88]);
/// let host = Id(0x0000);
///
/// // A completion that the card sends to the host, and a memory write that it may not send.
/// let completion = [0x0A, 0, 0, 0, 0x00, 0x08, 0x00, 0x04, 0x00, 0x00, 0x33, 0x00];
/// let answer = sent(host, &completion, &sheet)?;
/// assert_eq!(answer.sender, Sender::Record(1));
/// assert!(matches!(answer.arrival, Arrival::Host { bridges: 0, .. }));
///
/// let write = [0x40, 0, 0, 1, 0x00, 0x08, 0, 0x0F, 0x7F, 0x3A, 0x10, 0x00];
/// assert_eq!(sent(host, &write, &sheet), Err(Refusal::NoBusMaster));
/// assert_eq!(sender(host, &write, &sheet), Ok(Sender::Record(1)));
/// # Ok::<(), Refusal>(())
/// ```
pub fn sent(host_id: Id, header: &[u8], sheet: &[u8]) -> Result<Sent, Refusal> {
    let mut numbers = [0; SENT];
    match calls::route_sent(host_id.0.into(), header, sheet, &mut numbers) {
        0 => Ok(answer(header, sheet, &numbers)),
        // Only a broadcast's answer is longer than this.
        SHORT => to_every(host_id, header, sheet),
        number => Err(refused(number)),
    }
}

/// A broadcast, with room for the records of all functions.
#[cold]
fn to_every(host_id: Id, header: &[u8], sheet: &[u8]) -> Result<Sent, Refusal> {
    let mut numbers = [0; ANY_SENT];
    accepted(calls::route_sent(host_id.0.into(), header, sheet, &mut numbers))?;
    Ok(answer(header, sheet, &numbers))
}

/// Where a packet goes, by its number.
const TO_FUNCTION: u64 = 0;
const TO_HOST: u64 = 1;
const TO_PORT: u64 = 2;

/// What the library answered. The packet is the header's own, as for [`route`](crate::route()).
#[inline]
fn answer(header: &[u8], sheet: &[u8], numbers: &[u64]) -> Sent {
    let packet = Packet::of_accepted(header).arrived();
    let (record, count) = (numbers[2] as u16, numbers[3]);
    let arrival = match numbers[1] {
        TO_FUNCTION => Arrival::function(record, count, packet, sheet),
        TO_HOST => Arrival::Host { bridges: count as u16, packet },
        TO_PORT => Arrival::Port { packet },
        _ => Arrival::Every { functions: count as u16, packet },
    };
    Sent { sender: Sender::of(numbers[0]), arrival }
}
