//! Card to card: requests that start at a function of the sheet.

use crate::calls::{self, ROUTE};
use crate::{accepted, Arrival, Packet, Refusal};

/// Routes the header, a memory or I/O request, from the type 0 function that has this record of the sheet, from 1. It goes to
/// another function or to the host, as it was sent.
///
/// Another record or another packet is [`Refusal::NoStart`]; a function or a bridge on the way up that is no bus master is
/// [`Refusal::NoBusMaster`]. The header's number comes first, then the sheet's.
///
/// [`sent`](crate::sent()) takes any packet, and its sender from the header.
pub fn route_from(record: u16, header: &[u8], sheet: &[u8]) -> Result<Arrival, Refusal> {
    let mut numbers = [0; ROUTE];
    accepted(calls::route_from(record.into(), header, sheet, &mut numbers))?;
    // Its numbers have the packet too, which is the header's own; tests/against_plain holds the two against each other.
    let packet = Packet::of_accepted(header);
    Ok(match (numbers[0] as u16, numbers[1]) {
        (0, bridges) => Arrival::Host { bridges: bridges as u16, packet },
        (record, bridges) => Arrival::function(record, bridges, packet, sheet),
    })
}
