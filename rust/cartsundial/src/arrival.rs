//! Where a packet goes.

use crate::calls::{self, ANY_ROUTE, ROUTE, SHORT};
use crate::{functions, refused, Id, Packet, Refusal};

/// Where a packet arrives: one that comes from the host ([`route`], [`Index::find`](crate::Index::find)), one that a function
/// sends ([`route_from`](crate::route_from)), or one from whom its header names ([`sent`](crate::sent())).
#[derive(Clone, Copy, Debug, PartialEq, Eq, Hash)]
#[non_exhaustive]
pub enum Arrival {
    /// At one function.
    Function(Delivery),
    /// At the host, above the root bus. Only what a function sends goes there.
    Host {
        /// How many bridges the packet crosses on its way up.
        bridges: u16,
        /// The packet as it arrives, which is as it was sent.
        packet: Packet,
    },
    /// At every function of the sheet: a message that is broadcast. Only the host sends it.
    Every {
        /// How many functions the sheet has. Each gets the packet once: records 1 to this one.
        functions: u16,
        /// The packet as it arrives.
        packet: Packet,
    },
    /// At the port that receives it, and no further: a message with local routing.
    Port {
        /// The packet as it arrives.
        packet: Packet,
    },
}

/// The function that a packet goes to.
#[derive(Clone, Copy, Debug, PartialEq, Eq, Hash)]
pub struct Delivery {
    /// The sheet's record of the function that gets the packet, from 1.
    pub record: u16,
    /// That function's ID.
    pub id: Id,
    /// How many bridges the packet crosses, those up and those down together. Over a planned sheet these are at most 32 from
    /// the host, and 64 from a function.
    pub bridges: u16,
    /// The packet as it arrives: configuration type 1 has become type 0, nothing else changes.
    pub packet: Packet,
}

impl Arrival {
    /// The one function that gets the packet. `None` where the host does, every function or the port.
    pub fn delivery(self) -> Option<Delivery> {
        match self {
            Arrival::Function(delivery) => Some(delivery),
            Arrival::Host { .. } | Arrival::Every { .. } | Arrival::Port { .. } => None,
        }
    }

    /// The record of the one function that gets the packet, from 1.
    pub fn record(&self) -> Option<u16> {
        self.delivery().map(|delivery| delivery.record)
    }

    /// How many bridges the packet crosses to a function or to the host. Of a broadcast that is not told, and at the port there
    /// are none.
    pub fn bridges(&self) -> Option<u16> {
        match *self {
            Arrival::Function(Delivery { bridges, .. }) | Arrival::Host { bridges, .. } => Some(bridges),
            Arrival::Port { .. } => Some(0),
            Arrival::Every { .. } => None,
        }
    }

    /// The packet as it arrives.
    pub fn packet(&self) -> &Packet {
        match self {
            Arrival::Function(Delivery { packet, .. })
            | Arrival::Host { packet, .. }
            | Arrival::Every { packet, .. }
            | Arrival::Port { packet } => packet,
        }
    }

    /// At the function with this record of the sheet.
    #[inline]
    pub(crate) fn function(record: u16, bridges: u64, packet: Packet, sheet: &[u8]) -> Arrival {
        let id = functions::id_at(sheet, record);
        Arrival::Function(Delivery { record, id, bridges: bridges as u16, packet })
    }
}

/// Routes the header from the host over the sheet. A header that is refused is refused before the sheet is read. Only a
/// message can go to every function, or end at the port; nothing goes to the host, which has it.
pub fn route(header: &[u8], sheet: &[u8]) -> Result<Arrival, Refusal> {
    asked(header, sheet, |answer| calls::route(header, sheet, answer))
}

/// The arrival of the header over this sheet that a call answers with.
#[inline]
pub(crate) fn asked(header: &[u8], sheet: &[u8], call: impl Fn(&mut [u64]) -> u32) -> Result<Arrival, Refusal> {
    let mut numbers = [0; ROUTE];
    match call(&mut numbers) {
        0 => Ok(arrival(header, sheet, &numbers)),
        // Only a broadcast's answer is longer than this.
        SHORT => to_every(header, sheet, call),
        number => Err(refused(number)),
    }
}

/// A broadcast, with room for the records of all functions.
#[cold]
fn to_every(header: &[u8], sheet: &[u8], call: impl Fn(&mut [u64]) -> u32) -> Result<Arrival, Refusal> {
    let mut numbers = [0; ANY_ROUTE];
    match call(&mut numbers) {
        0 => Ok(arrival(header, sheet, &numbers)),
        number => Err(refused(number)),
    }
}

/// The arrival that the library answered with. Its numbers also have the packet, which is the header's own but for a
/// configuration request of type 1; making it of them would judge it and lay it out once more. tests/against_plain holds
/// the two against each other.
#[inline]
fn arrival(header: &[u8], sheet: &[u8], numbers: &[u64]) -> Arrival {
    let packet = Packet::of_accepted(header).arrived();
    match (numbers[0] as u16, numbers[1]) {
        (0, 0) => Arrival::Port { packet },
        (0, functions) => Arrival::Every { functions: functions as u16, packet },
        (record, bridges) => Arrival::function(record, bridges, packet, sheet),
    }
}
