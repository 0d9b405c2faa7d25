//! Both ends (document 03, request E15): from whom a packet comes, by the ID that its header names, and to whom it goes.

use std::fmt;

use crate::cards::from_record;
use crate::packet::{self, routing, Family, Packet};
use crate::route::{Arrival, Owners};
use crate::sheet::{Record, Sheet};

/// From whom a packet comes.
#[derive(Clone, Copy, Debug, PartialEq, Eq)]
pub enum Sender {
    Host,
    /// The function with this record number, from 1.
    Record(u16),
}

/// `host` or a record number.
impl fmt::Display for Sender {
    fn fmt(&self, f: &mut fmt::Formatter<'_>) -> fmt::Result {
        match self {
            Sender::Host => f.write_str("host"),
            Sender::Record(record) => write!(f, "{record}"),
        }
    }
}

/// Both ends of a packet.
#[derive(Clone, Copy, Debug, PartialEq, Eq)]
pub struct Sent {
    pub sender: Sender,
    pub arrival: Arrival,
}

impl Sent {
    /// As the C boundary gives it: the sender, where the packet goes, then record and bridges, the packet's twenty, and for
    /// every function their records.
    pub fn numbers(&self) -> Vec<u64> {
        let place = match self.arrival {
            Arrival::Function { .. } => 0,
            Arrival::Host { .. } => 1,
            Arrival::Port { .. } => 2,
            Arrival::Every { .. } => 3,
        };
        [vec![self.sender.number(), place], self.arrival.numbers()].concat()
    }
}

impl Sender {
    /// As the C boundary gives it: 0 for the host.
    pub fn number(self) -> u64 {
        match self {
            Sender::Host => 0,
            Sender::Record(record) => record.into(),
        }
    }
}

/// From whom the header's packet comes, where the host's own ID is `host_id`.
pub fn sender(host_id: u64, header: &[u8], sheet: &[u8]) -> Result<Sender, u8> {
    let host_id = id(host_id)?;
    let packet = packet::read(header)?;
    Ok(Ends { host_id, sheet: Sheet::new(sheet)? }.sender(&packet))
}

/// From whom the header's packet comes and to whom it goes, where the host's own ID is `host_id`.
pub fn sent(host_id: u64, header: &[u8], sheet: &[u8]) -> Result<Sent, u8> {
    let host_id = id(host_id)?;
    let packet = packet::read(header)?;
    let ends = Ends { host_id, sheet: Sheet::new(sheet)? };
    let sender = ends.sender(&packet);
    Ok(Sent { sender, arrival: ends.arrival(sender, packet)? })
}

/// The host's own ID: a number up to FFFFh, else 10.
pub(crate) fn id(host_id: u64) -> Result<u16, u8> {
    host_id.try_into().map_err(|_| 10)
}

/// What the ends of a packet are told by: the host's own ID, and a sheet that passed its checks.
#[derive(Clone, Copy)]
pub(crate) struct Ends<'a> {
    pub host_id: u16,
    pub sheet: Sheet<'a>,
}

impl Ends<'_> {
    pub fn sender(&self, packet: &Packet) -> Sender {
        let named = match packet.kind.family() {
            // These start at the host, whoever they name.
            Family::Configuration => return Sender::Host,
            Family::Message if packet.routing == routing::BROADCAST => return Sender::Host,
            Family::Completion => packet.completer,
            Family::Memory | Family::Io | Family::Message => packet.requester,
        };
        if named == self.host_id {
            return Sender::Host;
        }
        let index = self.sheet.records().position(|record| record.id() == named);
        // A sheet has at most 512 records.
        index.map_or(Sender::Host, |index| Sender::Record(index as u16 + 1))
    }

    /// Where a packet goes from its sender.
    pub fn arrival(&self, sender: Sender, packet: Packet) -> Result<Arrival, u8> {
        let Sender::Record(record) = sender else { return self.sheet.route(packet) };
        let start = self.sheet.records().nth(usize::from(record) - 1).expect("the sender is a record of the sheet");
        match packet.kind.family() {
            Family::Memory | Family::Io => from_record(&self.sheet, record.into(), packet),
            Family::Completion => self.by_id(start, packet.requester, packet),
            Family::Message => match packet.routing {
                routing::BY_ADDRESS => Err(45),
                // Bytes 8 and 9.
                routing::BY_ID => self.by_id(start, (packet.tail >> 48) as u16, packet),
                routing::LOCAL => Ok(Arrival::Port { packet }),
                // To the root complex, or gathered on the way there.
                _ => self.up(start, packet),
            },
            Family::Configuration => unreachable!("the host sends it"),
        }
    }

    fn root(&self) -> u8 {
        self.sheet.root().expect("a sheet with a sender has a first record")
    }

    /// Up to the host, past all bridges above.
    fn up(&self, start: Record<'_>, packet: Packet) -> Result<Arrival, u8> {
        let (mut bus, mut bridges) = (start.bus(), 0);
        while bus != self.root() {
            // Its own bus has a lower number, so this ends.
            bus = self.sheet.bridge_above(bus)?.1.bus();
            bridges += 1;
        }
        Ok(Arrival::Host { bridges, packet })
    }

    /// To the function with this ID, wherever it is but at the start, or to the host.
    fn by_id(&self, start: Record<'_>, id: u16, packet: Packet) -> Result<Arrival, u8> {
        if id == self.host_id {
            return self.up(start, packet);
        }
        if id == start.id() {
            return Err(40);
        }
        let target = id.to_be_bytes()[0];
        let (mut bus, mut bridges, mut come_through) = (start.bus(), 0, None);
        loop {
            match self.claim(bus, id, come_through)? {
                Some(Claim::Function(index)) => {
                    return Ok(Arrival::Function { record: index as u16 + 1, bridges, packet });
                }
                Some(Claim::Bridge(secondary)) => {
                    let (index, down) = self.sheet.by_id(secondary, id)?;
                    let bridges = bridges + 1 + u16::from(down);
                    return Ok(Arrival::Function { record: index as u16 + 1, bridges, packet });
                }
                None if bus == self.root() => return Ok(Arrival::Host { bridges, packet }),
                None => {}
            }
            let (index, bridge) = self.sheet.bridge_above(bus)?;
            if bridge.leads(bridge.bus(), target) {
                return Err(40);
            }
            bus = bridge.bus();
            come_through = Some(index);
            bridges += 1;
        }
    }

    /// Who claims an ID on a bus, if anybody: the function that has it there, or a bridge whose buses hold its bus, unless
    /// the packet came through that bridge. Two claims are 41.
    fn claim(&self, bus: u8, id: u16, come_through: Option<usize>) -> Result<Option<Claim>, u8> {
        let target = id.to_be_bytes()[0];
        let mut claim = None;
        for (index, record) in self.sheet.records().enumerate().filter(|(_, record)| record.bus() == bus) {
            let function = (record.id() == id).then_some(Claim::Function(index));
            let leads = come_through != Some(index) && record.leads(bus, target);
            let bridge = leads.then(|| Claim::Bridge(record.secondary()));
            for found in [function, bridge].into_iter().flatten() {
                if claim.replace(found).is_some() {
                    return Err(41);
                }
            }
        }
        Ok(claim)
    }
}

/// What an ID finds on a bus.
enum Claim {
    /// The function that has it, by its record's index.
    Function(usize),
    /// A bridge to this bus.
    Bridge(u8),
}
