//! Card to card (E11): a request that starts at a function, named by its record, and climbs until somebody claims it.

use crate::packet::{self, Family, Packet};
use crate::route::{bars_that_hold, windows_that_hold, Arrival, Claim, Owners, Space};
use crate::sheet::{Record, Sheet};

/// The command bit of a bus master.
const BUS_MASTER: u16 = 4;

/// Routes the header from the function with this record number, from 1: to another function, or to the host.
pub fn route_from(record: u32, header: &[u8], sheet: &[u8]) -> Result<Arrival, u8> {
    let packet = packet::read(header)?;
    from_record(&Sheet::new(sheet)?, record, packet)
}

/// Routes an accepted packet over a sheet that passed its checks.
pub(crate) fn from_record(sheet: &Sheet<'_>, record: u32, packet: Packet) -> Result<Arrival, u8> {
    let space = match packet.kind.family() {
        Family::Memory => Space::Memory,
        Family::Io => Space::Io,
        Family::Configuration | Family::Completion | Family::Message => return Err(45),
    };
    let index = (record as usize).checked_sub(1).ok_or(45)?;
    let start = sheet.records().nth(index).filter(|start| !start.is_bridge()).ok_or(45)?;
    let climb = Climb { sheet, start: index, space, address: packet.address };
    let (owner, bridges) = climb.from(start)?;
    Ok(match owner {
        // A sheet has at most 512 records.
        Some(index) => Arrival::Function { record: index as u16 + 1, bridges, packet },
        None => Arrival::Host { bridges, packet },
    })
}

/// A request on its way up.
struct Climb<'a> {
    sheet: &'a Sheet<'a>,
    /// The index of the record that it starts at.
    start: usize,
    space: Space,
    address: u64,
}

impl Climb<'_> {
    /// The index of the record that gets the request, none for the host, and the bridges crossed both ways.
    fn from(&self, start: Record<'_>) -> Result<(Option<usize>, u16), u8> {
        if start.command() & BUS_MASTER == 0 {
            return Err(44);
        }
        if bars_that_hold(start, self.space, self.address).next().is_some() {
            return Err(40);
        }
        let root = self.sheet.root().expect("a sheet with a start has a first record");
        let (mut bus, mut crossed, mut come_through) = (start.bus(), 0, None);
        loop {
            match self.claim(bus, come_through)? {
                Some(Claim::Bar(index)) => return Ok((Some(index), crossed)),
                Some(Claim::Window(secondary)) => {
                    let (index, down) = self.sheet.by_address(secondary, self.space, self.address)?;
                    return Ok((Some(index), crossed + 1 + u16::from(down)));
                }
                None if bus == root => return Ok((None, crossed)),
                None => {}
            }
            let (index, bridge) = self.sheet.bridge_above(bus)?;
            if windows_that_hold(bridge, self.space, self.address).next().is_some() {
                return Err(40);
            }
            if bridge.command() & BUS_MASTER == 0 {
                return Err(44);
            }
            // Its bus number is lower, so this ends.
            bus = bridge.bus();
            come_through = Some(index);
            crossed += 1;
        }
    }

    /// What the others on a bus claim, if anything: not the start, and of the bridge that the request came through only
    /// its BARs. Two claims are 41.
    fn claim(&self, bus: u8, come_through: Option<usize>) -> Result<Option<Claim>, u8> {
        let mut claim = None;
        let others = self.sheet.records().enumerate().filter(|&(index, record)| {
            index != self.start && record.bus() == bus && record.command() & self.space.enable() != 0
        });
        for (index, record) in others {
            let bars = bars_that_hold(record, self.space, self.address).map(|_| Claim::Bar(index));
            let windows = windows_that_hold(record, self.space, self.address)
                .filter(|_| come_through != Some(index))
                .map(|_| Claim::Window(record.secondary()));
            for found in bars.chain(windows) {
                if claim.replace(found).is_some() {
                    return Err(41);
                }
            }
        }
        Ok(claim)
    }
}

impl<'a> Sheet<'a> {
    /// The one bridge whose secondary bus this is, with its index: none is 40, two are 41.
    pub(crate) fn bridge_above(&self, bus: u8) -> Result<(usize, Record<'a>), u8> {
        let leads = |&(_, record): &(usize, Record<'_>)| record.is_bridge() && record.secondary() == bus;
        let mut above = self.records().enumerate().filter(leads);
        let bridge = above.next().ok_or(40)?;
        match above.next() {
            Some(_) => Err(41),
            None => Ok(bridge),
        }
    }
}
