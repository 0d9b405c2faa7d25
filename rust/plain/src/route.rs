//! The router: the walk of a packet from the host over a sheet's registers.

use std::fmt;

use crate::bar::{self, Bar};
use crate::packet::{self, routing, Family, Kind, Packet};
use crate::pool::Pool;
use crate::sheet::{Record, Sheet};

/// Where a packet goes, and the packet as it arrives there.
#[derive(Clone, Copy, Debug, PartialEq, Eq)]
pub enum Arrival {
    /// One function, by its record number, and the bridges crossed, up and down.
    Function { record: u16, bridges: u16, packet: Packet },
    /// The host, above the root bus, and the bridges crossed. Only what starts at a function goes there.
    Host { bridges: u16, packet: Packet },
    /// Every function of the sheet, of which there are so many: records 1 and up.
    Every { functions: u16, packet: Packet },
    /// The port that receives it, and nothing beyond.
    Port { packet: Packet },
}

impl Arrival {
    /// As the C boundary gives it: record (0 for the host) and bridges, the packet's twenty, and for every function their
    /// records.
    pub fn numbers(&self) -> Vec<u64> {
        let (record, bridges, packet, records) = match *self {
            Arrival::Function { record, bridges, ref packet } => (record, bridges, packet, 0),
            Arrival::Host { bridges, ref packet } => (0, bridges, packet, 0),
            Arrival::Every { functions, ref packet } => (0, functions, packet, functions),
            Arrival::Port { ref packet } => (0, 0, packet, 0),
        };
        let mut numbers = vec![record.into(), bridges.into()];
        numbers.extend(packet::to_numbers(packet));
        numbers.extend((1..=records).map(u64::from));
        numbers
    }
}

/// One line: `record 2 bridges 1 MRd ...`, `host bridges 1 MRd ...`, `all 2 Msg ...` or `port Msg ...`.
impl fmt::Display for Arrival {
    fn fmt(&self, f: &mut fmt::Formatter<'_>) -> fmt::Result {
        match self {
            Arrival::Function { record, bridges, packet } => write!(f, "record {record} bridges {bridges} {packet}"),
            Arrival::Host { bridges, packet } => write!(f, "host bridges {bridges} {packet}"),
            Arrival::Every { functions, packet } => write!(f, "all {functions} {packet}"),
            Arrival::Port { packet } => write!(f, "port {packet}"),
        }
    }
}

/// Routes the header over the sheet.
pub fn route(header: &[u8], sheet: &[u8]) -> Result<Arrival, u8> {
    let packet = packet::read(header)?;
    Sheet::new(sheet)?.route(packet)
}

/// What an address finds on a bus.
pub(crate) enum Claim {
    /// A BAR of the record with this index.
    Bar(usize),
    /// A window to this bus.
    Window(u8),
}

#[derive(Clone, Copy, PartialEq, Eq)]
pub(crate) enum Space {
    Io,
    Memory,
}

impl Space {
    /// The command bit that enables the space.
    pub(crate) fn enable(self) -> u16 {
        match self {
            Space::Io => 1,
            Space::Memory => 2,
        }
    }

    fn windows(self) -> &'static [Pool] {
        match self {
            Space::Io => &[Pool::Io],
            Space::Memory => &[Pool::Low, Pool::High],
        }
    }
}

/// Who gets a packet: a sheet finds out by its walk, an index by its search. An owner is the index of its record, and how
/// many bridges are above it; 40 is none.
pub(crate) trait Owners {
    fn functions(&self) -> u16;

    /// The root bus, unless there are no functions.
    fn root(&self) -> Option<u8>;

    fn by_address(&self, root: u8, space: Space, address: u64) -> Result<(usize, u8), u8>;

    fn by_id(&self, root: u8, id: u16) -> Result<(usize, u8), u8>;

    /// Routes an accepted packet.
    fn route(&self, mut packet: Packet) -> Result<Arrival, u8> {
        let root = self.root().ok_or(40)?;
        let (index, bridges) = match packet.kind.family() {
            Family::Memory => self.by_address(root, Space::Memory, packet.address)?,
            Family::Io => self.by_address(root, Space::Io, packet.address)?,
            Family::Completion => self.by_id(root, packet.requester)?,
            Family::Configuration => {
                let on_root = packet.target.to_be_bytes()[0] == root;
                let is_type0 = matches!(packet.kind, Kind::CfgRd0 | Kind::CfgWr0);
                if on_root != is_type0 {
                    return Err(42);
                }
                let owner = self.by_id(root, packet.target)?;
                packet.kind = match packet.kind {
                    Kind::CfgRd1 => Kind::CfgRd0,
                    Kind::CfgWr1 => Kind::CfgWr0,
                    kind => kind,
                };
                owner
            }
            Family::Message => match packet.routing {
                routing::BY_ADDRESS => self.by_address(root, Space::Memory, packet.tail)?,
                // Bytes 8 and 9.
                routing::BY_ID => self.by_id(root, (packet.tail >> 48) as u16)?,
                routing::BROADCAST => return Ok(Arrival::Every { functions: self.functions(), packet }),
                routing::LOCAL => return Ok(Arrival::Port { packet }),
                // To the root complex, or gathered on the way there.
                _ => return Err(43),
            },
        };
        // A sheet has at most 512 records.
        Ok(Arrival::Function { record: index as u16 + 1, bridges: bridges.into(), packet })
    }
}

impl Owners for Sheet<'_> {
    fn functions(&self) -> u16 {
        self.records().count() as u16
    }

    fn root(&self) -> Option<u8> {
        self.records().next().map(|record| record.bus())
    }

    /// The bus number rises at each bridge, so there are at most 255.
    fn by_address(&self, root: u8, space: Space, address: u64) -> Result<(usize, u8), u8> {
        let (mut bus, mut bridges) = (root, 0);
        loop {
            match self.claim(bus, space, address)? {
                Claim::Bar(index) => return Ok((index, bridges)),
                Claim::Window(secondary) => bus = secondary,
            }
            bridges += 1;
        }
    }

    fn by_id(&self, root: u8, id: u16) -> Result<(usize, u8), u8> {
        let target = id.to_be_bytes()[0];
        let (mut bus, mut bridges) = (root, 0);
        while bus != target {
            let mut towards = self.records().filter(|record| record.leads(bus, target));
            let secondary = towards.next().ok_or(40)?.secondary();
            if towards.next().is_some() {
                return Err(41);
            }
            bus = secondary;
            bridges += 1;
        }
        let index = self.records().position(|record| record.id() == id).ok_or(40)?;
        Ok((index, bridges))
    }
}

impl Sheet<'_> {
    /// The one claim of an address on a bus, or 40 or 41.
    fn claim(&self, bus: u8, space: Space, address: u64) -> Result<Claim, u8> {
        let mut claim = None;
        for (index, record) in self.records().enumerate() {
            if record.bus() != bus || record.command() & space.enable() == 0 {
                continue;
            }
            let bars = bars_that_hold(record, space, address).map(|_| Claim::Bar(index));
            let windows = windows_that_hold(record, space, address).map(|_| Claim::Window(record.secondary()));
            for found in bars.chain(windows) {
                if claim.replace(found).is_some() {
                    return Err(41);
                }
            }
        }
        claim.ok_or(40)
    }
}

/// The BARs of the record that hold the address.
pub(crate) fn bars_that_hold(record: Record<'_>, space: Space, address: u64) -> impl Iterator<Item = Bar> + '_ {
    bar::bars(record.read_backs())
        .filter(move |bar| bar.is_io == (space == Space::Io) && bar.holds(record.value(bar), address))
}

/// The windows of the record that hold the address; only a bridge has any.
pub(crate) fn windows_that_hold(record: Record<'_>, space: Space, address: u64) -> impl Iterator<Item = Pool> + '_ {
    let pools = if record.is_bridge() { space.windows() } else { &[] };
    pools.iter().copied().filter(move |&pool| record.window(pool).holds(address))
}
