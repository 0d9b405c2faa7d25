//! Both ends of a header (document 03): who sends it, found by its ID, and who gets it, found by ID or by address. Two sorted
//! tables and one decode, as an ordinary program would have them.

use crate::index::{bars, is_bridge, put_decimal, put_refused, windows, Found, Index, Owner, Space, RECORD, REGISTERS};
use crate::packet::{self, Aim, NAMES};

const BUS_MASTER: u8 = 4;

/// Messages are the kinds from this one on.
const MSG: u8 = 13;

/// What a request from a function can meet.
struct Function {
    bus: u8,
    command: u8,
    is_bridge: bool,
    /// The bridge above.
    above: Option<u16>,
    /// The bridge above that is on the root bus.
    outermost: Option<u16>,
    /// Whether all bridges above are bus masters.
    may_climb: bool,
    /// The command bits that it and all bridges above it have.
    open: u8,
    /// A bridge's open windows.
    memory: Vec<(u64, u64)>,
    io: Vec<(u64, u64)>,
}

/// Where a packet that a function sends goes.
enum Sent {
    Record(u16),
    Host,
    Port,
}

/// What functions own in one space, enabled or not, and what the root bus claims.
#[derive(Default)]
struct Ranges {
    bars: Space,
    /// Windows on the root bus.
    windows: Space,
}

/// A sheet's functions, to be searched for both ends of a packet.
pub struct BothEnds {
    host_id: u16,
    from_host: Index,
    functions: Vec<Function>,
    memory: Ranges,
    io: Ranges,
    /// The buses that bridges on the root bus have.
    below_root: [bool; 256],
}

impl BothEnds {
    /// Of a sheet that the audit accepts.
    pub fn build(host_id: u16, sheet: &[u8]) -> BothEnds {
        let (records, _) = sheet[1..].as_chunks::<RECORD>();
        let root = records.first().map(|record| record[2]);
        let functions = functions(records);
        let [mut memory, mut io] = [const { (Vec::new(), Vec::new()) }; 2];
        let mut below_root = [false; 256];
        for (record, number) in records.iter().zip(1..) {
            let owner = |last| Owner { last, record: number, bridges: 0 };
            for bar in bars(record) {
                let (bars, _) = if bar.is_io { &mut io } else { &mut memory };
                bars.push((bar.first, owner(bar.last)));
            }
            if is_bridge(record) && Some(record[2]) == root {
                below_root[usize::from(record[REGISTERS + 0x19])..=usize::from(record[REGISTERS + 0x1A])].fill(true);
                for window in windows(record) {
                    let (_, windows) = if window.is_io { &mut io } else { &mut memory };
                    windows.push((window.first, owner(window.last)));
                }
            }
        }
        let ranges = |(bars, windows)| Ranges { bars: Space::new(bars), windows: Space::new(windows) };
        BothEnds {
            host_id,
            from_host: Index::build(sheet),
            functions,
            memory: ranges(memory),
            io: ranges(io),
            below_root,
        }
    }

    /// Puts the line of a header at the end of `lines`, as the program `follow` prints it.
    #[inline]
    pub fn put_line(&self, number: u64, header: &[u8], lines: &mut Vec<u8>) {
        put_decimal(number, lines);
        match packet::decode(header, &mut ()) {
            Ok((kind, aim)) => {
                lines.push(b' ');
                lines.extend_from_slice(NAMES[usize::from(kind)].as_bytes());
                lines.extend_from_slice(b" from ");
                // A completion's completer, and any other header's requester.
                match self.sender(u16::from_be_bytes([header[4], header[5]]), aim) {
                    None => {
                        lines.extend_from_slice(b"host");
                        self.put_from_host(aim, lines);
                    }
                    Some(record) => {
                        put_decimal(record.into(), lines);
                        self.put_from(record, kind, aim, lines);
                    }
                }
            }
            Err(refusal) => {
                lines.extend_from_slice(b" -");
                put_refused(refusal, lines);
            }
        }
        lines.push(b'\n');
    }

    /// The record of the sender, unless it is the host.
    #[inline]
    fn sender(&self, id: u16, aim: Aim) -> Option<u16> {
        match aim {
            Aim::Target(..) | Aim::Every => None,
            _ if id == self.host_id => None,
            _ => self.from_host.with_id(id),
        }
    }

    #[inline]
    fn put_from_host(&self, aim: Aim, lines: &mut Vec<u8>) {
        match self.from_host.owner(aim) {
            Ok(Found::Function(owner)) => put_to(owner.record, lines),
            Ok(Found::Every) => lines.extend_from_slice(b" to all"),
            Ok(Found::Port) => lines.extend_from_slice(b" to port"),
            Err(refusal) => put_refused(refusal, lines),
        }
    }

    #[inline]
    fn put_from(&self, record: u16, kind: u8, aim: Aim, lines: &mut Vec<u8>) {
        match self.sent(record, kind, aim) {
            Ok(Sent::Record(owner)) => put_to(owner, lines),
            Ok(Sent::Host) => lines.extend_from_slice(b" to host"),
            Ok(Sent::Port) => lines.extend_from_slice(b" to port"),
            Err(refusal) => put_refused(refusal, lines),
        }
    }

    #[inline]
    fn sent(&self, record: u16, kind: u8, aim: Aim) -> Result<Sent, u8> {
        match aim {
            Aim::Memory(_) if kind >= MSG => Err(45),
            Aim::Memory(address) => self.by_address(record, &self.memory, 2, address),
            Aim::Io(address) => self.by_address(record, &self.io, 1, address),
            Aim::Id(id) if id == self.host_id => Ok(Sent::Host),
            Aim::Id(id) => match self.from_host.with_id(id) {
                Some(owner) if owner == record => Err(40),
                Some(owner) => Ok(Sent::Record(owner)),
                None if self.below_root[usize::from(id >> 8)] => Err(40),
                None => Ok(Sent::Host),
            },
            Aim::Port => Ok(Sent::Port),
            Aim::Up => Ok(Sent::Host),
            Aim::Target(..) | Aim::Every => unreachable!("the host sends it"),
        }
    }

    fn function(&self, record: u16) -> &Function {
        &self.functions[usize::from(record) - 1]
    }

    /// A request of the space that this command bit enables.
    #[inline]
    fn by_address(&self, record: u16, ranges: &Ranges, enable: u8, address: u64) -> Result<Sent, u8> {
        let start = self.function(record);
        if start.is_bridge {
            return Err(45);
        }
        if start.command & BUS_MASTER == 0 {
            return Err(44);
        }
        let owner = ranges.bars.owner(address).ok().map(|owner| owner.record);
        if owner == Some(record) {
            return Err(40);
        }
        if !start.may_climb {
            return self.by_address_slowly(start, owner, ranges, enable, address);
        }
        match owner {
            Some(owner) if self.function(owner).open & enable != 0 => return Ok(Sent::Record(owner)),
            Some(_) => return self.by_address_slowly(start, owner, ranges, enable, address),
            None => {}
        }
        self.past_root(start, ranges, enable, address)
    }

    /// What no function gets: 40 inside a window of the root bus that is enabled, or is above the start; else the host.
    #[inline]
    fn past_root(&self, start: &Function, ranges: &Ranges, enable: u8, address: u64) -> Result<Sent, u8> {
        match ranges.windows.owner(address) {
            Ok(window) if start.outermost == Some(window.record) => Err(40),
            Ok(window) if self.function(window.record).command & enable != 0 => Err(40),
            _ => Ok(Sent::Host),
        }
    }

    /// Where some bridge is no bus master, or the owner is not open to everybody.
    #[cold]
    fn by_address_slowly(
        &self,
        start: &Function,
        owner: Option<u16>,
        ranges: &Ranges,
        enable: u8,
        address: u64,
    ) -> Result<Sent, u8> {
        let up = self.bridges_above(start);
        if let Some(owner) = owner {
            let function = self.function(owner);
            let down = self.bridges_above(function);
            let reached = function.command & enable != 0
                && down
                    .iter()
                    .filter(|bridge| !up.contains(bridge))
                    .all(|&one| self.function(one).command & enable != 0)
                && up
                    .iter()
                    .filter(|bridge| !down.contains(bridge))
                    .all(|&one| self.function(one).command & BUS_MASTER != 0);
            if reached {
                return Ok(Sent::Record(owner));
            }
        }
        for bridge in up {
            let bridge = self.function(bridge);
            let windows = if enable == 1 { &bridge.io } else { &bridge.memory };
            if windows.iter().any(|&(first, last)| first <= address && address <= last) {
                return Err(40);
            }
            if bridge.command & BUS_MASTER == 0 {
                return Err(44);
            }
        }
        self.past_root(start, ranges, enable, address)
    }

    /// The nearest first.
    fn bridges_above(&self, start: &Function) -> Vec<u16> {
        std::iter::successors(start.above, |&bridge| self.function(bridge).above).collect()
    }
}

#[inline]
fn put_to(record: u16, lines: &mut Vec<u8>) {
    lines.extend_from_slice(b" to ");
    put_decimal(record.into(), lines);
}

/// Each with what is above it. A bus below a bridge has a greater number than the bridge's.
fn functions(records: &[[u8; RECORD]]) -> Vec<Function> {
    let mut functions: Vec<Function> = records.iter().map(alone).collect();
    let mut bridge_to = [None; 256];
    for (record, number) in records.iter().zip(1..) {
        if is_bridge(record) {
            bridge_to[usize::from(record[REGISTERS + 0x19])] = Some(number);
        }
    }
    let mut order: Vec<usize> = (0..functions.len()).collect();
    order.sort_unstable_by_key(|&index| functions[index].bus);
    for index in order {
        let Some(above) = bridge_to[usize::from(functions[index].bus)] else { continue };
        let bridge = &functions[usize::from(above) - 1];
        let (outermost, open) = (bridge.outermost.unwrap_or(above), bridge.open);
        let may_climb = bridge.may_climb && bridge.command & BUS_MASTER != 0;
        let function = &mut functions[index];
        function.above = Some(above);
        function.outermost = Some(outermost);
        function.may_climb = may_climb;
        function.open &= open;
    }
    functions
}

fn alone(record: &[u8; RECORD]) -> Function {
    let command = record[REGISTERS + 0x04];
    let is_bridge = is_bridge(record);
    let windows = if is_bridge { windows(record) } else { Vec::new() };
    let of = |is_io| windows.iter().filter(|one| one.is_io == is_io).map(|one| (one.first, one.last)).collect();
    Function {
        bus: record[2],
        command,
        is_bridge,
        above: None,
        outermost: None,
        may_climb: true,
        open: command,
        memory: of(false),
        io: of(true),
    }
}
