//! The board: host record, function records and their checks.

use crate::bar;
use crate::finding::{Party, ID};
use crate::pool::{PerPool, Pool, Range};

pub const MAX_FUNCTIONS: usize = 512;
/// The most bridges above any function.
pub const MAX_ABOVE: usize = 32;

/// The length of a host record.
pub const HOST: usize = 30;
const HEADER: usize = 6;

/// The version whose bridge records end with their spares.
const WITH_SPARES: u8 = 2;

#[derive(Clone, Copy, Debug)]
pub struct Host {
    pub first_bus: u8,
    pub last_bus: u8,
    pub pools: PerPool<Range>,
}

impl Host {
    pub fn parse(record: &[u8; HOST]) -> Host {
        let number = |at: usize, width: usize| {
            record[at..at + width].iter().fold(0, |number, &byte| number << 8 | u64::from(byte))
        };
        let range = |at, width| Range { base: number(at, width), last: number(at + width, width) };
        Host { first_bus: record[0], last_bus: record[1], pools: [range(2, 4), range(10, 8), range(26, 2)] }
    }

    /// Check 26.
    pub fn is_lawful(&self) -> bool {
        let edges = |pool: Pool| {
            let Range { base, last } = self.pools[pool as usize];
            let on_edges = base % pool.granule() == 0 && last % pool.granule() == pool.granule() - 1;
            let in_bounds = pool != Pool::High || (base >= 1 << 32 && last < 1 << 52);
            base > last || (on_edges && in_bounds)
        };
        self.first_bus <= self.last_bus && Pool::ALL.into_iter().all(edges)
    }
}

/// What a bridge keeps free below it for a card that is plugged in later.
#[derive(Clone, Copy, Debug)]
pub struct Spares {
    pub buses: u8,
    /// Low memory in MiB.
    pub memory: u16,
}

impl Spares {
    pub const NONE: Spares = Spares { buses: 0, memory: 0 };

    /// The end of a bridge record, of no bytes in version 1; `None` when it has another length.
    fn parse(version: u8, end: &[u8]) -> Option<Spares> {
        match (version == WITH_SPARES, end) {
            (true, &[buses, high, low]) => Some(Spares { buses, memory: u16::from_be_bytes([high, low]) }),
            (false, []) => Some(Spares::NONE),
            _ => None,
        }
    }
}

/// One function record.
#[derive(Clone, Copy, Debug)]
pub struct Function {
    /// The record of the bridge above, 0 for the host.
    pub parent: u16,
    pub device_function: u8,
    pub header_type: u8,
    pub command: u16,
    /// A type 1 function has the first two.
    pub read_backs: [u32; 6],
    /// None for a type 0 function.
    pub spares: Spares,
}

impl Function {
    const EMPTY: Function = Function {
        parent: 0,
        device_function: 0,
        header_type: 0,
        command: 0,
        read_backs: [0; 6],
        spares: Spares::NONE,
    };

    /// `None` when the header type, or the length for it in this version, is not lawful.
    fn parse(version: u8, record: &[u8]) -> Option<Function> {
        let (head, rest) = record.split_first_chunk::<HEADER>()?;
        let header_type = head[3];
        let slots = slot_count(header_type)?;
        let (slots, end) = rest.split_at_checked(4 * slots)?;
        let mut read_backs = [0; 6];
        for (read_back, slot) in read_backs.iter_mut().zip(slots.as_chunks::<4>().0) {
            *read_back = u32::from_be_bytes(*slot);
        }
        let function = Function {
            parent: u16::from_be_bytes([head[0], head[1]]),
            device_function: head[2],
            header_type,
            command: u16::from_be_bytes([head[4], head[5]]),
            read_backs,
            spares: Spares::NONE,
        };
        if function.is_bridge() {
            return Some(Function { spares: Spares::parse(version, end)?, ..function });
        }
        end.is_empty().then_some(function)
    }

    pub fn is_bridge(&self) -> bool {
        self.header_type & 0x7F == 1
    }

    /// The read-backs of the slots that the function has.
    pub fn slots(&self) -> &[u32] {
        &self.read_backs[..if self.is_bridge() { 2 } else { 6 }]
    }
}

/// How many BAR slots a header type has.
pub fn slot_count(header_type: u8) -> Option<usize> {
    match header_type & 0x7F {
        0 => Some(6),
        1 => Some(2),
        _ => None,
    }
}

/// A board that passed checks 20 to 26.
pub struct Board {
    pub host: Host,
    functions: [Function; MAX_FUNCTIONS],
    count: usize,
}

impl Board {
    /// Checks 20, 21, 22, 24, 26, 23 and 25, each over all records before the next.
    pub fn parse(bytes: &[u8]) -> Result<Board, u8> {
        Board::judge(bytes).map_err(|(number, _)| number)
    }

    /// The same, and beside the number who fails: for 24, 23 and 25 the first record that does, and where.
    pub fn judge(bytes: &[u8]) -> Result<Board, (u8, Party)> {
        let nobody = |number| (number, Party::default());
        let (&version, records) = bytes.split_first().ok_or(nobody(20))?;
        if version != 1 && version != WITH_SPARES {
            return Err(nobody(21));
        }
        let (host, functions) = split_record(records).ok_or(nobody(20))?;
        let host: &[u8; HOST] = host.try_into().map_err(|_| nobody(20))?;
        let count = count_functions(functions).ok_or(nobody(20))?;
        if count > MAX_FUNCTIONS {
            return Err(nobody(22));
        }
        let mut board = Board { host: Host::parse(host), functions: [Function::EMPTY; MAX_FUNCTIONS], count };
        let mut rest = functions;
        for (record, function) in (1..).zip(&mut board.functions[..count]) {
            let (part, after) = split_record(rest).ok_or(nobody(20))?;
            *function = Function::parse(version, part).ok_or((24, Party { record, place: ID }))?;
            rest = after;
        }
        if !board.host.is_lawful() {
            return Err(nobody(26));
        }
        if let Some(record) = misplaced(board.functions()) {
            return Err((23, Party { record, place: ID }));
        }
        let wrong = (1..)
            .zip(board.functions())
            .find_map(|(record, function)| Some(Party { record, place: bar::wrong_slot(function.slots())? as u8 }));
        wrong.map_or(Ok(board), |party| Err((25, party)))
    }

    pub fn functions(&self) -> &[Function] {
        &self.functions[..self.count]
    }
}

/// The first record, without its length, and what follows it.
fn split_record(bytes: &[u8]) -> Option<(&[u8], &[u8])> {
    let (length, rest) = bytes.split_first_chunk()?;
    rest.split_at_checked(u16::from_be_bytes(*length).into())
}

/// The number of function records; `None` when one is too short or the last does not end at the end.
fn count_functions(mut rest: &[u8]) -> Option<usize> {
    let mut count = 0;
    while !rest.is_empty() {
        let (record, after) = split_record(rest)?;
        if record.len() < HEADER {
            return None;
        }
        count += 1;
        rest = after;
    }
    Some(count)
}

/// The bridges from the host down to where the next record may stand, as records come depth-first. `T` is what is
/// kept for each of their buses. Host and 33 bridges are the most: nothing stands below the last of them.
pub struct Path<T> {
    buses: [(u16, T); MAX_ABOVE + 2],
    bridges: usize,
}

impl<T: Copy> Path<T> {
    pub fn new(root: T) -> Path<T> {
        Path { buses: [(0, root); MAX_ABOVE + 2], bridges: 0 }
    }

    /// How many bridges stand above the current bus's functions.
    pub fn bridges(&self) -> usize {
        self.bridges
    }

    /// The record whose secondary bus is the current one, 0 for the host.
    pub fn record(&self) -> u16 {
        self.buses[self.bridges].0
    }

    pub fn bus(&mut self) -> &mut T {
        &mut self.buses[self.bridges].1
    }

    pub fn enter(&mut self, record: u16, bus: T) {
        self.bridges += 1;
        self.buses[self.bridges] = (record, bus);
    }

    /// Goes back to the bus above; `None` from the root bus.
    pub fn leave(&mut self) -> Option<(u16, T)> {
        let left = self.buses[self.bridges];
        self.bridges = self.bridges.checked_sub(1)?;
        Some(left)
    }
}

/// What check 23 keeps of a bus.
#[derive(Clone, Copy)]
struct Siblings {
    last: Option<u8>,
    /// The last function 0: its device/function byte and whether it has others.
    function0: Option<(u8, bool)>,
}

impl Siblings {
    const NONE: Siblings = Siblings { last: None, function0: None };

    /// Takes the next function of the bus, if its device/function byte may follow.
    fn admit(&mut self, function: &Function) -> bool {
        let byte = function.device_function;
        if self.last.is_some_and(|last| last >= byte) {
            return false;
        }
        self.last = Some(byte);
        if byte & 7 == 0 {
            self.function0 = Some((byte, function.header_type & 0x80 != 0));
            return true;
        }
        self.function0 == Some((byte & !7, true))
    }
}

/// Check 23: parents, depth-first order, rising siblings, depth, function 0. The first record that is out of place.
fn misplaced(functions: &[Function]) -> Option<usize> {
    let mut path = Path::new(Siblings::NONE);
    for (record, function) in (1..).zip(functions) {
        while path.record() != function.parent {
            if path.leave().is_none() {
                return Some(record.into());
            }
        }
        if path.bridges() > MAX_ABOVE || !path.bus().admit(function) {
            return Some(record.into());
        }
        if function.is_bridge() {
            path.enter(record, Siblings::NONE);
        }
    }
    None
}
