//! The owners of a sheet in sorted order, and the search.

use crate::packet::{self, Aim, NAMES};

/// How many numbers an answer has: record, bridges, and the packet as it arrives.
pub const ANSWER: usize = 22;

/// A record of a sheet with its length, and where its registers and its read-backs start.
pub const RECORD: usize = 92;
pub const REGISTERS: usize = 4;
const READ_BACKS: usize = 68;

/// Command bits.
const IO_ENABLE: u8 = 1;
const MEMORY_ENABLE: u8 = 2;

/// A function, and the bridges above it.
#[derive(Clone, Copy)]
pub struct Owner {
    pub last: u64,
    pub record: u16,
    pub bridges: u8,
}

/// Where a packet goes.
pub enum Found {
    Function(Owner),
    Every,
    Port,
}

/// What functions own in one space: first numbers in order, and whose each is.
#[derive(Default)]
pub struct Space {
    starts: Vec<u64>,
    owners: Vec<Owner>,
}

impl Space {
    pub fn new(mut owned: Vec<(u64, Owner)>) -> Space {
        owned.sort_unstable_by_key(|&(start, _)| start);
        let (starts, owners) = owned.into_iter().unzip();
        Space { starts, owners }
    }

    #[inline]
    pub fn owner(&self, key: u64) -> Result<Owner, u8> {
        let after = self.starts.partition_point(|&start| start <= key);
        match self.owners[..after].last() {
            Some(owner) if key <= owner.last => Ok(*owner),
            _ => Err(40),
        }
    }
}

/// A sheet's functions, to be searched by address and by ID.
pub struct Index {
    memory: Space,
    io: Space,
    ids: Space,
    /// The root bus, unless there is no function.
    root: Option<u8>,
    functions: u64,
}

impl Index {
    /// Of a sheet that the audit accepts.
    pub fn build(sheet: &[u8]) -> Index {
        let (records, _) = sheet[1..].as_chunks::<RECORD>();
        let above = above(records);
        let [mut memory, mut io, mut ids] = [const { Vec::new() }; 3];
        for (record, number) in records.iter().zip(1..) {
            let Above { bridges, enables } = above[usize::from(record[2])];
            let enabled = record[REGISTERS + 0x04] & enables;
            let owner = |last| Owner { last, record: number, bridges };
            let id = u64::from(u16::from_be_bytes([record[2], record[3]]));
            ids.push((id, owner(id)));
            for bar in bars(record) {
                let (space, bit) = if bar.is_io { (&mut io, IO_ENABLE) } else { (&mut memory, MEMORY_ENABLE) };
                if enabled & bit != 0 {
                    space.push((bar.first, owner(bar.last)));
                }
            }
        }
        Index {
            memory: Space::new(memory),
            io: Space::new(io),
            ids: Space::new(ids),
            root: records.first().map(|record| record[2]),
            functions: records.len() as u64,
        }
    }

    /// Labels the header at the start of `header`: the numbers are the answer, unless a refusal's number comes back. Of a
    /// broadcast the records are 1 up to the number in place of the bridges.
    #[inline]
    pub fn label(&self, header: &[u8], answer: &mut [u64; ANSWER]) -> u8 {
        self.answer(header, answer).err().unwrap_or(0)
    }

    #[inline]
    fn answer(&self, header: &[u8], answer: &mut [u64; ANSWER]) -> Result<(), u8> {
        let [record, bridges, packet @ ..] = answer;
        let (_, aim) = packet::decode(header, packet)?;
        // It arrives as type 0.
        packet[0] -= 2 * u64::from(matches!(aim, Aim::Target(_, true)));
        (*record, *bridges) = match self.owner(aim)? {
            Found::Function(owner) => (owner.record.into(), owner.bridges.into()),
            Found::Every => (0, self.functions),
            Found::Port => (0, 0),
        };
        Ok(())
    }

    #[inline]
    pub fn owner(&self, aim: Aim) -> Result<Found, u8> {
        let root = self.root.ok_or(40)?;
        let owner = match aim {
            Aim::Memory(address) => self.memory.owner(address)?,
            Aim::Io(address) => self.io.owner(address)?,
            Aim::Id(id) => self.ids.owner(id.into())?,
            Aim::Target(id, is_type1) => {
                if is_type1 == (id.to_be_bytes()[0] == root) {
                    return Err(42);
                }
                self.ids.owner(id.into())?
            }
            Aim::Every => return Ok(Found::Every),
            Aim::Port => return Ok(Found::Port),
            Aim::Up => return Err(43),
        };
        Ok(Found::Function(owner))
    }

    /// The record of the function with this ID.
    #[inline]
    pub fn with_id(&self, id: u16) -> Option<u16> {
        self.ids.owner(id.into()).ok().map(|owner| owner.record)
    }

    /// Puts the line of a header at the end of `lines`, as the program `label` prints it.
    #[inline]
    pub fn put_line(&self, number: u64, header: &[u8], lines: &mut Vec<u8>) {
        put_decimal(number, lines);
        match packet::decode(header, &mut ()) {
            Ok((kind, aim)) => {
                lines.push(b' ');
                lines.extend_from_slice(NAMES[usize::from(kind)].as_bytes());
                match self.owner(aim) {
                    Ok(Found::Function(owner)) => {
                        lines.extend_from_slice(b" owner ");
                        put_decimal(owner.record.into(), lines);
                    }
                    Ok(Found::Every) => lines.extend_from_slice(b" owner all"),
                    Ok(Found::Port) => lines.extend_from_slice(b" owner port"),
                    Err(refusal) => put_refused(refusal, lines),
                }
            }
            Err(refusal) => {
                lines.extend_from_slice(b" -");
                put_refused(refusal, lines);
            }
        }
        lines.push(b'\n');
    }
}

pub fn put_refused(number: u8, lines: &mut Vec<u8>) {
    lines.extend_from_slice(b" refused ");
    put_decimal(number.into(), lines);
}

pub fn put_decimal(mut number: u64, lines: &mut Vec<u8>) {
    let mut digits = [0; 20];
    let mut start = digits.len();
    loop {
        start -= 1;
        digits[start] = b'0' + (number % 10) as u8;
        number /= 10;
        if number == 0 {
            break;
        }
    }
    lines.extend_from_slice(&digits[start..]);
}

/// The bridges above a bus: how many, and the command bits that all of them have.
#[derive(Clone, Copy)]
struct Above {
    bridges: u8,
    enables: u8,
}

/// By bus number. A bus below a bridge has a greater number than the bridge's.
fn above(records: &[[u8; RECORD]]) -> [Above; 256] {
    let mut above = [Above { bridges: 0, enables: IO_ENABLE | MEMORY_ENABLE }; 256];
    let mut bridges: Vec<_> = records.iter().filter(|record| is_bridge(record)).collect();
    bridges.sort_unstable_by_key(|bridge| bridge[2]);
    for bridge in bridges {
        let Above { bridges, enables } = above[usize::from(bridge[2])];
        let secondary = bridge[REGISTERS + 0x19];
        above[usize::from(secondary)] = Above { bridges: bridges + 1, enables: enables & bridge[REGISTERS + 0x04] };
    }
    above
}

pub fn is_bridge(record: &[u8; RECORD]) -> bool {
    record[REGISTERS + 0x0E] & 0x7F == 1
}

/// A BAR's addresses, or an open window's.
pub struct Range {
    pub is_io: bool,
    pub first: u64,
    pub last: u64,
}

pub fn bars(record: &[u8; RECORD]) -> Vec<Range> {
    let value = |slot: usize| u64::from(u32::from_le_bytes(record[REGISTERS + 0x10..].as_chunks().0[slot]));
    let read_back = |slot: usize| u64::from(u32::from_be_bytes(record[READ_BACKS..].as_chunks().0[slot]));
    let slots = if is_bridge(record) { 2 } else { 6 };
    let mut bars = Vec::new();
    let mut slot = 0;
    while slot < slots {
        let low = read_back(slot);
        let (is_io, is_wide) = (low & 1 == 1, low & 5 == 4);
        let (mut size_bits, mut first) = (low, value(slot));
        if is_wide {
            size_bits |= read_back(slot + 1) << 32;
            first |= value(slot + 1) << 32;
        }
        let type_bits = if is_io { 3 } else { 15 };
        first &= !type_bits;
        if low != 0 {
            let size = 1 << (size_bits & !type_bits).trailing_zeros();
            bars.push(Range { is_io, first, last: first + (size - 1) });
        }
        slot += 1 + usize::from(is_wide);
    }
    bars
}

/// A bridge's windows that are open.
pub fn windows(bridge: &[u8; RECORD]) -> Vec<Range> {
    let number = |at: usize, width: usize| {
        bridge[REGISTERS + at..][..width].iter().rev().fold(0u64, |number, &byte| number << 8 | u64::from(byte))
    };
    let memory = |at: usize, upper: u64| upper << 32 | (number(at, 2) & 0xFFF0) << 16;
    let io = |at: usize| (number(at, 1) & 0xF0) << 8;
    let all = [
        Range { is_io: true, first: io(0x1C), last: io(0x1D) | 0xFFF },
        Range { is_io: false, first: memory(0x20, 0), last: memory(0x22, 0) | 0xF_FFFF },
        Range { is_io: false, first: memory(0x24, number(0x28, 4)), last: memory(0x26, number(0x2C, 4)) | 0xF_FFFF },
    ];
    all.into_iter().filter(|window| window.first <= window.last).collect()
}
