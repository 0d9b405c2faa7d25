//! A sheet's functions as the rules see them, read anew from the bytes, and requests for what they hold.

use inputs::foreign::{message, request, MSG, MSGD};
use inputs::random::Random;

pub struct Function {
    pub id: u16,
    pub command: u16,
    /// A bridge's secondary and subordinate bus.
    pub bridge: Option<(u8, u8)>,
    pub bars: Vec<Range>,
    /// A bridge's windows, closed ones too.
    pub windows: Vec<Range>,
}

/// A BAR's addresses or a window's, over 128-bit numbers, ends inside.
#[derive(Clone, Copy)]
pub struct Range {
    /// Low, high or I/O, from 0.
    pub pool: usize,
    pub first: u128,
    pub last: u128,
}

impl Range {
    pub fn is_io(&self) -> bool {
        self.pool == 2
    }

    pub fn holds(&self, is_io: bool, address: u128) -> bool {
        self.is_io() == is_io && self.first <= address && address <= self.last
    }
}

impl Function {
    pub fn bus(&self) -> u8 {
        (self.id >> 8) as u8
    }

    pub fn enables(&self, is_io: bool) -> bool {
        self.command & if is_io { 1 } else { 2 } != 0
    }
}

pub fn functions(sheet: &[u8]) -> Vec<Function> {
    sheet[1..].chunks_exact(92).map(function).collect()
}

fn little(bytes: &[u8]) -> u128 {
    bytes.iter().rev().fold(0, |number, &byte| number << 8 | u128::from(byte))
}

fn function(record: &[u8]) -> Function {
    let registers = &record[4..68];
    let is_bridge = registers[0x0E] & 0x7F == 1;
    Function {
        id: u16::from_be_bytes([record[2], record[3]]),
        command: u16::from_le_bytes([registers[4], registers[5]]),
        bridge: is_bridge.then_some((registers[0x19], registers[0x1A])),
        bars: bars(record, if is_bridge { 2 } else { 6 }),
        windows: if is_bridge { windows(registers) } else { Vec::new() },
    }
}

fn bars(record: &[u8], slots: usize) -> Vec<Range> {
    let registers = &record[4..68];
    let mut bars = Vec::new();
    let mut slot = 0;
    while slot < slots {
        let read_back = u32::from_be_bytes(record[68 + 4 * slot..72 + 4 * slot].try_into().unwrap());
        let value = little(&registers[0x10 + 4 * slot..0x14 + 4 * slot]);
        if read_back & 1 == 1 {
            let size = 1u128 << (read_back & 0xFFFC).trailing_zeros();
            bars.push(Range { pool: 2, first: value - 1, last: value - 1 + size - 1 });
        } else if read_back & 4 == 4 {
            let upper = u32::from_be_bytes(record[72 + 4 * slot..76 + 4 * slot].try_into().unwrap());
            let mask = u64::from(upper) << 32 | u64::from(read_back & !15);
            let first = little(&registers[0x14 + 4 * slot..0x18 + 4 * slot]) << 32 | value & !15;
            let pool = if read_back & 8 == 8 { 1 } else { 0 };
            bars.push(Range { pool, first, last: first + (1u128 << mask.trailing_zeros()) - 1 });
            slot += 1;
        } else if read_back != 0 {
            let first = value & !15;
            let size = 1u128 << (read_back & !15).trailing_zeros();
            bars.push(Range { pool: 0, first, last: first + size - 1 });
        }
        slot += 1;
    }
    bars
}

fn windows(registers: &[u8]) -> Vec<Range> {
    let io = |at| little(&registers[at..at + 1]) << 8;
    let low = |at| little(&registers[at..at + 2]) << 16;
    let high =
        |at: usize, upper| little(&registers[upper..upper + 4]) << 32 | (little(&registers[at..at + 2]) - 1) << 16;
    vec![
        Range { pool: 2, first: io(0x1C), last: io(0x1D) + 0xFFF },
        Range { pool: 0, first: low(0x20), last: low(0x22) + 0xF_FFFF },
        Range { pool: 1, first: high(0x24, 0x28), last: high(0x26, 0x2C) + 0xF_FFFF },
    ]
}

/// Addresses at and around the edges of BARs and windows, as headers.
pub fn requests(functions: &[Function], numbers: &mut Random) -> Vec<Vec<u8>> {
    let mut headers = Vec::new();
    for function in functions {
        for range in function.bars.iter().chain(&function.windows) {
            let (is_io, first, last) = (range.is_io(), range.first, range.last);
            let inside = first + u128::from(numbers.word()) % (last.saturating_sub(first) + 1);
            for address in [first.wrapping_sub(4), first, inside & !3, last & !3, last + 1] {
                let limit = if is_io { 1 << 32 } else { 1 << 64 };
                if address < limit {
                    let byte0 = [[0x00, 0x40], [0x02, 0x42]][usize::from(is_io)][numbers.below(2) as usize];
                    headers.push(request(byte0, address as u64));
                }
                // By address a message is a memory request, also where the range is one of I/O.
                if address < limit && numbers.chance(1, 3) {
                    let byte0 = [MSG, MSGD][numbers.below(2) as usize];
                    headers.push(message(byte0, 0b001, numbers.word() as u8, address as u64));
                }
            }
        }
    }
    headers
}
