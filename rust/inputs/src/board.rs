//! Boards to be written out, lawful or not.

use crate::random::Random;

/// The most functions of a board or a sheet, and the most bridges above one (document 02, E7).
pub const MOST_FUNCTIONS: usize = 512;
pub const MOST_ABOVE: usize = 32;

/// The size bit of the least memory BAR, of 128 bytes (document 02, E9); and the bits of its type, which lie below.
pub const LEAST_MEMORY_BIT: u32 = 7;
pub const TYPE_BITS: u32 = 4;

/// What a bridge keeps free below it (document 02, E10).
#[derive(Clone, Copy, Debug, Default, PartialEq, Eq)]
pub struct Spares {
    pub buses: u8,
    /// Low memory in MiB.
    pub memory: u16,
}

#[derive(Clone)]
pub struct Function {
    pub parent: u16,
    pub device_function: u8,
    pub header_type: u8,
    pub command: u16,
    pub read_backs: Vec<u32>,
    /// Three bytes at the end of the record, which a lawful bridge has in version 2 and no other record has.
    pub spares: Option<Spares>,
}

impl Function {
    pub fn is_bridge(&self) -> bool {
        self.header_type & 0x7F == 1
    }
}

#[derive(Clone)]
pub struct Board {
    pub version: u8,
    pub buses: (u8, u8),
    pub low: (u32, u32),
    pub high: (u64, u64),
    pub io: (u16, u16),
    pub functions: Vec<Function>,
    /// Bytes after the last record.
    pub tail: Vec<u8>,
}

/// Low, high and I/O pools with base above last.
pub const CLOSED_LOW: (u32, u32) = (0xFFFF_FFFF, 0);
pub const CLOSED_HIGH: (u64, u64) = (0xFFFF_FFFF_FFFF_FFFF, 0);
pub const CLOSED_IO: (u16, u16) = (0xFFFF, 0);

impl Default for Board {
    fn default() -> Board {
        Board::new()
    }
}

impl Board {
    /// Roomy pools and no function.
    pub fn new() -> Board {
        Board {
            version: 1,
            buses: (0, 255),
            low: (0x8000_0000, 0xEFFF_FFFF),
            high: (0x10_0000_0000, 0x1F_FFFF_FFFF),
            io: (0x1000, 0xEFFF),
            functions: Vec::new(),
            tail: Vec::new(),
        }
    }

    /// The same of version 2.
    pub fn version_2() -> Board {
        Board { version: 2, ..Board::new() }
    }

    /// The same board in version 2, with no spares.
    pub fn without_spares(&self) -> Board {
        let mut board = Board { version: 2, ..self.clone() };
        for bridge in board.functions.iter_mut().filter(|function| function.is_bridge()) {
            bridge.spares = Some(Spares::default());
        }
        board
    }

    /// How many bus numbers the bridges and their spares take.
    pub fn bus_numbers(&self) -> usize {
        let spares = |bridge: &Function| bridge.spares.map_or(0, |spares| usize::from(spares.buses));
        self.functions.iter().filter(|function| function.is_bridge()).map(|bridge| 1 + spares(bridge)).sum()
    }

    pub fn closed() -> Board {
        Board { low: CLOSED_LOW, high: CLOSED_HIGH, io: CLOSED_IO, ..Board::new() }
    }

    /// Adds a function and returns its record number.
    pub fn add(&mut self, parent: u16, device_function: u8, header_type: u8, read_backs: &[u32]) -> u16 {
        let slots = if header_type & 0x7F == 1 { 2 } else { 6 };
        let mut read_backs = read_backs.to_vec();
        read_backs.resize(slots, 0);
        let spares = (self.version == 2 && slots == 2).then_some(Spares::default());
        self.functions.push(Function { parent, device_function, header_type, command: 3, read_backs, spares });
        self.functions.len() as u16
    }

    pub fn bridge(&mut self, parent: u16, device_function: u8) -> u16 {
        self.add(parent, device_function, 1, &[])
    }

    pub fn end(&mut self, parent: u16, device_function: u8, read_backs: &[u32]) -> u16 {
        self.add(parent, device_function, 0, read_backs)
    }

    /// A bridge with spares, of a board of version 2.
    pub fn spare_bridge(&mut self, parent: u16, device_function: u8, buses: u8, memory: u16) -> u16 {
        let record = self.bridge(parent, device_function);
        self.functions[usize::from(record) - 1].spares = Some(Spares { buses, memory });
        record
    }

    /// A chain of bridges below `parent`, each at `device_function`; the last one's record.
    pub fn chain(&mut self, parent: u16, device_function: u8, length: usize) -> u16 {
        (0..length).fold(parent, |above, _| self.bridge(above, device_function))
    }

    /// The 30 bytes of the host record.
    pub fn host(&self) -> Vec<u8> {
        let mut bytes = vec![self.buses.0, self.buses.1];
        for edge in [self.low.0, self.low.1] {
            bytes.extend(edge.to_be_bytes());
        }
        for edge in [self.high.0, self.high.1] {
            bytes.extend(edge.to_be_bytes());
        }
        for edge in [self.io.0, self.io.1] {
            bytes.extend(edge.to_be_bytes());
        }
        bytes
    }

    pub fn bytes(&self) -> Vec<u8> {
        let mut bytes = vec![self.version, 0, 30];
        bytes.extend(self.host());
        for function in &self.functions {
            let spares = function.spares.map_or(0, |_| 3);
            bytes.extend((6 + 4 * function.read_backs.len() as u16 + spares).to_be_bytes());
            bytes.extend(function.parent.to_be_bytes());
            bytes.extend([function.device_function, function.header_type]);
            bytes.extend(function.command.to_be_bytes());
            for read_back in &function.read_backs {
                bytes.extend(read_back.to_be_bytes());
            }
            if let Some(Spares { buses, memory }) = function.spares {
                bytes.push(buses);
                bytes.extend(memory.to_be_bytes());
            }
        }
        bytes.extend(&self.tail);
        bytes
    }
}

/// A 32-bit memory BAR of 2^`bits` bytes.
pub fn memory(bits: u32) -> u32 {
    u32::MAX << bits
}

/// The same, prefetchable.
pub fn prefetchable(bits: u32) -> u32 {
    memory(bits) | 8
}

/// A 64-bit BAR that uses the low pool.
pub fn wide(bits: u32) -> [u32; 2] {
    let mask = u64::MAX << bits;
    [mask as u32 | 4, (mask >> 32) as u32]
}

/// A 64-bit prefetchable BAR: the high pool.
pub fn high(bits: u32) -> [u32; 2] {
    let [low, upper] = wide(bits);
    [low | 8, upper]
}

/// An I/O BAR, upper half all ones.
pub fn io(bits: u32) -> u32 {
    u32::MAX << bits | 1
}

/// The same, upper half all zeros.
pub fn short_io(bits: u32) -> u32 {
    io(bits) & 0xFFFF
}

/// The two slots of a memory BAR of 16, 32 or 64 bytes in any form, which is 25; the second is unused where 32 bits are all.
pub fn tiny(random: &mut Random) -> [u32; 2] {
    let bits = TYPE_BITS + random.below(u64::from(LEAST_MEMORY_BIT - TYPE_BITS)) as u32;
    match random.below(4) {
        0 => [memory(bits), 0],
        1 => [prefetchable(bits), 0],
        2 => wide(bits),
        _ => high(bits),
    }
}

/// P10's board.
pub fn p10() -> Board {
    let mut board = Board {
        low: (0xF900_0000, 0xF9FF_FFFF),
        high: (0x2_4000_0000, 0x2_7FFF_FFFF),
        io: (0x4000, 0x4FFF),
        ..Board::new()
    };
    let bridge = board.bridge(0, 0);
    board.end(bridge, 0, &[memory(12), 0xFC00_000C, 0xFFFF_FFFF, 0xFFFF_FF01]);
    board
}

/// As many functions as there may be, each with these read-backs: 255 and a bridge on the root bus, 256 below the bridge.
pub fn full(read_backs: &[u32]) -> Board {
    let mut board = Board::new();
    for device_function in 0..=254 {
        board.add(0, device_function, 0x80, read_backs);
    }
    let bridge = board.bridge(0, 255);
    for device_function in 0..=255 {
        board.add(bridge, device_function, 0x80, read_backs);
    }
    board
}

/// Source document 001's tree: bridges A to J, and endpoints where it has them.
pub fn document_001() -> Board {
    let mut board = Board::new();
    let card = [memory(14), io(5)];
    let a = board.bridge(0, 0x00);
    let c = board.bridge(a, 0x00);
    let d = board.bridge(c, 0x00);
    board.add(d, 0x00, 0x80, &card);
    board.add(d, 0x01, 0x00, &card);
    let e = board.bridge(c, 0x08);
    board.end(e, 0x00, &card);
    let b = board.bridge(0, 0x08);
    let f = board.bridge(b, 0x00);
    let g = board.bridge(f, 0x00);
    board.end(g, 0x00, &card);
    let h = board.bridge(f, 0x08);
    let j = board.bridge(h, 0x00);
    board.end(j, 0x00, &card);
    board.end(j, 0x08, &high(20));
    let i = board.bridge(f, 0x10);
    board.end(i, 0x00, &card);
    board
}

/// How a random board looks.
pub struct Style {
    pub functions: usize,
    /// Bridges in a hundred functions.
    pub bridges: u64,
    /// The greatest memory and I/O BARs, as powers of two. Of memory at the least [`LEAST_MEMORY_BIT`].
    pub memory_bits: u32,
    pub io_bits: u32,
}

/// A board whose tree is lawful and whose pools are roomy.
pub fn random(random: &mut Random, style: &Style) -> Board {
    random_tree(random, style, (1, 3))
}

/// The same, going back to the bus above after a function, and again, in `leave.0` of `leave.1` cases.
pub fn random_tree(random: &mut Random, style: &Style, leave: (u64, u64)) -> Board {
    let mut board = Board::new();
    board.low = (0, 0xFFFF_FFFF);
    board.high = (1 << 32, (1 << 52) - 1);
    board.io = (0, 0xFFFF);
    // The open buses: bridge, next free device/function byte.
    let mut path: Vec<(u16, u16)> = vec![(0, 0)];
    while board.functions.len() < style.functions {
        while path.len() > 1 && (path.len() > MOST_ABOVE + 1 || random.chance(leave.0, leave.1)) {
            path.pop();
        }
        let (parent, next) = path.last_mut().map(|bus| (bus.0, &mut bus.1)).unwrap();
        if *next > 0xFF {
            if path.pop().is_none() || path.is_empty() {
                break;
            }
            continue;
        }
        // Go on in the device, or take a later one.
        if *next & 7 != 0 && random.chance(1, 2) {
            *next = (*next | 7) + 1 + 8 * random.below(2) as u16;
            if *next > 0xFF {
                continue;
            }
        }
        let device_function = *next as u8;
        let first = device_function & 7 == 0;
        let several = first && random.chance(1, 2);
        *next += if several || !first { 1 + random.below(2) as u16 * u16::from(device_function & 7 < 6) } else { 8 };
        let multiple = if several || (!first && random.chance(1, 4)) { 0x80 } else { 0 };
        let is_bridge = random.chance(style.bridges, 100);
        let slots = if is_bridge { 2 } else { 6 };
        let read_backs = random_read_backs(random, style, slots);
        let record = board.add(parent, device_function, multiple | u8::from(is_bridge), &read_backs);
        board.functions.last_mut().unwrap().command = random.word() as u16 & 0x0407;
        if is_bridge {
            path.push((record, 0));
        }
    }
    board
}

fn random_read_backs(random: &mut Random, style: &Style, slots: usize) -> Vec<u32> {
    let mut read_backs = Vec::new();
    let few = random.below(slots as u64 + 1);
    while read_backs.len() < slots {
        let bits = LEAST_MEMORY_BIT + random.below(u64::from(style.memory_bits - LEAST_MEMORY_BIT) + 1) as u32;
        let io_bits = 2 + random.below(u64::from(style.io_bits) - 1) as u32;
        let pair = read_backs.len() + 2 <= slots;
        match random.below(few + 6) {
            0 => read_backs.push(memory(bits)),
            1 => read_backs.push(prefetchable(bits)),
            2 => read_backs.push(io(io_bits)),
            3 => read_backs.push(short_io(io_bits)),
            4 if pair => read_backs.extend(wide(bits)),
            5 if pair => read_backs.extend(high(bits + 4)),
            _ => read_backs.push(0),
        }
    }
    read_backs
}
