//! Random boards beyond [`board::random`]: deep ones, huge ones, other pools and buses, and boards that are not lawful.

use crate::board::{
    self, Board, Function, Spares, Style, CLOSED_HIGH, CLOSED_IO, CLOSED_LOW, LEAST_MEMORY_BIT, MOST_ABOVE,
    MOST_FUNCTIONS,
};
use crate::damage;
use crate::random::Random;

/// A board of either version whose tree and read-backs are lawful: small, large, deep or huge. Its pools are as they come.
pub fn lawful(random: &mut Random) -> Board {
    let mut board = match random.below(8) {
        0 => {
            let depth = MOST_ABOVE - 2 + random.below(4) as usize;
            deep(random, depth, MOST_ABOVE + 1)
        }
        1 => huge(random),
        2 if random.chance(1, 2) => large(random),
        _ => {
            let style = Style {
                functions: random.below(24) as usize,
                bridges: random.below(80),
                memory_bits: LEAST_MEMORY_BIT + random.below(21) as u32,
                io_bits: 3 + random.below(8) as u32,
            };
            board::random(random, &style)
        }
    };
    if random.chance(1, 2) {
        board = with_spares(&board, random);
    }
    if random.chance(1, 2) {
        set_pools(&mut board, random);
    }
    if random.chance(1, 2) {
        set_buses(&mut board, random);
    }
    board
}

/// The board in version 2: no spares, a few, some at every bridge, or as many at one bridge as there can be or fit.
pub fn with_spares(board: &Board, random: &mut Random) -> Board {
    let mut board = board.without_spares();
    let mut bridges: Vec<&mut Spares> = board.functions.iter_mut().filter_map(|one| one.spares.as_mut()).collect();
    if bridges.is_empty() {
        return board;
    }
    match random.below(8) {
        0 => {}
        1..=4 => {
            for bridge in bridges {
                if random.chance(1, 4) {
                    *bridge = Spares { buses: random.below(3) as u8, memory: random.below(4) as u16 };
                }
            }
        }
        5 | 6 => {
            let memory = [1, 16, 256][random.below(3) as usize];
            for bridge in bridges {
                *bridge = Spares { buses: random.below(2) as u8, memory: random.below(memory + 1) as u16 };
            }
        }
        _ => {
            let (most, at) = (bridges.len().min(255) as u8, random.below(bridges.len() as u64) as usize);
            let buses = [0, 1, 255 - most, 254, 255][random.below(5) as usize];
            let memory = [0, 1, 2048, 4095, 4096, 4097, 65_535][random.below(7) as usize];
            *bridges[at] = Spares { buses, memory };
        }
    }
    board
}

/// Open pools of any size, and sometimes closed ones.
fn set_pools(board: &mut Board, random: &mut Random) {
    let base = (random.below(1 << 12) as u32) << 20;
    board.low = (base, base | 0xF_FFFF | random.word() as u32 & 0x7FF0_0000);
    let base = (random.below(16) as u16) << 12;
    board.io = (base, base | 0xFFF | random.word() as u16 & 0xF000);
    let base = (1 << 32) + (random.below(1 << 16) << 20);
    board.high = (base, base | 0xF_FFFF | random.word() & (0xFFF_FFFF_FFF0_0000 >> random.below(20)) & ((1 << 52) - 1));
    if random.chance(1, 8) {
        board.low = CLOSED_LOW;
    }
    if random.chance(1, 8) {
        board.high = CLOSED_HIGH;
    }
    if random.chance(1, 8) {
        board.io = CLOSED_IO;
    }
}

/// Bus numbers that just suffice, or one more or less.
fn set_buses(board: &mut Board, random: &mut Random) {
    let taken = board.bus_numbers();
    let first = random.below(256 - taken.min(255) as u64) as usize;
    let last = (first + taken + random.below(3) as usize).saturating_sub(1).clamp(first, 255);
    board.buses = (first as u8, last as u8);
}

/// A chain of `depth` bridges with functions before and behind each of them, but none below a `bottom`th bridge.
fn deep(random: &mut Random, depth: usize, bottom: usize) -> Board {
    let mut board = roomy();
    let mut above = vec![0];
    for _ in 0..depth {
        let parent = above[above.len() - 1];
        if above.len() <= bottom && random.chance(1, 3) {
            board.end(parent, 0x00, &card(random));
        }
        above.push(board.bridge(parent, 0x08));
    }
    while let Some(parent) = above.pop() {
        if above.len() < bottom && random.chance(2, 3) {
            board.end(parent, 0xF8, &card(random));
        }
    }
    for function in &mut board.functions {
        function.command = if random.chance(7, 8) { 3 } else { random.below(4) as u16 };
    }
    board
}

/// 64 to 512 functions, often 512, few of them with I/O, so that many are planned.
pub fn large(random: &mut Random) -> Board {
    let style = Style {
        functions: if random.chance(1, 2) { MOST_FUNCTIONS } else { 64 + random.below(449) as usize },
        bridges: 5 + random.below(40),
        memory_bits: LEAST_MEMORY_BIT + random.below(11) as u32,
        io_bits: 3,
    };
    let leave = (1, 8 + random.below(24));
    let mut board = board::random_tree(random, &style, leave);
    for function in &mut board.functions {
        if random.chance(63, 64) {
            let is_io = |read_back: u32| read_back & 3 == 1;
            function.read_backs.iter_mut().filter(|read_back| is_io(**read_back)).for_each(|read_back| *read_back = 0);
        }
    }
    board
}

fn card(random: &mut Random) -> Vec<u32> {
    let bits = LEAST_MEMORY_BIT + random.below(13) as u32;
    let [low, upper] = if random.chance(1, 2) { board::high(bits) } else { board::wide(bits) };
    vec![board::memory(bits), low, upper, board::io(2 + random.below(5) as u32), board::prefetchable(bits)]
}

/// A few functions with BARs up to 2^63, whose sums run past 2^64.
pub fn huge(random: &mut Random) -> Board {
    let mut board = roomy();
    let mut path = vec![0];
    for record in 0..random.below(12) as u16 {
        while path.len() > 1 && random.chance(1, 3) {
            path.pop();
        }
        let parent = path[path.len() - 1];
        let device_function = (record << 3) as u8;
        if random.chance(1, 2) {
            path.push(board.bridge(parent, device_function));
            continue;
        }
        let read_backs: Vec<u32> = (0..3)
            .flat_map(|_| {
                let bits = [63, 62, 51, 50, 32, 31, 20, 12][random.below(8) as usize];
                match random.below(6) {
                    0 => board::wide(bits),
                    1 => board::high(bits),
                    2 => [board::memory(bits.min(31)), board::io(bits.min(15))],
                    _ => [0, 0],
                }
            })
            .collect();
        board.end(parent, device_function, &read_backs);
    }
    board
}

/// Pools as large as they can be, and no function.
fn roomy() -> Board {
    Board { low: (0, 0xFFFF_FFFF), high: (1 << 32, (1 << 52) - 1), io: (0, 0xFFFF), ..Board::new() }
}

/// Makes one part of the board wrong, or different at the least.
pub fn spoil(board: &mut Board, random: &mut Random) {
    let any = random.word();
    let count = board.functions.len();
    let at = random.below(count.max(1) as u64) as usize;
    match random.below(18) {
        0 => board.version = any as u8,
        1 => board.buses = (any as u8, (any >> 8) as u8),
        2 => board.low.0 ^= 1 << (any % 32),
        3 => board.low.1 ^= 1 << (any % 32),
        4 => board.high.0 ^= 1 << (any % 64),
        5 => board.high.1 ^= 1 << (any % 64),
        6 => board.io.0 ^= 1 << (any % 16),
        7 => board.io.1 ^= 1 << (any % 16),
        8 => board.tail = (0..any % 40).map(|_| random.word() as u8).collect(),
        9 => lengthen(board, random),
        10 => one_address(board, random),
        // Each version's records under the other one's number.
        17 => board.version ^= 3,
        _ if count == 0 => board.tail.push(any as u8),
        11 => board.functions.swap(at, any as usize % count),
        12 => {
            board.functions.remove(at);
        }
        13 => {
            let twin = board.functions[at].clone();
            board.functions.insert(any as usize % (count + 1), twin);
        }
        _ => spoil_function(&mut board.functions[at], count, random),
    }
}

fn spoil_function(function: &mut Function, count: usize, random: &mut Random) {
    let any = random.word();
    match random.below(10) {
        0 => function.parent = (any % (count as u64 + 2)) as u16,
        1 => function.parent = any as u16,
        2 => function.device_function = any as u8,
        3 => function.header_type ^= 1 << (any % 8),
        4 => function.read_backs.resize((any % 8) as usize, 0),
        5 => function.spares = if function.spares.is_some() { None } else { Some(Spares::default()) },
        6 => {
            let spares = Spares { buses: any as u8, memory: (any >> 8) as u16 };
            function.spares = function.spares.map(|_| spares);
        }
        7 => {
            if let Some(read_back) = function.read_backs.get_mut(any as usize % 6) {
                *read_back = random.word() as u32;
            }
        }
        8 => {
            let slots = function.read_backs.iter_mut().skip(any as usize % 6);
            slots.zip(board::tiny(random)).for_each(|(read_back, tiny)| *read_back = tiny);
        }
        _ => {
            if let Some(read_back) = function.read_backs.get_mut(any as usize % 6) {
                *read_back ^= 1 << random.below(32);
            }
        }
    }
}

/// A pool whose base is its last address, or just above or below it.
fn one_address(board: &mut Board, random: &mut Random) {
    let away = random.below(3);
    match random.below(3) {
        0 => board.low.1 = board.low.0.wrapping_add(away as u32).wrapping_sub(1),
        1 => board.high.1 = board.high.0.wrapping_add(away).wrapping_sub(1),
        _ => board.io.1 = board.io.0.wrapping_add(away as u16).wrapping_sub(1),
    }
}

/// Functions until there are about 512, so that some boards have too many.
fn lengthen(board: &mut Board, random: &mut Random) {
    let count = MOST_FUNCTIONS - 2 + random.below(5) as usize;
    let function =
        Function { parent: 0, device_function: 0, header_type: 0x80, command: 0, read_backs: vec![0; 6], spares: None };
    board.functions.resize(count.max(board.functions.len()), function);
}

/// The bytes of a board that is lawful, spoilt, cut, lengthened, or no board at all.
pub fn any(random: &mut Random) -> Vec<u8> {
    let mut board = if random.chance(1, 64) {
        let depth = MOST_ABOVE + random.below(4) as usize;
        deep(random, depth, MOST_ABOVE + 4)
    } else {
        lawful(random)
    };
    if random.chance(1, 2) {
        for _ in 0..1 + random.below(2) {
            spoil(&mut board, random);
        }
    }
    let mut bytes = board.bytes();
    match random.below(16) {
        0..=10 => {}
        11 => set_record(&mut bytes, random),
        12 => bytes.truncate(random.below(bytes.len() as u64 + 1) as usize),
        13 => damage::bits(&mut bytes, random),
        14 => damage::bytes(&mut bytes, random),
        _ if random.chance(1, 4) => {
            // A record far longer than any function's.
            let length = random.below(1 << 16) as usize;
            bytes.extend((length as u16).to_be_bytes());
            bytes.resize(bytes.len() + length, random.word() as u8);
        }
        _ => bytes = (0..random.below(64)).map(|_| random.below(40) as u8).collect(),
    }
    bytes
}

/// Gives one record another length and as many bytes, or adds one: the frame stays whole.
fn set_record(bytes: &mut Vec<u8>, random: &mut Random) {
    let mut at = 1;
    let mut starts = Vec::new();
    while at + 2 <= bytes.len() {
        starts.push(at);
        at += 2 + usize::from(u16::from_be_bytes([bytes[at], bytes[at + 1]]));
    }
    let start = starts[random.below(starts.len() as u64) as usize];
    let old = usize::from(u16::from_be_bytes([bytes[start], bytes[start + 1]]));
    let length = match random.below(6) {
        0 => random.below(40) as usize,
        1 => 5 + random.below(3) as usize,
        2 => old + 1,
        3 => old.saturating_sub(1),
        // By what a bridge of version 2 has more.
        4 => old + 3,
        _ => old.saturating_sub(3),
    };
    let end = (start + 2 + old).min(bytes.len());
    let mut record: Vec<u8> = bytes[start + 2..end].to_vec();
    record.resize(length, 0);
    record.splice(0..0, (length as u16).to_be_bytes());
    // In place of the old record, or before it.
    let replaced = if random.chance(3, 4) { end } else { start };
    bytes.splice(start..replaced, record);
}
