//! The planner against document 01's placing rule, with document 02's spares (E10), written out word for word, by recursion
//! and over 128-bit numbers.

use inputs::board::{self, Board, Spares, Style};
use inputs::random::Random;
use inputs::trees;

/// A BAR: slot, pool, size and type bits.
type Bar = (usize, usize, u128, u32);

fn bars(read_backs: &[u32]) -> Vec<Bar> {
    let mut bars = Vec::new();
    let mut slot = 0;
    while slot < read_backs.len() {
        let value = read_backs[slot];
        let size = |mask: u32| 1u128 << mask.trailing_zeros();
        if value == 0 {
        } else if value & 1 == 1 {
            bars.push((slot, 2, size(value & 0xFFFC), 1));
        } else if value & 6 == 4 {
            let joined = u64::from(read_backs[slot + 1]) << 32 | u64::from(value & !15);
            bars.push((slot, usize::from(value & 8 != 0), 1u128 << joined.trailing_zeros(), value & 15));
            slot += 1;
        } else {
            bars.push((slot, 0, size(value & !15), value & 15));
        }
        slot += 1;
    }
    bars
}

const GRANULE: [u128; 3] = [1 << 20, 1 << 20, 1 << 12];

fn up(end: u128, align: u128) -> u128 {
    end.div_ceil(align) * align
}

struct Naive<'a> {
    board: &'a Board,
    bus: Vec<u8>,
    secondary: Vec<u8>,
    subordinate: Vec<u8>,
    /// The last number that was given.
    last: u32,
}

impl Naive<'_> {
    fn children(&self, parent: u16) -> Vec<u16> {
        (1..=self.board.functions.len() as u16).filter(|&i| self.function(i).parent == parent).collect()
    }

    fn function(&self, record: u16) -> &board::Function {
        &self.board.functions[usize::from(record) - 1]
    }

    fn is_bridge(&self, record: u16) -> bool {
        self.function(record).is_bridge()
    }

    fn spares(&self, record: u16) -> Spares {
        self.function(record).spares.unwrap_or_default()
    }

    /// A bridge's spare buses come right after all buses below it, inside its subordinate.
    fn number(&mut self, parent: u16, bus: u32) {
        for child in self.children(parent) {
            let at = usize::from(child);
            self.bus[at] = bus as u8;
            if self.is_bridge(child) {
                self.last += 1;
                self.secondary[at] = self.last as u8;
                self.number(child, self.last);
                self.last += u32::from(self.spares(child).buses);
                self.subordinate[at] = self.last as u8;
            }
        }
    }

    /// The items of a bus in one pool: size, alignment and what they are (record, BAR or window).
    fn items(&self, parent: u16, pool: usize) -> Vec<(u128, u128, u16, Option<Bar>)> {
        let mut items = Vec::new();
        for child in self.children(parent) {
            for bar in bars(&self.function(child).read_backs).into_iter().filter(|bar| bar.1 == pool) {
                items.push((bar.2, bar.2, child, Some(bar)));
            }
            if self.is_bridge(child) {
                if let Some((size, align)) = self.window(child, pool) {
                    items.push((size, align, child, None));
                }
            }
        }
        items
    }

    /// Spare memory is added to the rounded end of the low window, which is then open even with nothing below.
    fn window(&self, bridge: u16, pool: usize) -> Option<(u128, u128)> {
        let items = self.items(bridge, pool);
        let end = items.iter().fold(0, |end, item| up(end, item.1) + item.0);
        let largest = items.iter().map(|item| item.1).max().unwrap_or(0);
        let spare = if pool == 0 { u128::from(self.spares(bridge).memory) << 20 } else { 0 };
        let size = up(end, GRANULE[pool]) + spare;
        (size > 0).then_some((size, largest.max(GRANULE[pool])))
    }

    /// Every BAR and window with its address, in order; and the end of the last item of this bus.
    fn place(&self, parent: u16, pool: usize, base: u128, placed: &mut Vec<(u16, Option<Bar>, u128, u128)>) -> u128 {
        let mut end = base;
        for (size, align, record, bar) in self.items(parent, pool) {
            let start = up(end, align);
            end = start + size;
            placed.push((record, bar, start, size));
            if bar.is_none() {
                self.place(record, pool, start, placed);
            }
        }
        end
    }
}

fn naive(board: &Board) -> Result<Vec<u8>, u8> {
    let count = board.functions.len();
    let none = vec![0; count + 1];
    let (bus, secondary, subordinate) = (none.clone(), none.clone(), none);
    let mut naive = Naive { board, bus, secondary, subordinate, last: board.buses.0.into() };
    naive.number(0, board.buses.0.into());
    if naive.last > board.buses.1.into() {
        return Err(30);
    }
    let pools: [(u128, u128); 3] = [
        (board.low.0.into(), board.low.1.into()),
        (board.high.0.into(), board.high.1.into()),
        (board.io.0.into(), board.io.1.into()),
    ];
    let mut placed: [Vec<_>; 3] = Default::default();
    for pool in 0..3 {
        let end = naive.place(0, pool, pools[pool].0, &mut placed[pool]);
        if !placed[pool].is_empty() && end - 1 > pools[pool].1 {
            return Err(31 + pool as u8);
        }
    }
    let mut sheet = vec![1];
    for record in 1..=count as u16 {
        let function = naive.function(record);
        let mut registers = [0; 64];
        registers[4..6].copy_from_slice(&function.command.to_le_bytes());
        registers[14] = function.header_type;
        let mut windows = [None; 3];
        for pool in 0..3 {
            for &(_, bar, start, size) in placed[pool].iter().filter(|item| item.0 == record) {
                match bar {
                    Some((slot, _, size, kind)) => {
                        let at = 16 + 4 * slot;
                        let value = start as u64 | u64::from(kind);
                        let wide = kind & 7 == 4;
                        assert_eq!(start % size, 0);
                        registers[at..at + 4].copy_from_slice(&value.to_le_bytes()[..4]);
                        if wide {
                            registers[at + 4..at + 8].copy_from_slice(&value.to_le_bytes()[4..]);
                        }
                    }
                    None => windows[pool] = Some((start as u64, (start + size - 1) as u64)),
                }
            }
        }
        if naive.is_bridge(record) {
            let at = usize::from(record);
            registers[0x18..0x1B].copy_from_slice(&[naive.bus[at], naive.secondary[at], naive.subordinate[at]]);
            let (base, limit) = windows[2].unwrap_or((0xF000, 0));
            registers[0x1C] = (base >> 12 << 4) as u8;
            registers[0x1D] = (limit >> 12 << 4) as u8;
            let (base, limit) = windows[0].unwrap_or((0xFFF0_0000, 0));
            registers[0x20..0x22].copy_from_slice(&((base >> 20 << 4) as u16).to_le_bytes());
            registers[0x22..0x24].copy_from_slice(&((limit >> 20 << 4) as u16).to_le_bytes());
            let (base, limit) = windows[1].unwrap_or((0xFFF0_0000, 0));
            registers[0x24..0x26].copy_from_slice(&((base >> 20 << 4) as u16 + 1).to_le_bytes());
            registers[0x26..0x28].copy_from_slice(&((limit >> 20 << 4) as u16 + 1).to_le_bytes());
            registers[0x28..0x2C].copy_from_slice(&((base >> 32) as u32).to_le_bytes());
            registers[0x2C..0x30].copy_from_slice(&((limit >> 32) as u32).to_le_bytes());
        }
        sheet.extend([0, 90, naive.bus[usize::from(record)], function.device_function]);
        sheet.extend(registers);
        for slot in 0..6 {
            sheet.extend(function.read_backs.get(slot).unwrap_or(&0).to_be_bytes());
        }
    }
    Ok(sheet)
}

fn agree(board: &Board) -> Result<usize, u8> {
    let mut room = vec![0xA5; plain::FULL_SHEET];
    let answer = plain::plan(&board.bytes(), &mut room);
    match naive(board) {
        Ok(sheet) => {
            assert_eq!(answer, Ok(sheet.len()));
            assert_eq!(room[..sheet.len()], sheet);
            assert!(room[sheet.len()..].iter().all(|&byte| byte == 0xA5));
            assert_eq!(plain::check(&sheet), 0);
            let mut short = vec![0xA5; sheet.len() - 1];
            assert_eq!(plain::plan(&board.bytes(), &mut short), Err(11));
            assert!(short.iter().all(|&byte| byte == 0xA5));
        }
        Err(number) => {
            assert_eq!(answer, Err(number));
            assert!(room.iter().all(|&byte| byte == 0xA5));
        }
    }
    answer
}

#[test]
fn random_boards_agree() {
    let mut numbers = Random::new(1);
    let (mut planned, mut refused) = (0, [0; 4]);
    for round in 0..3000 {
        let style = Style {
            functions: 1 + numbers.below(if round % 20 == 0 { 512 } else { 24 }) as usize,
            bridges: 10 + numbers.below(60),
            memory_bits: 7 + numbers.below(21) as u32,
            io_bits: 3 + numbers.below(8) as u32,
        };
        let mut board = board::random(&mut numbers, &style);
        if numbers.chance(1, 2) {
            board.low.0 = (numbers.below(1 << 12) as u32) << 20;
            board.low.1 = board.low.0 | 0xF_FFFF | numbers.word() as u32 & 0x7FF0_0000;
            board.io.0 = (numbers.below(16) as u16) << 12;
            board.io.1 = board.io.0 | 0xFFF | numbers.word() as u16 & 0xF000;
            board.high.0 = (1 << 32) + (numbers.below(1 << 16) << 20);
            board.high.1 = board.high.0 | 0xF_FFFF | numbers.word() & 0x1_FFF0_0000;
        }
        board.buses.0 = numbers.below(64) as u8;
        board.buses.1 = board.buses.0 | numbers.word() as u8 | 0x10;
        match agree(&board) {
            Ok(_) => planned += 1,
            Err(number) => refused[usize::from(number) - 30] += 1,
        }
    }
    assert!(planned > 500 && refused.iter().all(|&count| count > 10), "{planned} {refused:?}");
}

#[test]
fn huge_boards_agree() {
    let mut numbers = Random::new(2);
    for _ in 0..2000 {
        let mut board = Board::new();
        board.low = (0, 0xFFFF_FFFF);
        board.high = (1 << 32, (1 << 52) - 1);
        let mut path = vec![0];
        for record in 0..numbers.below(12) as u16 {
            while path.len() > 1 && numbers.chance(1, 3) {
                path.pop();
            }
            let parent = *path.last().unwrap();
            if numbers.chance(1, 2) {
                path.push(board.bridge(parent, (record << 3) as u8));
                continue;
            }
            let bits = [63, 62, 51, 50, 32, 31, 20, 12];
            let read_backs: Vec<u32> = (0..3)
                .flat_map(|_| {
                    let bits = bits[numbers.below(8) as usize];
                    match numbers.below(4) {
                        0 => board::wide(bits),
                        1 => board::high(bits),
                        2 => [board::memory(bits.min(31)), 0],
                        _ => [0, 0],
                    }
                })
                .collect();
            board.end(parent, (record << 3) as u8, &read_backs);
        }
        let _ = agree(&board);
    }
}

/// Boards of both versions, with spares of every size: planned, and each number that the placing can give.
#[test]
fn boards_of_both_versions_agree() {
    let mut numbers = Random::new(3);
    let (mut planned, mut refused) = ([0; 2], [[0; 4]; 2]);
    for _ in 0..12_000 {
        let board = trees::lawful(&mut numbers);
        let version = usize::from(board.version - 1);
        match agree(&board) {
            Ok(_) => planned[version] += 1,
            Err(number) => refused[version][usize::from(number) - 30] += 1,
        }
    }
    let all = refused.iter().flatten().chain(&planned);
    assert!(all.into_iter().all(|&count| count > 50), "{planned:?} {refused:?}");
}

/// Version 1 means zero spares: the same sheet, byte for byte.
#[test]
fn zero_spares_are_version_1() {
    let mut numbers = Random::new(4);
    let mut rooms = [vec![0xA5; plain::FULL_SHEET], vec![0xA5; plain::FULL_SHEET]];
    let mut planned = 0;
    for _ in 0..4_000 {
        let mut board = trees::lawful(&mut numbers);
        board.version = 1;
        board.functions.iter_mut().for_each(|function| function.spares = None);
        let answers = [board.bytes(), board.without_spares().bytes()]
            .iter()
            .zip(&mut rooms)
            .map(|(bytes, room)| plain::plan(bytes, room))
            .collect::<Vec<_>>();
        assert_eq!(answers[0], answers[1]);
        assert!(rooms[0] == rooms[1]);
        planned += u32::from(answers[0].is_ok());
    }
    assert!(planned > 1_000, "{planned}");
}
