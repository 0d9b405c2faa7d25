//! Card to card: document 02's sentences on planned sheets, told by parent records and not by a climb, and the numbers in
//! their order.

mod decoded;

use decoded::{functions, requests, Function};
use inputs::board::{self, Board, Style};
use inputs::foreign::{configuration, message, request, sheet, Record, CFGRD0, MRD, MSG};
use inputs::random::Random;
use plain::{Arrival, Kind, Packet};

/// A planned board, its functions with their command words as they now are, and a request for an address.
struct Told<'a> {
    board: &'a Board,
    functions: &'a [Function],
    is_io: bool,
    address: u128,
}

impl Told<'_> {
    /// The bridges above a function, the nearest first.
    fn above(&self, index: usize) -> Vec<usize> {
        let parent = |&index: &usize| usize::from(self.board.functions[index].parent).checked_sub(1);
        std::iter::successors(parent(&index), parent).collect()
    }

    fn master(&self, index: usize) -> bool {
        self.functions[index].command & 4 != 0
    }

    fn enabled(&self, index: usize) -> bool {
        self.functions[index].enables(self.is_io)
    }

    fn bars_hold(&self, index: usize) -> bool {
        self.functions[index].bars.iter().any(|bar| bar.holds(self.is_io, self.address))
    }

    fn windows_hold(&self, index: usize) -> bool {
        self.functions[index].windows.iter().any(|window| window.holds(self.is_io, self.address))
    }

    /// The function that gets the request, and the bridges crossed: up those above the start that are not above the owner,
    /// down those above the owner that are not above the start.
    fn owner(&self, start: usize) -> Option<(usize, u16)> {
        let owner = (0..self.functions.len()).find(|&index| index != start && self.bars_hold(index))?;
        let (mut up, mut down) = (self.above(start), self.above(owner));
        let both: Vec<usize> = up.iter().copied().filter(|bridge| down.contains(bridge)).collect();
        up.retain(|bridge| !both.contains(bridge));
        down.retain(|bridge| !both.contains(bridge));
        let reached = self.enabled(owner)
            && down.iter().all(|&bridge| self.enabled(bridge))
            && up.iter().all(|&bridge| self.master(bridge));
        reached.then(|| (owner, (up.len() + down.len()) as u16))
    }

    fn sending(&self, start: usize, packet: Packet) -> Result<Arrival, u8> {
        if !self.master(start) {
            return Err(44);
        }
        if self.bars_hold(start) {
            return Err(40);
        }
        if let Some((owner, bridges)) = self.owner(start) {
            return Ok(Arrival::Function { record: owner as u16 + 1, bridges, packet });
        }
        for bridge in self.above(start) {
            if self.windows_hold(bridge) {
                return Err(40);
            }
            if !self.master(bridge) {
                return Err(44);
            }
        }
        let on_root = |&index: &usize| self.functions[index].bus() == self.functions[0].bus();
        let holds = |index: usize| self.enabled(index) && (self.bars_hold(index) || self.windows_hold(index));
        if (0..self.functions.len()).filter(on_root).any(holds) {
            return Err(40);
        }
        Ok(Arrival::Host { bridges: self.above(start).len() as u16, packet })
    }
}

/// A planned board, and its sheet.
fn planned(numbers: &mut Random) -> Option<(Board, Vec<u8>)> {
    let style = Style {
        functions: 1 + numbers.below(30) as usize,
        bridges: 20 + numbers.below(50),
        memory_bits: 8 + numbers.below(16) as u32,
        io_bits: 3 + numbers.below(6) as u32,
    };
    let mut board = board::random(numbers, &style);
    let most = numbers.below(8);
    for function in &mut board.functions {
        function.command |= if numbers.below(8) >= most { 7 } else { 0 };
    }
    let mut room = vec![0; plain::FULL_SHEET];
    let length = plain::plan(&board.bytes(), &mut room).ok()?;
    room.truncate(length);
    Some((board, room))
}

#[test]
fn over_planned_sheets() {
    let mut numbers = Random::new(11);
    let (mut delivered, mut hosts, mut refused) = (0, 0, [0; 46]);
    for _ in 0..1500 {
        let Some((board, sheet)) = planned(&mut numbers) else { continue };
        let functions = functions(&sheet);
        for header in requests(&functions, &mut numbers) {
            let packet = plain::read(&header).unwrap();
            let start = numbers.below(functions.len() as u64) as usize;
            let answer = plain::route_from(start as u32 + 1, &header, &sheet);
            if functions[start].bridge.is_some() || packet.kind == Kind::Msg || packet.kind == Kind::MsgD {
                assert_eq!(answer, Err(45));
                continue;
            }
            let is_io = matches!(packet.kind, Kind::IORd | Kind::IOWr);
            let told = Told { board: &board, functions: &functions, is_io, address: packet.address.into() };
            assert_eq!(answer, told.sending(start, packet));
            match answer {
                Ok(Arrival::Function { .. }) => delivered += 1,
                Ok(Arrival::Host { .. }) => hosts += 1,
                Ok(Arrival::Every { .. } | Arrival::Port { .. }) => panic!("no message has a start"),
                Err(number) => refused[usize::from(number)] += 1,
            }
        }
    }
    assert!(
        delivered > 3_000 && hosts > 3_000 && refused[40] > 3_000 && refused[44] > 3_000,
        "{delivered} {hosts} {refused:?}"
    );
    assert_eq!(refused[41], 0);
}

/// Each number where the later ones would come too.
#[test]
fn numbers_in_order() {
    let card = |command: u16| Record::end(0x0100).bar(0, board::memory(12), 0xF900_0000).command(command);
    let bridge = |command: u16| Record::bridge(0x0000, 1, 1).low(0xF900, 0xF900).command(command);
    let mut wrong = sheet(&[bridge(0), card(0)]);
    wrong[0] = 2;
    let own = request(MRD, 0xF900_0000);
    let beside = request(MRD, 0xF900_1000);
    assert_eq!(plain::route_from(0, &own[..11], &wrong), Err(1));
    assert_eq!(plain::route_from(0, &own, &wrong), Err(21));
    assert_eq!(plain::route_from(0, &own, &sheet(&[])), Err(45));
    let off = sheet(&[bridge(0), card(0)]);
    for record in [0, 1, 3, 0x1_0002] {
        assert_eq!(plain::route_from(record, &own, &off), Err(45), "{record}");
    }
    for header in [configuration(CFGRD0, 0x0000, 0), message(MSG, 0b001, 0, 0xF900_0000)] {
        assert_eq!(plain::route_from(2, &header, &off), Err(45));
    }
    assert_eq!(plain::route_from(2, &own, &off), Err(44));
    let master = sheet(&[bridge(0), card(4)]);
    assert_eq!(plain::route_from(2, &own, &master), Err(40));
    // In the window above, before that bridge's 44.
    assert_eq!(plain::route_from(2, &beside, &master), Err(40));
    assert_eq!(plain::route_from(2, &request(MRD, 0xFA00_0000), &master), Err(44));
    let two = sheet(&[bridge(0), Record::bridge(0x0008, 1, 1), card(4)]);
    assert_eq!(plain::route_from(3, &beside, &two), Err(41));
    let alone = sheet(&[Record::end(0x0000), card(4)]);
    assert_eq!(plain::route_from(2, &beside, &alone), Err(40));
}
