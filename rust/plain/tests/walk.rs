//! The router: demand 3 on planned sheets, and any sheet against the walk written out word for word.

mod decoded;

use decoded::{functions, requests, Function, Range};
use inputs::board::{self, Board, Style};
use inputs::foreign::{completion, configuration, message, MSG, MSGD};
use inputs::random::Random;
use inputs::registers;
use plain::{Arrival, Kind, Packet};

/// The whole answer.
fn walk(functions: &[Function], mut packet: Packet) -> Result<Arrival, u8> {
    let root = functions.first().ok_or(40)?.bus();
    let is_io = matches!(packet.kind, Kind::IORd | Kind::IOWr);
    let (record, bridges) = match packet.kind {
        Kind::MRd | Kind::MRdLk | Kind::MWr | Kind::IORd | Kind::IOWr => {
            by_address(functions, root, is_io, packet.address.into(), 0)?
        }
        Kind::Cpl | Kind::CplD | Kind::CplLk | Kind::CplDLk => by_id(functions, root, packet.requester, 0)?,
        Kind::CfgRd0 | Kind::CfgWr0 if (packet.target >> 8) as u8 != root => return Err(42),
        Kind::CfgRd1 | Kind::CfgWr1 if (packet.target >> 8) as u8 == root => return Err(42),
        Kind::CfgRd0 | Kind::CfgWr0 | Kind::CfgRd1 | Kind::CfgWr1 => by_id(functions, root, packet.target, 0)?,
        Kind::Msg | Kind::MsgD => match packet.routing {
            0b001 => by_address(functions, root, false, packet.tail.into(), 0)?,
            0b010 => by_id(functions, root, (packet.tail >> 48) as u16, 0)?,
            0b011 => return Ok(Arrival::Every { functions: functions.len() as u16, packet }),
            0b100 => return Ok(Arrival::Port { packet }),
            0b000 | 0b101 => return Err(43),
            routing => panic!("routing {routing} was accepted"),
        },
    };
    packet.kind = match packet.kind {
        Kind::CfgRd1 => Kind::CfgRd0,
        Kind::CfgWr1 => Kind::CfgWr0,
        kind => kind,
    };
    Ok(Arrival::Function { record, bridges: bridges.into(), packet })
}

fn by_address(functions: &[Function], bus: u8, is_io: bool, address: u128, crossed: u8) -> Result<(u16, u8), u8> {
    let mut claims: Vec<(u16, Option<u8>)> = Vec::new();
    for (record, function) in (1..).zip(functions) {
        if function.bus() != bus || !function.enables(is_io) {
            continue;
        }
        let holds = |range: &&Range| range.holds(is_io, address);
        claims.extend(function.bars.iter().filter(holds).map(|_| (record, None)));
        let secondary = function.bridge.map(|range| range.0);
        claims.extend(function.windows.iter().filter(holds).map(|_| (record, secondary)));
    }
    match claims[..] {
        [] => Err(40),
        [(record, None)] => Ok((record, crossed)),
        [(_, Some(secondary))] => by_address(functions, secondary, is_io, address, crossed + 1),
        _ => Err(41),
    }
}

fn by_id(functions: &[Function], bus: u8, id: u16, crossed: u8) -> Result<(u16, u8), u8> {
    let target = (id >> 8) as u8;
    if target == bus {
        let index = functions.iter().position(|function| function.id == id).ok_or(40)?;
        return Ok((index as u16 + 1, crossed));
    }
    let ways: Vec<u8> = functions
        .iter()
        .filter(|function| function.bus() == bus)
        .filter_map(|function| function.bridge)
        .filter(|range| range.0 <= target && target <= range.1)
        .map(|range| range.0)
        .collect();
    match ways[..] {
        [] => Err(40),
        [secondary] => by_id(functions, secondary, id, crossed + 1),
        _ => Err(41),
    }
}

/// A board with random command words, and its sheet.
fn planned(numbers: &mut Random) -> Option<(Board, Vec<u8>)> {
    let style = Style {
        functions: 1 + numbers.below(30) as usize,
        bridges: 20 + numbers.below(50),
        memory_bits: 7 + numbers.below(17) as u32,
        io_bits: 3 + numbers.below(6) as u32,
    };
    let mut board = board::random(numbers, &style);
    for function in &mut board.functions {
        function.command |= if numbers.chance(4, 5) { 3 } else { 0 };
    }
    let mut room = vec![0; plain::FULL_SHEET];
    let length = plain::plan(&board.bytes(), &mut room).ok()?;
    room.truncate(length);
    Some((board, room))
}

#[test]
fn demand_3() {
    let mut numbers = Random::new(5);
    // Of requests, then of messages.
    let (mut delivered, mut refused) = ([0; 2], [0; 2]);
    for _ in 0..600 {
        let Some((board, mut sheet)) = planned(&mut numbers) else { continue };
        for _ in 0..numbers.below(3) {
            let index = numbers.below(board.functions.len() as u64) as usize;
            let id = functions(&sheet)[index].id;
            assert_eq!(plain::set_command(&mut sheet, id, numbers.word() as u16), 0);
        }
        let functions = functions(&sheet);
        for header in requests(&functions, &mut numbers) {
            let packet = plain::read(&header).unwrap();
            let is_io = matches!(packet.kind, Kind::IORd | Kind::IOWr);
            let is_message = matches!(packet.kind, Kind::Msg | Kind::MsgD);
            let address = u128::from(if is_message { packet.tail } else { packet.address });
            let owners: Vec<usize> = (0..functions.len())
                .filter(|&index| functions[index].bars.iter().any(|bar| bar.holds(is_io, address)))
                .collect();
            assert!(owners.len() < 2);
            let mut expected = Err(40);
            if let [owner] = owners[..] {
                let enabled = |index: usize| functions[index].enables(is_io);
                let (mut above, mut count, mut all) = (board.functions[owner].parent, 0, enabled(owner));
                while above != 0 {
                    count += 1;
                    all &= enabled(usize::from(above) - 1);
                    above = board.functions[usize::from(above) - 1].parent;
                }
                if all {
                    expected = Ok(Arrival::Function { record: owner as u16 + 1, bridges: count, packet });
                }
            }
            assert_eq!(plain::route(&header, &sheet), expected);
            match expected {
                Ok(_) => delivered[usize::from(is_message)] += 1,
                Err(_) => refused[usize::from(is_message)] += 1,
            }
        }
    }
    let least = delivered.into_iter().chain(refused).min();
    assert!(least > Some(3_000), "{delivered:?} {refused:?}");
}

#[test]
fn any_sheet() {
    let mut numbers = Random::new(6);
    let mut seen = [0; 44];
    let mut sheets = 0;
    for _ in 0..6000 {
        let Some((_, mut sheet)) = planned(&mut numbers) else { continue };
        registers::rewrite(&mut sheet, &mut numbers);
        if plain::check(&sheet) != 0 {
            continue;
        }
        sheets += 1;
        let functions = functions(&sheet);
        let mut headers = requests(&functions, &mut numbers);
        headers.truncate(60);
        for _ in 0..10 {
            let near = functions[numbers.below(functions.len() as u64) as usize].id;
            let id = near.wrapping_add([0, 0, 0, 1, 0x100, 0x8][numbers.below(6) as usize]);
            let byte0 = [0x04, 0x44, 0x05, 0x45][numbers.below(4) as usize];
            headers.push(configuration(byte0, id, numbers.below(1024) as u16));
            headers.push(completion([0x0A, 0x4A, 0x0B, 0x4B][numbers.below(4) as usize], id));
            let (byte0, routing) = ([MSG, MSGD][numbers.below(2) as usize], numbers.below(6) as u8);
            let tail = if routing == 0b010 { u64::from(id) << 48 | numbers.word() >> 16 } else { numbers.word() & !3 };
            headers.push(message(byte0, routing, numbers.word() as u8, tail));
        }
        for header in headers {
            let expected = walk(&functions, plain::read(&header).unwrap());
            seen[usize::from(expected.err().unwrap_or(0))] += 1;
            assert_eq!(plain::route(&header, &sheet), expected);
        }
    }
    assert!(sheets > 1000, "{sheets}");
    assert!([0, 40, 41, 42, 43].iter().all(|&number| seen[number] > 300), "{seen:?}");
}
