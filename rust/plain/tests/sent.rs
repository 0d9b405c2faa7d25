//! Both ends: document 03's sentences on planned and accepted sheets, told by who is above whom and not by a climb; the numbers
//! in their order; and traces.

use inputs::foreign::*;
use inputs::random::Random;
use inputs::{audit, board, cards, ends, trace};
use plain::{follow, programs, sender, sent, Annotator, Arrival, Kind, Packet, Sender, Sent};

struct Function {
    id: u16,
    /// A bridge's secondary and subordinate bus.
    bridge: Option<(u8, u8)>,
}

impl Function {
    fn bus(&self) -> u8 {
        (self.id >> 8) as u8
    }
}

fn functions(sheet: &[u8]) -> Vec<Function> {
    let function = |record: &[u8]| Function {
        id: u16::from_be_bytes([record[2], record[3]]),
        bridge: (record[4 + 0x0E] & 0x7F == 1).then_some((record[4 + 0x19], record[4 + 0x1A])),
    };
    sheet[1..].chunks_exact(92).map(function).collect()
}

/// The functions of a sheet that was planned or accepted, and the host's own ID.
struct Told<'a> {
    functions: &'a [Function],
    host_id: u16,
}

impl Told<'_> {
    fn with_id(&self, id: u16) -> Option<usize> {
        self.functions.iter().position(|function| function.id == id)
    }

    /// The bridges above a function, by bus numbers.
    fn above(&self, index: usize) -> Vec<usize> {
        let leads_to = |bus: u8| {
            self.functions.iter().position(|function| function.bridge.is_some_and(|(secondary, _)| secondary == bus))
        };
        std::iter::successors(leads_to(self.functions[index].bus()), |&bridge| leads_to(self.functions[bridge].bus()))
            .collect()
    }

    fn sender(&self, packet: &Packet) -> Option<usize> {
        let named = match packet.kind {
            Kind::CfgRd0 | Kind::CfgWr0 | Kind::CfgRd1 | Kind::CfgWr1 => return None,
            Kind::Msg | Kind::MsgD if packet.routing == 0b011 => return None,
            Kind::Cpl | Kind::CplD | Kind::CplLk | Kind::CplDLk => packet.completer,
            _ => packet.requester,
        };
        if named == self.host_id {
            None
        } else {
            self.with_id(named)
        }
    }

    /// A packet by ID from a function.
    fn by_id(&self, start: usize, id: u16, packet: Packet) -> Result<Arrival, u8> {
        let up = self.above(start);
        if id == self.host_id {
            return Ok(Arrival::Host { bridges: up.len() as u16, packet });
        }
        if let Some(owner) = self.with_id(id).filter(|&owner| owner != start) {
            let down = self.above(owner);
            let one_way = |from: &[usize], to: &[usize]| from.iter().filter(|bridge| !to.contains(bridge)).count();
            let bridges = (one_way(&up, &down) + one_way(&down, &up)) as u16;
            return Ok(Arrival::Function { record: owner as u16 + 1, bridges, packet });
        }
        let bus = (id >> 8) as u8;
        let root = self.functions[0].bus();
        let on_root = self.functions.iter().filter(|function| function.bus() == root);
        let mut ranges = on_root.filter_map(|function| function.bridge);
        if self.with_id(id).is_some() || ranges.any(|(secondary, last)| (secondary..=last).contains(&bus)) {
            return Err(40);
        }
        Ok(Arrival::Host { bridges: up.len() as u16, packet })
    }

    fn arrival(&self, header: &[u8], sheet: &[u8], packet: Packet) -> Result<Arrival, u8> {
        let Some(start) = self.sender(&packet) else { return plain::route(header, sheet) };
        match (packet.kind, packet.routing) {
            (Kind::Cpl | Kind::CplD | Kind::CplLk | Kind::CplDLk, _) => self.by_id(start, packet.requester, packet),
            (Kind::Msg | Kind::MsgD, 0b010) => self.by_id(start, (packet.tail >> 48) as u16, packet),
            (Kind::Msg | Kind::MsgD, 0b000 | 0b101) => {
                Ok(Arrival::Host { bridges: self.above(start).len() as u16, packet })
            }
            (Kind::Msg | Kind::MsgD, 0b100) => Ok(Arrival::Port { packet }),
            (Kind::Msg | Kind::MsgD, _) => Err(45),
            _ => plain::route_from(start as u32 + 1, header, sheet),
        }
    }
}

fn plan(board: &[u8]) -> Option<Vec<u8>> {
    let mut room = vec![0; plain::FULL_SHEET];
    let length = plain::plan(board, &mut room).ok()?;
    room.truncate(length);
    Some(room)
}

/// How often a packet from a function went to a function, to the host, to the port, or got a number.
#[derive(Debug)]
struct Seen {
    functions: u32,
    hosts: u32,
    ports: u32,
    numbers: [u32; 46],
}

impl Seen {
    fn count(&mut self, arrival: &Result<Arrival, u8>) {
        match arrival {
            Ok(Arrival::Function { .. }) => self.functions += 1,
            Ok(Arrival::Host { .. }) => self.hosts += 1,
            Ok(Arrival::Port { .. }) => self.ports += 1,
            Ok(Arrival::Every { .. }) => panic!("a broadcast starts at the host"),
            Err(number) => self.numbers[usize::from(*number)] += 1,
        }
    }
}

#[test]
fn over_lawful_sheets() {
    let mut random = Random::new(15);
    let mut seen = Seen { functions: 0, hosts: 0, ports: 0, numbers: [0; 46] };
    let mut accepted = 0;
    for round in 0..3_000 {
        let (host, mut sheet) =
            if round % 2 == 0 { audit::planned(&mut random, plan) } else { audit::nested(&mut random) };
        if plain::audit(&host, &sheet) != 0 {
            continue;
        }
        accepted += 1;
        cards::enable(&mut sheet, &mut random);
        let functions = functions(&sheet);
        for _ in 0..24 {
            let host_id = ends::host_id(&sheet, &mut random);
            let header = ends::header(host_id, &sheet, &mut random);
            let Ok(packet) = plain::read(&header) else { continue };
            let told = Told { functions: &functions, host_id };
            let from = told.sender(&packet).map_or(Sender::Host, |index| Sender::Record(index as u16 + 1));
            assert_eq!(sender(host_id.into(), &header, &sheet), Ok(from));
            let arrival = told.arrival(&header, &sheet, packet);
            assert_eq!(
                sent(host_id.into(), &header, &sheet),
                arrival.map(|arrival| Sent { sender: from, arrival }),
                "{header:02X?} host {host_id:04X}"
            );
            if from != Sender::Host {
                seen.count(&arrival);
            }
        }
    }
    let Seen { functions, hosts, ports, numbers } = seen;
    assert!(accepted > 2_000 && functions > 8_000 && hosts > 8_000 && ports > 500, "{accepted} {seen:?}");
    assert!(numbers[40] > 2_000 && numbers[44] > 1_500 && numbers[45] > 2_000 && numbers[41] == 0, "{numbers:?}");
}

/// A card below a bridge, and one on the root bus.
fn bridge_and_cards() -> [Record; 3] {
    [Record::bridge(0x0000, 1, 3), Record::end(0x0100).command(7), Record::end(0x0008).command(7)]
}

/// The header from another sender: bytes 4 and 5, which are a completion's completer and any other header's requester.
fn from(id: u16, mut header: Vec<u8>) -> Vec<u8> {
    header[4..6].copy_from_slice(&id.to_be_bytes());
    header
}

const NOBODY: u64 = 0xFFFF;

/// Sender and where, as the C boundary has them, and record and bridges.
fn ends_of(host_id: u64, header: &[u8], records: &[Record]) -> Result<[u64; 4], u8> {
    let numbers = sent(host_id, header, &sheet(records))?.numbers();
    Ok([numbers[0], numbers[1], numbers[2], numbers[3]])
}

#[test]
fn senders() {
    let records = bridge_and_cards();
    let over = |host_id: u64, header: Vec<u8>| sender(host_id, &header, &sheet(&records));
    let card = Ok(Sender::Record(2));
    assert_eq!(over(NOBODY, from(0x0100, request(MRD, 0))), card);
    assert_eq!(over(NOBODY, from(0x0100, completion(CPL, 0x0008))), card);
    assert_eq!(over(NOBODY, from(0x0009, completion(CPL, 0x0100))), Ok(Sender::Host));
    assert_eq!(over(0x0100, from(0x0100, request(MRD, 0))), Ok(Sender::Host));
    assert_eq!(over(NOBODY, from(0x0000, request(MRD, 0))), Ok(Sender::Record(1)));
    assert_eq!(over(0, from(0x0000, request(MRD, 0))), Ok(Sender::Host));
    for byte0 in [CFGRD0, CFGWR0, CFGRD1, CFGWR1] {
        assert_eq!(over(NOBODY, from(0x0100, configuration(byte0, 0x0008, 0))), Ok(Sender::Host));
    }
    for routing in [0b000, 0b001, 0b010, 0b100, 0b101] {
        assert_eq!(over(NOBODY, from(0x0100, message(MSG, routing, 0, 0))), card, "{routing}");
    }
    assert_eq!(over(NOBODY, from(0x0100, message(MSG, 0b011, 0, 0))), Ok(Sender::Host));
}

#[test]
fn numbers_in_order() {
    let header = request(MRD, 0xF900_0000);
    let mut wrong = sheet(&bridge_and_cards());
    wrong[0] = 2;
    assert_eq!(sender(0x1_0000, &header[..11], &wrong), Err(10));
    assert_eq!(sent(u64::MAX, &header[..11], &wrong), Err(10));
    assert_eq!(sender(0, &header[..11], &wrong), Err(1));
    assert_eq!(sent(0, &header[..11], &wrong), Err(1));
    assert_eq!(sender(0, &header, &wrong), Err(21));
    assert_eq!(sent(0, &header, &wrong), Err(21));
    assert_eq!(sender(0, &header, &[1]), Ok(Sender::Host));
    assert_eq!(sent(0, &header, &[1]), Err(40));
    assert_eq!(sent(0, &message(MSG, 0b011, 0, 0), &[1]), Err(40));
}

#[test]
fn messages_from_a_card() {
    let records = bridge_and_cards();
    let goes = |routing, tail| ends_of(NOBODY, &from(0x0100, message(MSG, routing, 0, tail)), &records);
    assert_eq!(goes(0b000, 0), Ok([2, 1, 0, 1]));
    assert_eq!(goes(0b101, 0), Ok([2, 1, 0, 1]));
    assert_eq!(goes(0b100, 0), Ok([2, 2, 0, 0]));
    assert_eq!(goes(0b001, 0), Err(45));
    assert_eq!(goes(0b010, 0x0008 << 48), Ok([2, 0, 3, 1]));
    assert_eq!(goes(0b010, 0x0100 << 48), Err(40));
    assert_eq!(goes(0b010, 0xFFFF << 48), Ok([2, 1, 0, 1]));
    assert_eq!(goes(0b011, 0), Ok([0, 3, 0, 3]));
    // From the bridge itself there is none above.
    assert_eq!(ends_of(NOBODY, &from(0, message(MSG, 0, 0, 0)), &records), Ok([1, 1, 0, 0]));
    assert_eq!(ends_of(0, &from(0, message(MSG, 0, 0, 0)), &records), Err(43));
}

#[test]
fn by_id() {
    let records = bridge_and_cards();
    let goes = |start, id| ends_of(NOBODY, &from(start, completion(CPLD, id)), &records);
    assert_eq!(goes(0x0100, 0x0008), Ok([2, 0, 3, 1]));
    assert_eq!(goes(0x0008, 0x0100), Ok([3, 0, 2, 1]));
    // The bridge come through, by its own ID; and the bridge as sender, by its buses.
    assert_eq!(goes(0x0100, 0x0000), Ok([2, 0, 1, 1]));
    assert_eq!(goes(0x0000, 0x0100), Ok([1, 0, 2, 1]));
    // Nobody on the bus, on a spare bus, on no bus, and on the root bus.
    assert_eq!(goes(0x0100, 0x0108), Err(40));
    assert_eq!(goes(0x0100, 0x0300), Err(40));
    assert_eq!(goes(0x0008, 0x0300), Err(40));
    assert_eq!(goes(0x0100, 0x0400), Ok([2, 1, 0, 1]));
    assert_eq!(goes(0x0100, 0x0010), Ok([2, 1, 0, 1]));
    assert_eq!(goes(0x0008, 0x0010), Ok([3, 1, 0, 0]));
}

#[test]
fn over_foreign_sheets() {
    let card = Record::end(0x0100);
    let up = |records: &[Record]| ends_of(NOBODY, &from(0x0100, message(MSG, 0, 0, 0)), records);
    let over = |id, records: &[Record]| ends_of(NOBODY, &from(0x0100, completion(CPL, id)), records);
    let none = [Record::end(0x0000), card.clone()];
    assert_eq!((up(&none), over(0x0008, &none)), (Err(40), Err(40)));
    let two = [Record::bridge(0x0000, 1, 1), Record::bridge(0x0008, 1, 1), card.clone()];
    assert_eq!((up(&two), over(0x0008, &two)), (Err(41), Err(41)));
    // Two bridges to the target's bus, on the way.
    let ranges =
        [Record::bridge(0x0000, 1, 1), Record::bridge(0x0008, 2, 3), Record::bridge(0x0010, 3, 3), card.clone()];
    assert_eq!((over(0x0300, &ranges), over(0x0200, &ranges)), (Err(41), Err(40)));
    // A bridge to the root bus is not crossed, nor asked.
    let below = [card.clone(), Record::bridge(0x0000, 1, 1)];
    assert_eq!((up(&below), over(0x0000, &below)), (Ok([1, 1, 0, 0]), Ok([1, 1, 0, 0])));
}

#[test]
fn lines() {
    let records = [
        Record::bridge(0x0000, 1, 1).command(7),
        Record::end(0x0100).command(7).bar(0, board::memory(12), 0xF900_0000),
        Record::end(0x0008).command(3),
        Record::end(0x0108).command(7),
    ];
    let headers = [
        from(0x0010, request(MRD, 0xF900_0000)),
        from(0x0100, request(MWR, 0x8000_0000)),
        from(0x0108, request(MWR, 0xF900_0FFC)),
        from(0x0008, request(MWR, 0x8000_0000)),
        from(0x0108, completion(CPLD, 0x0010)),
        from(0x0108, message(MSG, 0b011, 0x19, 0)),
        from(0x0108, message(MSG, 0b100, 0x20, 0)),
        vec![0; 3],
        from(0xABCD, completion(CPLD, 0x0300)),
        from(0x0000, request(MWR, 0x8000_0000)),
    ];
    let lines = "1 MRd from host refused 40\n2 MWr from 2 to host\n3 MWr from 4 to 2\n4 MWr from 3 refused 44\n\
        5 CplD from 4 to host\n6 Msg from host to all\n7 Msg from 4 to port\n8 - refused 1\n\
        9 CplD from host refused 40\n10 MWr from 1 refused 45\n";
    let (sheet, trace) = (sheet(&records), trace::of(&headers));
    assert_eq!(follow(0x0010, &sheet, &trace).unwrap(), lines);
    let input = [&[0x00, 0x10], &trace::input(&sheet, &trace)[..]].concat();
    assert_eq!(String::from_utf8(programs::follow(&input)).unwrap(), lines);
    assert_eq!(follow(0x0010, &[], &trace).unwrap().lines().next(), Some("1 MRd refused 20"));
    assert_eq!(follow(0x1_0000, &sheet, &trace), Err(10));
    assert_eq!(follow(0, &sheet, &[]).unwrap(), "refused 20\n");
    assert_eq!(follow(0, &sheet, &[2]).unwrap(), "refused 21\n");
}

/// The lines are those of `sent`, or of `sender` with its number, on each record; and of any pieces.
#[test]
fn cut_anywhere() {
    let mut random = Random::new(3);
    for _ in 0..2_000 {
        let sheet = ends::sheet(&mut random);
        let host_id: u64 = ends::host_id(&sheet, &mut random).into();
        let headers: Vec<Vec<u8>> = (0..8).map(|_| ends::header(host_id as u16, &sheet, &mut random)).collect();
        let lines: String = (1..).zip(&headers).map(|(number, header)| line(number, host_id, header, &sheet)).collect();
        let trace = trace::of(&headers);
        assert_eq!(follow(host_id, &sheet, &trace), Ok(lines.clone()));
        let mut annotator = Annotator::new();
        let mut fed = String::new();
        for piece in trace::pieces(&trace, &mut random) {
            let mut room = vec![0; 64 * (piece.len() + 1)];
            let length = annotator.feed_ends(host_id, &sheet, piece, &mut room).unwrap();
            fed += std::str::from_utf8(&room[..length]).unwrap();
        }
        assert_eq!(fed, lines);
    }
}

fn line(number: u32, host_id: u64, header: &[u8], sheet: &[u8]) -> String {
    let Ok(packet) = plain::read(header) else {
        return format!("{number} - refused {}\n", plain::read(header).unwrap_err());
    };
    let start = format!("{number} {:?}", packet.kind);
    match (sender(host_id, header, sheet), sent(host_id, header, sheet)) {
        (Err(refusal), _) => format!("{start} refused {refusal}\n"),
        (Ok(sender), Err(refusal)) => format!("{start} from {sender} refused {refusal}\n"),
        (Ok(sender), Ok(sent)) => {
            assert_eq!(sender, sent.sender);
            let place = match sent.arrival {
                Arrival::Function { record, .. } => record.to_string(),
                Arrival::Host { .. } => "host".to_string(),
                Arrival::Every { .. } => "all".to_string(),
                Arrival::Port { .. } => "port".to_string(),
            };
            format!("{start} from {sender} to {place}\n")
        }
    }
}
