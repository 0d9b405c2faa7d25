//! Who owns an address or an ID: tables of ranges, in each of which the proved router has one answer. A request's way depends on how its
//! address compares with the edges of BARs and windows, and on the command words; by ID, on its bus and on the functions there. So the
//! router is asked at the first and the last dword, or ID, of each range between two edges, and what it answers is the table.

use crate::json::Json;
use crate::named::NamedSheet;
use cartsundial::{route, set_command, Arrival, Delivery, Function, Refusal};
use std::collections::{BTreeMap, BTreeSet};

/// From here on an address takes the header of four dwords.
const FOUR_GIB: u64 = 1 << 32;
/// I/O, memory and bus master.
const ALL_ON: u16 = 7;
/// How a message finds its way, where it goes by neither address nor ID.
const PLAIN_ROUTINGS: [u8; 4] = [0b000, 0b011, 0b100, 0b101];

#[derive(Clone, Debug, PartialEq, Eq)]
enum Found {
    /// `over`: the bridges on the way, the host's first, where the bus numbers tell them. `bar`: its slot and its start.
    Owner {
        record: u16,
        bridges: u16,
        over: Option<Vec<u16>>,
        bar: Option<(u8, u64)>,
    },
    Every {
        functions: u16,
    },
    Port,
    Refused(Refusal),
    /// The ends of a range are answered differently: nothing is said of what is between them.
    Unsure,
}

#[derive(Clone, Debug, PartialEq, Eq)]
struct Range {
    first: u64,
    last: u64,
    found: Found,
    /// Where every command word were 0007, if that is another answer.
    enabled: Option<Found>,
}

pub struct Answers<'a> {
    named: &'a NamedSheet,
    /// The sheet with every command word 0007.
    enabled: Vec<u8>,
}

impl<'a> Answers<'a> {
    pub fn new(named: &'a NamedSheet) -> Answers<'a> {
        let mut enabled = named.sheet.bytes().to_vec();
        for function in named.sheet.functions() {
            // The ID is one of the sheet's.
            let _ = set_command(&mut enabled, function.id, ALL_ON);
        }
        Answers { named, enabled }
    }

    /// The tables, the titles of functions and the words of numbers.
    pub fn json(&self) -> Json {
        let (memory, io) = (self.memory(), self.io());
        let ids = [0x0A, 0x04, 0x05].map(|byte0| self.ids(byte0));
        let messages: Vec<(&'static str, Found)> = ["0", "3", "4", "5"]
            .into_iter()
            .zip(PLAIN_ROUTINGS)
            .map(|(name, routing)| (name, self.ask(self.named.sheet.bytes(), &message(routing), None)))
            .collect();
        let all = memory.iter().chain(&io).chain(ids.iter().flatten());
        let mut numbers: BTreeMap<u8, &'static str> = BTreeMap::new();
        let founds = all.map(|range| &range.found).chain(messages.iter().map(|(_, found)| found));
        for found in founds {
            if let Found::Refused(refusal) = found {
                numbers.insert(refusal.number() as u8, refusal.meaning());
            }
        }
        let numbers =
            numbers.into_iter().map(|(number, meaning)| Json::List(vec![Json::number(number), Json::text(meaning)]));
        let titles = self.named.sheet.functions().map(|one| Json::text(self.named.title(&one)));
        let [by_id, type_0, type_1] = ids.map(|ranges| table(&ranges));
        Json::Object(vec![
            ("titles", Json::List(titles.collect())),
            ("words", Json::List(numbers.collect())),
            ("memory", table(&memory)),
            ("io", table(&io)),
            ("id", by_id),
            ("type0", type_0),
            ("type1", type_1),
            (
                "messages",
                Json::Object(messages.iter().map(|(name, found)| (*name, Json::Object(found.members()))).collect()),
            ),
        ])
    }

    /// How often each command word is there.
    pub fn commands(&self) -> BTreeMap<u16, usize> {
        let mut words = BTreeMap::new();
        self.named.sheet.functions().for_each(|one| *words.entry(one.command()).or_default() += 1);
        words
    }

    fn memory(&self) -> Vec<Range> {
        let windows = |one: &Function| one.windows().map_or([None, None], |all| [all.low, all.high]);
        let mut edges = self.edges(false, |one| windows(one).into_iter().flatten().collect());
        edges.extend([0, FOUR_GIB]);
        self.ranges(&edges, u64::MAX, 4, |address| {
            let high = ((address >> 32) as u32).to_be_bytes();
            let low = (address as u32).to_be_bytes();
            match address {
                FOUR_GIB.. => [&[0x20, 0, 0, 1, 0, 0, 0, 0x0F], &high[..], &low].concat(),
                _ => [&[0x00, 0, 0, 1, 0, 0, 0, 0x0F], &low[..]].concat(),
            }
        })
    }

    fn io(&self) -> Vec<Range> {
        let mut edges = self.edges(true, |one| one.windows().and_then(|all| all.io).into_iter().collect());
        edges.insert(0);
        self.ranges(&edges, u32::MAX.into(), 4, |address| {
            [&[0x02, 0, 0, 1, 0, 0, 0, 0x0F], &(address as u32).to_be_bytes()[..]].concat()
        })
    }

    /// By completions (0A), or configuration reads of type 0 (04) or 1 (05).
    fn ids(&self, byte0: u8) -> Vec<Range> {
        let mut edges: BTreeSet<u64> = (0..256).map(|bus| bus << 8).collect();
        for function in self.named.sheet.functions() {
            edges.extend([u64::from(function.id.0), u64::from(function.id.0) + 1]);
        }
        let middle = if byte0 == 0x0A { [0, 0, 0, 0, 0, 0, 4] } else { [0, 0, 1, 0, 0, 0, 0x0F] };
        self.ranges(&edges, 0xFFFF, 1, |id| [&[byte0], &middle[..], &(id as u16).to_be_bytes(), &[0, 0]].concat())
    }

    /// Where BARs and windows of a space start, and the address after each.
    fn edges(&self, is_io: bool, windows: impl Fn(&Function) -> Vec<std::ops::RangeInclusive<u64>>) -> BTreeSet<u64> {
        let mut edges = BTreeSet::new();
        for function in self.named.sheet.functions() {
            let bars =
                function.bars().filter(|placed| crate::named::is_io_bar(placed) == is_io).map(|placed| placed.range());
            for range in bars.chain(windows(&function)) {
                edges.insert(*range.start());
                edges.extend(range.end().checked_add(1));
            }
        }
        edges
    }

    /// The ranges from 0 to `last` between these edges, each asked with the header for its first and its last; next to each other they
    /// have different answers.
    fn ranges(&self, edges: &BTreeSet<u64>, last: u64, step: u64, header: impl Fn(u64) -> Vec<u8>) -> Vec<Range> {
        let starts: Vec<u64> = edges.iter().copied().filter(|edge| *edge <= last).collect();
        let mut ranges: Vec<Range> = Vec::new();
        for (at, &first) in starts.iter().enumerate() {
            let last = starts.get(at + 1).map_or(last, |next| next - 1);
            let ends = [first, last - (step - 1)];
            let address = (step > 1).then_some(first);
            let both = |sheet: &[u8]| {
                let [one, other] = ends.map(|end| self.ask(sheet, &header(end), address));
                if one == other {
                    one
                } else {
                    Found::Unsure
                }
            };
            let found = both(self.named.sheet.bytes());
            let enabled = Some(both(&self.enabled)).filter(|enabled| *enabled != found);
            match ranges.last_mut() {
                Some(before) if before.found == found && before.enabled == enabled => before.last = last,
                _ => ranges.push(Range { first, last, found, enabled }),
            }
        }
        ranges
    }

    /// What the router answers; `address` is one that the owner's BAR holds.
    fn ask(&self, sheet: &[u8], header: &[u8], address: Option<u64>) -> Found {
        match route(header, sheet) {
            Ok(Arrival::Function(Delivery { record, bridges, .. })) => {
                let bar = address.and_then(|address| self.bar(record, header[0] & 0x1F == 2, address));
                Found::Owner { record, bridges, over: self.over(record, bridges), bar }
            }
            Ok(Arrival::Every { functions, .. }) => Found::Every { functions },
            Ok(Arrival::Port { .. }) => Found::Port,
            Ok(_) => Found::Unsure,
            Err(refusal) => Found::Refused(refusal),
        }
    }

    fn bar(&self, record: u16, is_io: bool, address: u64) -> Option<(u8, u64)> {
        let mut bars = self.named.sheet.record(record)?.bars();
        let placed = bars.find(|one| crate::named::is_io_bar(one) == is_io && one.range().contains(&address))?;
        Some((placed.slot, placed.start))
    }

    fn over(&self, record: u16, bridges: u16) -> Option<Vec<u16>> {
        let bus = self.named.sheet.record(record)?.id.bus();
        let mut over: Vec<u16> = self.named.sheet.bridges_above(bus).map(|bridge| bridge.record).collect();
        over.reverse();
        Some(over).filter(|over| over.len() == usize::from(bridges))
    }
}

fn message(routing: u8) -> [u8; 16] {
    let mut header = [0; 16];
    header[0] = 0x30 | routing;
    header
}

fn table(ranges: &[Range]) -> Json {
    Json::List(ranges.iter().map(Range::json).collect())
}

impl Range {
    fn json(&self) -> Json {
        let hexadecimal = |number: u64| Json::text(format_args!("{number:X}"));
        let mut members = vec![("first", hexadecimal(self.first)), ("last", hexadecimal(self.last))];
        members.extend(self.found.members());
        members.extend(self.enabled.as_ref().map(|found| ("enabled", Json::Object(found.members()))));
        Json::Object(members)
    }
}

impl Found {
    fn members(&self) -> Vec<(&'static str, Json)> {
        match self {
            Found::Owner { record, bridges, over, bar } => {
                let mut members = vec![("record", Json::number(*record)), ("bridges", Json::number(*bridges))];
                if let Some(over) = over {
                    members.push(("over", Json::List(over.iter().map(|record| Json::number(*record)).collect())));
                }
                if let Some((slot, start)) = bar {
                    members.push(("bar", Json::number(*slot)));
                    members.push(("start", Json::text(format_args!("{start:X}"))));
                }
                members
            }
            Found::Every { functions } => vec![("every", Json::number(*functions))],
            Found::Port => vec![("port", Json::number(1_u8))],
            Found::Refused(refusal) => vec![("refused", Json::number(refusal.number()))],
            Found::Unsure => vec![("unsure", Json::number(1_u8))],
        }
    }
}

#[cfg(test)]
mod tests {
    use super::*;
    use crate::source::Source;

    /// Planned, left by firmware, and with two owners for an address.
    const SHEETS: [&str; 4] = [
        "tests/command/recorder.txt",
        "docs/example/board",
        "tests/audit/ovmf-overlap.sheet",
        "tests/audit/seabios-deep-16.sheet",
    ];

    fn named(file: &str) -> NamedSheet {
        let path = format!("{}/../../{file}", env!("CARGO_MANIFEST_DIR"));
        Source::read(&path).unwrap().into_sheet().unwrap()
    }

    fn look<'a>(ranges: &'a [Range], number: u64) -> &'a Found {
        &ranges.iter().find(|range| (range.first..=range.last).contains(&number)).unwrap().found
    }

    /// The table covers every number once, and says of each what the router says.
    fn hold(answers: &Answers, ranges: &[Range], numbers: &[u64], last: u64, header: impl Fn(u64) -> Vec<u8>) {
        assert_eq!((ranges[0].first, ranges[ranges.len() - 1].last), (0, last));
        assert!(ranges.windows(2).all(|two| two[0].last + 1 == two[1].first));
        for &number in numbers {
            let address = (last > 0xFFFF).then_some(number);
            let asked = answers.ask(answers.named.sheet.bytes(), &header(number), address);
            assert_eq!(look(ranges, number), &asked, "{number:X}");
        }
    }

    #[test]
    fn what_the_router_says() {
        for file in SHEETS {
            let named = named(file);
            let answers = Answers::new(&named);
            let ids: Vec<u64> = (0..=0xFFFF).collect();
            for (byte0, third) in [(0x0A, 0), (0x04, 1), (0x05, 1)] {
                hold(&answers, &answers.ids(byte0), &ids, 0xFFFF, |id| {
                    let enables = if byte0 == 0x0A { 4 } else { 0x0F };
                    [&[byte0, 0, 0, third, 0, 0, 0, enables], &(id as u16).to_be_bytes()[..], &[0, 0]].concat()
                });
            }
            let io: Vec<u64> = (0..0x12000).step_by(4).collect();
            hold(&answers, &answers.io(), &io, u32::MAX.into(), |address| {
                [&[0x42, 0, 0, 1, 0, 0, 0, 0x0F], &(address as u32).to_be_bytes()[..]].concat()
            });
            let mut seed = 1_u64;
            let edges: Vec<u64> = answers.memory().iter().flat_map(|range| [range.first, range.last]).collect();
            let near = |_| {
                seed = seed.wrapping_mul(0x5851_F42D_4C95_7F2D).wrapping_add(0x1405_7B7E_F767_814F);
                let edge = edges[(seed >> 33) as usize % edges.len()];
                edge.wrapping_add((seed >> 20 & 0xFF_FFFF) >> (seed & 31)) & !3
            };
            let addresses: Vec<u64> = (0..20_000).map(near).collect();
            hold(&answers, &answers.memory(), &addresses, u64::MAX, |address| match address {
                FOUR_GIB.. => [&[0x60, 0, 0, 1, 0, 0, 0, 0x0F], &address.to_be_bytes()[..]].concat(),
                _ => [&[0x40, 0, 0, 1, 0, 0, 0, 0x0F], &(address as u32).to_be_bytes()[..]].concat(),
            });
            // A message by address is a memory request there.
            hold(&answers, &answers.memory(), &addresses[..2000], u64::MAX, |address| {
                [&[0x31, 0, 0, 0, 0, 0, 0, 0x7F], &address.to_be_bytes()[..]].concat()
            });
        }
    }

    /// What is off is 40, and with every command word 0007 it is somebody's.
    #[test]
    fn what_is_off() {
        let board = "host buses 00-FF low F8000000+64M\ncard 00.0 \"off\" mem32 4K, command 0000\n";
        let named = Source::of("board", board.as_bytes().to_vec()).unwrap().into_sheet().unwrap();
        let answers = Answers::new(&named);
        let memory = answers.memory();
        let range = memory.iter().find(|range| range.first == 0xF800_0000).unwrap();
        assert_eq!((range.last, &range.found), (0xF800_0FFF, &Found::Refused(Refusal::NoOwner)));
        let owner = Found::Owner { record: 1, bridges: 0, over: Some(vec![]), bar: Some((0, 0xF800_0000)) };
        assert_eq!(range.enabled, Some(owner));
        assert_eq!(answers.commands(), BTreeMap::from([(0, 1)]));
    }
}
