//! The audit, and one owner for every address, over random host records and sheets: against their sentences written out word
//! for word, on planned sheets, and what an accepted or a sound sheet delivers.

mod decoded;

use decoded::{functions, requests, Function, Range};
use inputs::random::Random;
use inputs::{audit, board, trees};
use plain::{Arrival, Kind};

fn plan(board: &[u8]) -> Option<Vec<u8>> {
    let mut room = vec![0; plain::FULL_SHEET];
    let length = plain::plan(board, &mut room).ok()?;
    room.truncate(length);
    Some(room)
}

/// The host's buses and pools.
struct Host {
    buses: (u8, u8),
    pools: [(u128, u128); 3],
}

fn host_of(record: &[u8]) -> Host {
    let big =
        |at: usize, width: usize| record[at..at + width].iter().fold(0, |number, &byte| number << 8 | u128::from(byte));
    let pools = [(big(2, 4), big(6, 4)), (big(10, 8), big(18, 8)), (big(26, 2), big(28, 2))];
    Host { buses: (record[0], record[1]), pools }
}

/// The one bridge whose secondary bus is `bus`.
fn above(functions: &[Function], bus: u8) -> Option<&Function> {
    let leads = |function: &&Function| function.bridge.is_some_and(|(secondary, _)| secondary == bus);
    let mut bridges = functions.iter().filter(leads);
    let bridge = bridges.next();
    if bridges.next().is_some() {
        return None;
    }
    bridge
}

fn items(function: &Function) -> Vec<Range> {
    let open = function.windows.iter().filter(|window| window.first <= window.last);
    function.bars.iter().chain(open).copied().collect()
}

/// The number, where a range has to lie in one above that the test allows it.
fn judged(host: &[u8], sheet: &[u8], allows: fn(&Range, usize) -> bool) -> u8 {
    if host.len() != 30 {
        return 20;
    }
    // As on a board that has no function.
    if plan(&[&[1, 0, 30], host].concat()).is_none() {
        return 26;
    }
    let number = plain::check(sheet);
    if number != 0 {
        return number;
    }
    let (host, functions) = (host_of(host), functions(sheet));
    if !buses_nest(&host, &functions) {
        50
    } else if !functions
        .iter()
        .all(|function| items(function).iter().all(|item| lies(item, function, &host, &functions, allows)))
    {
        51
    } else if !are_disjoint(&functions) {
        52
    } else {
        0
    }
}

fn buses_nest(host: &Host, functions: &[Function]) -> bool {
    let root = host.buses.0;
    if functions.first().is_some_and(|first| first.bus() != root) {
        return false;
    }
    if !functions.iter().all(|function| function.bus() == root || above(functions, function.bus()).is_some()) {
        return false;
    }
    let bridges: Vec<(u8, (u8, u8))> =
        functions.iter().filter_map(|function| Some((function.bus(), function.bridge?))).collect();
    let inside = |inner: (u8, u8), outer: (u8, u8)| outer.0 <= inner.0 && inner.1 <= outer.1;
    let in_parents = bridges.iter().all(|&(bus, range)| {
        let parent = if bus == root { host.buses } else { above(functions, bus).unwrap().bridge.unwrap() };
        inside(range, parent) && inside(range, host.buses)
    });
    let siblings = pairs(&bridges).filter(|(one, other)| one.0 == other.0);
    in_parents && siblings.map(|(one, other)| (one.1, other.1)).all(|(one, other)| one.1 < other.0 || other.1 < one.0)
}

/// Of its own kind.
fn of_kind(item: &Range, pool: usize) -> bool {
    item.pool == pool
}

/// Of memory for what is memory, low or high.
fn of_space(item: &Range, pool: usize) -> bool {
    item.is_io() == (pool == 2)
}

/// In a window above, or on the root bus in a pool, that it may lie in.
fn lies(
    item: &Range,
    function: &Function,
    host: &Host,
    functions: &[Function],
    allows: fn(&Range, usize) -> bool,
) -> bool {
    let outer: Vec<(usize, (u128, u128))> = if function.bus() == host.buses.0 {
        host.pools.into_iter().enumerate().collect()
    } else {
        let bridge = above(functions, function.bus()).unwrap();
        bridge.windows.iter().map(|window| (window.pool, (window.first, window.last))).collect()
    };
    let mut allowed = outer.into_iter().filter(|(pool, _)| allows(item, *pool));
    allowed.any(|(_, (first, last))| first <= item.first && item.last <= last)
}

fn are_disjoint(functions: &[Function]) -> bool {
    let all: Vec<(u8, Range)> =
        functions.iter().flat_map(|function| items(function).into_iter().map(|item| (function.bus(), item))).collect();
    let mut of_one_space =
        pairs(&all).filter(|((bus, one), (other_bus, other))| bus == other_bus && one.is_io() == other.is_io());
    of_one_space.all(|((_, one), (_, other))| one.last < other.first || other.last < one.first)
}

fn pairs<T>(all: &[T]) -> impl Iterator<Item = (&T, &T)> {
    all.iter().enumerate().flat_map(|(at, one)| all[at + 1..].iter().map(move |other| (one, other)))
}

/// All records but the first in another order, with other command words.
fn reordered(sheet: &[u8], random: &mut Random) -> Vec<u8> {
    let mut records: Vec<Vec<u8>> = sheet[1..].chunks_exact(92).map(<[u8]>::to_vec).collect();
    for at in 2..records.len() {
        records.swap(at, 1 + random.below(at as u64) as usize);
    }
    for record in &mut records {
        record[8..10].copy_from_slice(&(random.word() as u16).to_le_bytes());
    }
    [vec![1], records.concat()].concat()
}

#[test]
fn word_for_word() {
    let mut random = Random::new(21);
    let mut seen = [0; 53];
    for _ in 0..40_000 {
        let (host, sheet) = audit::any(&mut random, plan);
        let number = plain::audit(&host, &sheet);
        assert_eq!(number, judged(&host, &sheet, of_kind), "{host:02X?} {sheet:02X?}");
        let sound = plain::sound(&host, &sheet);
        assert_eq!(sound, judged(&host, &sheet, of_space), "{host:02X?} {sheet:02X?}");
        assert!(sound == number || number == 51);
        seen[usize::from(number)] += 1;
        // Neither the order of the records nor the command words matter.
        if plain::check(&sheet) == 0 {
            assert_eq!(plain::audit(&host, &reordered(&sheet, &mut random)), number, "{host:02X?} {sheet:02X?}");
        }
    }
    let numbers = [0, 20, 21, 22, 24, 25, 26, 27, 28, 29, 50, 51, 52];
    assert!(numbers.iter().all(|&number| seen[number] > 10), "{seen:?}");
    assert!([0, 50, 51, 52].iter().all(|&number| seen[number] > 2_000), "{seen:?}");
    assert_eq!(numbers.iter().map(|&number| seen[number]).sum::<u32>(), 40_000);
}

/// Every planned sheet is accepted for its own host record.
#[test]
fn planned_sheets() {
    let mut random = Random::new(22);
    for round in 0..6_000 {
        let (host, sheet) = if round % 16 == 0 {
            let board = trees::large(&mut random);
            let Some(sheet) = plan(&board.bytes()) else { continue };
            (board.host(), sheet)
        } else {
            audit::planned(&mut random, plan)
        };
        assert_eq!(plain::audit(&host, &sheet), 0, "{host:02X?} {sheet:02X?}");
    }
    for bridges in 0..=255 {
        let mut board = board::Board::new();
        for device_function in 0..bridges {
            board.add(0, device_function, 0x81, &[]);
        }
        assert_eq!(plain::audit(&board.host(), &plan(&board.bytes()).unwrap()), 0);
    }
}

/// The bridges above a bus, told by bus numbers, none twice.
fn bridges_above(functions: &[Function], mut bus: u8, root: u8) -> Vec<&Function> {
    let mut bridges = Vec::new();
    while bus != root {
        let bridge = above(functions, bus).unwrap();
        bridges.push(bridge);
        bus = bridge.bus();
    }
    bridges
}

/// Demand 3 on sound sheets, accepted or not: to the function whose BAR holds the address when it and the bridges above have
/// the space enabled, over as many bridges; otherwise 40.
#[test]
fn delivery() {
    let mut random = Random::new(23);
    let (mut accepted, mut sound_alone, mut delivered, mut refused, mut most) = (0, 0, 0, 0, 0);
    for _ in 0..8_000 {
        let (host, mut sheet) = audit::any(&mut random, plan);
        if random.chance(1, 4) {
            audit::change_kinds(&mut sheet, &mut random);
        }
        if plain::sound(&host, &sheet) != 0 {
            continue;
        }
        *if plain::audit(&host, &sheet) == 0 { &mut accepted } else { &mut sound_alone } += 1;
        let functions = functions(&sheet);
        let mut headers = requests(&functions, &mut random);
        while headers.len() > 60 {
            headers.swap_remove(random.below(headers.len() as u64) as usize);
        }
        for header in headers {
            let packet = plain::read(&header).unwrap();
            let is_io = matches!(packet.kind, Kind::IORd | Kind::IOWr);
            let is_message = matches!(packet.kind, Kind::Msg | Kind::MsgD);
            let address = u128::from(if is_message { packet.tail } else { packet.address });
            let owns = |function: &&Function| function.bars.iter().any(|bar| bar.holds(is_io, address));
            assert!(functions.iter().filter(owns).count() < 2);
            let mut expected = Err(40);
            if let Some(index) = functions.iter().position(|function| owns(&function)) {
                let owner = &functions[index];
                let bridges = bridges_above(&functions, owner.bus(), host[0]);
                if owner.enables(is_io) && bridges.iter().all(|bridge| bridge.enables(is_io)) {
                    let (record, bridges) = (index as u16 + 1, bridges.len() as u16);
                    expected = Ok(Arrival::Function { record, bridges, packet });
                    most = most.max(bridges);
                }
            }
            assert_eq!(plain::route(&header, &sheet), expected);
            *if expected.is_ok() { &mut delivered } else { &mut refused } += 1;
        }
    }
    assert!(accepted > 1_500 && sound_alone > 200, "{accepted} {sound_alone}");
    assert!(delivered > 10_000 && refused > 10_000, "{delivered} {refused}");
    assert!(most > 32, "{most}");
}

/// Sheets that other firmware could leave are accepted, bridges beyond thirty-two in a row as well; and sound where it made
/// memory of another kind of some.
#[test]
fn nested_sheets() {
    let mut random = Random::new(24);
    let (mut deepest, mut largest) = (0, 0);
    for _ in 0..4_000 {
        let (host, mut sheet) = audit::nested(&mut random);
        assert_eq!(plain::audit(&host, &sheet), 0, "{host:02X?} {sheet:02X?}");
        audit::change_kinds(&mut sheet, &mut random);
        assert_eq!(plain::sound(&host, &sheet), 0, "{host:02X?} {sheet:02X?}");
        assert_eq!(plain::sound(&host, &sheet), judged(&host, &sheet, of_space), "{host:02X?} {sheet:02X?}");
        let functions = functions(&sheet);
        largest = largest.max(functions.len());
        for function in &functions {
            deepest = deepest.max(bridges_above(&functions, function.bus(), host[0]).len());
        }
    }
    assert!(deepest > 100 && largest > 200, "{deepest} {largest}");
}
