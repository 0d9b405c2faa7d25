//! Runs of the program `follow`: what each reads.

use crate::traces::{kinds, lengths, p10, planned, refused_headers, refused_routes, Run};
use inputs::board::{self, high, memory, Board};
use inputs::foreign::*;
use inputs::random::Random;
use inputs::{ends, trace};

/// I/O, memory and bus master.
const ALL: u16 = 7;

/// The host's own ID where no function has it.
const HOST: u16 = 0xFFFF;

pub fn runs() -> Vec<Run> {
    [boxes(), headers(), sheets(), aimed(), opening(), trace_ends()].concat()
}

/// What the program reads: the host's own ID, a sheet after its length, then a trace.
fn input(host_id: u16, sheet: &[u8], trace: &[u8]) -> Vec<u8> {
    [&host_id.to_be_bytes(), &trace::input(sheet, trace)[..]].concat()
}

/// The header with another sender: bytes 4 and 5 are a completion's completer and any other header's requester.
fn from(id: u16, mut header: Vec<u8>) -> Vec<u8> {
    header[4..6].copy_from_slice(&id.to_be_bytes());
    header
}

/// A switch with two capture cards below it and a timecode card beside it. Records: 1 the switch's upper bridge, 2 and 4 its
/// lower ones, 3 and 5 the capture cards, 6 the timecode card, 7 a card that may not send.
fn recorder() -> Board {
    let mut board = Board::new();
    let up = board.bridge(0, 0x08);
    for device_function in [0x00, 0x08] {
        let down = board.bridge(up, device_function);
        board.end(down, 0x00, &[memory(16), high(20)[0], high(20)[1]]);
    }
    board.end(0, 0x10, &[memory(12)]);
    board.end(0, 0x18, &[memory(12)]);
    for function in &mut board.functions {
        function.command = ALL;
    }
    board.functions[6].command = 3;
    board
}

/// The recorder's functions by their IDs.
const BRIDGE: u16 = 0x0008;
const LEFT: u16 = 0x0200;
const RIGHT: u16 = 0x0300;
const TIMECODE: u16 = 0x0010;
const SILENT: u16 = 0x0018;

/// In no pool.
const IN_MEMORY: u64 = 0x7F3A_1000;

fn boxes() -> Vec<Run> {
    let sheet = planned(&recorder());
    let tree = planned(&board::document_001());
    vec![
        ("recorder", input(0, &sheet, &trace::of(&recorded()))),
        ("host-is-a-card", input(LEFT, &sheet, &trace::of(&recorded()))),
        ("host-is-a-bridge", input(BRIDGE, &sheet, &trace::of(&recorded()))),
        ("host-is-nobody", input(HOST, &sheet, &trace::of(&recorded()))),
        ("messages", input(HOST, &sheet, &trace::of(&messages()))),
        ("tree-001", input(HOST, &tree, &trace::of(&each_to_each(&tree)))),
    ]
}

/// A doorbell, a descriptor read and its completion, audio of two cards, an interrupt, a card's registers read by the other,
/// and what goes wrong: no bus master, a bridge's own request, a card's own BAR, a bus that nobody has.
fn recorded() -> Vec<Vec<u8>> {
    let in_left = 0x8000_0000;
    vec![
        from(0, request(MWR, in_left + 0x10)),
        from(LEFT, request(MRD, IN_MEMORY)),
        from(0, completion(CPLD, LEFT)),
        from(LEFT, request(MWR, IN_MEMORY + 0x1000)),
        from(RIGHT, request(MWR, IN_MEMORY + 0x2000)),
        from(LEFT, request(MWR, 0xFEE0_0000)),
        from(0, request(MRD, in_left)),
        from(LEFT, completion(CPLD, 0)),
        from(RIGHT, request(MRD, in_left)),
        from(LEFT, completion(CPLD, RIGHT)),
        from(TIMECODE, completion(CPL, LEFT)),
        from(LEFT, completion(CPL, BRIDGE)),
        from(BRIDGE, completion(CPL, LEFT)),
        from(SILENT, request(MWR, IN_MEMORY)),
        from(SILENT, completion(CPLD, 0)),
        from(BRIDGE, request(MRD, IN_MEMORY)),
        from(LEFT, request(MRD, in_left)),
        from(LEFT, completion(CPLD, LEFT)),
        from(LEFT, completion(CPLD, 0x0208)),
        from(LEFT, completion(CPLD, 0x2000)),
        from(LEFT, completion(CPLD, 0x0020)),
        from(LEFT, request(MWR, 0x8000_0000 + 0x2_0000)),
        from(LEFT, configuration(CFGRD1, RIGHT, 0)),
        request(MWR, IN_MEMORY)[..11].to_vec(),
    ]
}

/// Every routing from the host, from a card, from a bridge and from nobody.
fn messages() -> Vec<Vec<u8>> {
    let mut messages = Vec::new();
    for sender in [HOST, RIGHT, BRIDGE, 0xAB00] {
        for routing in 0..8 {
            messages.push(from(sender, message(MSG, routing, 0x7E, u64::from(LEFT) << 48)));
        }
        messages.push(from(sender, message(MSGD, 0b010, 0x7E, u64::from(HOST) << 48)));
        messages.push(from(sender, message(MSGD, 0b010, 0x7E, u64::from(sender) << 48)));
        messages.push(from(sender, message(MSGD, 0b001, 0x7E, 0x8000_0000)));
    }
    messages
}

/// A completion from each function of a sheet to each, and to the host.
fn each_to_each(sheet: &[u8]) -> Vec<Vec<u8>> {
    let ids: Vec<u16> = sheet[1..].chunks_exact(92).map(|record| u16::from_be_bytes([record[2], record[3]])).collect();
    let to = |sender: u16| ids.iter().copied().chain([HOST]).map(move |id| from(sender, completion(CPLD, id)));
    ids.iter().flat_map(|&sender| to(sender)).collect()
}

fn headers() -> Vec<Run> {
    let by_card: Vec<Vec<u8>> = kinds().map(|header| from(0x0100, header)).to_vec();
    vec![
        ("kinds", input(HOST, &p10(), &trace::of(&kinds()))),
        ("kinds-by-a-card", input(HOST, &p10(), &trace::of(&by_card))),
        ("refused-headers", input(HOST, &p10(), &trace::of(&refused_headers()))),
        ("refused-routes", input(HOST, &p10(), &trace::of(&refused_routes()))),
        ("record-lengths", input(0, &p10(), &trace::of(&lengths()))),
    ]
}

fn sheets() -> Vec<Run> {
    let card = Record::end(0x0100).command(ALL);
    let over = |records: &[Record]| {
        let to = |id: u16| from(0x0100, completion(CPLD, id));
        let mut headers = vec![from(0x0100, message(MSG, 0b000, 0x18, 0)), from(0x0100, message(MSG, 0b100, 0x20, 0))];
        headers.extend([HOST, 0x0000, 0x0008, 0x0010, 0x0100, 0x0108, 0x0200, 0x0300, 0x0400].map(to));
        headers.push(from(0x0100, request(MWR, IN_MEMORY)));
        input(HOST, &sheet(records), &trace::of(&headers))
    };
    let bridge = |id: u16, secondary: u8, last: u8| Record::bridge(id, secondary, last).command(ALL);
    let overlapping = [bridge(0x0000, 1, 1), bridge(0x0008, 2, 4), bridge(0x0010, 4, 4), card.clone()];
    let spare = [bridge(0x0000, 1, 3), card.clone()];
    vec![
        ("no-bridge-above", over(&[Record::end(0x0000), card.clone()])),
        ("two-bridges-above", over(&[bridge(0x0000, 1, 1), bridge(0x0008, 1, 1), card.clone()])),
        ("two-bridges-to-a-bus", over(&overlapping)),
        ("bridge-to-the-root-bus", over(&[card.clone(), bridge(0x0000, 1, 1)])),
        ("spare-buses", over(&spare)),
        ("bridges-in-a-row", in_a_row()),
        ("no-functions", input(0, &[1], &trace::of(&recorded()))),
        ("bad-sheet", input(0, &sheet(&[Record::bridge(0x0000, 0, 0)]), &trace::of(&recorded()))),
        ("sheet-of-no-bytes", input(0, &[], &trace::of(&recorded()))),
    ]
}

/// 200 bridges one below the other, and a card below them: to the host, to the uppermost bridge, and to one that is not there.
fn in_a_row() -> Vec<u8> {
    let mut records: Vec<Record> =
        (0..200).map(|bus| Record::bridge(u16::from_be_bytes([bus, 0]), bus + 1, 200).command(ALL)).collect();
    records.push(Record::end(0xC800).command(ALL));
    let headers = [
        from(0xC800, message(MSG, 0b101, 0x1B, 0)),
        from(0xC800, completion(CPL, 0x0000)),
        from(0x0000, completion(CPL, 0xC800)),
        from(0x0000, completion(CPL, 0xC808)),
        from(0xC800, request(MRD, IN_MEMORY)),
    ];
    input(HOST, &sheet(&records), &trace::of(&headers))
}

/// Headers by functions of a sheet, for what is near and far: over the recorder, and over sheets that no planner wrote.
fn aimed() -> Vec<Run> {
    let mut random = Random::new(1);
    let mut over = |sheet: &[u8], host_id: u16| {
        let headers: Vec<Vec<u8>> = (0..400).map(|_| ends::header(host_id, sheet, &mut random)).collect();
        input(host_id, sheet, &trace::of(&headers))
    };
    let recorder = over(&planned(&recorder()), 0);
    let mut foreign = Random::new(2);
    let sheets = [(); 3].map(|()| loop {
        let sheet = ends::sheet(&mut foreign);
        if plain::check(&sheet) == 0 && sheet.len() > 92 * 8 {
            return over(&sheet, 0);
        }
    });
    let [one, two, three] = sheets;
    vec![("aimed-recorder", recorder), ("aimed-foreign-1", one), ("aimed-foreign-2", two), ("aimed-foreign-3", three)]
}

/// What comes before a sheet's own checks.
fn opening() -> Vec<Run> {
    let long = vec![1; plain::FULL_SHEET + 1];
    vec![
        ("no-input-refused-20", vec![]),
        ("half-an-id-refused-20", vec![0]),
        ("id-alone-refused-20", vec![0, 0]),
        ("half-a-length-refused-20", vec![0, 0, 0]),
        ("sheet-cut-refused-20", input(0, &p10(), &[])[..100].to_vec()),
        ("long-sheet-refused-22", input(0, &long, &trace::of(&recorded()))),
        // At once: nothing follows the length.
        ("length-alone-refused-22", vec![0, 0, 0xFF, 0xFF]),
    ]
}

fn trace_ends() -> Vec<Run> {
    let trace = trace::of(&recorded());
    let other = [&[2], &trace[1..]].concat();
    vec![
        ("no-trace-refused-20", input(0, &p10(), &[])),
        ("version-refused-21", input(0, &p10(), &other)),
        ("no-records", input(0, &p10(), &[1])),
        // After two whole records: one byte of a length, and a header short of its last byte.
        ("cut-length", input(0, &p10(), &trace[..30])),
        ("cut-header", input(0, &p10(), &trace[..42])),
    ]
}
