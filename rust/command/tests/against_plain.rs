//! What the command says in words against plain Rust: headers decoded, plans, routes, labels and ledgers.

mod run;

use inputs::ledger::{History, Step};
use inputs::random::Random;
use inputs::{aim, audit, board, cards, ends, header, labels, trace};
use plain::{Arrival, Kind, Packet};
use run::{folder, repository, run};
use std::fs;

const RECORD: usize = 92;

fn id(id: u16) -> String {
    format!("{:02X}:{:02X}.{:X}", id >> 8, id >> 3 & 31, id & 7)
}

fn hex(bytes: &[u8]) -> String {
    bytes.iter().map(|byte| format!("{byte:02X}")).collect()
}

/// A file of this test's, and its name.
fn file(name: &str, bytes: &[u8]) -> String {
    let file = folder("against-plain").join(name);
    fs::write(&file, bytes).unwrap();
    file.to_str().unwrap().to_string()
}

fn planned(board: &[u8]) -> Vec<u8> {
    let mut room = vec![0; plain::FULL_SHEET];
    let length = plain::plan(board, &mut room).unwrap();
    room.truncate(length);
    room
}

/// The fields of an accepted header, as they are shown. A kind's words, and those of a status, a routing or a code, follow.
fn fields(packet: &Packet) -> Vec<(&'static str, String)> {
    let length = match packet.length {
        0 => "none".to_string(),
        1 => "1 dword".to_string(),
        1024 => "1024 dwords (code 0)".to_string(),
        length => format!("{length} dwords"),
    };
    let mut fields = vec![
        ("kind", format!("{:?}, ", packet.kind)),
        ("TC, Attr, AT", format!("{}, {:03b}, {:02b}", packet.tc, packet.attr, packet.at)),
        ("Length", length),
        ("requester", id(packet.requester)),
        ("tag", format!("{:02X}", packet.tag)),
    ];
    let enables = format!("first {:04b}, last {:04b}", packet.first_enables, packet.last_enables);
    match packet.kind {
        Kind::MRd | Kind::MRdLk | Kind::MWr | Kind::IORd | Kind::IOWr => {
            fields.extend([("byte enables", enables), ("address", format!("{:X}", packet.address))]);
        }
        Kind::CfgRd0 | Kind::CfgWr0 | Kind::CfgRd1 | Kind::CfgWr1 => {
            let register = format!("{:03X}h", 4 * packet.register);
            fields.extend([("byte enables", enables), ("target", id(packet.target)), ("register", register)]);
        }
        Kind::Cpl | Kind::CplD | Kind::CplLk | Kind::CplDLk => fields.extend([
            ("completer", id(packet.completer)),
            ("status", format!("{:03b}, ", packet.status)),
            ("byte count", format!("{}{}", packet.byte_count, if packet.bcm { ", BCM" } else { "" })),
            ("lower address", format!("{:02X}", packet.lower_address)),
        ]),
        Kind::Msg | Kind::MsgD => {
            fields.extend([("routing", format!("{:03b}, ", packet.routing)), ("code", format!("{:02X}", packet.code))]);
        }
    }
    fields
}

#[test]
fn decoded() {
    let mut random = Random::new(1);
    let headers: Vec<Vec<u8>> =
        (0..4000).map(|_| header::any(&mut random)).filter(|header| !header.is_empty()).collect();
    let input: String = headers.iter().map(|header| hex(header) + "\n").collect();
    let out = String::from_utf8(run(&["decode"], input.as_bytes()).out).unwrap();
    let starts: Vec<usize> =
        out.lines().enumerate().filter(|(_, line)| !line.starts_with(' ')).map(|at| at.0).collect();
    let lines: Vec<&str> = out.lines().collect();
    assert_eq!(starts.len(), headers.len());
    let mut accepted = 0;
    for (index, header) in headers.iter().enumerate() {
        let block = &lines[starts[index]..starts.get(index + 1).copied().unwrap_or(lines.len())];
        match plain::read(header) {
            Err(number) => assert!(block[0].contains(&format!(": refused {number}: ")), "{}", block[0]),
            Ok(packet) => {
                assert!(block[0].ends_with(": accepted"), "{}", block[0]);
                for (name, value) in fields(&packet) {
                    let line = format!("  {name:14} {value}");
                    assert!(block.iter().any(|shown| shown.starts_with(&line)), "{line}: {block:#?}");
                }
                accepted += 1;
            }
        }
    }
    assert!(accepted > 1000, "{accepted}");
}

/// A BAR of a record: its slot, whether it is one of I/O, its start and its size, by the register and the read-back.
fn bars(record: &[u8]) -> Vec<(usize, bool, u64, u64)> {
    let value = |slot: usize| u32::from_le_bytes(*record[4 + 0x10 + 4 * slot..].first_chunk().unwrap());
    let read_back = |slot: usize| u32::from_be_bytes(*record[68 + 4 * slot..].first_chunk().unwrap());
    let mut bars = Vec::new();
    let mut slot = 0;
    while slot < 6 {
        let (low, back) = (value(slot), read_back(slot));
        let is_wide = back & 0b111 == 0b100;
        if back & 1 == 1 {
            bars.push((slot, true, u64::from(low & !3), 1 << (back & !3).trailing_zeros()));
        } else if back != 0 {
            let (high, mask) = if is_wide { (value(slot + 1), read_back(slot + 1)) } else { (0, u32::MAX) };
            let mask = u64::from(mask) << 32 | u64::from(back & !0xF);
            bars.push((slot, false, u64::from(high) << 32 | u64::from(low & !0xF), 1 << mask.trailing_zeros()));
        }
        slot += if is_wide { 2 } else { 1 };
    }
    bars
}

/// The table's line for each function and BAR, and the program's lines.
#[test]
fn plans() {
    for board in
        ["tests/command/recorder.txt", "docs/example/board", "tests/plan/tree-001.board", "tests/plan/spares.board"]
    {
        let bytes = run(&["convert", board, "--bytes"], b"").out;
        assert_eq!(run(&["plan", board, "--lines"], b"").out, plain::programs::plan(&bytes), "{board}");
        let table = String::from_utf8(run(&["plan", board], b"").out).unwrap();
        let mut lines = table.lines().skip(1).filter(|line| !line.contains(" window "));
        for (number, record) in (1..).zip(planned(&bytes)[1..].chunks(RECORD)) {
            let line = lines.next().unwrap();
            let start = format!("{number:>3}  {}", id(u16::from_be_bytes([record[2], record[3]])));
            assert!(line.starts_with(&start), "{board}: {line}");
            let command = u16::from_le_bytes([record[8], record[9]]);
            assert!(line.contains(&format!(", command {command:04X}")), "{board}: {line}");
            for (slot, is_io, first, size) in bars(record) {
                let line = lines.next().unwrap();
                let width = if is_io { 4 } else { 8 };
                let range = format!(" {first:0width$X}-{:0width$X}  ", first + size - 1);
                assert!(line.contains(&format!("BAR {slot} ")) && line.contains(&range), "{board}: {line}: {range}");
            }
        }
        assert_eq!(lines.next(), None, "{board}");
    }
}

/// Sheets, planned, planned with ranges of other kinds where they are, and another firmware's, with every function a bus
/// master.
fn sheets(random: &mut Random) -> Vec<Vec<u8>> {
    let read = |name: &str| fs::read(repository().join("tests/audit").join(name)).unwrap();
    let boards = [board::p10(), board::document_001(), labels::board(64, 8)];
    let mut sheets: Vec<Vec<u8>> = boards.iter().map(|board| planned(&board.bytes())).collect();
    sheets.extend([read("ovmf-overlap.sheet"), read("seabios-deep-16.sheet")]);
    sheets.iter_mut().for_each(|sheet| cards::enable(sheet, random));
    // With their own numbers, so that those of the others stay.
    let mut random = Random::new(7);
    let mut of_other_kinds = planned(&labels::board(64, 8).bytes());
    audit::split_kinds(&mut of_other_kinds, &mut random);
    for mut sheet in [of_other_kinds, read("seabios-one-bridge.sheet")] {
        cards::enable(&mut sheet, &mut random);
        sheets.push(sheet);
    }
    sheets
}

/// `record 4, 03:00.0, BAR 0 + 10, over 2 bridges: ..`, as far as plain says it.
fn arrived(sheet: &[u8], record: u16, bridges: u16, packet: &Packet, line: &str) -> bool {
    let registers = &sheet[1 + RECORD * (usize::from(record) - 1)..][..RECORD];
    let owner = format!(": record {record}, {}", id(u16::from_be_bytes([registers[2], registers[3]])));
    let is_io = matches!(packet.kind, Kind::IORd | Kind::IOWr);
    let by_address = is_io || matches!(packet.kind, Kind::MRd | Kind::MRdLk | Kind::MWr) || packet.routing == 1;
    let address = if matches!(packet.kind, Kind::Msg | Kind::MsgD) { packet.tail } else { packet.address };
    let holds = |bar: &(usize, bool, u64, u64)| bar.1 == is_io && bar.2 <= address && address - bar.2 < bar.3;
    let place = match bars(registers).into_iter().find(holds) {
        Some((slot, _, start, _)) if by_address => format!(", BAR {slot} + {:X}", address - start),
        _ => String::new(),
    };
    line.contains(&format!("{owner}{place}")) && crossed(bridges, line)
}

fn crossed(bridges: u16, line: &str) -> bool {
    match bridges {
        0 => !line.contains(", over "),
        1 => line.contains(", over 1 bridge"),
        _ => line.contains(&format!(", over {bridges} bridges")),
    }
}

/// Headers of 12 bytes and more, which stand alone as arguments.
fn headers(sheet: &[u8], random: &mut Random) -> Vec<Vec<u8>> {
    (0..400).map(|_| aim::header(sheet, random)).filter(|header| header.len() >= 12).collect()
}

fn routed(arguments: &[&str], headers: &[Vec<u8>]) -> Vec<String> {
    let text: Vec<String> = headers.iter().map(|header| hex(header)).collect();
    let text: Vec<&str> = text.iter().map(String::as_str).collect();
    let ran = run(&[arguments, &text[..]].concat(), b"");
    let lines: Vec<String> = String::from_utf8(ran.out).unwrap().lines().map(str::to_string).collect();
    assert_eq!(lines.len(), headers.len(), "{}", ran.error);
    lines
}

#[test]
fn routes() {
    let mut random = Random::new(2);
    let (mut delivered, mut sent) = (0, 0);
    for sheet in sheets(&mut random) {
        let name = file("routes", &sheet);
        let headers = headers(&sheet, &mut random);
        for (header, line) in headers.iter().zip(routed(&["route", &name], &headers)) {
            let is_right = match plain::route(header, &sheet) {
                Ok(Arrival::Function { record, bridges, packet }) => {
                    delivered += 1;
                    arrived(&sheet, record, bridges, &packet, &line)
                }
                Ok(Arrival::Every { functions, .. }) => {
                    line.ends_with(&format!(": every function, {functions} of them"))
                }
                Ok(Arrival::Port { .. }) => line.ends_with(": the port that receives it"),
                Ok(Arrival::Host { .. }) => panic!("the host has it already"),
                Err(number) => line.contains(&format!(": refused {number}: ")),
            };
            assert!(is_right, "{}: {line}", hex(header));
        }
        for (number, record) in (1..).zip(sheet[1..].chunks(RECORD)).take(4) {
            let from = id(u16::from_be_bytes([record[2], record[3]]));
            for (header, line) in headers.iter().zip(routed(&["route", &name, "--from", &from], &headers)) {
                let is_right = match plain::route_from(number, header, &sheet) {
                    Ok(Arrival::Function { record, bridges, packet }) => {
                        sent += 1;
                        arrived(&sheet, record, bridges, &packet, &line)
                    }
                    Ok(Arrival::Host { bridges, .. }) => line.contains(": the host") && crossed(bridges, &line),
                    Ok(Arrival::Every { .. } | Arrival::Port { .. }) => panic!("a message has no start"),
                    Err(number) => line.contains(&format!(": refused {number}: ")),
                };
                assert!(is_right, "{} from {from}: {line}", hex(header));
            }
        }
    }
    assert!(delivered > 200 && sent > 50, "{delivered} {sent}");
}

/// The lines are plain's, and with names each starts with it.
#[test]
fn labelled() {
    let mut random = Random::new(3);
    for sheet in sheets(&mut random) {
        let name = file("labels-sheet", &sheet);
        let trace = trace::of(&(0..500).map(|_| aim::header(&sheet, &mut random)).collect::<Vec<_>>());
        let trace_name = file("labels-trace", &trace);
        let lines = plain::annotate(&sheet, &trace);
        assert_eq!(String::from_utf8(run(&["label", &name, &trace_name], b"").out).unwrap(), lines);
        let named = String::from_utf8(run(&["label", &name, &trace_name, "--names"], b"").out).unwrap();
        assert_eq!(named.lines().count(), lines.lines().count());
        for (named, line) in named.lines().zip(lines.lines()) {
            assert!(named.split(':').next() == Some(line), "{named}: {line}");
        }
    }
}

/// With both ends, each line names the sender and the receiver that plain's has, or its number.
#[test]
fn labelled_both() {
    let mut random = Random::new(5);
    for sheet in sheets(&mut random) {
        let name = file("both-sheet", &sheet);
        let host_id = ends::host_id(&sheet, &mut random);
        let headers: Vec<Vec<u8>> = (0..500).map(|_| ends::header(host_id, &sheet, &mut random)).collect();
        let trace = trace::of(&headers);
        let trace_name = file("both-trace", &trace);
        let arguments = ["label", &name, &trace_name, "--both", "--host-id", &id(host_id)];
        let shown = String::from_utf8(run(&arguments, b"").out).unwrap();
        let lines = plain::follow(host_id.into(), &sheet, &trace).unwrap();
        assert_eq!(shown.lines().count(), lines.lines().count());
        for (shown, line) in shown.lines().zip(lines.lines()) {
            assert!(has_ends_of(line, shown), "{shown}: {line}");
        }
    }
}

/// Whether what is shown says this: `4 MWr from 3 to host`, `7 MWr from host refused 40`.
fn has_ends_of(line: &str, shown: &str) -> bool {
    let in_words = |party: &str| match party {
        "host" => "the host".to_string(),
        "port" => "the port".to_string(),
        "all" => "every function".to_string(),
        record => format!("{record}: "),
    };
    let words: Vec<&str> = line.split(' ').collect();
    let (start, end) = match words[..] {
        [number, kind, "from", from, what @ ("to" | "refused"), other] => {
            let end = if what == "to" { in_words(other) } else { format!("{other}: ") };
            (format!("{number} {kind} from {}", in_words(from)), format!(" {what} {end}"))
        }
        [number, kind, "refused", refusal] => (format!("{number} {kind} "), format!(" refused {refusal}: ")),
        _ => return line == shown,
    };
    shown.starts_with(&start) && shown.contains(&end)
}

/// A line for each refused header, and then one for each request that stays open, in the order of asking.
#[test]
fn ledgers() {
    let mut random = Random::new(4);
    for _ in 0..20 {
        let mut history = History::new(&mut random);
        let next = |history: &mut History, random: &mut Random| match history.next(random) {
            Step::Open(header) | Step::Complete(header) => header,
        };
        let headers: Vec<Vec<u8>> = (0..300).map(|_| next(&mut history, &mut random)).collect();
        let (mut ledger, mut expected) = ([0; plain::ledger::PLACES], Vec::new());
        let mut asked: Vec<(usize, Packet)> = Vec::new();
        for (record, header) in (1..).zip(&headers) {
            let number = match plain::read(header) {
                Err(number) => Some(number),
                Ok(packet) if matches!(packet.kind, Kind::Cpl | Kind::CplD | Kind::CplLk | Kind::CplDLk) => {
                    plain::ledger::complete(&mut ledger, header).err()
                }
                Ok(packet) => match plain::ledger::open(&mut ledger, header) {
                    Ok(()) => {
                        asked.retain(|(_, other)| (other.requester, other.tag) != (packet.requester, packet.tag));
                        asked.push((record, packet));
                        None
                    }
                    Err(number) => Some(number).filter(|number| *number != 60),
                },
            };
            expected.extend(number.map(|number| (record, format!("refused {number}: "))));
        }
        let is_open = |packet: &Packet| {
            let key = (u64::from(packet.requester) << 10 | u64::from(packet.tag)) + 1;
            ledger.iter().any(|word| word >> 32 == key)
        };
        expected.extend(asked.iter().filter(|one| is_open(&one.1)).map(|one| (one.0, "not answered".to_string())));
        let out = run(&["ledger", &file("ledger", &trace::of(&headers))], b"").out;
        let lines: Vec<String> = String::from_utf8(out).unwrap().lines().map(str::to_string).collect();
        assert_eq!(lines.len(), expected.len());
        for (line, (record, words)) in lines.iter().zip(expected) {
            assert!(line.starts_with(&format!("{record} ")) && line.contains(&words), "{line}: {record} {words}");
        }
    }
}
