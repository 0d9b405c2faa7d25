//! The trace annotator (request E4 of document 02): lines, ends, cuts, room, numbers, and the program.

use std::collections::BTreeSet;

use inputs::board::{self, Board};
use inputs::foreign::*;
use inputs::random::Random;
use inputs::registers;
use inputs::trace::{self, input};
use plain::{annotate, programs, Annotator, Kind};

const MRDLK: u8 = 0x01;

fn planned(board: &Board) -> Vec<u8> {
    let mut room = vec![0; plain::FULL_SHEET];
    let length = plain::plan(&board.bytes(), &mut room).unwrap();
    room.truncate(length);
    room
}

fn p10() -> Vec<u8> {
    planned(&board::p10())
}

/// A bridge whose secondary bus is its own: 27.
fn bad_sheet() -> Vec<u8> {
    sheet(&[Record::bridge(0x0000, 0, 0)])
}

/// Owner 2 on P10's sheet; no owner; an address's low two bits; every function; the port.
fn examples() -> Vec<Vec<u8>> {
    vec![
        request(MRD, 0xF900_0FFC),
        request(IOWR, 0x4100),
        request(MRD, 0xF900_0FFD),
        message(MSG, 0b011, 0x19, 0),
        message(MSG, 0b100, 0x20, 0),
    ]
}

const EXAMPLE_LINES: &str = "1 MRd owner 2\n2 IOWr refused 40\n3 - refused 4\n4 Msg owner all\n5 Msg owner port\n";

/// Feeds one piece in ample room; its lines.
fn fed(annotator: &mut Annotator, sheet: &[u8], piece: &[u8]) -> String {
    let mut room = vec![0xA5; 64 * (piece.len() + 1)];
    let length = annotator.feed(sheet, piece, &mut room).unwrap();
    assert!(room[length..].iter().all(|&byte| byte == 0xA5));
    room.truncate(length);
    String::from_utf8(room).unwrap()
}

fn finished(annotator: &Annotator) -> String {
    let mut room = vec![0xA5; 64];
    let length = annotator.finish(&mut room).unwrap();
    assert!(room[length..].iter().all(|&byte| byte == 0xA5));
    room.truncate(length);
    String::from_utf8(room).unwrap()
}

/// The lines of a trace in pieces, and the state then.
fn in_pieces(sheet: &[u8], pieces: &[&[u8]]) -> (String, Annotator) {
    let mut annotator = Annotator::new();
    let mut lines: String = pieces.iter().map(|piece| fed(&mut annotator, sheet, piece)).collect();
    let before = annotator.clone();
    lines += &finished(&annotator);
    assert_eq!(annotator, before);
    (lines, annotator)
}

#[test]
fn one_line_a_record() {
    assert_eq!(annotate(&p10(), &trace::of(&examples())), EXAMPLE_LINES);
    assert_eq!(in_pieces(&p10(), &[&trace::of(&examples())]).0, EXAMPLE_LINES);
}

#[test]
fn every_kind_as_it_was_read() {
    let headers = [
        request(MRD, 0xF900_0000),
        request(MRDLK, 0xF900_0FFC),
        request(MWR, 0x2_4000_0000),
        request(IORD, 0x4000),
        request(IOWR, 0x40FC),
        configuration(CFGRD0, 0x0000, 0),
        configuration(CFGWR0, 0x0000, 1),
        // These arrive as type 0.
        configuration(CFGRD1, 0x0100, 0),
        configuration(CFGWR1, 0x0100, 1),
        completion(CPL, 0x0000),
        completion(CPLD, 0x0100),
        completion(CPLLK, 0x0100),
        completion(CPLDLK, 0x0000),
        message(MSG, 0b010, 0x7E, 0x0100 << 48),
        message(MSGD, 0b001, 0x50, 0xF900_0000),
        message(MSGD, 0b011, 0x19, 0),
        message(MSGD, 0b100, 0x20, 0),
    ];
    let lines = "1 MRd owner 2\n2 MRdLk owner 2\n3 MWr owner 2\n4 IORd owner 2\n5 IOWr owner 2\n6 CfgRd0 owner 1\n\
                 7 CfgWr0 owner 1\n8 CfgRd1 owner 2\n9 CfgWr1 owner 2\n10 Cpl owner 1\n11 CplD owner 2\n\
                 12 CplLk owner 2\n13 CplDLk owner 1\n14 Msg owner 2\n15 MsgD owner 2\n16 MsgD owner all\n\
                 17 MsgD owner port\n";
    assert_eq!(annotate(&p10(), &trace::of(&headers)), lines);
}

#[test]
fn refused_headers() {
    let mut headers = vec![request(MRD, 0xF900_0000); 9];
    headers[0].truncate(11);
    headers[1][0] = 0xFF;
    headers[2][0] = 0x80;
    headers[3][1] = 0x01;
    headers[4] = request(IORD, 0x4000);
    headers[4][1] = 0x10;
    headers[5] = request(MRD, 1 << 32);
    headers[5][11] = 0;
    // Two dwords with a gap, 4 past an 8-byte edge (E2).
    headers[6] = request(MWR, 0xF900_0004);
    (headers[6][3], headers[6][7]) = (2, 0x5A);
    headers[7] = request(MRD, 0xF900_0FFC);
    (headers[7][3], headers[7][7]) = (2, 0xFF);
    headers[8] = completion(CPLD, 0x0100);
    headers[8][6] = 0x60;
    let lines: String = (1..=9).map(|number| format!("{number} - refused {number}\n")).collect();
    // The header's number comes before the sheet is read.
    for sheet in [p10(), bad_sheet(), vec![]] {
        assert_eq!(annotate(&sheet, &trace::of(&headers)), lines);
    }
}

#[test]
fn refused_routes() {
    let headers = [
        request(MRD, 0xF900_1000),
        configuration(CFGRD0, 0x0100, 0),
        configuration(CFGWR1, 0x0000, 0),
        message(MSG, 0b000, 0x18, 0),
        message(MSGD, 0b101, 0x1B, 0),
        completion(CPLD, 0x0200),
    ];
    assert_eq!(
        annotate(&p10(), &trace::of(&headers)),
        "1 MRd refused 40\n2 CfgRd0 refused 42\n3 CfgWr1 refused 42\n4 Msg refused 43\n5 MsgD refused 43\n\
         6 CplD refused 40\n"
    );
    let bar = |id| Record::end(id).bar(0, board::memory(12), 0xF900_0000);
    let contested = sheet(&[bar(0x0000), bar(0x0008)]);
    assert_eq!(annotate(&contested, &trace::of(&headers[..1])), "1 MRd refused 40\n");
    assert_eq!(annotate(&contested, &trace::of(&[request(MRD, 0xF900_0000)])), "1 MRd refused 41\n");
}

#[test]
fn bad_sheets() {
    let trace = trace::of(&examples());
    let lines = |number| {
        format!(
            "1 MRd refused {number}\n2 IOWr refused {number}\n3 - refused 4\n4 Msg refused {number}\n\
             5 Msg refused {number}\n"
        )
    };
    assert_eq!(annotate(&bad_sheet(), &trace), lines(27));
    assert_eq!(annotate(&[], &trace), lines(20));
    assert_eq!(annotate(&[2], &trace), lines(21));
    assert_eq!(annotate(&sheet(&[Record::end(0x0100), Record::end(0x0100)]), &trace), lines(28));
    // A sheet with no functions passes its checks.
    assert_eq!(annotate(&[1], &trace), lines(40));
    let full: Vec<Record> = (0..513).map(Record::end).collect();
    assert_eq!(annotate(&sheet(&full), &trace), lines(22));
    // The list of 512 needs no room in a line.
    let lines = annotate(&sheet(&full[..512]), &trace::of(&[&examples()[3], &completion(CPL, 0x00FF)]));
    assert_eq!(lines, "1 Msg owner all\n2 Cpl owner 256\n");
}

#[test]
fn lengths_of_records() {
    let mut headers = vec![request(MRD, 0xF900_0000), request(MWR, 0x2_4000_0000)];
    // None; 11 and 12 of three dwords; 12, 15 and 16 of four; and more than a header has.
    let mut records: Vec<Vec<u8>> = vec![vec![]];
    records.extend([11, 12].map(|length| headers[0][..length].to_vec()));
    records.extend([12, 15, 16].map(|length| headers[1][..length].to_vec()));
    for length in [17, 40, 255, 256, 257, 65_535] {
        for header in &mut headers {
            header.resize(length, 0xFF);
            records.push(header.clone());
        }
    }
    let mut lines =
        "1 - refused 1\n2 - refused 1\n3 MRd owner 2\n4 - refused 1\n5 - refused 1\n6 MWr owner 2\n".to_string();
    for number in (7..19).step_by(2) {
        lines += &format!("{number} MRd owner 2\n{} MWr owner 2\n", number + 1);
    }
    let trace = trace::of(&records);
    assert_eq!(annotate(&p10(), &trace), lines);
    let (in_one, state) = in_pieces(&p10(), &[&trace]);
    assert_eq!(in_one, lines);
    let pieces: Vec<&[u8]> = trace.chunks(1000).collect();
    assert_eq!(in_pieces(&p10(), &pieces), (lines, state));
}

#[test]
fn ends() {
    let cases: [(&[u8], &str); 9] = [
        (&[], "refused 20\n"),
        (&[1], ""),
        (&[1, 0], "cut\n"),
        (&[1, 0, 0], "1 - refused 1\n"),
        (&[1, 0, 1], "cut\n"),
        (&[1, 1, 0], "cut\n"),
        (&[1, 0, 1, 9], "1 - refused 1\n"),
        (&[1, 0, 0, 0, 0, 0], "1 - refused 1\n2 - refused 1\ncut\n"),
        (&[1, 0, 2, 0, 0, 0, 2, 0], "1 - refused 1\ncut\n"),
    ];
    for (trace, lines) in cases {
        for sheet in [p10(), vec![]] {
            assert_eq!(annotate(&sheet, trace), lines, "{trace:?}");
            assert_eq!(in_pieces(&sheet, &[trace]).0, lines, "{trace:?}");
            assert_eq!(in_pieces(&sheet, &trace.chunks(1).collect::<Vec<_>>()).0, lines, "{trace:?}");
        }
    }
    // A trace cut anywhere has the lines before.
    let trace = trace::of(&examples());
    for length in 1..trace.len() {
        // 12 or 16 bytes, each after two of length.
        let ends = [1, 15, 29, 43, 61, 79];
        let whole = ends.iter().filter(|&&end| end <= length).count() - 1;
        let mut lines: String = EXAMPLE_LINES.split_inclusive('\n').take(whole).collect();
        if !ends.contains(&length) {
            lines += "cut\n";
        }
        assert_eq!(annotate(&p10(), &trace[..length]), lines, "{length}");
        assert_eq!(in_pieces(&p10(), &[&trace[..length]]).0, lines, "{length}");
    }
    assert_eq!(trace.len(), 79);
}

/// Each line comes with its record's last byte, for a zero-length record that of its length; 21 with the first byte.
#[test]
fn when_lines_come() {
    let long = [&examples()[0][..], &[0xFF; 10]].concat();
    let trace = trace::of(&[&examples()[0], &vec![], &long, &examples()[3]]);
    let mut annotator = Annotator::new();
    let mut seen = Vec::new();
    for (at, &byte) in trace.iter().enumerate() {
        let line = fed(&mut annotator, &p10(), &[byte]);
        assert_eq!(fed(&mut annotator, &p10(), &[]), "");
        if !line.is_empty() {
            seen.push((at, line));
        }
    }
    let lines = [(14, "1 MRd owner 2\n"), (16, "2 - refused 1\n"), (40, "3 MRd owner 2\n"), (58, "4 Msg owner all\n")];
    assert_eq!(seen, lines.map(|(at, line)| (at, line.to_string())));
    let mut annotator = Annotator::new();
    assert_eq!(fed(&mut annotator, &p10(), &[0]), "refused 21\n");
    assert_eq!(fed(&mut annotator, &p10(), &trace), "");
}

#[test]
fn another_version() {
    let mut trace = trace::of(&examples());
    for version in [0, 2, 3, 0x81, 0xFF] {
        trace[0] = version;
        for sheet in [p10(), bad_sheet(), vec![]] {
            assert_eq!(annotate(&sheet, &trace), "refused 21\n");
            let in_one = in_pieces(&sheet, &[&trace]);
            assert_eq!(in_one.0, "refused 21\n");
            assert_eq!(in_pieces(&sheet, &[&trace[..1], &trace[1..]]), in_one);
            // Nothing after the first byte is looked at.
            assert_eq!(in_pieces(&sheet, &[&trace[..1]]), in_one);
        }
    }
}

#[test]
fn wherever_the_cuts_fall() {
    let long = [&examples()[0][..], &[0xFF; 7]].concat();
    let trace = trace::of(&[&examples()[0], &vec![], &long, &examples()[4]]);
    for length in [trace.len(), trace.len() - 1, trace.len() - 17, 17] {
        let trace = &trace[..length];
        let in_one = in_pieces(&p10(), &[trace]);
        assert_eq!(in_one.0, annotate(&p10(), trace));
        for first in 0..=length {
            for second in first..=length {
                let pieces = [&trace[..first], &trace[first..second], &trace[second..]];
                assert_eq!(in_pieces(&p10(), &pieces), in_one, "{first} {second}");
            }
        }
        assert_eq!(in_pieces(&p10(), &trace.chunks(1).collect::<Vec<_>>()), in_one);
    }
}

#[test]
fn short_room() {
    let sheet = p10();
    let trace = trace::of(&examples());
    for first in 0..trace.len() {
        let mut annotator = Annotator::new();
        let begun = fed(&mut annotator, &sheet, &trace[..first]).len();
        let before = annotator.clone();
        let needed = EXAMPLE_LINES.len() - begun;
        for length in 0..needed {
            let mut room = vec![0xA5; length];
            assert_eq!(annotator.feed(&sheet, &trace[first..], &mut room), Err(11));
            assert_eq!(annotator, before);
            assert!(room.iter().all(|&byte| byte == 0xA5));
        }
        let mut room = vec![0; needed];
        assert_eq!(annotator.feed(&sheet, &trace[first..], &mut room), Ok(needed));
        assert_eq!(room, EXAMPLE_LINES.as_bytes()[begun..]);
        assert_eq!(annotator, Annotator::after(5));
    }
    // A piece with no line needs no room, at whatever stage.
    let mut annotator = Annotator::new();
    for piece in [&trace[..0], &trace[..5], &trace[5..14], &[]] {
        assert_eq!(annotator.feed(&sheet, piece, &mut []), Ok(0));
    }
    assert_eq!(annotator.feed(&sheet, &trace[14..15], &mut [0; 13]), Err(11));
    assert_eq!(annotator.feed(&sheet, &trace[14..15], &mut [0; 14]), Ok(14));
    // The line of another version.
    let mut annotator = Annotator::new();
    assert_eq!(annotator.feed(&sheet, &[2, 1], &mut [0; 10]), Err(11));
    assert_eq!(annotator, Annotator::new());
    assert_eq!(annotator.feed(&sheet, &[2, 1], &mut [0; 11]), Ok(11));
    assert_eq!(annotator.feed(&sheet, &trace, &mut []), Ok(0));
}

#[test]
fn ending_leaves_the_state() {
    let sheet = p10();
    let trace = trace::of(&examples());
    // Before the first byte, after the version, after half a length, a length, and in a header.
    for (first, line) in [(0, "refused 20\n"), (1, ""), (2, "cut\n"), (3, "cut\n"), (9, "cut\n"), (15, "")] {
        let mut annotator = Annotator::new();
        let begun = fed(&mut annotator, &sheet, &trace[..first]);
        for length in 0..line.len() {
            let mut room = vec![0xA5; length];
            assert_eq!(annotator.finish(&mut room), Err(11));
            assert!(room.iter().all(|&byte| byte == 0xA5));
        }
        let mut room = vec![0; line.len()];
        assert_eq!(annotator.finish(&mut room), Ok(line.len()));
        assert_eq!(room, line.as_bytes());
        // More may follow, as if nothing had ended.
        assert_eq!(begun + &fed(&mut annotator, &sheet, &trace[first..]), EXAMPLE_LINES);
        assert_eq!(annotator.finish(&mut []), Ok(0));
    }
}

#[test]
fn numbers_wrap() {
    let records = &trace::of(&examples())[1..];
    for cut in 0..=records.len() {
        let mut annotator = Annotator::after(u64::MAX - 2);
        let begun = fed(&mut annotator, &p10(), &records[..cut]);
        assert_eq!(
            begun + &fed(&mut annotator, &p10(), &records[cut..]),
            "18446744073709551614 MRd owner 2\n18446744073709551615 IOWr refused 40\n0 - refused 4\n1 Msg owner all\n\
             2 Msg owner port\n"
        );
        assert_eq!(annotator, Annotator::after(2));
    }
    let mut annotator = Annotator::after(u64::MAX);
    assert_eq!(fed(&mut annotator, &p10(), &[0, 0]), "0 - refused 1\n");
    assert_eq!(annotator, Annotator::after(0));
    let mut annotator = Annotator::new();
    fed(&mut annotator, &p10(), &[1]);
    assert_eq!(annotator, Annotator::after(0));
}

fn printed(input: &[u8]) -> String {
    String::from_utf8(programs::annotate(input)).unwrap()
}

#[test]
fn the_program() {
    let trace = trace::of(&examples());
    assert_eq!(printed(&input(&p10(), &trace)), EXAMPLE_LINES);
    // No sheet to read, or not all of it.
    assert_eq!(printed(&[]), "refused 20\n");
    assert_eq!(printed(&[0]), "refused 20\n");
    assert_eq!(printed(&[0xFF]), "refused 20\n");
    let whole = input(&p10(), &[]);
    for length in 0..=whole.len() {
        // A trace of no bytes is 20 as well.
        assert_eq!(printed(&whole[..length]), "refused 20\n");
    }
    assert_eq!(printed(&input(&p10(), &[1])), "");
    assert_eq!(printed(&input(&p10(), &[2, 0, 0])), "refused 21\n");
    assert_eq!(printed(&input(&p10(), &trace[..16])), "1 MRd owner 2\ncut\n");
    // A sheet of no bytes.
    assert_eq!(printed(&input(&[], &trace[..29])), "1 MRd refused 20\n2 IOWr refused 20\n");
    assert_eq!(printed(&input(&[], &[1, 0, 0])), "1 - refused 1\n");
    assert_eq!(printed(&input(&[], &[])), "refused 20\n");
    // A sheet that fails its checks.
    assert_eq!(printed(&input(&bad_sheet(), &trace[..15])), "1 MRd refused 27\n");
    // Any length up to a full sheet's is read, whatever its bytes.
    assert_eq!(printed(&input(&vec![1; 47_105], &trace[..15])), "1 MRd refused 20\n");
    assert_eq!(printed(&input(&vec![1; 47_105], &[])), "refused 20\n");
    assert_eq!(printed(&input(&vec![1; 47_106], &trace)), "refused 22\n");
    assert_eq!(printed(&[0xB8, 0x02]), "refused 22\n");
    assert_eq!(printed(&[0xB8, 0x01]), "refused 20\n");
    assert_eq!(printed(&[0xFF, 0xFF, 1]), "refused 22\n");
    let full: Vec<Record> = (0..512).map(Record::end).collect();
    assert_eq!(sheet(&full).len(), 47_105);
    assert_eq!(printed(&input(&sheet(&full), &trace[..15])), "1 MRd refused 40\n");
}

/// Notes what the lines answer, without the records' numbers, kinds that were read and owners' numbers.
fn note(lines: &str, seen: &mut BTreeSet<String>) {
    for line in lines.lines() {
        let words: Vec<&str> = line.split(' ').collect();
        seen.insert(match words[..] {
            [_, kind, "owner", record] if record.parse::<u16>().is_ok() => format!("{kind} owner"),
            [_, "-", ..] => words[1..].join(" "),
            [_, _, _, _] => words[2..].join(" "),
            _ => format!("whole {line}"),
        });
    }
}

#[test]
fn random_traces() {
    let mut random = Random::new(13);
    let mut seen = BTreeSet::new();
    for round in 0..4000 {
        let mut sheet = if round % 4 == 0 { p10() } else { registers::foreign(&mut random) };
        if random.chance(1, 4) {
            registers::spoil(&mut sheet, &mut random);
        }
        let trace = trace::any(&sheet, &mut random);
        let lines = annotate(&sheet, &trace);
        note(&lines, &mut seen);
        let pieces = trace::pieces(&trace, &mut random);
        assert_eq!(pieces.concat(), trace);
        let in_one = in_pieces(&sheet, &[&trace]);
        assert_eq!(in_one.0, lines);
        assert_eq!(in_pieces(&sheet, &pieces), in_one);
        // Whatever room is tried first.
        let mut annotator = Annotator::new();
        let mut out = String::new();
        for piece in pieces {
            let before = annotator.clone();
            let mut room = vec![0; random.below(40) as usize];
            match annotator.feed(&sheet, piece, &mut room) {
                Ok(length) => out += std::str::from_utf8(&room[..length]).unwrap(),
                Err(number) => {
                    assert_eq!(number, 11);
                    assert_eq!(annotator, before);
                    out += &fed(&mut annotator, &sheet, piece);
                }
            }
        }
        assert_eq!(annotator, in_one.1);
        assert_eq!(out + &finished(&annotator), lines);
    }
    // Every answer that a line can have, and no other.
    let mut can: BTreeSet<String> = Kind::ALL.iter().map(|kind| format!("{kind:?} owner")).collect();
    can.extend(["owner all", "owner port", "whole refused 20", "whole refused 21", "whole cut"].map(String::from));
    can.extend((1..=9).map(|number| format!("- refused {number}")));
    let numbers = [20, 21, 22, 24, 25, 27, 28, 29, 40, 41, 42, 43];
    can.extend(numbers.map(|number| format!("refused {number}")));
    assert_eq!(seen, can);
}

#[test]
fn random_inputs() {
    let mut random = Random::new(14);
    let mut only = [("refused 20\n", 0), ("refused 21\n", 0), ("refused 22\n", 0)];
    for _ in 0..4000 {
        let sheet = registers::foreign(&mut random);
        let lines = printed(&trace::any_input(&sheet, &mut random));
        assert!(lines.is_empty() || lines.ends_with('\n'));
        for (line, count) in &mut only {
            *count += u32::from(lines == *line);
        }
    }
    assert!(only.iter().all(|&(_, count)| count > 100), "{only:?}");
}
