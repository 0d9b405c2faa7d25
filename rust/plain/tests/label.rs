//! The program `label` (request E8 of document 02): its order of numbers, and the lines of a sheet that is accepted, which are
//! the router's and the index's.

use inputs::board::{self, Board};
use inputs::foreign::*;
use inputs::random::Random;
use inputs::{audit, labels, trace};
use plain::{programs, Arrival};

fn plan(board: &[u8]) -> Option<Vec<u8>> {
    let mut room = vec![0; plain::FULL_SHEET];
    let length = plain::plan(board, &mut room).ok()?;
    room.truncate(length);
    Some(room)
}

fn p10() -> Vec<u8> {
    plan(&board::p10().bytes()).unwrap()
}

fn printed(input: &[u8]) -> String {
    String::from_utf8(programs::label(input)).unwrap()
}

fn input(host: &[u8], sheet: &[u8], trace: &[u8]) -> Vec<u8> {
    [host, &trace::input(sheet, trace)].concat()
}

/// Over P10's host.
fn over(sheet: &[u8], trace: &[u8]) -> String {
    printed(&input(&board::p10().host(), sheet, trace))
}

/// Owner 2 on P10's sheet, no owner, every function.
fn trace() -> Vec<u8> {
    trace::of(&[request(MRD, 0xF900_0FFC), request(IOWR, 0x4100), message(MSG, 0b011, 0x19, 0)])
}

#[test]
fn accepted_sheets() {
    assert_eq!(over(&p10(), &trace()), "1 MRd owner 2\n2 IOWr refused 40\n3 Msg owner all\n");
    assert_eq!(over(&[1], &trace()), "1 MRd refused 40\n2 IOWr refused 40\n3 Msg refused 40\n");
    // A trace as `annotate` takes it.
    assert_eq!(over(&p10(), &[]), "refused 20\n");
    assert_eq!(over(&p10(), &[2, 0]), "refused 21\n");
    assert_eq!(over(&p10(), &[1]), "");
    assert_eq!(over(&p10(), &[1, 0]), "cut\n");
    assert_eq!(over(&p10(), &[1, 0, 0]), "1 - refused 1\n");
    assert_eq!(over(&p10(), &trace()[..16]), "1 MRd owner 2\ncut\n");
}

/// One line, whatever trace follows.
#[test]
fn refused_sheets() {
    let end = |id| Record::end(id).bar(0, board::memory(12), 0xF900_0000);
    let refused = [
        (20, vec![]),
        (20, [&p10()[..], &[0]].concat()),
        (21, vec![2]),
        (24, sheet(&[end(0).set(0x0E, 2)])),
        (25, sheet(&[end(0).value(0, 0xF900_0001)])),
        (27, sheet(&[Record::bridge(0x0000, 0, 0)])),
        (28, sheet(&[end(0), end(0)])),
        (29, sheet(&[Record::bridge(0x0000, 1, 1).io(0xF1, 0x00)])),
        (50, sheet(&[end(0x0100)])),
        (51, sheet(&[end(0).value(0, 0xFA00_0000)])),
        (52, sheet(&[end(0), end(8)])),
    ];
    for (number, sheet) in refused {
        for trace in [&trace()[..], &[1], &[2], &[]] {
            assert_eq!(over(&sheet, trace), format!("refused {number}\n"));
        }
    }
}

/// The host record comes before the sheet's length, and that before the sheet.
#[test]
fn the_opening() {
    let whole = input(&board::p10().host(), &p10(), &trace());
    for length in 0..32 + p10().len() {
        assert_eq!(printed(&whole[..length]), "refused 20\n", "{length}");
    }
    let mut crossed = whole.clone();
    (crossed[0], crossed[1]) = (1, 0);
    for length in 0..crossed.len() {
        assert_eq!(printed(&crossed[..length]), format!("refused {}\n", if length < 30 { 20 } else { 26 }), "{length}");
    }
    crossed[30..32].fill(0xFF);
    assert_eq!(printed(&crossed), "refused 26\n");
    // A full sheet is 47,105 bytes.
    for (length, number) in [(0xB801, 20), (0xB802, 22), (0xFFFF, 22)] {
        let mut input = whole.clone();
        input[30..32].copy_from_slice(&u16::to_be_bytes(length));
        assert_eq!(printed(&input), format!("refused {number}\n"));
        assert_eq!(printed(&input[..32]), format!("refused {number}\n"));
    }
    let many: Vec<Record> = (0..512).map(Record::end).collect();
    // On bus 1, to which no bridge leads, are the last 256.
    assert_eq!(over(&sheet(&many), &trace()), "refused 50\n");
    let longer = sheet(&[&many[..], &many[..1]].concat());
    assert_eq!(over(&longer, &trace()), "refused 22\n");
}

/// The line of a header by the index of a sheet.
fn by_index(number: usize, header: &[u8; 16], index: &[u8]) -> String {
    let kind = plain::read(header).unwrap().kind;
    match plain::find(header, index) {
        Ok(Arrival::Function { record, .. }) => format!("{number} {kind:?} owner {record}\n"),
        Ok(arrival) => panic!("{arrival:?}"),
        Err(refusal) => format!("{number} {kind:?} refused {refusal}\n"),
    }
}

#[test]
fn full() {
    let board = labels::board(512, 32);
    let sheet = plan(&board.bytes()).unwrap();
    assert_eq!(sheet.len(), plain::FULL_SHEET);
    let mut index = vec![0; 132_096];
    assert_eq!(plain::build(&board.host(), &sheet, &mut index), 0);
    let headers = labels::headers(&sheet, 5000);
    let lines: String = (1..).zip(&headers).map(|(number, header)| by_index(number, header, &index)).collect();
    assert_eq!(printed(&input(&board.host(), &sheet, &trace::of(&headers))), lines);
}

/// For any bytes, what the audit and the annotator say of the parts.
#[test]
fn any_input() {
    let mut random = Random::new(24);
    let (mut labelled, mut numbers) = (0, [0; 53]);
    for _ in 0..20_000 {
        let (mut host, sheet) = audit::any(&mut random, plan);
        if random.chance(1, 64) {
            host.truncate(random.below(30) as usize);
        }
        let read = trace::any_input(&sheet, &mut random);
        let is_whole = read.starts_with(&trace::input(&sheet, &[])) && host.len() == 30;
        let printed = printed(&[&host[..], &read].concat());
        let number: Option<usize> = printed.strip_prefix("refused ").map(|rest| rest.trim_end().parse().unwrap());
        numbers[number.unwrap_or(0)] += 1;
        if is_whole {
            match plain::audit(&host, &sheet) {
                // By its length, before its own checks.
                refused if refused != 26 && sheet.len() > plain::FULL_SHEET => assert_eq!(number, Some(22)),
                0 => assert_eq!(printed.as_bytes(), programs::annotate(&read)),
                refused => assert_eq!(number, Some(refused.into())),
            }
            labelled += u32::from(number.is_none());
        } else if host.len() == 30 && plain::audit(&host, &[1]) == 26 {
            assert_eq!(number, Some(26));
        }
    }
    assert!(labelled > 2000, "{labelled}");
    assert!([20, 21, 22, 25, 26, 27, 28, 50, 51, 52].iter().all(|&number| numbers[number] > 0), "{numbers:?}");
}

/// A sheet that is accepted for its own host only.
#[test]
fn another_host() {
    let narrow = Board { buses: (0, 0), ..board::p10() };
    assert_eq!(printed(&input(&narrow.host(), &p10(), &trace())), "refused 50\n");
    let moved = Board { low: (0xF800_0000, 0xF8FF_FFFF), ..board::p10() };
    assert_eq!(printed(&input(&moved.host(), &p10(), &trace())), "refused 51\n");
}
