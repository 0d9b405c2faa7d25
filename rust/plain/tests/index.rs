//! The index: over accepted sheets its answers are the router's, what it leaves in the slice, and that any bytes end.

use inputs::board::{self, Board};
use inputs::foreign::{self, request, Record, MRD};
use inputs::random::Random;
use inputs::{aim, audit, damage, header, labels};

fn plan(board: &[u8]) -> Option<Vec<u8>> {
    let mut room = vec![0; plain::FULL_SHEET];
    let length = plain::plan(board, &mut room).ok()?;
    room.truncate(length);
    Some(room)
}

fn size(sheet: &[u8]) -> usize {
    1024 + 256 * (sheet.len() / 92)
}

/// The index of a sheet that is accepted.
fn built(host: &[u8], sheet: &[u8]) -> Vec<u8> {
    let mut index = vec![0xA5; size(sheet)];
    assert_eq!(plain::build(host, sheet, &mut index), 0);
    index
}

fn same(header: &[u8], sheet: &[u8], index: &[u8]) -> bool {
    let answer = plain::route(header, sheet);
    assert_eq!(plain::find(header, index), answer, "{header:02X?} over {sheet:02X?}");
    answer.is_ok()
}

fn little(index: &[u8], at: usize, width: usize) -> u64 {
    index[at..at + width].iter().rev().fold(0, |number, &byte| number << 8 | u64::from(byte))
}

/// Every byte for P10's board.
#[test]
fn p10() {
    let board = board::p10();
    let index = built(&board.host(), &plan(&board.bytes()).unwrap());
    let mut expected = vec![0; 1024 + 512];
    let mut put = |at: usize, bytes: &[u8]| expected[at..at + bytes.len()].copy_from_slice(bytes);
    let (io, ids) = (1 << 52, (1 << 52) + 0x1_0000);
    // Two functions, root bus 0, one slot to a bucket at the most.
    put(0, &[2, 0, 0, 0, 1, 0]);
    // IDs 0000 and 0100: 256 apart, in 15 buckets.
    for (number, (base, shift)) in
        [(0xF900_0000u64, 0), (0x2_4000_0000, 0), (io + 0x4000, 0), (ids, 5)].iter().enumerate()
    {
        put(16 + 16 * number, &base.to_le_bytes());
        put(24 + 16 * number, &[*shift]);
    }
    // The buckets with a slot are 0, 16, 32, 48 and 56.
    let earlier = [[0, 1], [1, 2], [2, 3], [3, 4]]
        .into_iter()
        .flat_map(|[at, behind]| (0..16).map(move |n| if n == 0 { at } else { behind }));
    for (bucket, count) in earlier.enumerate() {
        put(1008 + 2 * bucket, &[count + u8::from(bucket > 56)]);
    }
    let slots = [
        (0xF900_0000u64, 12 | 1 << 8 | 2 << 16),
        (0x2_4000_0000, 26 | 1 << 8 | 2 << 16),
        (io + 0x4000, 8 | 1 << 8 | 2 << 16),
        (ids, 1 << 16),
        (ids + 0x100, 1 << 8 | 2u64 << 16),
    ];
    for position in 1..=28 {
        let key = slots.get(position - 1).map_or(1 << 62, |slot| slot.0);
        put(1008 + 128 + 8 * position, &key.to_le_bytes());
    }
    for (position, slot) in (1..).zip(slots) {
        put(1016 + 352 + 8 * position, &slot.1.to_le_bytes());
    }
    assert_eq!(index, expected);
}

/// A host without functions: its root bus alone.
#[test]
fn no_functions() {
    let host = Board { buses: (7, 9), ..Board::new() }.host();
    let mut index = vec![0xA5; 1030];
    assert_eq!(plain::build(&host, &[1], &mut index[..1023]), 11);
    assert_eq!(plain::build(&host, &[1], &mut index), 0);
    let mut expected = vec![0; 1024];
    expected[2] = 7;
    assert_eq!(index[..1024], expected);
    assert_eq!(index[1024..], [0xA5; 6]);
    for header in
        [request(MRD, 0), foreign::message(foreign::MSG, 0b011, 0, 0), foreign::message(foreign::MSG, 0, 0, 0)]
    {
        assert_eq!(plain::find(&header, &index), Err(40));
    }
}

/// The audit's number, then 11 for a slice that is too short; whatever is refused, no byte changes.
#[test]
fn refused() {
    let mut random = Random::new(21);
    let mut numbers = [0; 53];
    for _ in 0..20_000 {
        let (host, sheet) = audit::any(&mut random, plan);
        let full = size(&sheet);
        let length = match random.below(4) {
            0 => full - 1,
            1 => random.below(full as u64) as usize,
            2 => full,
            _ => full + random.below(300) as usize,
        };
        let before: Vec<u8> = (0..length).map(|_| random.word() as u8).collect();
        let mut index = before.clone();
        let number = plain::build(&host, &sheet, &mut index);
        numbers[usize::from(number)] += 1;
        let expected = match plain::audit(&host, &sheet) {
            0 if length < full => 11,
            number => number,
        };
        assert_eq!(number, expected);
        if number != 0 {
            assert!(index == before);
            continue;
        }
        assert!(index[full..] == before[full..]);
        // What was in the slice does not matter.
        assert!(index[..full] == built(&host, &sheet));
    }
    assert!([0, 11, 20, 25, 26, 27, 28, 50, 51, 52].iter().all(|&number| numbers[number] > 0), "{numbers:?}");
}

/// Over accepted sheets, planned here or not, and headers of every kind, lawful or not.
#[test]
fn accepted() {
    let mut random = Random::new(22);
    let (mut sheets, mut delivered, mut widest) = (0, 0, 0);
    while sheets < 3000 {
        let (host, sheet) = audit::any(&mut random, plan);
        if plain::audit(&host, &sheet) != 0 {
            continue;
        }
        sheets += 1;
        let index = built(&host, &sheet);
        widest = widest.max(little(&index, 4, 2));
        for turn in 0..100 {
            let header = if turn % 4 == 0 { header::any(&mut random) } else { aim::header(&sheet, &mut random) };
            delivered += u32::from(same(&header, &sheet, &index));
        }
    }
    assert!(delivered > 30_000 && widest > 16, "{delivered}, {widest}");
}

/// The sheet and the headers that labels are timed on.
#[test]
fn full() {
    let board = labels::board(256, 16);
    let sheet = plan(&board.bytes()).unwrap();
    let index = built(&board.host(), &sheet);
    let headers = labels::headers(&sheet, 50_000);
    let delivered = headers.iter().filter(|header| same(*header, &sheet, &index)).count();
    assert!((44_000..46_000).contains(&delivered), "{delivered}");
}

/// Most keys in one bucket: they are halved first.
#[test]
fn one_bucket() {
    let end = |function: u32, start: u32| {
        (0..6).fold(Record::end(function as u16), |record, slot| {
            record.bar(slot, board::memory(7), start + 128 * slot as u32)
        })
    };
    let first = 0x8000_0000;
    let mut records: Vec<Record> = (0..40).map(|function| end(function, first + 0x1000 * function)).collect();
    records.push(end(40, 0xEFFF_F000));
    let (host, sheet) = (Board::new().host(), foreign::sheet(&records));
    let index = built(&host, &sheet);
    assert_eq!(little(&index, 4, 2), 240);
    let delivered =
        (0..0x28000).step_by(60).filter(|offset| same(&request(MRD, ((first + offset) & !3).into()), &sheet, &index));
    assert!(delivered.count() > 500);
    assert!(same(&request(MRD, 0xEFFF_F2FC), &sheet, &index));
    assert!(!same(&request(MRD, 0xEFFF_F300), &sheet, &index));
}

/// Indexes with other bytes, and slices of any: each header gets an answer or a number.
#[test]
fn any_bytes() {
    let mut random = Random::new(23);
    let (mut numbers, mut delivered) = ([0; 44], 0);
    for _ in 0..4000 {
        let (host, sheet) = audit::planned(&mut random, plan);
        let mut index = built(&host, &sheet);
        match random.below(4) {
            0 => index = (0..random.below(5000)).map(|_| random.word() as u8).collect(),
            1 => damage::bytes(&mut index, &mut random),
            _ => (0..1 + random.below(40)).for_each(|_| damage::bits(&mut index, &mut random)),
        }
        if index.len() >= 2 && random.chance(1, 2) {
            // As many functions as there is room for, or one more.
            let functions = index.len().saturating_sub(1024) / 256 + random.below(2) as usize;
            index[..2].copy_from_slice(&(functions as u16).to_le_bytes());
        }
        for _ in 0..30 {
            let header = aim::header(&sheet, &mut random);
            let read = plain::read(&header);
            match plain::find(&header, &index) {
                Ok(_) => delivered += 1,
                Err(number) => numbers[usize::from(number)] += 1,
            }
            assert!(read.is_ok() || plain::find(&header, &index).err() == read.err());
        }
    }
    assert!(delivered > 1000 && [40, 42, 43].iter().all(|&number| numbers[number] > 0), "{delivered}, {numbers:?}");
}
