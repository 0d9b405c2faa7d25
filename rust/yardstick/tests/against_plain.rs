//! Every answer is plain's router's.

use inputs::random::Random;
use inputs::{aim, audit, cards, ends, header, labels, trace};
use std::collections::BTreeMap;
use yardstick::{BothEnds, Index, ANSWER};

fn plan(board: &[u8]) -> Option<Vec<u8>> {
    let mut room = vec![0; plain::FULL_SHEET];
    let length = plain::plan(board, &mut room).ok()?;
    room.truncate(length);
    Some(room)
}

/// The number, or 0 and the answer, of which a broadcast's list is left out.
fn routed(header: &[u8], sheet: &[u8]) -> Result<[u64; ANSWER], u8> {
    plain::route(header, sheet).map(|arrival| *arrival.numbers().first_chunk().unwrap())
}

fn labelled(header: &[u8], index: &Index) -> Result<[u64; ANSWER], u8> {
    let mut answer = [u64::MAX; ANSWER];
    match index.label(header, &mut answer) {
        0 => Ok(answer),
        number => Err(number),
    }
}

/// The headers that are timed, and how they divide.
#[test]
fn timed() {
    let sheet = plan(&labels::board(256, 16).bytes()).unwrap();
    assert_eq!(sheet.len(), 1 + 92 * 256);
    let index = Index::build(&sheet);
    let headers = labels::headers(&sheet, 200_000);
    let (mut kinds, mut depths, mut refused) = ([0; 15], [0; 17], 0);
    for header in &headers {
        let answer = routed(header, &sheet);
        assert_eq!(labelled(header, &index), answer, "{header:02X?}");
        kinds[plain::read(header).unwrap().kind as usize] += 1;
        match answer {
            Ok(answer) => depths[answer[1] as usize] += 1,
            Err(number) => {
                assert_eq!(number, 40);
                refused += 1;
            }
        }
    }
    let share = |count: u32, percent: u32| count.abs_diff(headers.len() as u32 * percent / 100) < 1000;
    let sum = |kinds: &[u32]| kinds.iter().sum();
    assert!(share(sum(&kinds[..3]), 80) && share(sum(&kinds[3..5]), 10), "{kinds:?}");
    assert!(share(sum(&kinds[5..9]), 5) && share(sum(&kinds[9..13]), 5), "{kinds:?}");
    assert!(share(refused, 10), "{refused}");
    assert!(depths.iter().all(|&count| count > 9000), "{depths:?}");
}

/// Over accepted sheets, planned here or not, and headers of every kind, lawful or not.
#[test]
fn accepted_sheets() {
    let mut random = Random::new(11);
    let (mut sheets, mut delivered, mut refused) = (0, 0, [0; 44]);
    while sheets < 2000 {
        let (host, sheet) = audit::any(&mut random, plan);
        if plain::audit(&host, &sheet) != 0 {
            continue;
        }
        sheets += 1;
        let index = Index::build(&sheet);
        for turn in 0..100 {
            let header = if turn % 4 == 0 { header::any(&mut random) } else { aim::header(&sheet, &mut random) };
            let answer = routed(&header, &sheet);
            assert_eq!(labelled(&header, &index), answer, "{header:02X?} over {sheet:02X?}");
            match answer {
                Ok(_) => delivered += 1,
                Err(number) => refused[usize::from(number)] += 1,
            }
        }
    }
    assert!(delivered > 20_000, "{delivered}");
    let all = (1..=9).chain([40, 42, 43]);
    assert!(all.clone().all(|number| refused[number] > 0), "{refused:?}");
    assert_eq!(refused.iter().sum::<u32>(), all.map(|number| refused[number]).sum::<u32>(), "{refused:?}");
}

/// With both ends: over accepted sheets, with command words as they are or other ones, and headers by functions of the sheet.
#[test]
fn both_ends() {
    let mut random = Random::new(15);
    let (mut sheets, mut endings) = (0, BTreeMap::new());
    while sheets < 3000 {
        let (host, mut sheet) = audit::any(&mut random, plan);
        cards::enable(&mut sheet, &mut random);
        if plain::audit(&host, &sheet) != 0 {
            continue;
        }
        sheets += 1;
        let host_id = ends::host_id(&sheet, &mut random);
        let both = BothEnds::build(host_id, &sheet);
        let headers: Vec<Vec<u8>> = (0..60).map(|_| ends::header(host_id, &sheet, &mut random)).collect();
        let expected = plain::follow(host_id.into(), &sheet, &trace::of(&headers)).unwrap();
        for ((number, header), line) in (1..).zip(&headers).zip(expected.lines()) {
            let mut lines = Vec::new();
            both.put_line(number, header, &mut lines);
            let put = String::from_utf8(lines).unwrap();
            assert_eq!(put.trim_end(), line, "{header:02X?} over {sheet:02X?}");
            let words: Vec<&str> = line.split(' ').skip(2).collect();
            let ending =
                words.iter().map(|word| word.parse::<u16>().map_or(*word, |_| "N")).collect::<Vec<_>>().join(" ");
            *endings.entry(ending).or_insert(0) += 1;
        }
    }
    for ending in
        ["from N to N", "from N to host", "from N to port", "from N refused N", "from host to N", "from host to all"]
    {
        assert!(endings[ending] > 500, "{endings:?}");
    }
}

/// What the program prints is what plain's does, for an accepted sheet and any trace, whole or not, however it is read.
#[test]
fn program() {
    let mut random = Random::new(12);
    let mut labelled = 0;
    while labelled < 2000 {
        let (host, sheet) = audit::any(&mut random, plan);
        if plain::audit(&host, &sheet) != 0 {
            continue;
        }
        labelled += 1;
        let trace = trace::any(&sheet, &mut random);
        let whole = [&host[..], &trace::input(&sheet, &trace)].concat();
        let cut = random.below(4 * whole.len() as u64) as usize;
        let input = &whole[..cut.min(whole.len())];
        let mut lines = Vec::new();
        yardstick::label(&mut &input[..], &mut lines).unwrap();
        assert!(lines == plain::programs::label(input), "{input:02X?}");
    }
    // Longer than a piece, with records that lie across its end.
    let board = labels::board(16, 8);
    let sheet = plan(&board.bytes()).unwrap();
    let mut headers: Vec<Vec<u8>> = labels::headers(&sheet, 40_000).iter().map(|header| header.to_vec()).collect();
    headers.insert(7, vec![0; 65_535]);
    headers.insert(9000, vec![0; 65_535]);
    let input = [&board.host()[..], &trace::input(&sheet, &trace::of(&headers))].concat();
    let mut lines = Vec::new();
    yardstick::label(&mut &input[..], &mut lines).unwrap();
    assert!(lines == plain::programs::label(&input));
}
