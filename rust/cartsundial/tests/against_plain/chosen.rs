//! The chosen lines of the test programs, the runs of the annotator, the labeller and the audit, and full indexes, once, whatever
//! the rounds.

use crate::tally::Tally;
use crate::{audits, boards, cards, ends, headers, indexes, ledgers, routes, sheets, traces};
use inputs::random::Random;

pub fn compare(random: &mut Random, _: u64, tally: &mut Tally) {
    for lines in [stored::boards(), stored::routes()] {
        let mut sheet = Vec::new();
        for line in lines.lines() {
            request(line, &mut sheet, random, tally);
        }
    }
    for (_, input) in stored::traces() {
        let sheet = input.split_first_chunk().map(|(length, rest)| (u16::from_be_bytes(*length), rest));
        if let Some((sheet, trace)) = sheet.and_then(|(length, rest)| rest.split_at_checked(length.into())) {
            traces::annotate(sheet, trace, random, tally);
        }
    }
    for (_, input) in stored::labels() {
        labelled(&input, random, tally);
    }
    for (_, input) in stored::follows() {
        followed(&input, random, tally);
    }
    audits::chosen(random, tally);
    indexes::chosen(random, tally);
    cards::chosen(random, tally);
    ends::chosen(random, tally);
    ledgers::chosen(random, tally);
}

/// A run of the program `label`, if its sheet is accepted.
fn labelled(input: &[u8], random: &mut Random, tally: &mut Tally) {
    let Some((host, rest)) = input.split_first_chunk::<30>() else { return };
    let Some((length, rest)) = rest.split_first_chunk() else { return };
    let Some((sheet, trace)) = rest.split_at_checked(u16::from_be_bytes(*length).into()) else { return };
    if plain::audit(host, sheet) == 0 {
        traces::label(host, sheet, trace, random, tally);
    }
}

/// A run of the program `follow`, if it comes to its trace: the trace, and each of its headers.
fn followed(input: &[u8], random: &mut Random, tally: &mut Tally) {
    let Some((&host_id, rest)) = input.split_first_chunk() else { return };
    let Some((&length, rest)) = rest.split_first_chunk() else { return };
    let Some((sheet, trace)) = rest.split_at_checked(u16::from_be_bytes(length).into()) else { return };
    let host_id = u16::from_be_bytes(host_id);
    traces::follow(host_id, sheet, trace, random, tally);
    for header in cartsundial::headers(trace).into_iter().flatten() {
        let _ = ends::sent(host_id.into(), header, sheet, random, tally);
    }
}

/// One line. A board that is planned, and a sheet, become the current sheet.
fn request(line: &str, sheet: &mut Vec<u8>, random: &mut Random, tally: &mut Tally) {
    let (word, rest) = line.split_once(' ').unwrap_or((line, ""));
    match word {
        "" | "#" => {}
        "board" => {
            let board = bytes(rest);
            boards::plan(&board, random, tally);
            let mut room = vec![0; plain::FULL_SHEET];
            if let Ok(length) = plain::plan(&board, &mut room) {
                room.truncate(length);
                *sheet = room;
            }
        }
        "sheet" => {
            *sheet = bytes(rest);
            sheets::check(sheet, random, tally);
        }
        "command" => {
            let (id, word) = rest.split_once(' ').unwrap_or_else(|| panic!("{line}"));
            sheets::command(sheet, number(id), number(word), random, tally);
        }
        "lookup" => sheets::lookup(sheet, number(rest), random, tally),
        "header" => {
            headers::read(&bytes(rest), random, tally);
            routes::route(&bytes(rest), sheet, random, tally);
        }
        "from" => {
            let (record, header) = rest.split_once(' ').unwrap_or((rest, ""));
            let _ = cards::route(number(record), &bytes(header), sheet, random, tally);
        }
        _ => panic!("{line}"),
    }
}

fn number(text: &str) -> u32 {
    u32::from_str_radix(text.trim(), 16).unwrap_or_else(|error| panic!("{text}: {error}"))
}

fn bytes(text: &str) -> Vec<u8> {
    let digits: Vec<u8> = text.chars().filter_map(|digit| digit.to_digit(16)).map(|digit| digit as u8).collect();
    digits.chunks(2).map(|pair| pair[0] << 4 | pair[1]).collect()
}
