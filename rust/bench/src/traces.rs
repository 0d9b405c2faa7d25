//! A trace annotated in pieces, and with both ends of each packet.

use crate::measure::{compare, Times};
use crate::subjects::Backplane;
use crate::table;
use cartsundial::calls::{self, TRACE};
use cartsundial::Annotator;
use inputs::foreign::{completion, configuration, message, request, CFGRD1, CPLD, MRD, MSG, MWR};
use inputs::random::Random;
use inputs::trace;
use std::hint::black_box;

/// A record of a sheet with its length, and where its registers start.
const RECORD: usize = 92;
const REGISTERS: usize = 4;
/// Its command word, and the bit of a bus master.
const COMMAND: usize = REGISTERS + 4;
const BUS_MASTER: u8 = 4;

/// A trace is so long, about.
const TRACE_BYTES: usize = 1 << 17;

/// The lengths of pieces, in KiB.
const PIECES: [usize; 2] = [4, 64];

/// What a line names.
#[derive(Clone, Copy)]
enum Lines {
    Owner,
    BothEnds,
}

/// The host's own ID, which no function has.
const HOST: u16 = 0xFFFF;

pub fn print() {
    let backplanes = Backplane::all();
    let traces: Vec<Vec<u8>> = backplanes.iter().map(|backplane| trace_for(&backplane.sheet)).collect();
    let sent: Vec<(Vec<u8>, Vec<u8>)> = backplanes.iter().map(|backplane| sent_over(&backplane.sheet)).collect();
    let columns: Vec<String> = backplanes.iter().map(|backplane| backplane.name.clone()).collect();
    table::head("trace", &columns);
    let row = |name: &str, time: &dyn Fn(&[u8], &[u8]) -> Times| {
        let times = backplanes.iter().zip(&traces).map(|(backplane, trace)| time(&backplane.sheet, trace));
        table::row(name, &times.map(|times| table::cell(&times)).collect::<Vec<String>>());
    };
    for kib in PIECES {
        row(&format!("pieces of {kib} KiB"), &|sheet, trace| in_pieces(Lines::Owner, sheet, trace, kib));
    }
    row("pieces of 4 KiB, room for their lines only", &|sheet, trace| in_short_room(sheet, trace, PIECES[0]));
    row("whole", &whole);
    for kib in PIECES {
        let times = sent.iter().map(|(sheet, trace)| in_pieces(Lines::BothEnds, sheet, trace, kib));
        let cells: Vec<String> = times.map(|times| table::cell(&times)).collect();
        table::row(&format!("both ends, pieces of {kib} KiB"), &cells);
    }
}

/// The sheet with every function a bus master, and a trace in which each endpoint sends what it may: audio and reads to the
/// host's memory, completions to the host and to other endpoints, requests for the BARs of others, and messages; and a third
/// of the packets are the host's.
fn sent_over(sheet: &[u8]) -> (Vec<u8>, Vec<u8>) {
    let mut sheet = sheet.to_vec();
    sheet[1..].chunks_exact_mut(RECORD).for_each(|record| record[COMMAND] |= BUS_MASTER);
    let mut random = Random::new(2);
    let ends = ends_of(&sheet);
    let mut headers = Vec::new();
    let mut length = 0;
    while length < TRACE_BYTES {
        let [sender, other] = [(); 2].map(|()| ends[random.below(ends.len() as u64) as usize]);
        let id = |end: &[u8]| u16::from_be_bytes([end[2], end[3]]);
        let in_memory = 0x4000_0000 + (random.below(1 << 24) & !3);
        let mut header = match random.below(12) {
            0..=3 => request(MWR, in_memory),
            4 => request(MRD, in_memory),
            5 | 6 => completion(CPLD, HOST),
            7 => completion(CPLD, id(other)),
            8 | 9 => request(MWR, low_bar(other)),
            10 => request(MRD, high_bar(other)),
            _ => message(MSG, 0b000, 0x18, 0),
        };
        let named = if random.chance(1, 3) { HOST } else { id(sender) };
        header[4..6].copy_from_slice(&named.to_be_bytes());
        length += 2 + header.len();
        headers.push(header);
    }
    let trace = trace::of(&headers);
    (sheet, trace)
}

/// The records of endpoints.
fn ends_of(sheet: &[u8]) -> Vec<&[u8]> {
    let is_end = |record: &&[u8]| record[REGISTERS + 0x0E] & 0x7F == 0;
    sheet[1..].chunks_exact(RECORD).filter(is_end).collect()
}

/// Headers for the sheet's functions, each of them at random: memory requests for BARs of endpoints, completions,
/// configuration requests and a few messages.
fn trace_for(sheet: &[u8]) -> Vec<u8> {
    let mut random = Random::new(1);
    let ends = ends_of(sheet);
    let mut headers = Vec::new();
    let mut length = 0;
    while length < TRACE_BYTES {
        let end = ends[random.below(ends.len() as u64) as usize];
        let id = u16::from_be_bytes([end[2], end[3]]);
        let byte0 = if random.chance(1, 2) { MRD } else { MWR };
        headers.push(match random.below(16) {
            0 => configuration(CFGRD1, id, random.below(64) as u16),
            1 => message(MSG, 0b011, 0x19, 0),
            2..=5 => completion(CPLD, id),
            6..=10 => request(byte0, low_bar(end) + (random.below(1 << 14) & !3)),
            _ => request(byte0, high_bar(end) + (random.below(1 << 20) & !3)),
        });
        length += 2 + headers[headers.len() - 1].len();
    }
    trace::of(&headers)
}

/// Where BAR 0 starts, below 4 GiB.
fn low_bar(record: &[u8]) -> u64 {
    bar(record, 0) & !15
}

/// Where BARs 1 and 2 start, which are one.
fn high_bar(record: &[u8]) -> u64 {
    (bar(record, 2) << 32 | bar(record, 1)) & !15
}

fn bar(record: &[u8], slot: usize) -> u64 {
    let (bars, _) = record[REGISTERS + 0x10..].as_chunks();
    u32::from_le_bytes(bars[slot]).into()
}

/// The pieces of a trace in turn, again and again.
struct Turns<'a> {
    pieces: &'a [&'a [u8]],
    next: usize,
}

impl<'a> Turns<'a> {
    /// The next piece, and whether it is the trace's first.
    fn next(&mut self) -> (&'a [u8], bool) {
        let at = self.next;
        self.next = (at + 1) % self.pieces.len();
        (self.pieces[at], at == 0)
    }
}

fn in_pieces(lines: Lines, sheet: &[u8], trace: &[u8], kib: usize) -> Times {
    // Whole pieces only, so that all are as long.
    let pieces: Vec<&[u8]> = trace.chunks_exact(kib << 10).collect();
    timed(lines, sheet, &pieces, Annotator::room_for(kib << 10))
}

/// In room for the longest lines of any piece: less than 40 bytes a record, so each line is measured first.
fn in_short_room(sheet: &[u8], trace: &[u8], kib: usize) -> Times {
    let pieces: Vec<&[u8]> = trace.chunks_exact(kib << 10).collect();
    timed(Lines::Owner, sheet, &pieces, tried(Lines::Owner, sheet, &pieces).1)
}

fn timed(lines: Lines, sheet: &[u8], pieces: &[&[u8]], room: usize) -> Times {
    let (records, _) = tried(lines, sheet, pieces);
    let times = compare(plain_side(lines, sheet, pieces, room), proved_side(lines, sheet, pieces, room));
    a_record(&times, pieces.len() as f64 / records as f64)
}

fn whole(sheet: &[u8], trace: &[u8]) -> Times {
    let mut room = vec![0; Annotator::room_for(trace.len())];
    let length = proved_feed(Lines::Owner, &mut [0; TRACE], sheet, trace, &mut room);
    assert!(plain_whole(sheet, trace).as_bytes() == &room[..length]);
    let times = compare(
        || plain_whole(black_box(sheet), black_box(trace)),
        || proved_feed(Lines::Owner, &mut [0; TRACE], black_box(sheet), black_box(trace), black_box(&mut room)),
    );
    a_record(&times, 1.0 / tried(Lines::Owner, sheet, &[trace]).0 as f64)
}

/// Of a call, the part that is a record's.
fn a_record(times: &Times, part: f64) -> Times {
    Times { plain: times.plain * part, proved: times.proved * part }
}

fn plain_side<'a>(lines: Lines, sheet: &'a [u8], pieces: &'a [&'a [u8]], room: usize) -> impl FnMut() -> usize + 'a {
    let mut turns = Turns { pieces, next: 0 };
    let mut annotator = plain::Annotator::new();
    let mut room = vec![0; room];
    move || {
        let (piece, is_first) = turns.next();
        if is_first {
            annotator = plain::Annotator::new();
        }
        plain_feed(lines, &mut annotator, black_box(sheet), black_box(piece), black_box(&mut room))
    }
}

fn proved_side<'a>(lines: Lines, sheet: &'a [u8], pieces: &'a [&'a [u8]], room: usize) -> impl FnMut() -> usize + 'a {
    let mut turns = Turns { pieces, next: 0 };
    let mut state = [0; TRACE];
    let mut room = vec![0; room];
    move || {
        let (piece, is_first) = turns.next();
        if is_first {
            state = [0; TRACE];
        }
        proved_feed(lines, &mut state, black_box(sheet), black_box(piece), black_box(&mut room))
    }
}

/// Both sides write the same lines for each piece. Returns how many records there are, and the greatest length of a piece's
/// lines.
fn tried(lines: Lines, sheet: &[u8], pieces: &[&[u8]]) -> (u64, usize) {
    let (mut annotator, mut state) = (plain::Annotator::new(), [0; TRACE]);
    let mut longest = 0;
    for piece in pieces {
        let room = Annotator::room_for(piece.len());
        let mut rooms = (vec![0; room], vec![0; room]);
        let length = plain_feed(lines, &mut annotator, sheet, piece, &mut rooms.0);
        assert_eq!(proved_feed(lines, &mut state, sheet, piece, &mut rooms.1), length);
        assert!(rooms.0 == rooms.1);
        longest = longest.max(length);
    }
    (state[2], longest)
}

#[inline(never)]
fn plain_whole(sheet: &[u8], trace: &[u8]) -> String {
    plain::annotate(sheet, trace)
}

#[inline(never)]
fn plain_feed(lines: Lines, annotator: &mut plain::Annotator, sheet: &[u8], piece: &[u8], room: &mut [u8]) -> usize {
    let fed = match lines {
        Lines::Owner => annotator.feed(sheet, piece, room),
        Lines::BothEnds => annotator.feed_ends(HOST.into(), sheet, piece, room),
    };
    fed.expect("there is room for the lines")
}

#[inline(never)]
fn proved_feed(lines: Lines, state: &mut [u64; TRACE], sheet: &[u8], piece: &[u8], room: &mut [u8]) -> usize {
    let mut written = [0];
    let number = match lines {
        Lines::Owner => calls::annotate(state, sheet, piece, room, &mut written),
        Lines::BothEnds => calls::follow(HOST.into(), state, sheet, piece, room, &mut written),
    };
    assert_eq!(number, 0);
    written[0] as usize
}
