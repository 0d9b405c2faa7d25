//! Traces labelled in pieces, over sheets and by indexes, and with both ends.

use crate::indexes;
use crate::lent::{hex, Lent};
use crate::sheets;
use crate::tally::{Call, Tally};
use cartsundial::{calls, Annotator, Engine, Id, Refusal};
use inputs::random::Random;
use inputs::{audit, cards, ends, trace};

type State = [u64; calls::TRACE];

pub fn compare(random: &mut Random, rounds: u64, tally: &mut Tally) {
    for _ in 0..10_000 * rounds {
        let sheet = sheets::any(random);
        let trace = trace::any(&sheet, random);
        annotate(&sheet, &trace, random, tally);
        for _ in 0..4 {
            from_any_state(By::Sheet(&sheet), &sheet, random, tally);
            from_no_state(By::Sheet(&sheet), &sheet, random, tally);
        }
    }
    for _ in 0..5_000 * rounds {
        let (host, sheet) = accepted(random);
        by_index(&host, &sheet, random, tally);
    }
    for _ in 0..2_500 * rounds {
        let (host, sheet) = owned(random);
        by_index(&host, &sheet, random, tally);
    }
}

fn by_index(host: &[u8], sheet: &[u8], random: &mut Random, tally: &mut Tally) {
    let trace = trace::any(sheet, random);
    label(host, sheet, &trace, random, tally);
    // Bytes that no build left.
    let built = indexes::typed(host, sheet);
    let other = indexes::damaged(built.bytes().to_vec(), random);
    in_pieces(By::Index(&other), None, &trace, random, tally);
    for bytes in [built.bytes(), &other] {
        from_any_state(By::Index(bytes), sheet, random, tally);
        from_no_state(By::Index(bytes), sheet, random, tally);
    }
}

/// The same with both ends.
pub fn compare_ends(random: &mut Random, rounds: u64, tally: &mut Tally) {
    for number in 0..11_000 * rounds {
        // The last ones have ranges of other kinds.
        let is_last = number >= 10_000 * rounds;
        let mut sheet = if is_last { sheets::of_other_kinds(random) } else { sheets::any_for_ends(random) };
        cards::enable(&mut sheet, random);
        let host_id = ends::host_id(&sheet, random);
        let trace = trace::any_sent(host_id, &sheet, random);
        follow(host_id, &sheet, &trace, random, tally);
        for _ in 0..4 {
            from_any_state(By::Ends(host_id.into(), &sheet), &sheet, random, tally);
            from_no_state(By::Ends(host_id.into(), &sheet), &sheet, random, tally);
        }
        no_host(&sheet, &trace, random, tally);
    }
}

/// A host record and a sheet that the audit accepts for it.
fn accepted(random: &mut Random) -> (Vec<u8>, Vec<u8>) {
    loop {
        let (host, sheet) = audit::any(random, indexes::plan);
        if plain::audit(&host, &sheet) == 0 {
            return (host, sheet);
        }
    }
}

/// A host record and a sheet with one owner for every address: some the audit accepts, and most have ranges of other kinds.
fn owned(random: &mut Random) -> (Vec<u8>, Vec<u8>) {
    let (host, mut sheet) = audit::planned(random, indexes::plan);
    audit::split_kinds(&mut sheet, random);
    (host, sheet)
}

/// What the headers of a trace are labelled by.
#[derive(Clone, Copy)]
enum By<'a> {
    Sheet(&'a [u8]),
    /// That was built, or any bytes.
    Index(&'a [u8]),
    /// The host's own ID, and a sheet.
    Ends(u64, &'a [u8]),
}

impl<'a> By<'a> {
    fn bytes(self) -> &'a [u8] {
        match self {
            By::Sheet(bytes) | By::Index(bytes) | By::Ends(_, bytes) => bytes,
        }
    }

    fn call(self) -> Call {
        match self {
            By::Sheet(_) => Call::Annotate,
            By::Index(_) => Call::Label,
            By::Ends(..) => Call::Follow,
        }
    }

    /// Asks the library: state, sheet or index, piece, lines, and how many bytes they are.
    fn take(self, state: &mut [u64], bytes: &[u8], piece: &[u8], lines: &mut [u8], written: &mut [u64]) -> u32 {
        match self {
            By::Sheet(_) => calls::annotate(state, bytes, piece, lines, written),
            By::Index(_) => calls::label(state, bytes, piece, lines, written),
            By::Ends(host_id, _) => calls::follow(host_id, state, bytes, piece, lines, written),
        }
    }

    /// A trace for it.
    fn trace(self, sheet: &[u8], random: &mut Random) -> Vec<u8> {
        match self {
            By::Sheet(_) | By::Index(_) => trace::any(sheet, random),
            By::Ends(host_id, _) => trace::any_sent(host_id as u16, sheet, random),
        }
    }

    /// What plain writes for a piece, in room enough.
    fn lines(self, annotator: &mut plain::Annotator, piece: &[u8]) -> String {
        let mut room = vec![0; Annotator::room_for(piece.len())];
        let fed = match self {
            By::Sheet(sheet) => annotator.feed(sheet, piece, &mut room),
            By::Index(index) => annotator.feed_index(index, piece, &mut room),
            By::Ends(host_id, sheet) => annotator.feed_ends(host_id, sheet, piece, &mut room),
        };
        room.truncate(fed.unwrap());
        String::from_utf8(room).unwrap()
    }

    /// What plain writes for a whole trace.
    fn whole(self, trace: &[u8]) -> String {
        match self {
            By::Sheet(sheet) => plain::annotate(sheet, trace),
            By::Index(index) => plain::label(index, trace),
            By::Ends(host_id, sheet) => plain::follow(host_id, sheet, trace).unwrap(),
        }
    }
}

/// A trace over a sheet.
pub fn annotate(sheet: &[u8], trace: &[u8], random: &mut Random, tally: &mut Tally) {
    let lines = in_pieces(By::Sheet(sheet), Some(sheet.into()), trace, random, tally);
    whole(sheet.into(), trace, &lines, tally);
}

/// A trace by the index of a sheet with one owner for every address: its lines are those over the sheet.
pub fn label(host: &[u8], sheet: &[u8], trace: &[u8], random: &mut Random, tally: &mut Tally) {
    let index = indexes::typed(host, sheet);
    let lines = in_pieces(By::Index(index.bytes()), Some((&index).into()), trace, random, tally);
    assert_eq!(lines, plain::annotate(sheet, trace), "{} by the index of {}", hex(trace), hex(sheet));
    whole((&index).into(), trace, &lines, tally);
}

/// A trace with both ends.
pub fn follow(host_id: u16, sheet: &[u8], trace: &[u8], random: &mut Random, tally: &mut Tally) {
    let engine = Engine::both_ends(Id(host_id), sheet);
    let lines = in_pieces(By::Ends(host_id.into(), sheet), Some(engine), trace, random, tally);
    whole(engine, trace, &lines, tally);
}

/// A number above FFFFh, which is no ID of a host: 10, whatever else is asked.
fn no_host(sheet: &[u8], trace: &[u8], random: &mut Random, tally: &mut Tally) {
    let host_id = ends::no_host_id(sheet, random);
    let mut state = Lent::numbers(random.below(8) as usize, random);
    let mut lines = Lent::bytes(random.below(100) as usize, random);
    let mut written = Lent::answer(1, random);
    let before = (state.clone(), lines.clone(), written.clone());
    let returned = calls::follow(host_id, state.slice(), sheet, trace, lines.slice(), written.slice());
    tally.count(Call::Follow, returned);
    assert_eq!(returned, 10, "follow for {host_id:X}");
    assert!((&state, &lines, &written) == (&before.0, &before.1, &before.2), "follow for {host_id:X}: what was lent");
}

/// A trace from its first byte to its end, by the call, by the types, and by plain. Returns the lines.
fn in_pieces(by: By<'_>, engine: Option<Engine<'_>>, trace: &[u8], random: &mut Random, tally: &mut Tally) -> String {
    let mut annotator = plain::Annotator::new();
    let mut typed = Annotator::new();
    let mut state = [0; calls::TRACE];
    let mut lines = String::new();
    for piece in trace::pieces(trace, random) {
        let fed = by.lines(&mut annotator, piece);
        state = Asked { state, by, piece, lines: &fed }.until_taken(random, tally);
        if let Some(engine) = engine {
            typed_piece(&mut typed, engine, piece, &fed);
            assert_eq!(typed.record_number(), state[2]);
            assert_eq!(typed.is_of_other_version(), state[0] == OTHER);
        }
        end(&annotator, state, random, tally);
        lines += &fed;
    }
    let last = end(&annotator, state, random, tally);
    if engine.is_some() {
        let mut room = vec![0; last.len()];
        assert_eq!(typed.finish(&mut room), Ok(last.len()));
        assert_eq!(room, last.as_bytes());
    }
    lines += &last;
    assert_eq!(lines, by.whole(trace), "{} by {}", hex(trace), hex(by.bytes()));
    lines
}

/// By the types: in room that is one short, unless there is no line, and then in as much as the lines need.
fn typed_piece(typed: &mut Annotator, engine: Engine<'_>, piece: &[u8], lines: &str) {
    let before = typed.clone();
    let mut room = vec![0; lines.len()];
    if let Some((_, short)) = room.split_last_mut() {
        assert_eq!(typed.feed(engine, piece, short), Err(Refusal::ShortRoom));
        assert!(*typed == before && room.iter().all(|&byte| byte == 0));
    }
    assert_eq!(typed.feed(engine, piece, &mut room), Ok(lines.len()));
    assert_eq!(room, lines.as_bytes());
}

/// The whole trace, line by line, and what each says.
fn whole(engine: Engine<'_>, trace: &[u8], lines: &str, tally: &mut Tally) {
    let mut rest = cartsundial::lines(engine, trace);
    for line in lines.lines() {
        let typed = rest.next().unwrap_or_else(|| panic!("{line} of {} by {engine:?}", hex(trace)));
        assert_eq!(&*typed, line, "{} by {engine:?}", hex(trace));
        assert_eq!(typed.label().to_string(), line);
        tally.labelled(&typed.label());
    }
    assert!(rest.next().is_none() && rest.next().is_none());
}

/// A state, a piece of a trace, and the lines that plain has for it.
struct Asked<'a> {
    state: State,
    by: By<'a>,
    piece: &'a [u8],
    lines: &'a str,
}

impl Asked<'_> {
    /// Asks with one room after the other, until the piece is taken. Returns the state then.
    fn until_taken(&self, random: &mut Random, tally: &mut Tally) -> State {
        loop {
            let room = match random.below(4) {
                // Enough for as many lines as the piece could have, each as long as any can be.
                0 => Annotator::room_for(self.piece.len()),
                _ => room_length(self.lines.len(), random),
            };
            let written = Lent::answer(1, random);
            if self.call(room, written, random, tally) == 0 {
                return after(self.state, self.piece);
            }
        }
    }

    /// Asks the library, and returns its number.
    fn call(&self, room: usize, mut written: Lent<u64>, random: &mut Random, tally: &mut Tally) -> u32 {
        let mut state = Lent::numbers(calls::TRACE + random.below(3) as usize, random).with(&self.state);
        let mut bytes = Lent::holding(self.by.bytes(), random);
        let mut piece = Lent::holding(self.piece, random);
        let mut lines = Lent::bytes(room, random);
        let (bytes_before, piece_before) = (bytes.clone(), piece.clone());
        let answer = if self.lines.len() <= room { Ok([self.lines.len() as u64]) } else { Err(11) };
        let (number, written_then) = written.expected(&answer);
        let (state_then, lines_then) = match number {
            0 => (state.with(&after(self.state, self.piece)), lines.with(self.lines.as_bytes())),
            _ => (state.clone(), lines.clone()),
        };
        let returned = self.by.take(state.slice(), bytes.slice(), piece.slice(), lines.slice(), written.slice());
        tally.count(self.by.call(), returned);
        assert_eq!(returned, number, "{self}");
        assert!(lines == lines_then, "{self}: the lines");
        assert!(state == state_then, "{self}: the state");
        assert!(written == written_then && bytes == bytes_before && piece == piece_before, "{self}: what was lent");
        returned
    }
}

impl std::fmt::Display for Asked<'_> {
    fn fmt(&self, f: &mut std::fmt::Formatter<'_>) -> std::fmt::Result {
        let call = self.by.call();
        let host = if let By::Ends(host_id, _) = self.by { format!(" for {host_id:X}") } else { String::new() };
        write!(f, "{call:?}{host} {} at {:X?} by {}", hex(self.piece), self.state, hex(self.by.bytes()))
    }
}

/// The end asked for at this state, in some room. Returns the line.
fn end(annotator: &plain::Annotator, state: State, random: &mut Random, tally: &mut Tally) -> String {
    let mut room = [0; cartsundial::LONGEST_LINE];
    let length = annotator.finish(&mut room).unwrap();
    let line = &room[..length];
    let mut lines = Lent::bytes(room_length(length, random), random);
    let mut state = Lent::numbers(calls::TRACE + random.below(3) as usize, random).with(&state);
    let mut written = Lent::answer(1, random);
    let before = state.clone();
    let answer = if length <= lines.slice().len() { Ok([length as u64]) } else { Err(11) };
    let (number, written_then) = written.expected(&answer);
    let lines_then = if number == 0 { lines.with(line) } else { lines.clone() };
    let returned = calls::annotate_end(state.slice(), lines.slice(), written.slice());
    tally.count(Call::End, returned);
    assert_eq!(returned, number, "end at {:X?}", state.slice());
    let same = lines == lines_then && written == written_then && state == before;
    assert!(same, "end at {:X?}: what was lent", state.slice());
    String::from_utf8(line.to_vec()).unwrap()
}

/// Room for lines of so many bytes: just enough, one less, none, or more.
fn room_length(length: usize, random: &mut Random) -> usize {
    match random.below(6) {
        0 => 0,
        1 => length.saturating_sub(1),
        2 => length + 1 + random.below(100) as usize,
        _ => length,
    }
}

/// The state after these bytes: stage, its value, the last whole record's number, the bytes kept, how many and which.
fn after(state: State, bytes: &[u8]) -> State {
    let [mut stage, mut value, mut number, mut kept, first, second] = state;
    let mut front = u128::from(first) << 64 | u128::from(second);
    for &byte in bytes {
        let left = match stage {
            START if byte == 1 => {
                stage = BETWEEN;
                continue;
            }
            START | OTHER => {
                stage = OTHER;
                continue;
            }
            BETWEEN => {
                (stage, value) = (LENGTH, byte.into());
                continue;
            }
            LENGTH => {
                kept = 0;
                value << 8 | u64::from(byte)
            }
            _ => {
                if kept < 16 {
                    let shift = 120 - 8 * kept;
                    front = front & !(0xFF << shift) | u128::from(byte) << shift;
                    kept += 1;
                }
                value - 1
            }
        };
        (stage, value) = (INSIDE, left);
        if left == 0 {
            (stage, number, kept, front) = (BETWEEN, number.wrapping_add(1), 0, 0);
        }
    }
    [stage, value, number, kept, (front >> 64) as u64, front as u64]
}

/// The stages by their numbers.
const START: u64 = 0;
const OTHER: u64 = 1;
const BETWEEN: u64 = 2;
const LENGTH: u64 = 3;
const INSIDE: u64 = 4;

/// From a state that a trace need not have led to: any record number, and any bytes kept.
fn from_any_state(by: By<'_>, sheet: &[u8], random: &mut Random, tally: &mut Tally) {
    let state = any_state(random);
    let trace = by.trace(sheet, random);
    let bytes = if state[0] == START { &trace[..] } else { trace.get(1..).unwrap_or_default() };
    let piece = trace::pieces(bytes, random).first().copied().unwrap_or_default();
    let lines = match (state[0], piece) {
        // Plain starts with record 1 only.
        (START, [1, rest @ ..]) => by.lines(&mut plain::Annotator::after(state[2]), rest),
        _ => by.lines(&mut at(state), piece),
    };
    end(&at(state), state, random, tally);
    Asked { state, by, piece, lines: &lines }.until_taken(random, tally);
}

fn any_state(random: &mut Random) -> State {
    let stage = random.below(5);
    let kept = random.below(17);
    let value = match stage {
        LENGTH if random.chance(1, 2) => 0,
        LENGTH => random.below(256),
        // A record has no more than 65,535 bytes, with those that are kept.
        INSIDE if random.chance(1, 2) => 1 + random.below(30),
        INSIDE => 65_535 - kept - random.below(2),
        _ => 0,
    };
    let number = match random.below(4) {
        0 => 0,
        1 => u64::MAX - random.below(4),
        _ => random.word() >> random.below(64),
    };
    [stage, value, number, kept, random.word(), random.word()]
}

/// Plain in this state; before the first byte, and after another version, without its record number.
fn at(state: State) -> plain::Annotator {
    let [stage, value, number, kept, first, second] = state;
    let front = [first.to_be_bytes(), second.to_be_bytes()].concat();
    let (mut annotator, bytes) = match stage {
        START => (plain::Annotator::new(), vec![]),
        OTHER => (plain::Annotator::new(), vec![2]),
        BETWEEN => (plain::Annotator::after(number), vec![]),
        LENGTH => (plain::Annotator::after(number), vec![value as u8]),
        _ => {
            let length = ((value + kept) as u16).to_be_bytes();
            (plain::Annotator::after(number), [&length, &front[..kept as usize]].concat())
        }
    };
    annotator.feed(&[], &bytes, &mut [0; cartsundial::LONGEST_LINE]).unwrap();
    annotator
}

/// Numbers that are no state, 10, and fewer than a state has, 11, whatever the rooms.
fn from_no_state(by: By<'_>, sheet: &[u8], random: &mut Random, tally: &mut Tally) {
    let piece = &by.trace(sheet, random);
    let mut numbers = any_state(random).to_vec();
    let number = if random.chance(1, 3) {
        numbers.truncate(random.below(6) as usize);
        11
    } else {
        spoil(&mut numbers, random);
        10
    };
    let mut state = Lent::numbers(numbers.len(), random).with(&numbers);
    let mut lines = Lent::bytes(random.below(100) as usize, random);
    let mut written = Lent::answer(1, random);
    let before = (state.clone(), lines.clone(), written.clone());
    let call = by.call();
    let returned = by.take(state.slice(), by.bytes(), piece, lines.slice(), written.slice());
    tally.count(call, returned);
    assert_eq!(returned, number, "{call:?} {} at {numbers:X?}", hex(piece));
    assert!((&state, &lines, &written) == (&before.0, &before.1, &before.2), "{call:?} at {numbers:X?}: what was lent");
    let returned = calls::annotate_end(state.slice(), lines.slice(), written.slice());
    tally.count(Call::End, returned);
    assert_eq!(returned, number, "end at {numbers:X?}");
    assert!((&state, &lines, &written) == (&before.0, &before.1, &before.2), "end at {numbers:X?}: what was lent");
}

/// A state's numbers with one that does not belong.
fn spoil(numbers: &mut [u64], random: &mut Random) {
    let wide = |random: &mut Random| random.word() >> random.below(64);
    match (random.below(3), numbers[0]) {
        (0, _) => numbers[0] = 5 + wide(random) % (u64::MAX - 5),
        (1, _) => numbers[3] = 17 + wide(random) % (u64::MAX - 17),
        (_, LENGTH) => numbers[1] = 256 + wide(random) % (u64::MAX - 256),
        (_, INSIDE) => numbers[1] = if random.chance(1, 2) { 0 } else { 65_536 + wide(random) % (u64::MAX - 65_536) },
        _ => numbers[1] = 1 + wide(random) % u64::MAX,
    }
}
