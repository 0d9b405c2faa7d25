//! A call of the archive over a stored input, for `rust/bench/instructions` to count: `instructions CALL FILE` makes the call
//! once, or for headers of the file's trace, and prints how often.

use cartsundial::calls::{self, ANY_ROUTE, PACKET, TRACE};
use cartsundial::{Annotator, FULL_INDEX, FULL_SCRIPT, FULL_SHEET};
use std::error::Error;
use std::hint::black_box;
use std::{env, fs};

/// How many headers are routed over a sheet, from all over the trace: a walk is long.
const ROUTED: usize = 20;

/// A host record's bytes, a sheet's record, its command word, and the word's bit for a card that sends requests.
const HOST: usize = 30;
const RECORD: usize = 92;
const COMMAND: usize = 4 + 0x04;
const HEADER_TYPE: usize = 4 + 0x0E;
const BUS_MASTER: u8 = 4;

/// What stands for a file: the sheet of `inputs` whose BARs lie close together.
const SKEWED: &str = "skewed";

fn main() -> Result<(), Box<dyn Error>> {
    let asked: Vec<String> = env::args().skip(1).collect();
    let [call, file] = &asked[..] else { return Err("a call and a file, as plan tests/plan/p10.board".into()) };
    let count = match call.as_str() {
        "plan" => plan(&fs::read(file)?),
        "script" => script(&fs::read(file)?),
        _ => Capture::read(file)?.count(call)?,
    };
    println!("{count}");
    Ok(())
}

/// Of a board.
fn plan(board: &[u8]) -> usize {
    let mut sheet = vec![0; FULL_SHEET];
    assert_eq!(calls::plan(black_box(board), &mut sheet, &mut [0]), 0);
    1
}

/// Of what the program `script` reads: a requester ID, a tag and a board.
fn script(input: &[u8]) -> usize {
    let [high, low, tag, board @ ..] = input else { panic!("no requester ID and tag") };
    let mut script = vec![0; FULL_SCRIPT];
    let requester = u16::from_be_bytes([*high, *low]).into();
    assert_eq!(calls::script(black_box(board), requester, (*tag).into(), &mut script, &mut [0]), 0);
    1
}

/// What the program `label` reads: a host record, a sheet after its length, and a trace.
struct Capture {
    host: Vec<u8>,
    sheet: Vec<u8>,
    trace: Vec<u8>,
}

impl Capture {
    fn read(file: &str) -> Result<Capture, Box<dyn Error>> {
        if file == SKEWED {
            let (host, sheet) = inputs::labels::skewed();
            let trace = inputs::trace::of(&inputs::labels::headers(&sheet, 2000));
            return Ok(Capture { host: host.to_vec(), sheet, trace });
        }
        let mut host = fs::read(file)?;
        let mut rest = host.split_off(HOST);
        let length: usize = u16::from_be_bytes([rest[0], rest[1]]).into();
        let trace = rest.split_off(2 + length);
        Ok(Capture { host, sheet: rest.split_off(2), trace })
    }

    fn count(&self, call: &str) -> Result<usize, Box<dyn Error>> {
        match call {
            "index" => {
                self.index();
                Ok(1)
            }
            "label" => Ok(self.label()),
            "find" => Ok(self.find()),
            "route" => Ok(self.route()),
            "route_from" => Ok(self.route_from()),
            "read" => Ok(self.read_headers()),
            "judge" => Ok(each(self.headers(), calls::judge)),
            "write" => Ok(self.write()),
            other => Err(format!("no call is counted as {other}").into()),
        }
    }

    fn index(&self) -> Vec<u8> {
        let mut index = vec![0; FULL_INDEX];
        assert_eq!(calls::index(black_box(&self.host), &self.sheet, &mut index), 0);
        index
    }

    /// The whole trace as one piece.
    fn label(&self) -> usize {
        let index = self.index();
        let mut lines = vec![0; Annotator::room_for(self.trace.len())];
        assert_eq!(calls::label(&mut [0; TRACE], black_box(&index), &self.trace, &mut lines, &mut [0]), 0);
        1
    }

    fn find(&self) -> usize {
        let index = self.index();
        let mut answer = [0; ANY_ROUTE];
        each(self.headers(), |header| calls::find(header, &index, &mut answer))
    }

    fn route(&self) -> usize {
        let mut answer = [0; ANY_ROUTE];
        each(self.routed(), |header| calls::route(header, &self.sheet, &mut answer))
    }

    /// From the first card, where every function may send.
    fn route_from(&self) -> usize {
        let mut sheet = self.sheet.clone();
        sheet[1..].chunks_exact_mut(RECORD).for_each(|record| record[COMMAND] |= BUS_MASTER);
        let is_card = |record: &[u8]| record[HEADER_TYPE] & 0x7F == 0;
        let first = sheet[1..].chunks_exact(RECORD).position(is_card).expect("a sheet with cards") as u32 + 1;
        let mut answer = [0; ANY_ROUTE];
        each(self.routed(), |header| calls::route_from(first, header, &sheet, &mut answer))
    }

    fn read_headers(&self) -> usize {
        let mut packet = [0; PACKET];
        each(self.headers(), |header| calls::read(header, &mut packet))
    }

    fn write(&self) -> usize {
        let packets = self.headers().filter_map(|header| cartsundial::read(header).ok());
        each(packets, |packet| calls::write(&packet.to_numbers(), &mut [0; 16], &mut [0]))
    }

    /// The records of the trace, after its version byte.
    fn headers(&self) -> impl Iterator<Item = &[u8]> {
        let mut rest = &self.trace[1..];
        std::iter::from_fn(move || {
            let (length, after) = rest.split_first_chunk()?;
            let (header, after) = after.split_at_checked(u16::from_be_bytes(*length).into())?;
            rest = after;
            Some(header)
        })
    }

    fn routed(&self) -> impl Iterator<Item = &[u8]> {
        let step = self.headers().count().div_ceil(ROUTED);
        self.headers().step_by(step)
    }
}

/// Makes the call for each, whatever it answers, and counts.
fn each<A>(all: impl Iterator<Item = A>, mut call: impl FnMut(A) -> u32) -> usize {
    let mut count = 0;
    for one in all {
        black_box(call(black_box(one)));
        count += 1;
    }
    count
}
