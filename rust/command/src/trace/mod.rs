//! A trace as it is read, in constant memory, whatever it comes as: bytes, hexadecimal text, headers one to a line, or a log.

mod hex;

use crate::failure::Failure;
use crate::logged::{are_lines, Lines, Logged};
use crate::source::{called, has_text, kind_of, Kind, Source};
use cartsundial::Board;
use hex::{HexStream, Wrong};
use std::fs::File;
use std::io::{self, ErrorKind, Read};
use std::sync::atomic::{AtomicU64, Ordering};
use std::sync::Arc;

/// How much of an input is looked at to tell what it is; no board and no sheet is longer.
const FRONT: usize = 1 << 16;

/// How much is read at a time, and how many headers of lines.
const READ: usize = 1 << 17;
const HEADERS: usize = 1 << 12;

/// What some editors put before a text.
const MARK: &[u8] = "\u{FEFF}".as_bytes();

/// Where the bytes of a trace come from, one piece after the other.
pub struct Feed {
    name: String,
    form: Form,
    far: Far,
    /// What is told after everything before it is taken.
    wrong: Option<Failure>,
}

enum Form {
    Bytes(Input),
    Text { input: Input, stream: HexStream, text: Vec<u8> },
    Headers(Box<Lines<Input>>),
}

/// How much of an input was read, and how long it is where that is known.
#[derive(Clone)]
pub struct Far {
    read: Arc<AtomicU64>,
    length: Option<u64>,
}

impl Far {
    /// From 0 to 100.
    pub fn percent(&self) -> Option<u64> {
        let length = self.length.filter(|length| *length > 0)?;
        Some((100 * self.read.load(Ordering::Relaxed) / length).min(100))
    }
}

/// An input that is opened.
struct Input {
    /// What was read to tell what it is.
    front: io::Cursor<Vec<u8>>,
    rest: Box<dyn Read + Send>,
    far: Far,
}

impl Read for Input {
    fn read(&mut self, room: &mut [u8]) -> io::Result<usize> {
        let length = loop {
            let read = match self.front.read(room)? {
                0 => self.rest.read(room),
                length => Ok(length),
            };
            match read {
                Err(error) if error.kind() == ErrorKind::Interrupted => {}
                read => break read?,
            }
        };
        self.far.read.fetch_add(length as u64, Ordering::Relaxed);
        Ok(length)
    }
}

/// An input that may be a trace.
pub enum Opened {
    Trace(Feed),
    Other(Source),
}

impl Feed {
    /// A trace, as whatever it may come. Another kind of file is told.
    pub fn open(name: &str) -> Result<Feed, Failure> {
        let input = Input::open(name)?;
        let front = input.front();
        let is_text = has_text(front);
        if is_text && Board::is_text(&String::from_utf8_lossy(front)) {
            return Err(Failure::Usage(format!("{} looks like a board, where a trace is asked for", called(name))));
        }
        // One byte 1 is a sheet and a trace, and thirty bytes may be anything.
        let is_other = |bytes: &[u8]| bytes != [1] && !matches!(kind_of(bytes), None | Some(Kind::Trace | Kind::Host));
        let form = match is_text.then(|| start_of(front)) {
            Some(Start { bytes, .. }) if is_other(&bytes) => return Err(looks_other(name, &bytes)),
            Some(Start { is_other: true, .. }) => return Err(looks_other(name, front)),
            Some(_) if are_lines(front) => Form::Headers(Box::new(Lines::new(name, input))),
            Some(start) => input.into_text(&start),
            None if is_other(front) => return Err(looks_other(name, front)),
            None => Form::Bytes(input),
        };
        Ok(Feed::new(name, form))
    }

    /// A trace's bytes or text where it is one for sure, so that it can be read piece by piece; of anything else all of it.
    pub fn open_any(name: &str) -> Result<Opened, Failure> {
        let mut input = Input::open(name)?;
        let front = input.front();
        let is_trace = |bytes: &[u8]| kind_of(bytes) == Some(Kind::Trace);
        if !has_text(front) {
            if is_trace(front) {
                return Ok(Opened::Trace(Feed::new(name, Form::Bytes(input))));
            }
        } else if !are_lines(front) {
            let start = start_of(front);
            if is_trace(&start.bytes) {
                return Ok(Opened::Trace(Feed::new(name, input.into_text(&start))));
            }
        }
        let mut bytes = Vec::new();
        input.read_to_end(&mut bytes).map_err(Failure::stream(called(name)))?;
        Source::of(name, bytes).map(Opened::Other)
    }

    fn new(name: &str, form: Form) -> Feed {
        let far = match &form {
            Form::Bytes(input) | Form::Text { input, .. } => input.far.clone(),
            Form::Headers(lines) => lines.reader().far.clone(),
        };
        Feed { name: called(name).to_string(), form, far, wrong: None }
    }

    pub fn name(&self) -> &str {
        &self.name
    }

    pub fn far(&self) -> Far {
        self.far.clone()
    }

    /// Whether it is headers only, with no version byte before them.
    pub fn is_headers(&self) -> bool {
        matches!(self.form, Form::Headers(_))
    }

    pub fn is_text(&self) -> bool {
        !matches!(self.form, Form::Bytes(_))
    }

    /// Puts the next bytes after those that are there, as many as come at once; of lines each header as a record, and what the log
    /// says beside it. Returns whether there may be more. What is wrong in a text is told when all before it is taken.
    pub fn more(&mut self, bytes: &mut Vec<u8>, logged: &mut Vec<Logged>) -> Result<bool, Failure> {
        if let Some(wrong) = self.wrong.take() {
            return Err(wrong);
        }
        let has_more = self.read(bytes, logged);
        match has_more {
            Err(wrong) if !bytes.is_empty() => {
                self.wrong = Some(wrong);
                Ok(true)
            }
            has_more => has_more,
        }
    }

    fn read(&mut self, bytes: &mut Vec<u8>, logged: &mut Vec<Logged>) -> Result<bool, Failure> {
        match &mut self.form {
            Form::Bytes(input) => read_into(input, bytes).map_err(Failure::stream(&self.name)),
            Form::Text { input, stream, text } => {
                text.clear();
                let has_more = read_into(input, text).map_err(Failure::stream(&self.name))?;
                let fed = stream.feed(text, bytes);
                let fed = if has_more { fed } else { fed.and_then(|()| stream.finish()) };
                fed.map_err(|Wrong(what)| Failure::Usage(format!("{}: {what}", self.name)))?;
                Ok(has_more)
            }
            Form::Headers(lines) => {
                for _ in 0..HEADERS {
                    let Some(next) = lines.next() else { return Ok(false) };
                    let mut next = next?;
                    let header = std::mem::take(&mut next.header);
                    let too_long = |_| Failure::Usage(format!("{}: a header of {} bytes", self.name, header.len()));
                    bytes.extend(u16::try_from(header.len()).map_err(too_long)?.to_be_bytes());
                    bytes.extend(header);
                    logged.push(next);
                    if !lines.has_line() {
                        break;
                    }
                }
                Ok(true)
            }
        }
    }
}

fn looks_other(name: &str, bytes: &[u8]) -> Failure {
    let asked = Source::of(name, bytes.to_vec()).and_then(Source::into_trace);
    asked.err().unwrap_or_else(|| Failure::Usage(format!("{}: no trace", called(name))))
}

/// Whether there may be more.
fn read_into(input: &mut Input, bytes: &mut Vec<u8>) -> io::Result<bool> {
    let start = bytes.len();
    bytes.resize(start + READ, 0);
    let read = input.read(&mut bytes[start..]);
    bytes.truncate(start + read.as_ref().map_or(0, |length| *length));
    read.map(|length| length > 0)
}

impl Input {
    /// With what is there at once; of a text at least a line that says what it is.
    fn open(name: &str) -> Result<Input, Failure> {
        let at_name = |error| Failure::Stream(format!("{}: {error}", called(name)));
        let (mut rest, length): (Box<dyn Read + Send>, _) = match name {
            "-" => (Box::new(io::stdin()), None),
            _ => {
                let file = File::open(name).map_err(at_name)?;
                let length = file.metadata().ok().filter(|about| about.is_file()).map(|about| about.len());
                (Box::new(file), length)
            }
        };
        let mut front = vec![0; FRONT];
        let mut end = 0;
        while end < FRONT {
            match rest.read(&mut front[end..]) {
                Err(error) if error.kind() == ErrorKind::Interrupted => continue,
                Err(error) => return Err(at_name(error)),
                Ok(0) => break,
                Ok(length) => end += length,
            }
            let (is_text, lines) = (has_text(&front[..end]), front[..end].split(|&byte| byte == b'\n'));
            if !is_text || lines.clone().count() > 1 && lines.rev().skip(1).any(|line| !code(line).is_empty()) {
                break;
            }
        }
        front.truncate(end);
        if front.starts_with(MARK) {
            front.drain(..MARK.len());
        }
        let far = Far { read: Arc::new(AtomicU64::new(0)), length };
        Ok(Input { front: io::Cursor::new(front), rest, far })
    }

    fn front(&self) -> &[u8] {
        self.front.get_ref()
    }

    fn into_text(mut self, start: &Start) -> Form {
        self.front.set_position(start.at as u64);
        Form::Text { input: self, stream: HexStream::new(start.line), text: Vec::new() }
    }
}

/// Where the bytes of a text start.
struct Start {
    line: u64,
    at: usize,
    /// Those that are there.
    bytes: Vec<u8>,
    /// It says that it is something else.
    is_other: bool,
}

/// After comments, and the word that says what it is.
fn start_of(front: &[u8]) -> Start {
    let mut start = Start { line: 1, at: 0, bytes: Vec::new(), is_other: false };
    for line in front.split_inclusive(|&byte| byte == b'\n') {
        let code = code(line);
        let is_word = code == b"trace";
        start.is_other = code.starts_with(b"sheet") || code == b"script";
        if !is_word && !code.is_empty() {
            break;
        }
        (start.line, start.at) = (start.line + 1, start.at + line.len());
        if is_word {
            break;
        }
    }
    // As far as it is hexadecimal.
    let _ = HexStream::new(start.line).feed(&front[start.at..], &mut start.bytes);
    start
}

/// A line without its comment and the spaces around it.
fn code(line: &[u8]) -> &[u8] {
    line.split(|&byte| byte == b'#').next().unwrap_or(line).trim_ascii()
}

#[cfg(test)]
mod tests {
    use super::*;

    #[test]
    fn starts() {
        let told = |text: &str| {
            let Start { line, at, bytes, is_other } = start_of(text.as_bytes());
            (line, at, bytes.len(), is_other)
        };
        assert_eq!(told("# x\n\ntrace # y\n01\n0000\n"), (4, 15, 3, false));
        assert_eq!(told("01 000C 0000 # x\n00"), (1, 0, 6, false));
        assert_eq!(told("01\n000C"), (1, 0, 3, false));
        assert_eq!(told("# none\n"), (2, 7, 0, false));
        assert_eq!(told("sheet of 1 function\n01").3, true);
    }

    /// However a text is cut, its bytes are those that the whole has.
    #[test]
    fn texts_in_pieces() {
        let text = "01 # \"version\"\n\"a # b\" 00,0C # x\n0x00_0x1 0x2\t0:0\r\n# \"\n1 0x23 4\n00 1 2";
        let bytes = |pieces: &[&[u8]]| {
            let (mut stream, mut bytes) = (HexStream::new(1), Vec::new());
            let fed = pieces.iter().try_for_each(|piece| stream.feed(piece, &mut bytes));
            fed.and_then(|()| stream.finish()).map(|()| bytes).map_err(|Wrong(what)| what)
        };
        let expected = crate::hexadecimal::HexText::read(text).unwrap().bytes;
        for cut in 0..=text.len() {
            let (front, rest) = text.as_bytes().split_at(cut);
            assert_eq!(bytes(&[front, rest]), Ok(expected.clone()), "{cut}");
        }
        for (text, place) in [
            ("01\n0q", "line 2, column 2: "),
            ("01 2\n", "line 1, column 5: "),
            ("\"a\n", "line 1, "),
            ("00x1", "line 1, column 3: "),
        ] {
            assert!(bytes(&[text.as_bytes()]).unwrap_err().starts_with(place), "{text}");
            assert!(crate::hexadecimal::HexText::read(text).is_err(), "{text}");
        }
    }
}
