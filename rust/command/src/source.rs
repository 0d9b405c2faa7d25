//! An input: a file or `-`, bytes or text, told apart by its content, with the names of its functions.

use crate::failure::Failure;
use crate::full::is_full;
use crate::hexadecimal::{HexText, HexWrong};
use crate::import::is_lspci;
use crate::named::NamedSheet;
use crate::spelling::{self, Spelling};
use crate::unlawful;
use cartsundial::{check, Board, BoardTextError, HostRecord, Id, Refusal};
use std::fs::File;
use std::io::{self, ErrorKind, Read};

/// How much of an input is looked at to tell what it is; no board and no sheet is longer.
const FRONT: usize = 1 << 16;

#[derive(Clone)]
pub struct Source {
    pub name: String,
    pub bytes: Vec<u8>,
    /// A board's text has been read.
    board: Option<Board>,
    /// What a text in hexadecimal says that it is, and its names.
    word: Option<&'static str>,
    names: Vec<(usize, String)>,
    pub is_text: bool,
    /// The comment on a board's line `host`.
    host_comment: Option<String>,
}

/// What bytes are, by their own frame.
#[derive(Clone, Copy, Debug, PartialEq, Eq)]
pub enum Kind {
    Board,
    Sheet,
    Trace,
    Script,
    Host,
}

impl Kind {
    pub fn word(self) -> &'static str {
        match self {
            Kind::Board => "a board",
            Kind::Sheet => "a sheet",
            Kind::Trace => "a trace",
            Kind::Script => "a write script",
            Kind::Host => "a host record",
        }
    }
}

/// Standard input for `-`.
pub fn open(name: &str) -> Result<Box<dyn Read>, Failure> {
    match name {
        "-" => Ok(Box::new(io::stdin())),
        _ => Ok(Box::new(File::open(name).map_err(Failure::stream(name))?)),
    }
}

/// How `-` is called in messages.
pub fn called(name: &str) -> &str {
    match name {
        "-" => "standard input",
        _ => name,
    }
}

impl Source {
    pub fn read(name: &str) -> Result<Source, Failure> {
        Source::of(name, read_all(name)?)
    }

    pub fn of(name: &str, bytes: Vec<u8>) -> Result<Source, Failure> {
        match Source::as_far(name, bytes) {
            (source, None) => Ok(source),
            (_, Some(failure)) => Err(failure),
        }
    }

    /// As far as it can be read, and what is wrong from there on.
    pub fn read_as_far(name: &str) -> Result<(Source, Option<Failure>), Failure> {
        Ok(Source::as_far(name, read_all(name)?))
    }

    fn as_far(name: &str, bytes: Vec<u8>) -> (Source, Option<Failure>) {
        let name = called(name).to_string();
        let spelling = match text_of(&bytes) {
            _ if is_full() => spelling::text_of(&bytes),
            Some(text) => Spelling::Text(text.strip_prefix('\u{FEFF}').unwrap_or(text)),
            None => Spelling::Bytes,
        };
        let (text, spelling) = match spelling {
            Spelling::Bytes => return (Source::empty(name, bytes), None),
            Spelling::Text(text) => (text, None),
            Spelling::Broken(before, why) => (before, Some(Failure::Input(format!("{name}: {why}")))),
        };
        let (source, wrong) = Source::of_text(name, text);
        // What is wrong before a letter that cannot be read comes first.
        let wrong = wrong.filter(|_| spelling.is_none() || !source.bytes.is_empty());
        (source, wrong.or(spelling))
    }

    fn of_text(name: String, text: &str) -> (Source, Option<Failure>) {
        let empty = Source::empty(name.clone(), Vec::new());
        let wrong = |what: String| Some(Failure::Input(format!("{name}: {what}")));
        if Board::is_text(text) || is_full() && is_meant_as_board(text) {
            let host_comment = host_comment(text);
            let read = if is_full() { Board::read_strictly(text) } else { text.parse() };
            let (board, failure) = match read {
                Ok(board) => (Some(board), None),
                Err(mut error) => (error.before.take().map(|board| *board), Some(text_failure(&name, &error))),
            };
            let bytes = board.as_ref().map_or(Vec::new(), Board::bytes);
            return (Source { bytes, board, is_text: true, host_comment, ..empty }, failure);
        }
        if let Some(what) = looks_like(text) {
            return (Source { is_text: true, ..empty }, wrong(what.into()));
        }
        let (HexText { word, bytes, names, .. }, what) = HexText::read_as_far(text);
        let others = ". A text is a board, which starts with `host`, or hexadecimal";
        let failure = what.and_then(|HexWrong { short, full }| match (is_full(), word) {
            (false, _) => wrong(format!("{short}{others}")),
            (true, Some(_)) => wrong(full),
            (true, None) => wrong(format!("{full}{others}")),
        });
        (Source { bytes, word, names, is_text: true, ..empty }, failure)
    }

    fn empty(name: String, bytes: Vec<u8>) -> Source {
        Source { name, bytes, board: None, word: None, names: Vec::new(), is_text: false, host_comment: None }
    }

    /// What it is: what its text says, or by its bytes.
    pub fn kind(&self) -> Option<Kind> {
        match self.word {
            Some("sheet") => Some(Kind::Sheet),
            Some("trace") => Some(Kind::Trace),
            Some("script") => Some(Kind::Script),
            _ => kind_of(&self.bytes),
        }
    }

    /// Asks that it does not look like something else. A single byte 1 is a sheet and a trace.
    fn expect(&self, wanted: Kind) -> Result<(), Failure> {
        match self.kind() {
            Some(kind) if kind != wanted && self.bytes != [1] => {
                let (looks, asked) = (kind.word(), wanted.word());
                Err(Failure::Input(format!("{} looks like {looks}, where {asked} is asked for", self.name)))
            }
            _ => Ok(()),
        }
    }

    /// A board, or bytes that are refused as one.
    pub fn into_board_or_bytes(self) -> Result<Result<Board, Vec<u8>>, Failure> {
        self.expect(Kind::Board)?;
        let board = self.board.or_else(|| Board::of_bytes(&self.bytes).ok());
        Ok(board.ok_or(self.bytes))
    }

    pub fn into_board(self) -> Result<Board, Failure> {
        self.expect(Kind::Board)?;
        match self.board {
            Some(board) => Ok(board),
            None => {
                Board::of_bytes(&self.bytes).map_err(|refusal| refused_board(&self.name, refusal, &self.bytes, None))
            }
        }
    }

    /// A sheet, or a board, which is planned: then there are its names and its host record.
    pub fn into_sheet(self) -> Result<NamedSheet, Failure> {
        if self.kind() == Some(Kind::Board) {
            let name = self.name.clone();
            let board = self.into_board()?;
            let refused = |refusal| refused_board(&name, refusal, &board.bytes(), Some(&board));
            return NamedSheet::planned(&board).map_err(refused);
        }
        self.expect(Kind::Sheet)?;
        if is_full() {
            let refused = |refusal| Failure::refused_for(&self.name, refusal, &unlawful::of_sheet(&self.bytes));
            check(&self.bytes).map_err(refused)?;
        }
        NamedSheet::new(self.bytes, &self.names).map_err(|refusal| Failure::refused(&self.name, refusal))
    }

    pub fn into_trace(self) -> Result<Vec<u8>, Failure> {
        self.expect(Kind::Trace)?;
        Ok(self.bytes)
    }

    /// A host record's 30 bytes, or that of a board.
    pub fn into_host(self) -> Result<HostRecord, Failure> {
        match self.kind() {
            Some(Kind::Board) => Ok(*self.into_board()?.host_record()),
            _ => {
                self.expect(Kind::Host)?;
                let bytes = self.bytes[..].try_into();
                let count = self.bytes.len();
                let short = "a host record has 30 bytes, or is a board's";
                let full =
                    "a host record has 30 bytes, or is the first line of a board's text, as `host low E0000000+64M`";
                let wrong = |_| {
                    Failure::Input(match is_full() {
                        true => format!("{}: {full}; this has {count} bytes", self.name),
                        false => format!("{}: {short}", self.name),
                    })
                };
                Ok(HostRecord::from_bytes(bytes.map_err(wrong)?))
            }
        }
    }

    /// The sheet as it is, checked or not, with the names of its text.
    pub fn into_sheet_bytes(self) -> Result<Vec<u8>, Failure> {
        match self.kind() {
            Some(Kind::Board) => self.into_sheet().map(|named| named.sheet.bytes().to_vec()),
            _ => {
                self.expect(Kind::Sheet)?;
                Ok(self.bytes)
            }
        }
    }

    /// Whether it is a board, or would be one but for its own checks: a sheet starts with another length.
    pub fn is_board(&self) -> bool {
        self.board.is_some() || self.word.is_none() && matches!(self.bytes[..], [1 | 2, 0, 30, ..])
    }

    /// The board that it is, if it is one.
    pub fn clone_board(&self) -> Option<Board> {
        self.board.clone().or_else(|| Board::of_bytes(&self.bytes).ok().filter(|_| self.kind() == Some(Kind::Board)))
    }

    /// The same, also where its text breaks the board's own checks.
    pub fn clone_any_board(&self) -> Option<Board> {
        self.board.clone().or_else(|| Board::of_bytes(&self.bytes).ok())
    }

    pub fn names(&self) -> &[(usize, String)] {
        &self.names
    }

    /// The comment on a board's line `host`.
    pub fn host_comment(&self) -> Option<String> {
        self.host_comment.clone()
    }
}

fn host_comment(text: &str) -> Option<String> {
    let host = text.lines().find(|line| line.trim_start().starts_with("host"))?;
    host.split_once('#').map(|(_, comment)| comment.trim().to_string())
}

/// A text has no control characters but tabs and line ends; no board, sheet or trace is one.
fn text_of(bytes: &[u8]) -> Option<&str> {
    std::str::from_utf8(bytes).ok().filter(|text| has_text(text.as_bytes()))
}

fn read_all(name: &str) -> Result<Vec<u8>, Failure> {
    let mut bytes = Vec::new();
    open(name)?.read_to_end(&mut bytes).map_err(Failure::stream(called(name)))?;
    Ok(bytes)
}

/// A board's text that lacks its first line, or spells it in another way.
fn is_meant_as_board(text: &str) -> bool {
    let mut lines =
        text.lines().map(|line| line.split('#').next().unwrap_or("").trim()).filter(|line| !line.is_empty());
    let first = lines.next().and_then(|line| line.split_whitespace().next()).unwrap_or("").to_ascii_lowercase();
    ["host", "bridge", "card", "board", "root"].contains(&first.trim_end_matches([':', ',']))
}

/// What is no input of these, and whose it is.
fn looks_like(text: &str) -> Option<&'static str> {
    let first = text.lines().map(str::trim).find(|line| !line.is_empty() && !line.starts_with('#')).unwrap_or("");
    match (is_lspci(text), is_full()) {
        (true, true) => {
            return Some(
                "it looks like what lspci prints: `cartsundial import` makes a sheet, a host and a board of it",
            )
        }
        (true, false) => {
            return Some("it looks like what lspci prints: `cartsundial import` makes a sheet and a host of it")
        }
        (false, false) => return None,
        (false, true) => {}
    }
    match first {
        line if line.starts_with(['{', '[']) => Some("it looks like JSON, which is written here and not read"),
        line if line.starts_with('<') => Some("it looks like a picture or a page, which is written here and not read"),
        _ => None,
    }
}

/// A board's text that cannot be read: with the number, where it has one.
fn text_failure(name: &str, error: &BoardTextError) -> Failure {
    match error.refusal {
        _ if !is_full() => Failure::Input(format!("{name}: {error}")),
        Some(refusal) => Failure::refused_for(name, refusal, &[error.full()]),
        None => Failure::Input(format!("{name}: {}", error.full())),
    }
}

/// Why a board is refused where a plan is asked for: the number, whom it is about, and who says more.
fn refused_board(name: &str, refusal: Refusal, bytes: &[u8], board: Option<&Board>) -> Failure {
    if !is_full() {
        return Failure::refused(name, refusal);
    }
    let mut about = unlawful::about_board(bytes, board);
    if refusal.number() >= Refusal::NoBuses.number() {
        about.push(format!("`cartsundial plan {name}` says what is needed, and with what it fits"));
    }
    Failure::refused_for(name, refusal, &about)
}

/// Whether there is nothing but text, which may end inside a letter.
pub fn has_text(bytes: &[u8]) -> bool {
    let is_text = |byte: &u8| *byte >= b' ' || matches!(byte, b'\t' | b'\r' | b'\n');
    let is_spelled = std::str::from_utf8(bytes).map_or_else(|error| error.error_len().is_none(), |_| true);
    !bytes.is_empty() && bytes.iter().all(is_text) && is_spelled
}

/// What bytes are by their own frame; `None` where none of them fits.
pub fn kind_of(bytes: &[u8]) -> Option<Kind> {
    let front = &bytes[..bytes.len().min(FRONT)];
    match front {
        [1] => Some(Kind::Sheet),
        [1 | 2, 0, 30, ..] if Board::of_bytes(front).is_ok() => Some(Kind::Board),
        [1, 0, 90, ..] if check(front).is_ok() => Some(Kind::Sheet),
        [0, 16, 0x44 | 0x45, ..] if front.len().is_multiple_of(18) || bytes.len() > FRONT => Some(Kind::Script),
        [1, 0, 12..=20, ..] => Some(Kind::Trace),
        _ if bytes.len() == HostRecord::BYTES => Some(Kind::Host),
        _ => None,
    }
}

/// What can be read at once, before the rest.
pub fn peeked(name: &str, mut reader: Box<dyn Read>) -> Result<(Vec<u8>, Box<dyn Read>), Failure> {
    let mut front = vec![0; FRONT];
    let length = read_once(&mut reader, &mut front).map_err(Failure::stream(called(name)))?;
    front.truncate(length);
    Ok((front, reader))
}

/// A trace of which this was read, and the rest.
pub fn trace_of(name: &str, mut front: Vec<u8>, mut reader: Box<dyn Read>) -> Result<Box<dyn Read>, Failure> {
    if has_text(&front) {
        reader.read_to_end(&mut front).map_err(Failure::stream(called(name)))?;
        return Ok(Box::new(io::Cursor::new(Source::of(name, front)?.into_trace()?)));
    }
    let front = Source::of(name, front)?.into_trace()?;
    Ok(Box::new(io::Cursor::new(front).chain(reader)))
}

fn read_once(reader: &mut dyn Read, room: &mut [u8]) -> io::Result<usize> {
    loop {
        match reader.read(room) {
            Err(error) if error.kind() == ErrorKind::Interrupted => {}
            read => return read,
        }
    }
}

/// `03:00.0`, as an option has it.
pub fn read_id(text: &str) -> Result<Id, Failure> {
    text.parse().map_err(|why| Failure::Usage(format!("{text}: {why}")))
}
