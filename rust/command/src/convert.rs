//! `show` and `convert`: boards, sheets, traces and scripts as text, and back as bytes.

use crate::arguments::{Arguments, Options};
use crate::failure::{print, Answer, Failure, Verdict};
use crate::full::{is_full, FULL};
use crate::hexadecimal::dwords;
use crate::listing;
use crate::named::{NamedSheet, RECORD};
use crate::output::Outputs;
use crate::source::{Kind, Source};
use crate::{raw, unlawful, words};
use cartsundial::{check, headers, plan_where, read, writes, Board, Headers, HostRecord, Id, Refusal, RegisterWrite};
use std::fmt::Write;

pub const SHOW_OPTIONS: Options = Options { flags: &[FULL], ..Options::NONE };
pub const OPTIONS: Options = Options {
    flags: &["--text", "--bytes", FULL],
    values: &["--out"],
    apart: &[&["--text", "--bytes"]],
    ..Options::NONE
};

pub const SHOW_HELP: &str = "\
cartsundial show FILE

Shows a board, a sheet, a trace, a write script or a host record in words; what it is, is told by its content.

  --full              one that is refused is shown as far as it goes, with the number, the place and what to do on standard error;
                      the exit status is 1 then, also of a trace that is cut, and 2 for a text that cannot be read
";

pub const HELP: &str = "\
cartsundial convert FILE [--text | --bytes] [--out FILE]

From bytes to text, from text to bytes, on standard output unless --out names a file; a terminal gets no bytes. --text and --bytes
say which in any case. A board's text is a tree, with names; of a
sheet, a trace and a script it is hexadecimal with comments, in which a quoted name belongs to the record after it. The same
bytes come back from it.

  --full              what is refused becomes hexadecimal text, a record to a line, which can be mended and converted back; the
                      number, the place and what to do are on standard error, and the exit status is 1. A text that cannot be
                      read becomes no bytes
";

pub fn run_show(arguments: &Arguments) -> Answer {
    let [name] = arguments.exactly(["FILE"])?;
    if !is_full() {
        print(words_of(Source::read(name)?)?)?;
        return Ok(Verdict::Accepted);
    }
    let (source, failure) = Source::read_as_far(name)?;
    let text = match looks(&source) {
        // A text of which nothing could be read.
        None | Some(_) if source.bytes.is_empty() && failure.is_some() => String::new(),
        None => return Err(failure.unwrap_or_else(|| unknown(&source))),
        Some(Kind::Board) => {
            source.clone_any_board().map_or_else(|| raw::board(&source.bytes), |board| board.to_string())
        }
        Some(Kind::Sheet) => match NamedSheet::new(source.bytes.clone(), source.names()) {
            Ok(named) => listing::table(&named),
            Err(_) => raw::sheet(&source.bytes),
        },
        Some(Kind::Trace) => trace_words(&source.bytes),
        Some(Kind::Script) => writes(&source.bytes).map(|write| write_words(&write) + "\n").collect(),
        Some(Kind::Host) => {
            Board::host(HostRecord::from_bytes(source.bytes[..].try_into().expect("30 bytes"))).to_string()
        }
    };
    print(text)?;
    finished(failure, &source)
}

/// Of what is not refused.
fn words_of(source: Source) -> Result<String, Failure> {
    Ok(match kind_of(&source)? {
        Kind::Board => source.into_board()?.to_string(),
        Kind::Sheet => listing::table(&source.into_sheet()?),
        Kind::Trace => trace_words(&trace_of(source)?),
        Kind::Script => writes(&source.bytes).map(|write| write_words(&write) + "\n").collect(),
        Kind::Host => Board::host(source.into_host()?).to_string(),
    })
}

fn kind_of(source: &Source) -> Result<Kind, Failure> {
    let unknown = || Failure::Usage(format!("{}: no board, sheet, trace, script or host record", source.name));
    source.kind().ok_or_else(unknown)
}

/// Of this version; it may be cut.
fn trace_of(source: Source) -> Result<Vec<u8>, Failure> {
    let name = source.name.clone();
    let trace = source.into_trace()?;
    headers(&trace).map_err(|refusal| Failure::refused(&name, refusal))?;
    Ok(trace)
}

/// What is wrong with what was shown.
fn finished(failure: Option<Failure>, source: &Source) -> Answer {
    match failure.or_else(|| refused(source)) {
        Some(failure) => Err(failure),
        None => Ok(Verdict::Accepted),
    }
}

/// The number, the place and what to do, of what is refused by its own checks.
fn refused(source: &Source) -> Option<Failure> {
    let Source { name, bytes, .. } = source;
    let with = |refusal, about: Vec<String>| Some(Failure::refused_for(name, refusal, &about));
    match looks(source)? {
        Kind::Board => {
            let finding = plan_where(bytes).err().filter(|finding| finding.needs.is_none())?;
            with(finding.refusal, unlawful::about_board(bytes, source.clone_any_board().as_ref()))
        }
        Kind::Sheet => with(check(bytes).err()?, unlawful::of_sheet(bytes)),
        Kind::Trace => match headers(bytes) {
            Err(refusal) => with(refusal, Vec::new()),
            Ok(records) => cut(bytes, records).map(|cut| Failure::Refused(format!("{name}: {cut}"))),
        },
        Kind::Script => {
            let left = bytes.len() % 18;
            let at = format!(
                "cut in record {}, at byte {}: a write has 18 bytes, and {left} are there",
                bytes.len() / 18 + 1,
                bytes.len() - left
            );
            (left > 0).then(|| Failure::Refused(format!("{name}: {at}")))
        }
        Kind::Host => None,
    }
}

/// Where a trace ends inside a record; without `--full` only that it does.
fn cut(trace: &[u8], mut records: Headers) -> Option<String> {
    let whole = (&mut records).count() as u64;
    let start = (trace.len() - records.rest().len()) as u64;
    records.is_cut().then(|| match is_full() {
        true => unlawful::cut(whole + 1, start, records.rest()),
        false => "cut".to_string(),
    })
}

pub fn run(arguments: &Arguments) -> Answer {
    let [name] = arguments.exactly(["FILE"])?;
    let (source, failure) = Source::read_as_far(name)?;
    if let Some(failure) = failure {
        return Err(failure);
    }
    let is_to_text = match (arguments.has("--text"), arguments.has("--bytes")) {
        (true, true) => return Err(Failure::Usage("either --text or --bytes".into())),
        (false, false) => !source.is_text,
        (is_to_text, _) => is_to_text,
    };
    let converted = match (is_to_text, is_full()) {
        (true, true) => text_of(&source)?.into_bytes(),
        (true, false) => lawful_text(source.clone())?.into_bytes(),
        (false, _) => source.bytes.clone(),
    };
    let mut outputs = Outputs::new(&arguments.files);
    outputs.add("--out", arguments.value("--out").unwrap_or("-"), converted);
    outputs.prepare()?.commit()?;
    match is_full() {
        true => finished(None, &source),
        false => Ok(Verdict::Accepted),
    }
}

/// What it is, or what it was meant as where it is refused.
fn looks(source: &Source) -> Option<Kind> {
    source.kind().or(match source.bytes[..] {
        [1 | 2, 0, 30, ..] => Some(Kind::Board),
        [1, 0, 90, ..] => Some(Kind::Sheet),
        [0, 16, 0x44 | 0x45, ..] => Some(Kind::Script),
        [1, 0, _, ..] => Some(Kind::Trace),
        _ => None,
    })
}

fn unknown(source: &Source) -> Failure {
    let Source { name, bytes, .. } = source;
    if bytes.is_empty() {
        return Failure::refused_for(name, Refusal::Frame, &[unlawful::frame(bytes, "board, a sheet or a trace")]);
    }
    let front = dwords(&bytes[..bytes.len().min(4)]);
    Failure::Input(format!(
        "{name}: no board, sheet, trace, script or host record: it starts with {front}, where a board starts with 01001E or 02001E, a \
         sheet with 01005A, a trace with 01 and a length, as 01000C, a script with 001044, and a host record has 30 bytes"
    ))
}

fn text_of(source: &Source) -> Result<String, Failure> {
    let is_refused = refused(source).is_some();
    Ok(match looks(source).ok_or_else(|| unknown(source))? {
        Kind::Board if source.is_text => source.clone_any_board().map_or(String::new(), |board| board.to_string()),
        Kind::Board if is_refused => raw::text(&source.bytes, ""),
        Kind::Board => Board::of_bytes(&source.bytes).map_or(String::new(), |board| board.to_string()),
        Kind::Sheet if is_refused => raw::text(&source.bytes, "sheet\n"),
        Kind::Sheet => {
            let named = NamedSheet::new(source.bytes.clone(), source.names());
            named_text(&named.map_err(|refusal| Failure::refused(&source.name, refusal))?)
        }
        Kind::Trace => trace_text(&source.bytes),
        Kind::Script => script_text(&source.bytes),
        Kind::Host => Board::host(HostRecord::from_bytes(source.bytes[..].try_into().expect("30 bytes"))).to_string(),
    })
}

/// Of what is not refused.
fn lawful_text(source: Source) -> Result<String, Failure> {
    Ok(match kind_of(&source)? {
        Kind::Board => source.into_board()?.to_string(),
        Kind::Sheet => named_text(&source.into_sheet()?),
        Kind::Trace => trace_text(&trace_of(source)?),
        Kind::Script => script_text(&source.bytes),
        Kind::Host => Board::host(HostRecord::from_bytes(source.bytes[..].try_into().expect("30 bytes"))).to_string(),
    })
}

pub fn named_text(named: &NamedSheet) -> String {
    sheet_text(named.sheet.bytes(), |record| named.name(record))
}

/// A sheet in hexadecimal, with its names. It says first how many functions there are, so that one that is cut is told from it.
pub fn sheet_text<'a>(sheet: &[u8], name: impl Fn(u16) -> Option<&'a str>) -> String {
    let mut text = format!("sheet of {}\n01\n", functions(sheet[1..].len() / RECORD));
    for (number, record) in (1..).zip(sheet[1..].chunks(RECORD)) {
        if let Some(name) = name(number) {
            let _ = writeln!(text, "\"{name}\"");
        }
        let id = Id(u16::from_be_bytes([record[2], record[3]]));
        let _ = writeln!(text, "{}    # {number}: {id}", dwords(&record[..4]));
        for (row, bytes) in record[4..68].chunks(16).enumerate() {
            let _ = writeln!(text, "  {}    # {:02X}h", dwords(bytes), 16 * row);
        }
        let _ = writeln!(text, "  {}    # read-backs", dwords(&record[68..]));
    }
    text
}

/// `1 function`, `8 functions`.
pub fn functions(count: usize) -> String {
    format!("{count} function{}", if count == 1 { "" } else { "s" })
}

/// A trace in hexadecimal, a record to a line. What is left of one that is cut stands on the last line.
fn trace_text(trace: &[u8]) -> String {
    let Some((version, rest)) = trace.split_first() else { return "trace\n".to_string() };
    let mut text = format!("trace\n{version:02X}\n");
    let mut records = Headers::of_records(rest);
    for (number, header) in (1..).zip(&mut records) {
        let _ = writeln!(text, "{:04X} {}    # {number} {}", header.len(), dwords(header), header_words(header));
    }
    if let Some(cut) = cut(trace, Headers::of_records(rest)) {
        let _ = writeln!(text, "{}    # {cut}", dwords(records.rest()));
    }
    text
}

/// A write to a line; what is left of one that is cut stands on the last.
pub fn script_text(script: &[u8]) -> String {
    let mut text = "script\n".to_string();
    let records = script.chunks_exact(18);
    let rest = records.remainder();
    for (record, write) in records.zip(writes(script)) {
        let _ = writeln!(text, "{} {}    # {}", dwords(&record[..2]), dwords(&record[2..]), write_words(&write));
    }
    if is_full() && !rest.is_empty() {
        let _ = writeln!(text, "{}    # cut", dwords(rest));
    }
    text
}

/// A line for each record.
fn trace_words(trace: &[u8]) -> String {
    let mut text = String::new();
    let Some((_, rest)) = trace.split_first() else { return text };
    for (number, header) in (1_u64..).zip(Headers::of_records(rest)) {
        let _ = writeln!(text, "{number} {}", header_words(header));
    }
    if let Some(cut) = cut(trace, Headers::of_records(rest)) {
        let _ = writeln!(text, "{cut}");
    }
    text
}

fn header_words(header: &[u8]) -> String {
    read(header).map_or_else(|refusal| refusal.to_string(), |packet| words::title(&packet))
}

/// `03:00.0 10h: 0000F8F0`, with the bytes that are not written as dots.
fn write_words(write: &RegisterWrite) -> String {
    let byte = |at: usize| match write.enables >> at & 1 {
        1 => format!("{:02X}", write.data[at]),
        _ => "..".to_string(),
    };
    let bytes: Vec<String> = (0..4).map(byte).collect();
    format!("{} {:02X}h: {}", write.id, write.register, bytes.join(" "))
}
