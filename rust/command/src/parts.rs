//! A trace as it is read: parts of whole records, one after the other, in buffers that are used again.

use crate::failure::Failure;
use crate::full::is_full;
use crate::json;
use crate::logged::Logged;
use crate::trace::{Far, Feed};
use cartsundial::{Annotator, Headers, Label, LONGEST_LINE};
use std::str::FromStr;

/// The most records of a part: the room for their lines stays small.
pub const MOST: usize = 8192;

/// Whole records of a trace.
#[derive(Default)]
pub struct Part {
    /// How many records stand before it in the trace.
    pub before: u64,
    pub bytes: Vec<u8>,
    pub count: usize,
    /// Of lines, what a log says beside each record; else empty.
    pub logged: Vec<Logged>,
}

impl Part {
    /// Whether a log says anything beside them.
    pub fn has_words(&self) -> bool {
        self.logged.iter().any(Logged::has_words)
    }

    /// The records' headers, each with its number in the trace.
    pub fn headers(&self) -> impl Iterator<Item = (u64, &[u8])> {
        (self.before + 1..).zip(Headers::of_records(&self.bytes))
    }
}

/// Which records of a trace are meant, by their numbers: `--records 1000001-2000000`.
#[derive(Clone, Copy, Debug, PartialEq, Eq)]
pub struct Range {
    first: u64,
    last: u64,
}

impl Range {
    pub const ALL: Range = Range { first: 1, last: u64::MAX };
}

/// `5-9`, `5-`, `-9` or `5`.
impl FromStr for Range {
    type Err = String;

    fn from_str(text: &str) -> Result<Range, String> {
        let wrong = || {
            format!(
                "{text}: records are two numbers from 1 on, the first not above the last, as 1-1000000; or 1000001-"
            )
        };
        let (first, last) = text.split_once('-').unwrap_or((text, text));
        let number = |digits: &str, else_: u64| match digits {
            "" => Ok(else_),
            _ => digits.parse().map_err(|_| wrong()),
        };
        let range = Range { first: number(first, 1)?, last: number(last, u64::MAX)? };
        let is_range = (1..=range.last).contains(&range.first) && text.contains(|letter: char| letter.is_ascii_digit());
        is_range.then_some(range).ok_or_else(wrong)
    }
}

/// How a trace ended.
#[derive(Clone, Copy, Debug, PartialEq, Eq)]
pub enum End {
    Whole,
    /// Before its end: the last record that was asked for is there.
    NotReached,
    /// Inside this record, which starts at this byte of the trace.
    Cut {
        record: u64,
        offset: u64,
        has: usize,
    },
    /// No bytes, or another version's.
    NoTrace,
}

pub struct Parts {
    feed: Feed,
    range: Range,
    /// The most records of a part.
    most: usize,
    /// What was read after the part that was given last.
    rest: Vec<u8>,
    rest_logged: Vec<Logged>,
    /// How many records were read, and how many bytes of the trace they take with the version byte.
    records: u64,
    offset: u64,
    has_version: bool,
    /// After the version byte. After another version's, nothing is labelled.
    annotator: Annotator,
    has_ended: bool,
}

impl Parts {
    pub fn new(feed: Feed, range: Range) -> Parts {
        let has_version = feed.is_headers();
        Parts {
            feed,
            range,
            most: MOST,
            rest: Vec::new(),
            rest_logged: Vec::new(),
            records: 0,
            offset: 0,
            has_version,
            annotator: Annotator::new(),
            has_ended: false,
        }
    }

    pub fn name(&self) -> &str {
        self.feed.name()
    }

    pub fn far(&self) -> Far {
        self.feed.far()
    }

    /// Puts the next records into the part. Returns whether there were any.
    pub fn next(&mut self, part: &mut Part) -> Result<bool, Failure> {
        while self.records < self.range.last && self.fill(part)? {
            if self.keep(part) {
                return Ok(true);
            }
        }
        Ok(false)
    }

    /// The next records, as soon as one is whole: a trace that is still captured is labelled as it comes.
    fn fill(&mut self, part: &mut Part) -> Result<bool, Failure> {
        part.bytes.clear();
        part.logged.clear();
        part.bytes.append(&mut self.rest);
        part.logged.append(&mut self.rest_logged);
        loop {
            self.take_version(&mut part.bytes);
            let mut records = Headers::of_records(&part.bytes);
            let count = if self.is_of_other_version() { 0 } else { records.by_ref().take(self.most).count() };
            if count > 0 {
                let end = part.bytes.len() - records.rest().len();
                self.rest.extend_from_slice(&part.bytes[end..]);
                part.bytes.truncate(end);
                self.rest_logged.extend(part.logged.drain(count.min(part.logged.len())..));
                (part.before, part.count) = (self.records, count);
                self.records += count as u64;
                self.offset += end as u64;
                return Ok(true);
            }
            if self.has_ended || self.is_of_other_version() {
                self.rest.append(&mut part.bytes);
                return Ok(false);
            }
            self.has_ended = !self.feed.more(&mut part.bytes, &mut part.logged)?;
        }
    }

    /// Cuts a part to the records that are asked for. Returns whether any are left.
    fn keep(&mut self, part: &mut Part) -> bool {
        let Range { first, last } = self.range;
        let leave = (first - 1).saturating_sub(part.before).min(part.count as u64) as usize;
        let over = self.records.saturating_sub(last) as usize;
        if leave > 0 || over > 0 {
            let mut records = Headers::of_records(&part.bytes);
            records.by_ref().take(leave).for_each(drop);
            let start = part.bytes.len() - records.rest().len();
            records.by_ref().take(part.count - leave - over).for_each(drop);
            let end = part.bytes.len() - records.rest().len();
            part.bytes.truncate(end);
            part.bytes.drain(..start);
            if !part.logged.is_empty() {
                part.logged.truncate(part.count - over);
                part.logged.drain(..leave);
            }
            part.before += leave as u64;
            part.count -= leave + over;
        }
        part.count > 0
    }

    fn take_version(&mut self, bytes: &mut Vec<u8>) {
        if self.has_version || bytes.is_empty() {
            return;
        }
        // No line comes with the version byte but `refused 21`, which `last_line` asks for again.
        let _ = self.annotator.feed(&[1][..], &bytes[..1], &mut [0; LONGEST_LINE]);
        if !self.annotator.is_of_other_version() {
            bytes.remove(0);
            (self.has_version, self.offset) = (true, 1);
        }
    }

    fn is_of_other_version(&self) -> bool {
        self.annotator.is_of_other_version()
    }

    /// After the last part.
    pub fn end(&self) -> End {
        if self.records >= self.range.last {
            return End::NotReached;
        }
        match (self.has_version, self.rest.len()) {
            (false, _) => End::NoTrace,
            (true, 0) => End::Whole,
            (true, has) => End::Cut { record: self.records + 1, offset: self.offset, has },
        }
    }

    /// How many records there are, where it was read to its end and none was asked for.
    pub fn none_asked(&self) -> Option<u64> {
        (self.range.first > 1 && self.range.first > self.records).then_some(self.records)
    }

    /// What of a record is there, where the trace ends inside it.
    pub fn rest(&self) -> &[u8] {
        &self.rest
    }

    /// The line that comes after those of all records, if there is one: the trace is cut, of another version or empty. It is the
    /// same over every sheet.
    pub fn last_line(&self) -> Vec<u8> {
        if self.end() == End::NotReached {
            return Vec::new();
        }
        let is_start = !self.has_version;
        let mut annotator = if is_start { Annotator::new() } else { Annotator::after(self.records) };
        // Of another version the first byte says it.
        let rest = if is_start { &self.rest[..self.rest.len().min(1)] } else { &self.rest[..] };
        let mut room = [0; 2 * LONGEST_LINE];
        let fed = annotator.feed(&[1][..], rest, &mut room).expect("there is room for a line");
        let ended = annotator.finish(&mut room[fed..]).expect("there is room for a line");
        room[..fed + ended].to_vec()
    }

    /// What that line says.
    pub fn last_label(&self) -> Option<Label> {
        std::str::from_utf8(&self.last_line()).expect("lines are text").trim_end().parse().ok()
    }

    /// The same as an object: `{"cut": true, "number": 11, "offset": 153}`.
    pub fn last_json(&self) -> Vec<u8> {
        let mut out = Vec::new();
        match (self.last_label(), self.end()) {
            (Some(Label::NoTrace(refusal)), _) => json::line(&mut out, |line| {
                line.number("refused", refusal.number()).text("meaning", refusal.meaning());
            }),
            (_, End::Cut { record, offset, .. }) => json::line(&mut out, |line| {
                line.flag("cut", true).number("number", record).number("offset", offset);
            }),
            _ => {}
        }
        out
    }

    /// What the trace itself gets, after the last part.
    pub fn ended(&self) -> Result<(), Failure> {
        match (self.last_label(), self.cut()) {
            (Some(Label::NoTrace(refusal)), _) => Err(Failure::refused(self.name(), refusal)),
            (_, Some(cut)) if is_full() => Err(Failure::Refused(format!("{}: {cut}", self.name()))),
            (_, Some(_)) => Err(Failure::Refused(format!("{}: it ends inside a record", self.name()))),
            _ => Ok(()),
        }
    }

    /// `it ends inside record 11, which starts at byte 153: its length says 16 bytes, and 9 are there`.
    pub fn cut(&self) -> Option<String> {
        let End::Cut { record, offset, has } = self.end() else { return None };
        let start = format!("it ends inside record {record}, which starts at byte {offset}");
        Some(match self.rest.first_chunk() {
            None => format!("{start}: of its length there is {has} byte"),
            Some(length) => {
                let length = u16::from_be_bytes(*length);
                format!("{start}: its length says {length} bytes, and {} are there", has - 2)
            }
        })
    }
}

#[cfg(test)]
mod tests {
    use super::*;
    use std::{env, fs, process};

    #[test]
    fn every_record_is_in_one_part() {
        let records: Vec<u8> =
            (0..100_u8).flat_map(|length| [vec![0, length], vec![7; length.into()]].concat()).collect();
        let file = env::temp_dir().join(format!("cartsundial-parts-{}", process::id()));
        // The version byte, and five records that are not asked for.
        fs::write(&file, [&[1][..], &[0; 10], &records].concat()).unwrap();
        for jobs in 1..12 {
            let feed = Feed::open(file.to_str().unwrap()).unwrap();
            let mut all = Parts { most: 100_usize.div_ceil(jobs), ..Parts::new(feed, "6-".parse().unwrap()) };
            let (mut part, mut bytes, mut before) = (Part::default(), Vec::<u8>::new(), 5);
            while all.next(&mut part).unwrap() {
                assert_eq!(part.before, before);
                before += Headers::of_records(&part.bytes).count() as u64;
                bytes.extend(&part.bytes);
            }
            assert_eq!(bytes, records);
            assert_eq!((before, all.end()), (105, End::Whole));
        }
        fs::remove_file(file).unwrap();
    }

    #[test]
    fn ranges() {
        let range = |first, last| Ok(Range { first, last });
        for (text, expected) in [
            ("5-9", range(5, 9)),
            ("5-", range(5, u64::MAX)),
            ("-9", range(1, 9)),
            ("5", range(5, 5)),
            ("1-1", range(1, 1)),
        ] {
            assert_eq!(text.parse(), expected, "{text}");
        }
        for text in ["", "-", "0-4", "5-4", "a-b", "1-2-3", "1,2", "-0"] {
            assert!(text.parse::<Range>().is_err(), "{text}");
        }
    }
}
