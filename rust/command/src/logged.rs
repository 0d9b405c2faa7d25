//! Headers as people have them: hexadecimal in any spacing, lines of a log with the time and the device that logged them, and
//! traces. A log is read as it grows: each header comes as soon as its line is there.

use crate::failure::Failure;
use crate::hexadecimal;
use crate::import::read_address;
use crate::source::{called, has_text, open, peeked, trace_of};
use std::io::{self, BufRead, BufReader, Read};

/// What stands before the words of a header in logs: dmesg and DPC, the tracepoint, lspci.
const MARKS: [&str; 3] = ["TLP Header:", "TLP Header=", "HeaderLog:"];

/// A header of four words at the most; a log may have more words after them.
const LONGEST: usize = 4;

/// A header, and what a log says beside it.
#[derive(Clone, Debug, Default, PartialEq, Eq)]
pub struct Logged {
    pub header: Vec<u8>,
    /// As the log has it: `11.604989`, or `Nov 18 03:14:28`.
    pub time: Option<String>,
    /// Who logged it, as the log has it: `0000:01:00.0`.
    pub device: Option<String>,
}

impl Logged {
    fn of(header: Vec<u8>) -> Logged {
        Logged { header, ..Logged::default() }
    }

    /// Whether a log says anything beside it.
    pub fn has_words(&self) -> bool {
        self.time.is_some() || self.device.is_some()
    }

    /// `[11.604989] 0000:01:00.0: `, for the start of a line; nothing where no log says anything.
    pub fn start(&self) -> String {
        let time = self.time.as_ref().map(|time| format!("[{time}]"));
        let words: Vec<String> = time.into_iter().chain(self.device.clone()).collect();
        if words.is_empty() {
            String::new()
        } else {
            words.join(" ") + ": "
        }
    }
}

type Headers = Box<dyn Iterator<Item = Result<Logged, Failure>>>;

/// The headers of arguments: what is hexadecimal is one, words of up to eight digits are one together, and what is not names a
/// file, a trace or a log. With none of them, or `-`, of standard input.
pub fn headers_of(arguments: &[String]) -> Result<Headers, Failure> {
    if arguments.is_empty() {
        return open_headers("-");
    }
    // A header of no bytes is one too.
    let is_header = |text: &&String| text.trim().is_empty() || is_hexadecimal(text);
    if !arguments.iter().any(|text| is_header(&text)) {
        let opened: Result<Vec<Headers>, Failure> = arguments.iter().map(|name| open_headers(name)).collect();
        return Ok(Box::new(opened?.into_iter().flatten()));
    }
    if let Some(other) = arguments.iter().find(|text| !is_header(text)) {
        return Err(Failure::Usage(format!("{other} is no header, and the others are: a header is hexadecimal")));
    }
    let wrong = |what| Failure::Usage(format!("a header is hexadecimal: {what}"));
    let is_word = |text: &String| text.trim_start_matches("0x").len() <= 8;
    let texts = if arguments.iter().all(is_word) { vec![arguments.join(" ")] } else { arguments.to_vec() };
    let headers: Result<Vec<Vec<u8>>, Failure> =
        texts.iter().map(|text| hexadecimal::bytes(text).map_err(wrong)).collect();
    Ok(Box::new(headers?.into_iter().map(|header| Ok(Logged::of(header)))))
}

/// Whether they may come from standard input, which may grow.
pub fn are_followed(arguments: &[String]) -> bool {
    arguments.is_empty() || arguments.iter().any(|name| name == "-")
}

/// The headers of a file: of a trace, bytes or text, or of lines.
pub fn open_headers(name: &str) -> Result<Headers, Failure> {
    let (front, reader) = peeked(name, open(name)?)?;
    if front.is_empty() || are_lines(&front) {
        return Ok(Box::new(Lines::new(name, io::Cursor::new(front).chain(reader))));
    }
    Ok(Box::new(Records::new(name, trace_of(name, front, reader)?)))
}

/// Whether an input that begins so has headers in its lines, and is no trace. An empty one has none.
pub fn are_lines(front: &[u8]) -> bool {
    let text = String::from_utf8_lossy(front);
    let code = text.lines().map(code).find(|code| !code.is_empty()).unwrap_or("");
    let is_trace = |bytes: &[u8]| matches!(bytes, [] | [1] | [1, 0] | [1, 0, 12..=20, ..]);
    let is_sheet = code.starts_with("sheet") || code.starts_with("host") || matches!(code, "trace" | "script");
    has_text(front) && !is_sheet && !hexadecimal::bytes(code).is_ok_and(|bytes| is_trace(&bytes))
}

/// A line without its comment.
fn code(line: &str) -> &str {
    line.split('#').next().unwrap_or("").trim()
}

/// Digits and what may stand between them.
fn is_hexadecimal(text: &str) -> bool {
    let between = |letter: char| letter.is_whitespace() || matches!(letter, ',' | '_' | ':');
    let mut words = text.split(between).filter(|word| !word.is_empty()).peekable();
    let digits = |word: &str| word.strip_prefix("0x").or(word.strip_prefix("0X")).unwrap_or(word).to_string();
    words.peek().is_some() && words.all(|word| digits(word).bytes().all(|letter| letter.is_ascii_hexdigit()))
}

/// Headers in lines. A text whose first line is one in hexadecimal has nothing else, but comments; any other is a log, of which
/// the lines with a mark are taken and all others passed over.
pub struct Lines<R> {
    reader: BufReader<R>,
    name: String,
    /// Of lines that were read.
    number: u64,
    is_log: Option<bool>,
    /// The function that lspci's lines are about.
    function: Option<String>,
    has_any: bool,
    is_over: bool,
}

impl<R: Read> Lines<R> {
    pub fn new(name: &str, reader: R) -> Lines<R> {
        let (reader, name) = (BufReader::new(reader), called(name).to_string());
        Lines { reader, name, number: 0, is_log: None, function: None, has_any: false, is_over: false }
    }

    pub fn reader(&self) -> &R {
        self.reader.get_ref()
    }

    /// Whether a line is there already, so that nobody waits for it.
    pub fn has_line(&self) -> bool {
        self.reader.buffer().contains(&b'\n')
    }

    /// `None` after the last one.
    fn line(&mut self) -> Result<Option<String>, Failure> {
        let mut bytes = Vec::new();
        let length = self.reader.read_until(b'\n', &mut bytes).map_err(Failure::stream(&self.name))?;
        self.number += 1;
        Ok(Some(String::from_utf8_lossy(&bytes).trim_end().to_string()).filter(|_| length > 0))
    }

    /// The header of a line, if it has one.
    fn of_line(&mut self, line: &str) -> Result<Option<Logged>, Failure> {
        let code = code(line);
        let is_marked = MARKS.iter().any(|mark| line.contains(mark));
        if code.is_empty() && !is_marked {
            return Ok(None);
        }
        if is_marked || *self.is_log.get_or_insert_with(|| !is_hexadecimal(code)) {
            self.is_log = Some(true);
            return Ok(self.of_log(line));
        }
        let wrong = |what| Failure::Usage(format!("{}, line {}: {what}", self.name, self.number));
        hexadecimal::bytes(code).map(|header| Some(Logged::of(header))).map_err(wrong)
    }

    fn of_log(&mut self, line: &str) -> Option<Logged> {
        let first = line.split(' ').next().unwrap_or("");
        if read_address(first).is_some() {
            self.function = Some(first.to_string());
        }
        let (before, rest) = MARKS.iter().find_map(|mark| line.split_once(mark))?;
        let own = before.trim().is_empty().then(|| self.function.clone()).flatten();
        Some(Logged { header: words(rest)?, time: time(before), device: device(before).or(own) })
    }
}

impl<R: Read> Iterator for Lines<R> {
    type Item = Result<Logged, Failure>;

    fn next(&mut self) -> Option<Result<Logged, Failure>> {
        while !self.is_over {
            let found = match self.line() {
                Ok(Some(line)) => self.of_line(&line),
                Ok(None) => {
                    self.is_over = true;
                    let words = "no header: neither a line in hexadecimal nor one with `TLP Header:`";
                    return (!self.has_any).then(|| Err(Failure::Usage(format!("{} has {words}", self.name))));
                }
                Err(failure) => Err(failure),
            };
            self.is_over = found.is_err();
            if let Some(found) = found.transpose() {
                self.has_any = true;
                return Some(found);
            }
        }
        None
    }
}

/// The words after a mark, each of 32 bits, up to the first that is none. Where nothing was logged, lspci shows zeros, which
/// are no header. A header in flit mode has another layout, and another mark: `TLP Header (Flit):`.
fn words(rest: &str) -> Option<Vec<u8>> {
    let rest = rest.trim_start().trim_start_matches('{');
    let split = rest.split(|letter: char| letter.is_whitespace() || letter == ',' || letter == '}');
    let digits = |word: &str| u32::from_str_radix(word.strip_prefix("0x").unwrap_or(word), 16).ok();
    let words = split.filter(|word| !word.is_empty()).map_while(digits).take(LONGEST);
    let header: Vec<u8> = words.flat_map(u32::to_be_bytes).collect();
    header.iter().any(|byte| *byte != 0).then_some(header)
}

/// `[   11.604989]` and `[Wed Nov 18 03:14:28 2026]` of dmesg, `Nov 18 03:14:28 box kernel:` of a journal, and of a tracepoint
/// the number before its name.
fn time(before: &str) -> Option<String> {
    let bare = |text: &str| text.trim().trim_start_matches('[').trim_end_matches(']').trim().to_string();
    if let Some((stamp, _)) = before.split_once(" kernel: ") {
        return stamp.trim().rsplit_once(' ').map(|(time, _box)| bare(time));
    }
    let is_time = |text: &&str| text.contains(['.', ':']) && text.contains(|letter: char| letter.is_ascii_digit());
    let in_brackets = before.split('[').skip(1).filter_map(|rest| rest.split_once(']')).map(|(inside, _)| inside);
    let of_event = || before.split_once("aer_event:")?.0.split_whitespace().next_back()?.strip_suffix(':');
    in_brackets.map(str::trim).find(is_time).or_else(of_event).map(str::to_string)
}

/// The last function that is named before the mark.
fn device(before: &str) -> Option<String> {
    let words = before.split_whitespace().map(|word| word.trim_end_matches([':', ',']));
    words.rev().find(|word| read_address(word).is_some()).map(str::to_string)
}

/// The records of a trace, one by one.
struct Records<R> {
    trace: BufReader<R>,
    name: String,
    number: u64,
    offset: u64,
    is_over: bool,
}

impl<R: Read> Records<R> {
    fn new(name: &str, trace: R) -> Records<R> {
        let (trace, name) = (BufReader::new(trace), called(name).to_string());
        Records { trace, name, number: 0, offset: 0, is_over: false }
    }

    /// As many bytes as these, or fewer at the end.
    fn take(&mut self, length: usize) -> Result<Vec<u8>, Failure> {
        let mut bytes = Vec::new();
        let read = self.trace.by_ref().take(length as u64).read_to_end(&mut bytes);
        read.map_err(Failure::stream(&self.name))?;
        Ok(bytes)
    }

    fn record(&mut self) -> Result<Option<Vec<u8>>, Failure> {
        if self.offset == 0 {
            let version = self.take(1)?;
            cartsundial::headers(&version).map_err(|refusal| Failure::refused(&self.name, refusal))?;
            self.offset = 1;
        }
        let length = self.take(2)?;
        let [high, low] = length[..] else { return if length.is_empty() { Ok(None) } else { Err(self.cut()) } };
        let header = self.take(usize::from(u16::from_be_bytes([high, low])))?;
        if header.len() < usize::from(u16::from_be_bytes([high, low])) {
            return Err(self.cut());
        }
        self.offset += 2 + header.len() as u64;
        self.number += 1;
        Ok(Some(header))
    }

    fn cut(&self) -> Failure {
        let (next, at) = (self.number + 1, self.offset);
        Failure::Refused(format!("{}: it ends inside record {next}, which starts at byte {at}", self.name))
    }
}

impl<R: Read> Iterator for Records<R> {
    type Item = Result<Logged, Failure>;

    fn next(&mut self) -> Option<Result<Logged, Failure>> {
        if self.is_over {
            return None;
        }
        let record = self.record();
        self.is_over = !matches!(record, Ok(Some(_)));
        Some(record.transpose()?.map(Logged::of))
    }
}

#[cfg(test)]
mod tests {
    use super::*;

    fn of_text(text: &str) -> Result<Vec<Logged>, Failure> {
        Lines::new("log", text.as_bytes()).collect()
    }

    /// The headers alone.
    fn of_log(text: &str) -> Result<Vec<Vec<u8>>, Failure> {
        Ok(of_text(text)?.into_iter().map(|one| one.header).collect())
    }

    #[test]
    fn logs() {
        let log = "\
            [  1.0] pcieport 0000:00:02.0: AER: Corrected error\r\n\
            [  1.1] e1000e 0000:01:00.0: AER:   TLP Header: 00000001 0000050f fe240ffc 00000000\r\n\
            x 0000:01:00.0:   TLP Header: 0x40000001 0x0000050f 0xfe240ffc 0x00000000 E-E Prefixes: 0x91000000\n\
            aer_event: TLP Header={0x1,0x50f,0xfe240ffc,0x0,0x0,0x0}\n\
            \t\tHeaderLog: 04000001 0000220f 01070000 9eece789\n\
            \t\tHeaderLog: 00000000 00000000 00000000 00000000\n\
            x: TLP Header (Flit): 00000001 0000050f\n";
        let headers = of_log(log).unwrap();
        let first: Vec<u8> = headers.iter().map(|header| header[0]).collect();
        assert_eq!(first, [0x00, 0x40, 0x00, 0x04]);
        assert!(headers.iter().all(|header| header.len() == 16));
        assert_eq!(headers[0], headers[2]);
    }

    #[test]
    fn times_and_devices() {
        let log = "\
            [  1.0] pcieport 0000:00:02.0: AER: Corrected error\r\n\
            [  1.1] e1000e 0000:01:00.0: AER:   TLP Header: 00000001 0000050f fe240ffc 00000000\r\n\
            x 0000:01:00.0:   TLP Header: 0x40000001 0x0000050f 0xfe240ffc 0x00000000 E-E Prefixes: 0x91000000\n\
            <idle>-0 [000] d.h. 12.25: aer_event: 0000:02:00.0 PCIe Bus Error: severity=x, TLP Header={0x1,0x50f,0xfe240ffc,0x0,0x0}\n\
            00:1c.0 PCI bridge: a port\n\
            \t\tHeaderLog: 04000001 0000220f 01070000 9eece789\n\
            \t\tHeaderLog: 00000000 00000000 00000000 00000000\n\
            x: TLP Header (Flit): 00000001 0000050f\n\
            Nov 18 03:14:28 box kernel: pcieport 0000:03:00.0: AER: TLP Header: 00000001 0000050f fe240ffc 0\n\
            [Wed Nov 18 03:14:28 2026] {1}[Hardware Error]: TLP Header: 00000001 0000050f fe240ffc 0\n";
        let headers = of_text(log).unwrap();
        let first: Vec<u8> = headers.iter().map(|one| one.header[0]).collect();
        assert_eq!(first, [0x00, 0x40, 0x00, 0x04, 0x00, 0x00]);
        assert!(headers.iter().all(|one| one.header.len() == 16));
        assert_eq!(headers[0].header, headers[2].header);
        let beside: Vec<_> = headers.iter().map(|one| (one.time.as_deref(), one.device.as_deref())).collect();
        assert_eq!(
            beside,
            [
                (Some("1.1"), Some("0000:01:00.0")),
                (None, Some("0000:01:00.0")),
                (Some("12.25"), Some("0000:02:00.0")),
                (None, Some("00:1c.0")),
                (Some("Nov 18 03:14:28"), Some("0000:03:00.0")),
                (Some("Wed Nov 18 03:14:28 2026"), None),
            ]
        );
        assert_eq!(headers[0].start(), "[1.1] 0000:01:00.0: ");
        assert_eq!(Logged::default().start(), "");
    }

    #[test]
    fn arguments_in_any_spacing() {
        let of = |words: &[&str]| {
            let words: Vec<String> = words.iter().map(|word| word.to_string()).collect();
            headers_of(&words).unwrap().map(|one| one.unwrap().header).collect::<Vec<_>>()
        };
        let one = of(&["00000001", "0000050f", "fe240ffc"]);
        assert_eq!(one.len(), 1);
        assert_eq!(of(&["00 00 00 01 00 00 05 0f fe 24 0f fc"]), one);
        assert_eq!(of(&["000000010000050ffe240ffc", "0x00000001_0000050f_fe240ffc"]), [&one[..], &one[..]].concat());
        assert_eq!(of_log("# none\n000000010000050ffe240ffc # one\n").unwrap(), one);
        assert!(of_log("hello").is_err() && of_log("").is_err() && of_log("HeaderLog: 00000000 00000000").is_err());
        for text in ["hello", "", "HeaderLog: 00000000 00000000", "00000001\nhello"] {
            assert!(of_text(text).is_err(), "{text}");
        }
        assert!(
            !is_hexadecimal("x.bin") && !is_hexadecimal("xxx") && !is_hexadecimal("") && is_hexadecimal("0x00,0X01")
        );
        assert!(headers_of(&["001".into()]).is_err() && headers_of(&["00000001".into(), "x.txt".into()]).is_err());
    }

    #[test]
    fn lines_and_traces() {
        for text in
            ["000000010000050ffe240ffc", "# x\n00 00 00 01", "[ 1.0] pcieport", "01000001 0000050f fe240ffc", "x"]
        {
            assert!(are_lines(text.as_bytes()), "{text}");
        }
        for text in
            ["", "01", "# x\n01 # version\n000C", "01000C 00000001", "trace\n01", "sheet of 1 function", "\u{1}\0\u{C}"]
        {
            assert!(!are_lines(text.as_bytes()), "{text:?}");
        }
        let records = |bytes: &'static [u8]| Records::new("x", bytes);
        let all: Vec<_> = records(&[1, 0, 2, 7, 8, 0, 0, 0]).collect();
        assert_eq!(all[0].as_ref().unwrap().header, [7, 8]);
        assert!(all[1].as_ref().unwrap().header.is_empty());
        let Some(Err(Failure::Refused(why))) = all.get(2) else { panic!("a cut trace is whole") };
        assert_eq!(why, "x: it ends inside record 3, which starts at byte 7");
        assert!(matches!(records(&[2]).next(), Some(Err(Failure::Refused(_)))));
    }
}
