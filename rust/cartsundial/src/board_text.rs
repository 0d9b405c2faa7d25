//! A board's text, for people: the host, then the tree below it by indentation.
//!
//! ```text
//! host buses 00-FF low F8000000+64M high 240000000+1G io 4000-4FFF
//! bridge 00.0 "root port"
//!   bridge 00.0 "slot", spare 2 buses, spare 4M
//!     card 00.0 "capture" mem32 64K, -, mem64p 64M, command 0006
//! ```
//!
//! Buses, devices, addresses and command words are hexadecimal, as in every answer; sizes and counts are decimal, and so
//! is an address with a unit (`16G`). A line is a host or a function; `#` starts a comment; carriage returns do not matter.

use crate::built::{Board, BoardFunction, COMMAND};
use crate::{Bar, BarKind, HostRecord, Refusal, Size, Spares};
use alloc::boxed::Box;
use alloc::format;
use alloc::string::{String, ToString};
use alloc::vec::Vec;
use core::error::Error;
use core::fmt;
use core::ops::RangeInclusive;
use core::str::FromStr;

/// Spare memory is counted in MiB.
const MIB: u64 = 1 << 20;

/// What is wrong with a board's text, and where. *With the feature `alloc`.*
///
/// ```
/// use cartsundial::Board;
///
/// let error = "host\ncard 00.0 \"gpu\" mem128 16M".parse::<Board>().unwrap_err();
/// assert_eq!(error.to_string(), "line 2: `mem128`: a BAR is mem32, mem32p, mem64, mem64p, io, or - for an unused slot");
/// assert_eq!((error.line, error.column), (2, 17));
/// assert_eq!(
///     error.full(),
///     "line 2, column 17: `mem128`: a BAR is mem32, mem32p, mem64, mem64p, io or io16, or - for a slot that is not used, as `mem32 16M`"
/// );
/// ```
#[derive(Clone, Debug, PartialEq, Eq)]
pub struct BoardTextError {
    /// From 1.
    pub line: usize,
    /// What is wrong.
    pub what: String,
    /// The letter of the line, from 1.
    pub column: usize,
    /// What stands there; empty where something is missing.
    pub item: String,
    /// What is wrong there, what is expected, and an example.
    pub expected: String,
    /// The number that a board has which says so: 25 for a BAR's size. `None` where there is no such board.
    pub refusal: Option<Refusal>,
    /// What was read before it.
    pub before: Option<Box<Board>>,
}

impl fmt::Display for BoardTextError {
    fn fmt(&self, f: &mut fmt::Formatter<'_>) -> fmt::Result {
        write!(f, "line {}: {}", self.line, self.what)
    }
}

impl BoardTextError {
    /// The place, what stands there, and what is expected, in one line.
    pub fn full(&self) -> String {
        let item = if self.item.is_empty() { String::new() } else { format!("`{}`: ", self.item) };
        format!("line {}, column {}: {item}{}", self.line, self.column, self.expected)
    }
}

impl Error for BoardTextError {}

/// What is wrong with a part of a line, which is a slice of it.
struct Wrong<'a> {
    part: &'a str,
    what: String,
    expected: String,
    refusal: Option<Refusal>,
}

impl<'a> Wrong<'a> {
    fn new(part: &'a str, what: impl Into<String>, expected: impl Into<String>) -> Wrong<'a> {
        Wrong { part, what: what.into(), expected: expected.into(), refusal: None }
    }

    fn err<T>(part: &'a str, what: impl Into<String>, expected: impl Into<String>) -> Result<T, Wrong<'a>> {
        Err(Wrong::new(part, what, expected))
    }

    /// What only a strict reader refuses.
    fn strict<T>(part: &'a str, what: impl Into<String>) -> Result<T, Wrong<'a>> {
        let what = what.into();
        Err(Wrong::new(part, what.clone(), what))
    }

    fn at(self, line: &str, number: usize, tree: Option<Tree>) -> BoardTextError {
        let start = (self.part.as_ptr() as usize).checked_sub(line.as_ptr() as usize);
        let column = start.and_then(|start| line.get(..start)).map_or(1, |before| before.chars().count() + 1);
        let item = String::from(self.part);
        let before = tree.map(|tree| Box::new(tree.board));
        let Wrong { what, expected, refusal, .. } = self;
        BoardTextError { line: number, what, column, item, expected, refusal, before }
    }
}

/// The end of a text, where something is missing after it.
fn end(text: &str) -> &str {
    &text[text.len()..]
}

/// The text of a board, with the functions' names.
///
/// ```
/// use cartsundial::Board;
///
/// let text = "host low F9000000+16M # the pools that are not named are closed\r\ncard 00.0 \"timecode\" mem32 4K\r\n";
/// let board: Board = text.parse().unwrap();
/// assert_eq!(board.function(1).unwrap().name.as_deref(), Some("timecode"));
/// assert_eq!(board.to_string(), "host buses 00-FF low F9000000+16M\ncard 00.0 \"timecode\" mem32 4K\n");
/// assert_eq!("host\ncard 20.0".parse::<Board>().unwrap_err().line, 2);
/// ```
impl FromStr for Board {
    type Err = BoardTextError;

    fn from_str(text: &str) -> Result<Board, BoardTextError> {
        read(text, false)
    }
}

impl Board {
    /// As by `parse`, but what is most likely a slip is refused too: tabs beside spaces before lines, a name without a function, a
    /// name of the host, a number with a sign.
    pub fn read_strictly(text: &str) -> Result<Board, BoardTextError> {
        read(text, true)
    }
}

fn read(text: &str, is_strict: bool) -> Result<Board, BoardTextError> {
    let mut tree: Option<Tree> = None;
    for (number, text) in (1..).zip(text.lines()) {
        let line = Line::of(text);
        if line.is_blank(is_strict) {
            continue;
        }
        let new = |board| Tree { board, above: Vec::new(), indents: None, is_strict };
        let added = match &mut tree {
            None => read_host(&line, is_strict).map(|board| tree = Some(new(board))),
            Some(tree) => tree.add(&line, number),
        };
        if let Err(wrong) = added {
            return Err(wrong.at(text, number, tree));
        }
    }
    let missing = || Wrong::new("", HOST_FIRST, host_first()).at("", 1, None);
    tree.map(|tree| tree.board).ok_or_else(missing)
}

const HOST_FIRST: &str = "a board's text starts with `host`";

fn host_first() -> String {
    format!("{HOST_FIRST}, as `host buses 00-FF low E0000000+64M io 2000-5FFF`")
}

/// A line without its comment.
struct Line<'a> {
    /// The spaces and tabs before it.
    indent: &'a str,
    /// Its words before and after a quoted name.
    words: &'a str,
    name: Option<&'a str>,
    rest: &'a str,
    /// From a quote on that has no second one.
    open: Option<&'a str>,
}

impl<'a> Line<'a> {
    fn of(text: &'a str) -> Line<'a> {
        let start = text.bytes().take_while(u8::is_ascii_whitespace).count();
        let end = text.find(['#', '"']).unwrap_or(text.len());
        let (words, after) = text.split_at(end);
        let mut line = Line { indent: &text[..start], words: words.trim(), name: None, rest: "", open: None };
        if let Some(quoted) = after.strip_prefix('"') {
            let Some((name, rest)) = quoted.split_once('"') else { return Line { open: Some(after), ..line } };
            line.name = Some(name);
            line.rest = rest.split('#').next().unwrap_or("").trim();
        }
        line
    }

    fn is_blank(&self, is_strict: bool) -> bool {
        let is_named = self.name.is_some() || self.open.is_some();
        self.words.is_empty() && !(is_strict && is_named)
    }

    /// How far it is indented; a tab reaches to the next multiple of eight.
    fn depth(&self) -> usize {
        self.indent.bytes().fold(0, |width, byte| if byte == b'\t' { (width / 8 + 1) * 8 } else { width + 1 })
    }
}

/// The board so far, and the bridges above the next line: how far each is indented, and its record.
struct Tree {
    board: Board,
    above: Vec<(usize, u16, bool)>,
    /// The first line that is indented, and whether by tabs.
    indents: Option<(usize, bool)>,
    is_strict: bool,
}

impl Tree {
    fn add<'a>(&mut self, line: &Line<'a>, number: usize) -> Result<(), Wrong<'a>> {
        if let Some(open) = line.open {
            let what = "a name ends with a second quote";
            return Wrong::err(open, what, format!("{what}, as `card 00.0 \"gpu\" mem32 16M`"));
        }
        let (word, place, items) = split_function(line)?;
        let is_bridge = match word {
            "bridge" => true,
            "card" => false,
            "host" => {
                return Wrong::err(word, "a board has one host", "a board has one host, and its line comes first")
            }
            _ => {
                let what = "a line starts with `bridge` or `card`";
                let expected = format!("{what}, as `card 00.0 \"gpu\" mem32 16M`");
                return Wrong::err(word, format!("`{word}`: {what}"), expected);
            }
        };
        if self.is_strict {
            self.check_indent(line, number)?;
        }
        let parent = self.parent(line)?;
        let (device, function) = read_place(place, self.is_strict)?;
        let added = match is_bridge {
            true => self.board.bridge(parent, device, function),
            false => self.board.card(parent, device, function, &[]),
        };
        let many = "more than 65,535 functions";
        let full = |refusal: Refusal| Wrong { refusal: Some(refusal), ..Wrong::new(word, refusal.to_string(), many) };
        let record = added.map_err(full)?;
        if let Err(wrong) = read_items(&mut self.board, record, items, self.is_strict) {
            self.board.functions.pop();
            return Err(wrong);
        }
        self.above.push((line.depth(), record, is_bridge));
        let one = self.board.functions.last_mut().expect("it was added");
        (one.name, one.line) = (line.name.map(String::from), Some(number));
        Ok(())
    }

    /// Tabs or spaces, not both: what is beside what would be seen by a width of tabs that the reader does not have.
    fn check_indent<'a>(&mut self, line: &Line<'a>, number: usize) -> Result<(), Wrong<'a>> {
        let has = |letter: u8| line.indent.bytes().position(|byte| byte == letter);
        let is_tabs = match (has(b'\t'), has(b' ')) {
            (None, None) => return Ok(()),
            (Some(tab), Some(space)) => {
                let at = &line.indent[tab.max(space)..][..1];
                return Wrong::strict(at, "a tab among spaces before a line: indent by spaces alone, or by tabs alone");
            }
            (tab, _) => tab.is_some(),
        };
        let (first, before) = *self.indents.get_or_insert((number, is_tabs));
        if before == is_tabs {
            return Ok(());
        }
        let [here, there] = if is_tabs { ["tabs", "spaces"] } else { ["spaces", "tabs"] };
        let what = format!("this line is indented by {here}, and line {first} by {there}: use one of them");
        Wrong::strict(&line.indent[..1], what)
    }

    /// The record that a line with this indentation is below, after leaving those that it is beside.
    fn parent<'a>(&mut self, line: &Line<'a>) -> Result<u16, Wrong<'a>> {
        let (indent, mut left) = (line.depth(), None);
        while self.above.last().is_some_and(|(above, ..)| *above >= indent) {
            left = self.above.pop();
        }
        if left.is_some_and(|(beside, ..)| beside != indent) {
            let beside = left.map_or(0, |(beside, ..)| beside);
            let above = self.above.last().map_or(0, |(above, ..)| *above);
            let expected = if self.above.is_empty() { format!("{beside}") } else { format!("{beside}, or {above}") };
            let what = "the line is indented neither as one beside it nor as one above it";
            let expected =
                format!("the line is indented by {indent}, and the lines that it could be beside by {expected}");
            return Wrong::err(word_of(line), what, expected);
        }
        match self.above.last() {
            None => Ok(0),
            Some((_, record, true)) => Ok(*record),
            Some((_, record, false)) => {
                let card = self.board.function(*record).and_then(|card| card.line).unwrap_or(0);
                let what = "nothing is below a card: only a bridge has lines indented below it";
                let expected = format!(
                    "it is indented below the card of line {card}, and nothing is below a card: only a `bridge` has lines below it"
                );
                Wrong::err(word_of(line), what, expected)
            }
        }
    }
}

/// A line's first word.
fn word_of<'a>(line: &Line<'a>) -> &'a str {
    line.words.split_whitespace().next().unwrap_or(line.words)
}

/// `bridge 00.0` with what follows: a name stands after the two words, and then the items.
fn split_function<'a>(line: &Line<'a>) -> Result<(&'a str, &'a str, &'a str), Wrong<'a>> {
    let (word, after) = line.words.split_once(char::is_whitespace).unwrap_or((line.words, end(line.words)));
    let after = after.trim_start();
    let (place, items) = after.split_once(char::is_whitespace).unwrap_or((after, end(after)));
    if line.name.is_none() {
        return Ok((word, place, items.trim()));
    }
    if !items.trim().is_empty() {
        let what = "a name stands right after the device and function";
        let expected = format!("{what}, and items after it, as `card 00.0 \"gpu\" mem32 16M`");
        return Wrong::err(items.trim(), format!("`{}`: {what}", items.trim()), expected);
    }
    Ok((word, place, line.rest.trim_start_matches(',').trim()))
}

/// `1F.7`: device and function.
fn read_place(text: &str, is_strict: bool) -> Result<(u8, u8), Wrong<'_>> {
    let numbers = text.split_once('.').and_then(|(device, function)| {
        let device = u8::from_str_radix(digits(device, is_strict)?, 16).ok().filter(|device| *device < 32)?;
        Some((device, digits(function, is_strict)?.parse().ok().filter(|function| *function < 8)?))
    });
    let what =
        || format!("`{text}`: a device and function, as 00.0 to 1F.7; the device is hexadecimal, as lspci has it");
    let expected = "device and function are expected, as 00.0 to 1F.7; the device is hexadecimal, as lspci has it";
    numbers.ok_or_else(|| Wrong::new(text, what(), expected))
}

/// Strictly digits alone: Rust's numbers may have a sign.
fn digits(text: &str, is_strict: bool) -> Option<&str> {
    let is_digits = text.bytes().all(|byte| byte.is_ascii_hexdigit());
    (is_digits || !is_strict).then_some(text)
}

/// What stands after a function's name, between commas.
fn read_items<'a>(board: &mut Board, record: u16, text: &'a str, is_strict: bool) -> Result<(), Wrong<'a>> {
    let (mut bars, mut slots, mut past) = (Vec::new(), 0, None);
    let (most, words_of_most) =
        if board.functions[usize::from(record) - 1].is_bridge { (2, "two") } else { (6, "six") };
    for item in text.split(',').map(str::trim).filter(|item| !item.is_empty()) {
        let mut words = item.split_whitespace();
        match [words.next(), words.next(), words.next()] {
            [Some("command"), word, None] => board.set_command(record, read_command(item, word, is_strict)?),
            [Some("spare"), first, second] => {
                let second = if words.next().is_none() { second } else { Some("") };
                read_spares(board, record, item, [first, second], is_strict)?
            }
            [Some("multi"), None, None] => board.functions[usize::from(record) - 1].is_multifunction = true,
            _ => {
                let bar = read_bar(item)?;
                slots += bar.kind.slots();
                if slots > most {
                    past = past.or(Some((item, slots - 1)));
                }
                bars.push(bar);
            }
        }
    }
    board.set_bars(record, &bars).map_err(|refusal| {
        let what = format!("more BARs than its {words_of_most} slots; one of 64 bits takes two");
        let (item, slot) = past.unwrap_or((text, slots));
        let many = format!("it needs slot {slot}, and there are {most}, from 0 on");
        let expected = format!("{many}; one of 64 bits takes two, and a bridge has two in all");
        Wrong { refusal: Some(refusal), ..Wrong::new(item, what, expected) }
    })
}

/// `0006`, also `0x6`.
fn read_command<'a>(item: &'a str, word: Option<&'a str>, is_strict: bool) -> Result<u16, Wrong<'a>> {
    let expected = "a command word is hexadecimal, 0000 to FFFF, as `command 0006` for memory and bus master";
    let Some(word) = word else { return Wrong::err(item, apart(item), expected) };
    let bare = word.strip_prefix("0x").or(word.strip_prefix("0X")).unwrap_or(word);
    let bare = bare.strip_suffix(['h', 'H']).unwrap_or(bare);
    let number = digits(bare, is_strict).and_then(|digits| u16::from_str_radix(digits, 16).ok());
    number.ok_or_else(|| Wrong::new(word, format!("`{word}`: no command word"), expected))
}

/// What is said of several words that are no item.
fn apart(item: &str) -> String {
    let words: Vec<&str> = item.split_whitespace().collect();
    format!("`{}`: items have a comma between them, as `mem32 16M, io 128`", words.join(" "))
}

/// `2 buses` or `4M`.
fn read_spares<'a>(
    board: &mut Board,
    record: u16,
    item: &'a str,
    words: [Option<&'a str>; 2],
    is_strict: bool,
) -> Result<(), Wrong<'a>> {
    let one = &board.functions[usize::from(record) - 1];
    if !one.is_bridge {
        let what = "only a bridge keeps spares";
        return Wrong::err(item, what, format!("{what}, as `bridge 00.0 spare 2 buses, spare 4M`"));
    }
    let Spares { buses, memory } = one.spares;
    let spares = match words {
        [Some(count), Some("bus" | "buses")] => {
            let number = digits(count, is_strict).and_then(|count| count.parse().ok());
            let what = || format!("`{count}`: 0 to 255 spare buses");
            let wrong = || Wrong::new(count, what(), "0 to 255 spare buses, decimal, as `spare 2 buses`");
            Spares { buses: number.ok_or_else(wrong)?, memory }
        }
        [Some(size), None] => {
            let expected = "spare memory is in whole MiB, at most 65535M, as `spare 4M`";
            let Size(bytes) = size.parse().map_err(|why| Wrong::new(size, format!("`{size}`: {why}"), expected))?;
            let memory = u16::try_from(bytes / MIB).ok().filter(|_| bytes % MIB == 0);
            let wrong = || Wrong::new(size, format!("`{size}`: spare memory is in whole MiB"), expected);
            Spares { buses, memory: memory.ok_or_else(wrong)? }
        }
        _ => {
            let what = "spares are `spare 2 buses` or `spare 4M`";
            return Wrong::err(item, what, what);
        }
    };
    board.set_spares(record, spares);
    Ok(())
}

/// `mem64p 256M`, or `-`.
fn read_bar(item: &str) -> Result<Bar, Wrong<'_>> {
    let kind_of = |word: &str| BarKind::ALL.into_iter().find(|kind| kind.word() == word);
    let mut words = item.split_whitespace();
    match [words.next(), words.next(), words.next()] {
        [Some("-"), None, None] => Ok(Bar::UNUSED),
        [Some(word), size, None] => {
            let unknown =
                "a BAR is mem32, mem32p, mem64, mem64p, io or io16, or - for a slot that is not used, as `mem32 16M`";
            let what = match size {
                Some(_) => format!("`{word}`: a BAR is mem32, mem32p, mem64, mem64p, io, or - for an unused slot"),
                None => apart(item),
            };
            let kind = kind_of(word).filter(|kind| *kind != BarKind::Unused);
            let kind = kind.ok_or_else(|| Wrong::new(word, what, unknown))?;
            let Some(size) = size else {
                return Wrong::err(item, apart(item), format!("a BAR has its size after it, as `{kind} 16M`"));
            };
            let wrong = |why| Wrong::new(size, format!("`{size}`: {why}"), format!("{why}"));
            let Size(bytes) = size.parse().map_err(wrong)?;
            read_size(item, kind, bytes)
        }
        _ => Wrong::err(item, apart(item), "items have a comma between them, as `mem32 16M, io 128`"),
    }
}

/// A size that a read-back can say; of others the nearest ones are told.
fn read_size(item: &str, kind: BarKind, size: u64) -> Result<Bar, Wrong<'_>> {
    let bar = Bar::new(kind, size);
    if bar.read_backs().is_some() {
        return Ok(bar);
    }
    let is_io = matches!(kind, BarKind::Io | BarKind::Io16);
    let [least, most] = match kind {
        BarKind::Io | BarKind::Io16 => [4, 1 << 15],
        BarKind::Memory32 | BarKind::Memory32Prefetchable => [128, 1 << 31],
        _ => [128, 1 << 63],
    };
    let expected = match size {
        _ if size < least => {
            let whose = if is_io { "an I/O BAR" } else { "a memory BAR" };
            format!("{size} bytes, and {whose} has at least {least}, as `{kind} {least}`")
        }
        _ if size > most => format!("{kind} has at most {}, as `{kind} {}`", Size(most), Size(most)),
        _ => {
            let down = 1 << size.ilog2();
            let up = if down < most { format!(" or `{kind} {}`", Size(down << 1)) } else { String::new() };
            format!("a BAR's size is a power of two: `{kind} {}`{up}", Size(down))
        }
    };
    let what = format!("no BAR of kind {kind} has {size} bytes: a power of two that the kind can say");
    Err(Wrong { refusal: Some(Refusal::ReadBack), ..Wrong::new(item, what, expected) })
}

/// `host buses 00-FF low E0000000+64M ..`, in any order; a pool that is not named is closed.
fn read_host<'a>(line: &Line<'a>, is_strict: bool) -> Result<Board, Wrong<'a>> {
    let text = line.words;
    let mut words = text.split(|letter: char| letter.is_whitespace() || letter == ',').filter(|word| !word.is_empty());
    let first = words.next().unwrap_or(text);
    if first != "host" {
        return Wrong::err(first, HOST_FIRST, host_first());
    }
    if let Some(name) = line.name.or(line.open).filter(|_| is_strict) {
        return Wrong::strict(name, "a host has no name: `#` starts a comment, as `host buses 00-FF # the box`");
    }
    let mut board = Board::host(HostRecord::CLOSED);
    let mut words = words.peekable();
    while let Some(word) = words.next() {
        if is_strict && !["buses", "low", "high", "io", "version"].contains(&word) {
            return Err(no_part(word));
        }
        let what = format!("`{word}` has a range after it");
        let missing = || Wrong::new(end(text), what.clone(), format!("{what}, {}", example(word)));
        let mut value = words.next().ok_or_else(missing)?;
        let is_closed = value == "closed";
        if is_closed {
            let closed = words.next_if(|range| range.contains('-'));
            value = closed.unwrap_or("");
        }
        match word {
            "version" => board.version = read_version(value)?,
            _ if is_closed && value.is_empty() => {}
            _ => set_range(&mut board.host, word, read_range(word, value, is_closed)?, value)?,
        }
    }
    Ok(board)
}

/// How a part of a host is written.
fn example(word: &str) -> &'static str {
    match word {
        "buses" => "as `buses 00-1F`",
        "high" => "as `high 100000000+4G`",
        "io" => "as `io 2000-5FFF`",
        "version" => "as `version 2`",
        _ => "as `low E0000000+64M` or `low E0000000-E3FFFFFF`",
    }
}

fn read_version(text: &str) -> Result<u8, Wrong<'_>> {
    match text {
        "1" => Ok(1),
        "2" => Ok(2),
        _ => {
            let what = "a board is of version 1 or 2";
            Wrong::err(text, format!("`{text}`: {what}"), format!("{what}, as `version 2`"))
        }
    }
}

fn no_part(word: &str) -> Wrong<'_> {
    let what = format!("`{word}`: a host has buses, low, high and io");
    Wrong::new(word, what, "a host has buses, low, high, io and version, as `host buses 00-1F low E0000000+64M`")
}

fn set_range<'a>(host: &mut HostRecord, word: &'a str, range: (u64, u64), text: &'a str) -> Result<(), Wrong<'a>> {
    let wide = |what: &str, expected: &str| {
        Wrong::err(text, format!("`{text}`: {what}"), format!("{expected}, {}", example(word)))
    };
    let (first, last) = range;
    let fits = |most: u64| first <= most && last <= most;
    match word {
        "buses" if fits(0xFF) => host.buses = (first as u8, last as u8),
        "buses" => return wide("buses are hexadecimal, 00 to FF, as in 03:00.0", "buses are hexadecimal, 00 to FF"),
        "low" if fits(u32::MAX.into()) => host.low = (first as u32, last as u32),
        "low" => return wide("the low pool lies below 4 GiB", "the low pool lies below 4 GiB, 100000000"),
        "high" => host.high = range,
        "io" if fits(u16::MAX.into()) => host.io = (first as u16, last as u16),
        "io" => return wide("I/O addresses are at most FFFF", "I/O addresses are at most FFFF"),
        _ => return Err(no_part(word)),
    }
    Ok(())
}

/// `A-B` or `A+SIZE`. Only a closed one may start above its end.
fn read_range<'a>(word: &str, text: &'a str, is_closed: bool) -> Result<(u64, u64), Wrong<'a>> {
    let what = format!("`{text}`: a range is first-last or first+size, as E0000000-E3FFFFFF or E0000000+64M");
    let wrong = || Wrong::new(text, what.clone(), format!("a range is first-last or first+size, {}", example(word)));
    let (first, last) = if let Some((first, size)) = text.split_once('+') {
        let first = read_address(first).ok_or_else(wrong)?;
        let no_size = |why| Wrong::new(size, what.clone(), format!("{why}, {}", example(word)));
        let Size(size) = size.parse().map_err(no_size)?;
        (first, size.checked_sub(1).and_then(|more| first.checked_add(more)).ok_or_else(wrong)?)
    } else {
        let (first, last) = text.split_once('-').ok_or_else(wrong)?;
        (read_address(first).ok_or_else(wrong)?, read_address(last).ok_or_else(wrong)?)
    };
    if first > last && !is_closed {
        let what = "it starts above its end; a closed pool is `closed`, or left out";
        let expected = match word {
            "buses" => format!("the first bus is above the last: buses are written {}", example(word)),
            _ => format!("{what}, and an open one is written {}", example(word)),
        };
        return Wrong::err(text, format!("`{text}`: {what}"), expected);
    }
    Ok((first, last))
}

/// Hexadecimal, or decimal with a unit.
fn read_address(text: &str) -> Option<u64> {
    let text = text.replace('_', "");
    let digits = text.strip_prefix("0x").or(text.strip_prefix("0X")).unwrap_or(&text);
    if digits.bytes().all(|byte| byte.is_ascii_hexdigit()) {
        return u64::from_str_radix(digits, 16).ok();
    }
    text.parse().ok().map(|Size(address)| address)
}

/// The text, by which the same bytes come back from a lawful board, with its names.
impl fmt::Display for Board {
    fn fmt(&self, f: &mut fmt::Formatter<'_>) -> fmt::Result {
        let HostRecord { buses: (first, last), low, high, io } = self.host;
        write!(f, "host buses {first:02X}-{last:02X}")?;
        write_pool(f, "low", 8, low.0.into()..=low.1.into(), u32::MAX.into())?;
        write_pool(f, "high", 9, high.0..=high.1, u64::MAX)?;
        write_pool(f, "io", 4, io.0.into()..=io.1.into(), u16::MAX.into())?;
        if self.version == 2 && self.functions.iter().all(|one| one.spares == Spares::default()) {
            f.write_str(" version 2")?;
        }
        writeln!(f)?;
        let mut depths = Vec::new();
        for one in &self.functions {
            // A parent that comes later is none of a lawful board.
            let above = usize::from(one.parent).checked_sub(1).and_then(|parent| depths.get(parent));
            let depth = above.map_or(0, |above| above + 1);
            depths.push(depth);
            writeln!(f, "{:width$}{}", "", one.described(self), width = 2 * depth)?;
        }
        Ok(())
    }
}

/// A pool by its start and size; a closed one that is not spelled as [`HostRecord::CLOSED`] with its spelling.
fn write_pool(
    f: &mut fmt::Formatter<'_>,
    word: &str,
    width: usize,
    pool: RangeInclusive<u64>,
    most: u64,
) -> fmt::Result {
    let (first, last) = pool.into_inner();
    match last.wrapping_sub(first).checked_add(1) {
        _ if (first, last) == (most, 0) => Ok(()),
        _ if first > last => write!(f, " {word} closed {first:0width$X}-{last:0width$X}"),
        Some(size) => write!(f, " {word} {first:0width$X}+{}", Size(size)),
        None => write!(f, " {word} {first:0width$X}-{last:0width$X}"),
    }
}

impl BoardFunction {
    /// Its line.
    fn described(&self, board: &Board) -> String {
        let word = if self.is_bridge { "bridge" } else { "card" };
        let mut line = format!("{word} {:02X}.{}", self.device, self.function);
        if let Some(name) = &self.name {
            // A name has no quote and no line's end in a text.
            line += &format!(" \"{}\"", name.replace(['"', '\n', '\r'], "'"));
        }
        let items = self.items(board).join(", ");
        if items.is_empty() {
            return line;
        }
        format!("{line} {items}")
    }

    fn items(&self, board: &Board) -> Vec<String> {
        let mut bars = self.bars();
        while bars.last() == Some(&Bar::UNUSED) {
            bars.pop();
        }
        let bar = |bar: &Bar| match bar.kind {
            BarKind::Unused => "-".to_string(),
            kind => format!("{kind} {}", Size(bar.size)),
        };
        let mut items: Vec<String> = bars.iter().map(bar).collect();
        if self.command != COMMAND {
            items.push(format!("command {:04X}", self.command));
        }
        if self.is_multifunction && !board.has_more(self) {
            items.push("multi".into());
        }
        if self.spares.buses > 0 {
            items.push(format!("spare {} buses", self.spares.buses));
        }
        if self.spares.memory > 0 {
            items.push(format!("spare {}", Size(u64::from(self.spares.memory) * MIB)));
        }
        items
    }
}

impl Board {
    /// Whether a text is meant as a board's: its first word, after comments, is `host`.
    pub fn is_text(text: &str) -> bool {
        let lines = text.lines().map(|line| line.split('#').next().unwrap_or(""));
        lines.flat_map(str::split_whitespace).next() == Some("host")
    }
}
