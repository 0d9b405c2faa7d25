//! What breaks a number of the board's or the sheet's own checks, 20 to 29: the byte, the count, the edge. The number and the record are the
//! proved calls'; this is looked up beside them, and is not proved.

use crate::named::RECORD;
use crate::titles::Titles;
use crate::tree::Record;
use cartsundial::{
    audit_where, plan_where, Bar, BarKind, Board, Finding, Headers, HostRecord, Party, Place, PlanFinding, PlanParty,
    Pool, Refusal,
};

/// Functions of a board or a sheet.
const MOST_FUNCTIONS: usize = 512;

/// Bridges above a function.
const MOST_ABOVE: usize = 32;

/// Document 02, E9: no memory BAR is smaller, or the number is 25. Of I/O the register has no smaller one.
pub const LEAST_MEMORY: u64 = 128;
const LEAST_IO: u64 = 4;

const MIB: u64 = 1 << 20;

/// What a board's bytes break.
pub fn of_board(bytes: &[u8], finding: &PlanFinding, titles: &Titles) -> Option<String> {
    match finding.refusal {
        Refusal::Frame => Some(frame(bytes, "board")),
        Refusal::Version => bytes.first().map(|version| format!("its first byte, the version, is {version:02X}h")),
        Refusal::TooManyFunctions => Some(too_many(Headers::of_records(&bytes[1..]).count() - 1)),
        Refusal::HeaderType => header_type(bytes, finding.party?.record),
        Refusal::Host => host(&finding.host?),
        Refusal::Order => order(bytes, finding.party?.record, titles),
        Refusal::ReadBack => read_back(bytes, &finding.party?),
        _ => None,
    }
}

/// Whom a board's number is about, and what is wrong there, a line each; nothing for one that is planned.
pub fn about_board(bytes: &[u8], board: Option<&Board>) -> Vec<String> {
    let Err(finding) = plan_where(bytes) else { return Vec::new() };
    let titles = Titles::new(bytes, board);
    let party = finding.party.map(|party| match party.place {
        Place::Id => titles.title(party.record),
        place => format!("{}: {place}", titles.title(party.record)),
    });
    party.into_iter().chain(of_board(bytes, &finding, &titles)).collect()
}

/// The same of a sheet's own checks.
pub fn of_sheet(bytes: &[u8]) -> Vec<String> {
    let Err(finding) = audit_where(&HostRecord::CLOSED, bytes) else { return Vec::new() };
    let party = finding.party.as_ref().map(|party| {
        let other = finding.other.as_ref().map_or(String::new(), |other| format!(", and record {}", other.record));
        let place = if party.place == Place::Id { String::new() } else { format!(": {}", party.place) };
        format!("record {}, {}{place}{other}", party.record, party.id)
    });
    party.into_iter().chain(in_sheet(bytes, &finding)).collect()
}

/// What breaks a sheet's own check, where the finding is of one.
pub fn in_sheet(bytes: &[u8], finding: &Finding) -> Option<String> {
    let party = finding.party.as_ref();
    let header = || bytes.get(1..)?.chunks(RECORD).nth(usize::from(party?.record) - 1)?.get(4..68);
    match finding.refusal {
        Refusal::Frame => Some(frame(bytes, "sheet")),
        Refusal::Version => bytes.first().map(|version| format!("its first byte, the version, is {version:02X}h")),
        Refusal::TooManyFunctions => Some(too_many((bytes.len() - 1) / RECORD)),
        Refusal::HeaderType => {
            Some(format!("header type {:02X}h: bits 6 to 0 are 0 for a card, 1 for a bridge", header()?[0x0E]))
        }
        Refusal::BusRange => {
            let &[primary, secondary, subordinate] = header()?.get(0x18..)?.first_chunk()?;
            Some(format!("primary {primary:02X}, secondary {secondary:02X}, subordinate {subordinate:02X}"))
        }
        Refusal::WindowNibbles => nibbles(header()?, party?.place),
        Refusal::ReadBack => bar_fault(bytes, party?, header()?),
        _ => None,
    }
}

/// The registers of a window whose low nibbles are wrong.
fn nibbles(header: &[u8], place: Place) -> Option<String> {
    let byte = |at: usize| u16::from(header[at]);
    let word = |at: usize| byte(at) | byte(at + 1) << 8;
    Some(match place {
        Place::Window(Pool::Io) => {
            format!("base {:02X}h, limit {:02X}h: the low nibbles are 0", header[0x1C], header[0x1D])
        }
        Place::Window(Pool::Low) => {
            format!("base {:04X}h, limit {:04X}h: the low nibbles are 0", word(0x20), word(0x22))
        }
        Place::Window(Pool::High) => {
            format!("base {:04X}h, limit {:04X}h: the low nibbles are 1", word(0x24), word(0x26))
        }
        _ => return None,
    })
}

/// A read-back that is none, or a value that does not go with it.
fn bar_fault(bytes: &[u8], party: &Party, header: &[u8]) -> Option<String> {
    let Place::Bar(slot) = party.place else { return None };
    let record = bytes[1..].chunks(RECORD).nth(usize::from(party.record) - 1)?;
    let read_back = |slot: u8| Some(u32::from_be_bytes(*record.get(68 + 4 * usize::from(slot)..)?.first_chunk()?));
    let value = header.get(0x10 + 4 * usize::from(slot)..)?.first_chunk().map(|value| u32::from_le_bytes(*value))?;
    let first = read_back(slot)?;
    let beside = || {
        format!(
            "value {value:08X}h, read-back {first:08X}h: the value is a multiple of the size, with the same type bits"
        )
    };
    said(first, read_back(slot + 1)).or_else(|| Some(beside()))
}

/// Where a trace is cut: in which record, at which byte.
pub fn cut(number: u64, start: u64, rest: &[u8]) -> String {
    match rest {
        [high, low, after @ ..] => format!(
            "cut in record {number}, at byte {start}: it says {} bytes, and {} are there",
            u16::from_be_bytes([*high, *low]),
            after.len()
        ),
        _ => format!("cut in record {number}, at byte {start}: one byte is there, half of its length"),
    }
}

fn too_many(count: usize) -> String {
    format!("it has {count} functions, {} more than {MOST_FUNCTIONS}", count - MOST_FUNCTIONS)
}

/// Where the lengths of records go wrong: of a board, or of a sheet.
pub fn frame(bytes: &[u8], what: &str) -> String {
    if bytes.is_empty() {
        return format!("it is empty: it has no bytes, and a {what} starts with a version byte");
    }
    let mut records = Headers::of_records(&bytes[1..]);
    let mut number = 0;
    while let Some(part) = {
        let start = at(bytes, &records);
        records.next().map(|part| (start, part))
    } {
        let (start, part) = part;
        let length = part.len();
        let wrong = match (what, number) {
            ("sheet", _) if length != 90 => Some("a sheet's record has 90".to_string()),
            ("board", 0) if length != HostRecord::BYTES => Some("the host record has 30".to_string()),
            ("board", 1..) if length < 6 => Some("a function's record has 6 or more".to_string()),
            _ => None,
        };
        if let Some(wrong) = wrong {
            return format!("{} at byte {start} has a length of {length}, and {wrong}", named(what, number));
        }
        number += 1;
    }
    let (start, rest) = (at(bytes, &records), records.rest());
    match rest {
        [] => format!("it ends after its version byte, without a host record of {} bytes", HostRecord::BYTES),
        [_] => format!("{} at byte {start}: one byte is left, half of a length", named(what, number)),
        [high, low, after @ ..] => format!(
            "{} at byte {start} says that it has {} bytes, and {} are left: it is cut, or a length before it is wrong",
            named(what, number),
            u16::from_be_bytes([*high, *low]),
            after.len()
        ),
    }
}

/// Where the next record starts.
fn at(bytes: &[u8], records: &Headers) -> usize {
    bytes.len() - records.rest().len()
}

fn named(what: &str, number: usize) -> String {
    match (what, number) {
        ("board", 0) => "the host record".to_string(),
        ("board", number) => format!("record {number}"),
        (_, number) => format!("record {}", number + 1),
    }
}

fn part(bytes: &[u8], record: Record) -> Option<&[u8]> {
    Headers::of_records(bytes.get(1..)?).nth(record.into())
}

fn header_type(bytes: &[u8], record: Record) -> Option<String> {
    let part = part(bytes, record)?;
    let (kind, length) = (*part.get(3)?, part.len());
    let bridge = if bytes[0] == 2 { 17 } else { 14 };
    Some(match kind & 0x7F {
        0 => format!("header type {kind:02X}h is a card's, whose record has 30 bytes, and this one has {length}"),
        1 => format!("header type {kind:02X}h is a bridge's, whose record has {bridge} bytes in version {}, and this one has {length}", bytes[0]),
        _ => format!("header type {kind:02X}h: bits 6 to 0 are 0 for a card, 1 for a bridge"),
    })
}

/// Which bus, or which edge of which pool.
pub fn host(host: &HostRecord) -> Option<String> {
    let (first, last) = host.buses;
    if first > last {
        return Some(format!("buses: the first, {first:02X}, is above the last, {last:02X}"));
    }
    Pool::ALL.into_iter().find_map(|pool| {
        let range = host.pool(pool)?;
        edge(pool, *range.start(), *range.end())
    })
}

fn edge(pool: Pool, first: u64, last: u64) -> Option<String> {
    let (word, edge, unit) = match pool {
        Pool::Low => ("low pool", MIB, "1M"),
        Pool::High => ("high pool", MIB, "1M"),
        Pool::Io => ("I/O pool", 4096, "4K"),
    };
    let is_past = pool == Pool::High && last >> 52 != 0;
    let down = first / edge * edge;
    Some(match () {
        () if pool == Pool::High && first < 1 << 32 => {
            format!("{word}: it starts at {first:X}, and the high pool starts at 100000000, 4 GiB, or above")
        }
        () if first % edge != 0 => {
            format!(
                "{word}: its first address, {first:X}, is no multiple of {unit}: {down:X} or {:X} is one",
                u128::from(down) + u128::from(edge)
            )
        }
        () if is_past => format!("{word}: its last address, {last:X}, is past FFFFFFFFFFFFF, the last below 2^52"),
        () if (last % edge) != edge - 1 => {
            let down = (last / edge * edge).checked_sub(1).filter(|&down| down > first);
            let up = last / edge * edge + (edge - 1);
            let down = down.map_or(String::new(), |down| format!("{down:X} or "));
            format!("{word}: its last address, {last:X}, is not the last of {unit}: {down}{up:X} is one")
        }
        () => return None,
    })
}

/// Which of parent, order, depth and function 0.
fn order(bytes: &[u8], record: Record, titles: &Titles) -> Option<String> {
    let place = |record: Record| {
        let &[high, low, at, kind] = part(bytes, record)?.first_chunk()?;
        Some((u16::from_be_bytes([high, low]), at, kind))
    };
    let parent_of = |record: Record| place(record).map_or(0, |(parent, ..)| parent);
    let (parent, at, _) = place(record)?;
    let text = |at: u8| format!("{:02X}.{}", at >> 3, at & 7);
    let above = |record: Record| {
        std::iter::successors(Some(record), |&one| Some(parent_of(one)))
            .take_while(|&one| one != 0)
            .take(MOST_FUNCTIONS)
    };
    let open: Vec<Record> = above(record - 1).collect();
    let is_bridge = |record: Record| place(record).is_some_and(|(.., kind)| kind & 0x7F == 1);
    if parent >= record {
        return Some(format!("parent: it says record {parent}, which does not come before it"));
    }
    if parent != 0 && !is_bridge(parent) {
        return Some(format!("parent: it says record {parent}, {}, which is a card", titles.short(parent)));
    }
    if parent != 0 && !open.contains(&parent) {
        return Some(format!(
            "order: it is below record {parent}, {}, and comes after other records of the bus above: what is below a bridge comes right \
             after it",
            titles.short(parent)
        ));
    }
    let beside = |other: &Record| place(*other).is_some_and(|(up, ..)| up == parent);
    let siblings: Vec<(Record, u8, u8)> =
        (1..record).filter(beside).filter_map(|other| place(other).map(|(_, at, kind)| (other, at, kind))).collect();
    if let Some((other, before, _)) = siblings.iter().find(|(_, before, _)| *before == at) {
        return Some(format!(
            "order: {} is there twice on one bus, also as record {other}, {}",
            text(*before),
            titles.short(*other)
        ));
    }
    if let Some((other, before, _)) = siblings.iter().rfind(|(_, before, _)| *before > at) {
        return Some(format!(
            "order: {} comes after {} (record {other}) on the same bus: devices and functions of a bus rise",
            text(at),
            text(*before)
        ));
    }
    let depth = above(parent).count();
    if depth > MOST_ABOVE {
        return Some(format!("depth: {depth} bridges are above it, and {MOST_ABOVE} are the most"));
    }
    let zero = siblings.iter().find(|(_, before, _)| *before == at & 0xF8);
    match zero {
        _ if at & 7 == 0 => None,
        None => Some(format!("function 0: {} is there, and its device has no function 0 before it: {}", text(at), text(at & 0xF8))),
        Some((other, _, kind)) if kind & 0x80 == 0 => Some(format!(
            "function 0: {} is there, and {} (record {other}) does not say with bit 7 of its header type that its device has more functions",
            text(at),
            text(at & 0xF8)
        )),
        Some(_) => None,
    }
}

/// The BAR, its size and the least one, or its read-back.
fn read_back(bytes: &[u8], party: &PlanParty) -> Option<String> {
    let Place::Bar(slot) = party.place else { return None };
    let part = part(bytes, party.record)?;
    let slots = if part.get(3)? & 0x7F == 1 { 2 } else { 6 };
    let at = |slot: u8| (slot < slots).then(|| part.get(6 + 4 * usize::from(slot)..)?.first_chunk().copied()).flatten();
    said(u32::from_be_bytes(at(slot)?), at(slot + 1).map(u32::from_be_bytes))
}

/// What is said of a read-back that is refused; the second is that of the next slot, where there is one.
pub fn said(first: u32, second: Option<u32>) -> Option<String> {
    if let Some(bar) = Bar::of_read_backs(first, second.unwrap_or(0)) {
        return too_small(bar).map(|what| format!("{}: {what}", bar.kind));
    }
    let is_wide = first & 7 == 4;
    Some(match () {
        () if is_wide && second.is_none() => format!("read-back {first:08X}h is of 64 bits, and no slot is left for its upper half"),
        () if is_wide => format!(
            "read-backs {first:08X}h {:08X}h: ones from a size bit up to the top of both, as FFF00004h FFFFFFFFh for 1M",
            second.unwrap_or(0)
        ),
        () if first & 1 == 1 => format!("read-back {first:08X}h: of I/O, ones from a size bit up to bit 15, and bits 1:0 are 01, as FFFFFF81h for 128"),
        () if first & 6 != 0 => format!("read-back {first:08X}h: bits 2:1 are 00 for 32 bits, 10 for 64"),
        () => format!("read-back {first:08X}h: ones from a size bit up to the top, as FFF00000h for 1M; it is what reads back after all ones are written"),
    })
}

/// What is said of a BAR that is too small.
pub fn too_small(bar: Bar) -> Option<String> {
    let (what, least) = match bar.kind {
        BarKind::Unused => return None,
        BarKind::Io | BarKind::Io16 => ("an I/O BAR", LEAST_IO),
        _ => ("a memory BAR", LEAST_MEMORY),
    };
    let is_small = (1..least).contains(&bar.size);
    is_small.then(|| format!("{} bytes, and {what} has at least {least}", bar.size))
}
