//! A sheet's functions: as a table for people, as the lines of the program `plan`, and as JSON.

use crate::full::is_full;
use crate::json::Json;
use crate::named::NamedSheet;
use cartsundial::{Function, PlacedBar, Pool, Size};
use std::fmt::Write;
use std::ops::RangeInclusive;

/// A line for each function, and below it one for each BAR and each open window.
pub fn table(named: &NamedSheet) -> String {
    let mut text = String::new();
    for function in named.sheet.functions() {
        let _ = writeln!(text, "{:>3}  {}", function.record, described(named, &function));
        for placed in function.bars() {
            let (name, kind) = (format!("BAR {}", placed.slot), placed.bar.kind);
            let _ = writeln!(text, "       {name:6} {kind:7} {}", range(pool_of(&placed), &placed.range()));
        }
        for (pool, window) in windows(&function) {
            let _ = writeln!(text, "       window {:7} {}", listed(pool), range(pool, &window));
        }
    }
    text
}

/// `00:00.0 "root port", bridge to buses 01-07`, and what its command word leaves off.
fn described(named: &NamedSheet, function: &Function) -> String {
    let title = named.title(function);
    let kind = match function.buses() {
        Some(buses) => format!("bridge to buses {:02X}-{:02X}", buses.secondary, buses.subordinate),
        None => "card".to_string(),
    };
    format!("{title}, {kind}, command {:04X}{}", function.command(), off(function))
}

/// The spaces that a function has something in and does not answer to.
fn off(function: &Function) -> String {
    let windows = windows(function);
    let has = |is_io: bool| {
        function.bars().any(|placed| (pool_of(&placed) == Pool::Io) == is_io)
            || windows.iter().any(|(pool, _)| (*pool == Pool::Io) == is_io)
    };
    let mut text = String::new();
    if has(true) && !function.decodes_io() {
        text += ", I/O off";
    }
    if has(false) && !function.decodes_memory() {
        text += ", memory off";
    }
    text
}

pub fn pool_of(placed: &PlacedBar) -> Pool {
    placed.bar.kind.pool().expect("a placed BAR is used")
}

/// A pool in words.
pub fn word(pool: Pool) -> &'static str {
    match pool {
        Pool::Low => "low",
        Pool::High => "high",
        Pool::Io => "I/O",
    }
}

/// A pool in a list of windows or of faults.
pub fn listed(pool: Pool) -> &'static str {
    if is_full() {
        word(pool)
    } else {
        key(pool)
    }
}

/// A pool in JSON, and on a board's line `host`.
pub fn key(pool: Pool) -> &'static str {
    match pool {
        Pool::Low => "low",
        Pool::High => "high",
        Pool::Io => "io",
    }
}

/// The open windows.
pub fn windows(function: &Function) -> Vec<(Pool, RangeInclusive<u64>)> {
    let Some(all) = function.windows() else { return Vec::new() };
    let pairs = [(Pool::Io, all.io), (Pool::Low, all.low), (Pool::High, all.high)];
    pairs.into_iter().filter_map(|(pool, window)| Some((pool, window?))).collect()
}

/// `F8000000-F80FFFFF 1M`, in I/O space of four digits.
pub fn range(pool: Pool, range: &RangeInclusive<u64>) -> String {
    let width = if pool == Pool::Io { 4 } else { 8 };
    let (first, last) = (range.start(), range.end());
    format!("{first:0width$X}-{last:0width$X}  {}", Size((last - first).saturating_add(1)))
}

/// What the program `plan` prints for the sheet.
pub fn plan_lines(named: &NamedSheet) -> String {
    let mut text = format!("plan {}\n", named.sheet.functions().len());
    for function in named.sheet.functions() {
        let kind = if function.is_bridge() { "bridge" } else { "end" };
        let _ = write!(text, "{:04X} {kind}", function.id.0);
        for at in (0x10..if function.is_bridge() { 0x18 } else { 0x28 }).step_by(4) {
            let _ = write!(text, " {:08X}", register(&function, at, 4));
        }
        if function.is_bridge() {
            for (at, width) in [(0x18, 1), (0x19, 1), (0x1A, 1), (0x1C, 1), (0x1D, 1), (0x20, 2), (0x22, 2), (0x24, 2)]
            {
                let _ = write!(text, " {:0digits$X}", register(&function, at, width), digits = 2 * width);
            }
            for (at, width) in [(0x26, 2), (0x28, 4), (0x2C, 4)] {
                let _ = write!(text, " {:0digits$X}", register(&function, at, width), digits = 2 * width);
            }
        }
        text.push('\n');
    }
    text
}

/// A register of so many bytes, the lowest first.
fn register(function: &Function, at: usize, width: usize) -> u32 {
    function.registers[at..at + width].iter().rev().fold(0, |number, &byte| number << 8 | u32::from(byte))
}

pub fn json(named: &NamedSheet) -> Json {
    Json::List(named.sheet.functions().map(|function| function_json(named, &function)).collect())
}

fn function_json(named: &NamedSheet, function: &Function) -> Json {
    let bar = |placed: PlacedBar| {
        let mut members = vec![("slot", Json::number(placed.slot)), ("kind", Json::text(placed.bar.kind))];
        members.extend(range_json(&placed.range()));
        Json::Object(members)
    };
    let window = |(pool, range): (Pool, RangeInclusive<u64>)| {
        let mut members = vec![("pool", Json::text(key(pool)))];
        members.extend(range_json(&range));
        Json::Object(members)
    };
    let mut members = vec![
        ("record", Json::number(function.record)),
        ("id", Json::text(function.id)),
        ("name", named.name(function.record).map_or(Json::Null, Json::text)),
        ("kind", Json::text(if function.is_bridge() { "bridge" } else { "card" })),
        ("command", Json::number(function.command())),
        ("bars", Json::List(function.bars().map(bar).collect())),
    ];
    if let Some(buses) = function.buses() {
        members.push(("secondary", Json::number(buses.secondary)));
        members.push(("subordinate", Json::number(buses.subordinate)));
        members.push(("windows", Json::List(windows(function).into_iter().map(window).collect())));
    }
    Json::Object(members)
}

/// Addresses as text: not every reader of JSON has whole numbers of 64 bits.
fn range_json(range: &RangeInclusive<u64>) -> [(&'static str, Json); 3] {
    let (first, last) = (*range.start(), *range.end());
    [
        ("first", Json::text(format_args!("{first:X}"))),
        ("last", Json::text(format_args!("{last:X}"))),
        ("size", Json::number((last - first).saturating_add(1))),
    ]
}
