//! Bytes that are refused as a board or a sheet, in words and in hexadecimal, as far as they go.

use crate::hexadecimal::dwords;
use cartsundial::{Bar, BarKind, Board, Headers, HostRecord, Id, Size};
use std::fmt::Write;

/// Hexadecimal, a record to a line, after a first word: the same bytes come back from it.
pub fn text(bytes: &[u8], word: &str) -> String {
    let Some((version, rest)) = bytes.split_first() else { return word.to_string() };
    let mut text = format!("{word}{version:02X}\n");
    let mut records = Headers::of_records(rest);
    let first = if word.is_empty() { 0 } else { 1 };
    for (number, part) in (first..).zip(&mut records) {
        let title = if number == 0 { "the host".to_string() } else { format!("record {number}") };
        let _ = writeln!(text, "{:04X} {}    # {title}", part.len(), dwords(part));
    }
    if !records.rest().is_empty() {
        let _ = writeln!(text, "{}    # cut", dwords(records.rest()));
    }
    text
}

/// A board's host and records in words, each as its own bytes say.
pub fn board(bytes: &[u8]) -> String {
    let Some((_, rest)) = bytes.split_first() else { return String::new() };
    let mut text = String::new();
    for (number, part) in Headers::of_records(rest).enumerate() {
        match (number, part.try_into().ok()) {
            (0, Some(host)) => text += &Board::host(HostRecord::from_bytes(host)).to_string(),
            (0, None) => text += &format!("host of {} bytes: {}\n", part.len(), dwords(part)),
            _ => {
                let _ = writeln!(text, "{number:>3}  {}", function(part));
            }
        }
    }
    text
}

/// `bridge 01.0 below record 1, command 0007, mem32 128K, -`.
fn function(part: &[u8]) -> String {
    let &[high, low, at, kind, command_high, command_low, ref slots @ ..] = part else {
        return format!("{} bytes: {}", part.len(), dwords(part));
    };
    let word = match kind & 0x7F {
        0 => "card".to_string(),
        1 => "bridge".to_string(),
        _ => format!("header type {kind:02X}h"),
    };
    let parent = match u16::from_be_bytes([high, low]) {
        0 => "below the host".to_string(),
        parent => format!("below record {parent}"),
    };
    let count = if kind & 0x7F == 1 { 2 } else { 6 };
    let slots: Vec<u32> = slots.chunks_exact(4).take(count).map(number).collect();
    let command = u16::from_be_bytes([command_high, command_low]);
    format!("{word} {:02X}.{} {parent}, command {command:04X}{}", at >> 3, at & 7, bars(&slots))
}

fn number(bytes: &[u8]) -> u32 {
    bytes.iter().fold(0, |number, &byte| number << 8 | u32::from(byte))
}

/// The BARs that read-backs say; a read-back that is none as it is.
fn bars(slots: &[u32]) -> String {
    let mut text = String::new();
    let mut slot = 0;
    while slot < slots.len() {
        let second = slots.get(slot + 1).copied().unwrap_or(0);
        let bar = Bar::of_read_backs(slots[slot], second);
        text += &match bar {
            Some(Bar { kind: BarKind::Unused, .. }) => String::new(),
            Some(bar) => format!(", BAR {slot} {} {}", bar.kind, Size(bar.size)),
            None => format!(", BAR {slot} read-back {:08X}h", slots[slot]),
        };
        slot += bar.map_or(1, |bar| bar.kind.slots());
    }
    text
}

/// A sheet's records in words, each as its own bytes say.
pub fn sheet(bytes: &[u8]) -> String {
    let Some((_, rest)) = bytes.split_first() else { return String::new() };
    let mut text = String::new();
    for (number, part) in (1..).zip(Headers::of_records(rest)) {
        let line = if part.len() == 90 { registers(part) } else { format!("{} bytes: {}", part.len(), dwords(part)) };
        let _ = writeln!(text, "{number:>3}  {line}");
    }
    text
}

/// Of a record of 90 bytes: ID, header and read-backs.
fn registers(part: &[u8]) -> String {
    let (id, header, slots) = (Id(u16::from_be_bytes([part[0], part[1]])), &part[2..66], &part[66..]);
    let command = u16::from_le_bytes([header[4], header[5]]);
    let kind = match header[0x0E] & 0x7F {
        0 => "card".to_string(),
        1 => format!("bridge on bus {:02X} to buses {:02X}-{:02X}", header[0x18], header[0x19], header[0x1A]),
        other => format!("header type {other:02X}h"),
    };
    let mut text = format!("{id}, {kind}, command {command:04X}");
    let count = if header[0x0E] & 0x7F == 1 { 2 } else { 6 };
    for (slot, read_back) in slots.chunks_exact(4).map(number).enumerate().take(count) {
        let value = header[0x10 + 4 * slot..][..4].iter().rev().fold(0, |number, &byte| number << 8 | u32::from(byte));
        if read_back != 0 || value != 0 {
            let _ = write!(text, "\n       BAR {slot}  value {value:08X}, read-back {read_back:08X}");
        }
    }
    text
}
