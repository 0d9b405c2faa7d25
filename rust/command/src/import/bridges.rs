//! A bridge's registers in the spelling of a sheet. Only what changes no bus range and no decoded range is touched, and each
//! change is told.

use super::found::{Found, Window, BUSES, HEADER_TYPE};
use super::Notes;
use cartsundial::Pool;
use std::ops::RangeInclusive;

const IO: usize = 0x1C;
const LOW: usize = 0x20;
const HIGH: usize = 0x24;
const UPPERS: usize = 0x28;
const IO_UPPERS: usize = 0x30;

/// Registers 18h to 27h are BARs of a function that is no bridge.
const OTHER_BARS: std::ops::Range<usize> = 0x18..0x28;

pub fn normalise(found: &mut Found, notes: &mut Notes) {
    let title = found.title();
    let mut tell = |note: &str| notes.push(format!("{title}: {note}"));
    if windows(found).is_empty() && found.registers[BUSES..BUSES + 3] == [0; 3] {
        found.registers[HEADER_TYPE] &= 0x80;
        found.registers[OTHER_BARS].fill(0);
        tell("a bridge without buses and windows: taken for a card");
        return;
    }
    for (window, at_zero) in zeros(found) {
        let kernel = if found.windows[window] == Window::None { ", and the kernel has none" } else { "" };
        tell(&format!("{at_zero}: not implemented, or open there{kernel}: left as it is"));
    }
    if found.registers[0x0A] == 4 && found.registers[0x0B] == 6 && found.registers[0x09] == 1 {
        tell("it may decode subtractively (class 060401), which a sheet has no place for: only its windows count");
    }
    if found.registers[BUSES] != found.id.bus() {
        found.registers[BUSES] = found.id.bus();
        tell("its primary bus register is not its own bus: set");
    }
    if normalise_io(found) {
        tell("the I/O window's registers: the same range as of 16 bits");
    }
    if low(found).is_empty() && set(found, LOW, &[0xF0, 0xFF, 0, 0]) {
        tell("the closed memory window in the sheet's spelling");
    }
    if normalise_high(found) {
        tell("the prefetchable window's registers: the same range as of 64 bits");
    }
}

/// The windows whose registers all read 0, where the kernel has none or is not known.
fn zeros(found: &Found) -> Vec<(usize, &'static str)> {
    let reads_zero = |at: usize, length: usize| found.registers[at..at + length].iter().all(|byte| *byte == 0);
    let windows = [
        (reads_zero(IO, 2) && reads_zero(IO_UPPERS, 4), "the I/O window reads 0000-0FFF"),
        (reads_zero(LOW, 4), "the memory window reads 00000000-000FFFFF"),
        (reads_zero(HIGH, 4) && reads_zero(UPPERS, 8), "the prefetchable window reads 00000000-000FFFFF"),
    ];
    let is_told = |window: usize, is_zero: bool| is_zero && found.windows[window] != Window::Some;
    windows.into_iter().enumerate().filter(|(at, one)| is_told(*at, one.0)).map(|(at, one)| (at, one.1)).collect()
}

fn normalise_io(found: &mut Found) -> bool {
    if io(found).is_empty() {
        return set(found, IO, &[0xF0, 0]);
    }
    let [base, limit] = [found.registers[IO], found.registers[IO + 1]];
    // An open window above FFFFh stays as it is, and is 29.
    found.registers[IO_UPPERS..IO_UPPERS + 4] == [0; 4] && set(found, IO, &[base & 0xF0, limit & 0xF0])
}

fn normalise_high(found: &mut Found) -> bool {
    if high(found).is_empty() {
        let is_changed = set(found, HIGH, &[0xF1, 0xFF, 1, 0]);
        return set(found, UPPERS, &[0; 8]) || is_changed;
    }
    let [base, limit] = [found.registers[HIGH], found.registers[HIGH + 2]];
    if (base & 0xF, limit & 0xF) != (0, 0) {
        return false;
    }
    found.registers[HIGH] |= 1;
    found.registers[HIGH + 2] |= 1;
    set(found, UPPERS, &[0; 8]);
    true
}

/// The ranges that a bridge decodes, as far as they are open.
pub fn windows(found: &Found) -> Vec<(Pool, RangeInclusive<u64>)> {
    let all = [(Pool::Io, io(found)), (Pool::Low, low(found)), (Pool::High, high(found))];
    all.into_iter().filter(|(_, range)| found.is_bridge() && !range.is_empty()).collect()
}

fn io(found: &Found) -> RangeInclusive<u64> {
    let address = |at: usize, up: usize| {
        let low = u64::from(found.registers[at] >> 4) << 12;
        if found.registers[at] & 0xF == 1 {
            u64::from(word(found, up)) << 16 | low
        } else {
            low
        }
    };
    address(IO, IO_UPPERS)..=address(IO + 1, IO_UPPERS + 2) | 0xFFF
}

fn low(found: &Found) -> RangeInclusive<u64> {
    let address = |at: usize| u64::from(word(found, at) >> 4) << 20;
    address(LOW)..=address(LOW + 2) | 0xF_FFFF
}

fn high(found: &Found) -> RangeInclusive<u64> {
    let address = |at: usize, up: usize| {
        let upper = u64::from(word(found, up + 2)) << 16 | u64::from(word(found, up));
        let low = u64::from(word(found, at) >> 4) << 20;
        if found.registers[at] & 0xF == 1 {
            upper << 32 | low
        } else {
            low
        }
    };
    address(HIGH, UPPERS)..=address(HIGH + 2, UPPERS + 4) | 0xF_FFFF
}

fn word(found: &Found, at: usize) -> u16 {
    u16::from_le_bytes([found.registers[at], found.registers[at + 1]])
}

/// Writes the bytes, and tells whether they were others.
fn set(found: &mut Found, at: usize, bytes: &[u8]) -> bool {
    let room = &mut found.registers[at..at + bytes.len()];
    let is_changed = room != bytes;
    room.copy_from_slice(bytes);
    is_changed
}
