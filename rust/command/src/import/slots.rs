//! A function's BARs: their read-backs for a sheet and for a board, from the register's type bits, which are wired, and the
//! kernel's sizes. A BAR whose size nobody says is what the function lacks.

use super::found::{Found, Region, BARS, COMMAND};
use super::Notes;
use crate::unlawful::too_small;
use cartsundial::{Bar, BarKind, Size};
use std::ops::RangeInclusive;

/// What a slot holds.
struct Slot {
    number: usize,
    kind: BarKind,
    address: u64,
    region: Option<Region>,
    /// Of whoever says it.
    size: Option<u64>,
}

/// A BAR that is on the sheet.
pub struct Placed {
    pub slot: usize,
    pub is_io: bool,
    pub range: RangeInclusive<u64>,
    /// Where the kernel has it.
    pub kernel: Option<u64>,
}

/// A function's BARs.
pub struct Bars {
    /// The read-backs of those that are on the sheet.
    pub read_backs: [u32; 6],
    pub placed: Vec<Placed>,
    /// All whose size is known, for a board: placed or not.
    pub all: Vec<Bar>,
}

/// What becomes of a slot.
enum Judged {
    OnSheet([u32; 2]),
    /// Why, where that is worth a word.
    LeftOut(Option<String>),
    /// Why the function is not taken for read.
    Unread(String),
}

/// Decides each slot, and takes the registers of those that are left out of a sheet to 0.
pub fn bars(found: &mut Found, notes: &mut Notes) -> Bars {
    let mut bars = Bars { read_backs: [0; 6], placed: Vec::new(), all: Vec::new() };
    let mut number = 0;
    while number < found.slots() {
        let slot = slot(found, number);
        let title = format!("{} BAR {number}", found.title());
        let known = slot.size.map_or(Bar::UNUSED, |size| Bar::new(slot.kind, size));
        // It is read and stays: the verdict over a sheet or board with it is 25.
        let rest = format!("a sheet or board with it is refused with 25; --leave-out {} takes the rest", found.title());
        notes.extend(too_small(known).map(|what| format!("{title}: {what}: {rest}")));
        match judge(found, &slot) {
            Judged::OnSheet(both) => {
                bars.read_backs[number..number + slot.kind.slots()].copy_from_slice(&both[..slot.kind.slots()]);
                bars.placed.push(Placed {
                    slot: number,
                    is_io: slot.kind == BarKind::Io,
                    range: slot.address..=slot.address.saturating_add(known.size - 1),
                    kernel: slot.region.and_then(|region| region.address),
                });
            }
            Judged::LeftOut(note) => {
                let at = BARS + 4 * number;
                found.registers[at..at + 4 * slot.kind.slots()].fill(0);
                notes.extend(note.map(|note| format!("{title}: {note}")));
            }
            Judged::Unread(why) => found.lacks(format!("BAR {number}: {why}")),
        }
        let is_bar = slot.kind != BarKind::Unused && known.read_backs().is_some();
        bars.all.push(if is_bar { known } else { Bar::UNUSED });
        if !is_bar && slot.kind.slots() == 2 {
            bars.all.push(Bar::UNUSED);
        }
        number += slot.kind.slots();
    }
    bars
}

/// By the register's type bits. A register of 0 is a BAR only where the kernel has a size for it and no address.
fn slot(found: &Found, number: usize) -> Slot {
    let (value, region) = (found.bar(number), found.regions[number]);
    let is_wide = value & 0b111 == 0b100 && number + 1 < found.slots();
    let kind = match value {
        0 if region.is_some_and(|region| region.address.is_none()) => BarKind::Memory32,
        0 => BarKind::Unused,
        _ if value & 1 != 0 => BarKind::Io,
        _ => match (is_wide, value & 0b1000 != 0) {
            (false, false) => BarKind::Memory32,
            (false, true) => BarKind::Memory32Prefetchable,
            (true, false) => BarKind::Memory64,
            (true, true) => BarKind::Memory64Prefetchable,
        },
    };
    let low = u64::from(value & if kind == BarKind::Io { !0b11 } else { !0b1111 });
    let address = if is_wide { u64::from(found.bar(number + 1)) << 32 | low } else { low };
    let size = region.map(|region| region.size).or(found.logged[number]).filter(|_| kind != BarKind::Unused);
    Slot { number, kind, address, region, size }
}

/// Whether it stays on a sheet.
fn judge(found: &Found, slot: &Slot) -> Judged {
    let value = found.bar(slot.number);
    let is_on = found.registers[COMMAND] & if slot.kind == BarKind::Io { 1 } else { 2 } != 0;
    if found.is_bare && is_open_question(found, slot, is_on) {
        return Judged::Unread("without -vv it is not known whether the kernel has placed it".into());
    }
    if slot.kind == BarKind::Unused {
        let address = slot.region.and_then(|region| region.address);
        let note = |address| format!("the kernel has it at {address:x}, the register has no BAR: left out");
        return Judged::LeftOut(address.map(note));
    }
    if let Some(why) = unlike(slot, value) {
        return Judged::Unread(why);
    }
    let Some(size) = slot.size else {
        return Judged::Unread(format!("its register is {value:08x}, and its size is not known"));
    };
    let Some(both) = Bar::new(slot.kind, size).read_backs() else {
        return Judged::Unread(format!("no {} BAR has {} bytes", slot.kind, Size(size)));
    };
    let is_placed = slot.address != 0 && slot.region.is_some_and(|region| region.address.is_some());
    match slot.region {
        None if slot.address == 0 || !is_on => {
            Judged::LeftOut(Some("its size is known from the boot log only: left out of the sheet".into()))
        }
        Some(_) if !is_placed && !is_on => Judged::LeftOut(Some(format!(
            "slot {} is not placed and its space is off: left out of the sheet",
            slot.number
        ))),
        _ => Judged::OnSheet(both),
    }
}

/// By a boot log and registers alone: one that is placed and on, or neither, is the same whatever the kernel has of it now.
fn is_open_question(found: &Found, slot: &Slot, is_on: bool) -> bool {
    match slot.kind {
        BarKind::Unused => found.logged[slot.number].is_some(),
        _ => slot.size.is_some() && (slot.address != 0) != is_on,
    }
}

/// Why the register is no BAR's of a sheet, or not the one that lspci had when it wrote the text.
fn unlike(slot: &Slot, value: u32) -> Option<String> {
    let type_bits = value >> 1 & 0b11;
    if slot.kind != BarKind::Io && !matches!((type_bits, slot.kind.slots()), (0b00, _) | (0b10, 2)) {
        return Some(format!(
            "its register is {value:08x}, of type {type_bits:02b}, which no BAR of a sheet has there"
        ));
    }
    let kind = slot.region?.kind.filter(|kind| *kind != slot.kind)?;
    Some(format!(
        "its register is one of {}, its line `Region {}:` of {kind}: they are not of one function",
        slot.kind, slot.number
    ))
}
