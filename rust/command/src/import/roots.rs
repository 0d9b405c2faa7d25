//! One sheet, host record and board for each domain and root bus: a root bus has functions and is no bridge's secondary bus. A
//! root bus with a function that was not read has none of them.

use super::found::{Found, BUSES, COMMAND, REGIONS};
use super::left_out::LeftOut;
use super::log::Log;
use super::pools::{is_known, Item};
use super::slots::{Bars, Placed};
use super::{bridges, pools, slots, Notes};
use crate::named::RECORD;
use cartsundial::{audit_where, Bar, Board, HostRecord, Pool, Sheet, Spares};
use std::collections::BTreeSet;

pub struct Root {
    pub domain: u32,
    pub bus: u8,
    pub sheet: Vec<u8>,
    pub host: HostRecord,
    pub board: Board,
    /// The spaces without a known root window, in which the pools are what is used.
    pub tight: Vec<Pool>,
    names: Vec<String>,
}

/// A function with what was made of its BARs.
struct Made {
    found: Found,
    bars: Bars,
    notes: Notes,
}

impl Root {
    /// `0000:00`.
    pub fn title(&self) -> String {
        title((self.domain, self.bus))
    }

    pub fn name(&self, record: u16) -> Option<&str> {
        self.names.get(usize::from(record) - 1).map(String::as_str).filter(|name| !name.is_empty())
    }

    pub fn len(&self) -> usize {
        self.names.len()
    }
}

fn title(root: (u32, u8)) -> String {
    format!("{:04x}:{:02x}", root.0, root.1)
}

/// A root bus, and what was made of it; in words where it is not taken.
pub type Taken = ((u32, u8), Result<Root, String>);

/// Each function once, by its ID. What they lack is told.
pub fn all(functions: Vec<Found>, left_out: &[LeftOut], log: &Log, notes: &mut Notes) -> Vec<Taken> {
    let unread: Vec<Found> = functions
        .iter()
        .chain(left_out.iter().map(|one| &one.found))
        .filter(|found| found.may_lead())
        .cloned()
        .collect();
    let mut made = by_root(functions);
    let roots: Vec<(u32, u8)> = made.iter().map(|(root, _)| *root).collect::<BTreeSet<_>>().into_iter().collect();
    let next = |index: usize| roots.get(index + 1).filter(|next| next.0 == roots[index].0).map(|next| next.1 - 1);
    let lost: Vec<(u32, u8)> = roots.iter().copied().filter(|root| log.is_below(*root)).collect();
    let mut taken = Vec::new();
    for (index, root) in roots.iter().enumerate() {
        let mut below: Vec<&mut Made> = made.iter_mut().filter(|(top, _)| top == root).map(|(_, made)| made).collect();
        compare_places(&mut below, &title(*root));
        let below: Vec<&Made> = below.into_iter().map(|made| &*made).collect();
        let last = log.last_bus(*root).or(next(index)).unwrap_or(0xFF);
        let held = held(*root, &unread, &lost, log);
        let made = of(*root, last, &below, held, log, notes);
        if made.is_ok() && index > 0 && roots[index - 1].0 == root.0 && !log.is_root(*root) {
            notes.push(format!("{}: taken for a root bus, since no bridge to it is there", title(*root)));
        }
        taken.push((*root, made));
    }
    taken
}

/// Why it may be no root bus, or lack a bridge: one that may lead to it is not read, or one to a bus below it is not there.
fn held(root: (u32, u8), unread: &[Found], lost: &[(u32, u8)], log: &Log) -> Option<String> {
    let leads_here = |found: &&Found| found.domain == root.0 && found.id.bus() < root.1 && !log.is_root(root);
    let unread =
        unread.iter().find(leads_here).map(|found| format!("it may be below {}, which is not read", found.title()));
    let lost = lost.iter().find(|lost| lost.0 == root.0 && root.1 <= lost.1);
    unread.or(lost.map(|lost| format!("the bridge to bus {} is not there, which is no root bus", title(*lost))))
}

/// Each function with the root bus that it is below.
fn by_root(functions: Vec<Found>) -> Vec<((u32, u8), Made)> {
    let tops: Vec<(u32, u8)> = functions.iter().map(|found| root_of(found, &functions)).collect();
    let secondaries: BTreeSet<(u32, u8)> =
        functions.iter().filter_map(|found| Some((found.domain, found.secondary()?))).collect();
    let mut made = Vec::new();
    for (mut found, top) in functions.into_iter().zip(tops) {
        if secondaries.contains(&top) {
            found.lacks("the bridges above it lead round in a circle, and to no root bus");
        }
        made.push((top, make(found)));
    }
    made
}

fn make(mut found: Found) -> Made {
    let mut notes = Notes::new();
    let empty = Bars { read_backs: [0; REGIONS], placed: Vec::new(), all: Vec::new() };
    if let Some(lack) = missing(&found) {
        if found.lacks.is_empty() {
            found.lacks(lack);
        }
        return Made { found, bars: empty, notes };
    }
    if let Some((at, ..)) = found.said.iter().find(|(at, mask, value)| found.registers[*at] & mask != *value) {
        found.lacks(format!("its text and its bytes do not agree at {at:02x}h: they are not of one function"));
        return Made { found, bars: empty, notes };
    }
    if found.is_bare && !found.has_log {
        found.lacks("its lines of -vv are missing, which have the sizes of BARs");
        return Made { found, bars: empty, notes };
    }
    if found.is_bridge() {
        bridges::normalise(&mut found, &mut notes);
    }
    let bars = slots::bars(&mut found, &mut notes);
    Made { found, bars, notes }
}

/// The kernel has BARs where their registers have them, or, behind a host bridge that translates, all of a space by one number
/// further. One that it has elsewhere is of another time or of another function.
fn compare_places(below: &mut [&mut Made], root: &str) {
    for (is_io, is_high) in [(true, false), (false, false), (false, true)] {
        let further = |placed: &Placed| {
            let is_here = (placed.is_io, *placed.range.start() >> 32 != 0) == (is_io, is_high);
            placed.kernel.filter(|_| is_here).map(|kernel| kernel.wrapping_sub(*placed.range.start()))
        };
        let mut all: Vec<u64> = below.iter().flat_map(|one| one.bars.placed.iter().filter_map(further)).collect();
        all.sort_unstable();
        let usual = all.get(all.len() / 2).copied().unwrap_or(0);
        let is_usual = 2 * all.iter().filter(|one| **one == usual).count() > all.len();
        let usual = if is_usual { usual } else { 0 };
        for Made { found, bars, .. } in below.iter_mut() {
            for placed in bars.placed.iter().filter(|placed| further(placed).is_some_and(|one| one != usual)) {
                let (start, kernel) = (placed.range.start(), placed.kernel.unwrap_or(0));
                found.lacks(format!("BAR {}: its register has it at {start:x}, the kernel at {kernel:x}", placed.slot));
            }
        }
        if let Some(first) = below.first_mut().filter(|_| usual != 0) {
            let space = if is_io { "I/O" } else { "memory" };
            first.notes.push(format!(
                "{root}: the kernel has {space} {usual:x} further than the registers, which the sheet has"
            ));
        }
    }
}

/// What there is not of its 64 bytes.
fn missing(found: &Found) -> Option<String> {
    if found.is_gone() {
        return Some("it does not answer, all of its registers read ff (header type 7f): it is gone, or asleep".into());
    }
    let rows: Vec<String> = (0..4).filter(|row| !found.rows[*row]).map(|row| format!("`{row}0:`")).collect();
    match rows.len() {
        0 => None,
        4 => Some("none of its 64 bytes is there: -x shows them".into()),
        1 => Some(format!("48 of its 64 bytes are there: the line {} is missing, or cut", rows[0])),
        count => Some(format!(
            "{} of its 64 bytes are there: the lines {} are missing, or cut",
            64 - 16 * count,
            rows.join(", ")
        )),
    }
}

fn of(
    root: (u32, u8),
    last: u8,
    below: &[&Made],
    held: Option<String>,
    log: &Log,
    notes: &mut Notes,
) -> Result<Root, String> {
    let lacking: Vec<&Made> = below.iter().copied().filter(|one| !one.found.lacks.is_empty()).collect();
    for found in lacking.iter().map(|one| &one.found) {
        notes.extend(found.lacks.iter().map(|lack| format!("{}: {lack}", found.title())));
    }
    if !lacking.is_empty() {
        return Err(format!("functions not read: {} of {}", lacking.len(), below.len()));
    }
    if let Some(why) = held {
        return Err(why);
    }
    notes.extend(below.iter().flat_map(|one| one.notes.clone()));
    let (sheet, known) = (sheet(below), log.windows(root));
    let host = pools::used((root.1, last), &items(root.1, below), &known, notes);
    if let Err(refusal) = Sheet::new(&sheet[..]) {
        let party = audit_where(&host, &sheet).err().and_then(|finding| finding.party);
        let who = party.map_or(String::new(), |party| format!(": {party}"));
        notes.push(format!("{}: the sheet is {refusal}{who}", title(root)));
    }
    let tight: Vec<Pool> = [Pool::Low, Pool::Io].into_iter().filter(|pool| !is_known(*pool, &known)).collect();
    let mut board = Board::host(pools::free(&host, &known, log));
    add_bus(&mut board, 0, root.1, below, notes);
    if board.functions().len() < below.len() {
        let count = below.len() - board.functions().len();
        notes.push(format!("{}: {count} of {} functions are missing on the board", title(root), below.len()));
    }
    let names = below.iter().map(|one| one.found.name.clone()).collect();
    Ok(Root { domain: root.0, bus: root.1, sheet, host, board, tight, names })
}

/// BARs of the sheet and open windows, of the functions of a bus.
fn items(bus: u8, below: &[&Made]) -> Vec<Item> {
    let mut items = Vec::new();
    for Made { found, bars, .. } in below.iter().filter(|one| one.found.id.bus() == bus) {
        let mut add = |what: &str, is_io: bool, range: &std::ops::RangeInclusive<u64>| {
            items.push(Item { title: format!("{} {what}", found.id), is_io, range: range.clone() });
        };
        for placed in &bars.placed {
            add(&format!("BAR {}", placed.slot), placed.is_io, &placed.range);
        }
        for (pool, range) in &bridges::windows(found) {
            add("window", *pool == Pool::Io, range);
        }
    }
    items
}

/// The bus that the bridges above a function start from.
pub fn root_of(found: &Found, functions: &[Found]) -> (u32, u8) {
    let bus = above(found, functions).last().map_or(found.id.bus(), |bridge| bridge.id.bus());
    (found.domain, bus)
}

/// The bridges above a function, the next one first. There are at most so many as buses, unless the registers are wrong.
pub fn above<'a>(found: &Found, functions: &'a [Found]) -> impl Iterator<Item = &'a Found> {
    let leads =
        |domain: u32, bus: u8| functions.iter().find(move |one| one.domain == domain && one.secondary() == Some(bus));
    let first = leads(found.domain, found.id.bus());
    std::iter::successors(first, move |bridge| leads(bridge.domain, bridge.id.bus())).take(1 << 8)
}

fn sheet(functions: &[&Made]) -> Vec<u8> {
    let mut sheet = vec![1];
    for Made { found, bars, .. } in functions {
        sheet.extend((RECORD as u16 - 2).to_be_bytes());
        sheet.extend(found.id.0.to_be_bytes());
        sheet.extend(found.registers);
        sheet.extend(bars.read_backs.iter().flat_map(|slot| slot.to_be_bytes()));
    }
    sheet
}

/// The functions of a bus, each bridge followed by everything below it. Buses that a bridge has beyond those below it are its
/// spares, so that later ones keep their numbers. Returns the last bus that was given.
fn add_bus(board: &mut Board, parent: u16, bus: u8, functions: &[&Made], notes: &mut Notes) -> u8 {
    let mut last = bus;
    for one in functions.iter().filter(|one| one.found.id.bus() == bus) {
        let Some(record) = add(board, parent, one, notes) else { continue };
        // A bus above the bridge's own, as on a sheet that passes its checks, so this ends.
        let Some(below) = one.found.secondary().filter(|below| *below > bus) else { continue };
        let given = add_bus(board, record, below, functions, notes);
        let subordinate = one.found.registers[BUSES + 2];
        if subordinate > given {
            board.set_spares(record, Spares { buses: subordinate - given, memory: 0 });
        }
        last = last.max(given).max(subordinate);
    }
    last
}

fn add(board: &mut Board, parent: u16, one: &Made, notes: &mut Notes) -> Option<u16> {
    let (found, id) = (&one.found, one.found.id);
    let added = match found.is_bridge() {
        true => board.bridge(parent, id.device(), id.function()),
        false => board.card(parent, id.device(), id.function(), &[]),
    };
    let record = added.ok()?;
    if board.set_bars(record, used(&one.bars.all)).is_err() {
        notes.push(format!("{}: its BARs are missing on the board", found.title()));
    }
    let [low, high] = [found.registers[COMMAND], found.registers[COMMAND + 1]];
    board.set_command(record, u16::from_le_bytes([low, high]));
    if !found.name.is_empty() {
        board.set_name(record, &found.name);
    }
    Some(record)
}

/// Without unused slots at the end.
fn used(bars: &[Bar]) -> &[Bar] {
    let length = bars.iter().rposition(|bar| *bar != Bar::UNUSED).map_or(0, |last| last + 1);
    &bars[..length]
}
