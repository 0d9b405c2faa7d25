//! Who breaks which rule of the audit, or of one owner for every address, all of them: 50 buses, 51 places, 52 overlaps. The
//! verdict is the proved library's; this list is found by the types, and is not proved.

use crate::listing::{listed, pool_of, windows};
use crate::named::{NamedSheet, RECORD};
use crate::unlawful::too_small;
use cartsundial::{Bar, Buses, Finding, Function, HostRecord, Party, Place, Pool, Refusal};
use std::ops::RangeInclusive;

pub struct Fault {
    pub refusal: Refusal,
    /// With the functions' IDs and names.
    pub what: String,
    /// What of it says more than whom it is about.
    why: String,
    /// Whom it is about.
    who: Vec<(u16, Place)>,
}

impl Fault {
    /// Whether this is what the finding is about.
    fn is_of(&self, finding: &Finding) -> bool {
        let parties = [&finding.party, &finding.other].into_iter().flatten();
        let is_one = |party: &Party| {
            let is_place = |place: Place| place == party.place || self.refusal == Refusal::NotTree;
            self.who.iter().any(|&(record, place)| record == party.record && is_place(place))
        };
        self.refusal == finding.refusal && self.who.len() == parties.clone().count() && parties.clone().all(is_one)
    }
}

/// What is said of a BAR of a sheet that is too small, where 25 is about it.
pub fn small_bar(party: &Party, sheet: &[u8]) -> Option<String> {
    let Place::Bar(slot) = party.place else { return None };
    let record = sheet[1..].chunks(RECORD).nth(usize::from(party.record) - 1)?;
    let read_back = |slot: u8| Some(u32::from_be_bytes(*record.get(68 + 4 * usize::from(slot)..)?.first_chunk()?));
    let bar = Bar::of_read_backs(read_back(slot)?, read_back(slot + 1).unwrap_or(0))?;
    too_small(bar).map(|what| format!("{} BAR {slot}: {what}", party.id))
}

/// The proved finding with names and with what is looked up of it, and the faults without the one that it is about.
pub fn first_and_rest(finding: &Finding, named: Option<&NamedSheet>, mut faults: Vec<Fault>) -> (String, Vec<Fault>) {
    let mut first = finding.to_string();
    for party in [&finding.party, &finding.other].into_iter().flatten() {
        if let Some(name) = named.and_then(|named| named.name(party.record)) {
            let title = |name: &str| format!("record {} ({}{name})", party.record, party.id);
            first = first.replacen(&title(""), &title(&format!(" \"{name}\"")), 1);
        }
    }
    if let Some(at) = faults.iter().position(|fault| fault.is_of(finding)) {
        first += &faults.remove(at).why;
    }
    (first, faults)
}

/// What 51 asks a BAR or a window to lie in: a window or pool of its kind, as the audit does, or any of its address space.
#[derive(Clone, Copy, Debug, PartialEq, Eq)]
pub enum Nesting {
    OfKind,
    OfSpace,
}

impl Nesting {
    fn admits(self, item: Pool, outer: Pool) -> bool {
        match self {
            Nesting::OfKind => item == outer,
            Nesting::OfSpace => (item == Pool::Io) == (outer == Pool::Io),
        }
    }

    /// What is asked for above.
    fn word(self, item: Pool) -> &'static str {
        match (self, item) {
            (Nesting::OfSpace, Pool::Low | Pool::High) => "memory",
            _ => listed(item),
        }
    }
}

/// A BAR or an open window.
struct Item {
    pool: Pool,
    range: RangeInclusive<u64>,
    what: String,
    who: (u16, Place),
}

/// The faults of a sheet that passes its own checks, in the order of the audit's checks.
pub fn all(named: &NamedSheet, host: &HostRecord, nesting: Nesting) -> Vec<Fault> {
    let mut faults = bus_faults(named, host);
    faults.extend(place_faults(named, host, nesting));
    faults.extend(overlap_faults(named));
    faults
}

fn bus_faults(named: &NamedSheet, host: &HostRecord) -> Vec<Fault> {
    let mut faults = Vec::new();
    let mut add = |function: &Function, place: Place, why: String| {
        let what = format!("{}{why}", named.title(function));
        faults.push(Fault { refusal: Refusal::NotTree, what, why, who: vec![(function.record, place)] });
    };
    let (root, last) = host.buses;
    for function in named.sheet.functions() {
        let bus = function.id.bus();
        let above = named.sheet.bridge_to(bus);
        if function.record == 1 && bus != root {
            add(&function, Place::Id, format!(": the first record is not on the host's first bus, {root:02X}"));
        }
        if bus != root && above.is_none() {
            add(&function, Place::Id, format!(": not exactly one bridge leads to bus {bus:02X}"));
        }
        let Some(Buses { secondary, subordinate, .. }) = function.buses() else { continue };
        if secondary < root || subordinate > last {
            let why = format!(": buses {secondary:02X}-{subordinate:02X} outside the host's {root:02X}-{last:02X}");
            add(&function, Place::Buses, why);
        }
        let outer = above.filter(|_| bus != root).and_then(|bridge| Some((named.title(&bridge), bridge.buses()?)));
        if let Some((bridge, outer)) = outer {
            if secondary < outer.secondary || subordinate > outer.subordinate {
                let range = format!("{:02X}-{:02X}", outer.secondary, outer.subordinate);
                let why = format!(": buses {secondary:02X}-{subordinate:02X} outside those of {bridge}, {range}");
                add(&function, Place::Buses, why);
            }
        }
    }
    faults.extend(shared_buses(named));
    faults
}

/// Bridges on one bus with a bus in common.
fn shared_buses(named: &NamedSheet) -> Vec<Fault> {
    let bridges: Vec<(Function, Buses)> =
        named.sheet.functions().filter_map(|function| Some((function, function.buses()?))).collect();
    let mut faults = Vec::new();
    for (index, (one, range)) in bridges.iter().enumerate() {
        for (other, beside) in &bridges[..index] {
            let meet = range.secondary <= beside.subordinate && beside.secondary <= range.subordinate;
            if meet && one.id.bus() == other.id.bus() {
                let what = format!("{} and {} have buses in common", named.title(other), named.title(one));
                let who = [other, one].map(|bridge| (bridge.record, Place::Buses)).to_vec();
                let why = " have buses in common".to_string();
                faults.push(Fault { refusal: Refusal::NotTree, what, why, who });
            }
        }
    }
    faults
}

fn place_faults(named: &NamedSheet, host: &HostRecord, nesting: Nesting) -> Vec<Fault> {
    let mut faults = Vec::new();
    for function in named.sheet.functions() {
        let bus = function.id.bus();
        let (above, outer) = if bus == host.buses.0 {
            ("the host's pool".to_string(), pools(host))
        } else {
            let Some(bridge) = named.sheet.bridge_to(bus) else { continue };
            (format!("the window of {}", named.title(&bridge)), windows(&bridge))
        };
        for item in items(named, &function) {
            let admitted = outer.iter().filter(|(pool, _)| nesting.admits(item.pool, *pool)).map(|(_, range)| range);
            let holds =
                |range: &RangeInclusive<u64>| range.contains(item.range.start()) && range.contains(item.range.end());
            if !admitted.clone().any(holds) {
                let ranges: Vec<String> = admitted.map(text).collect();
                let is = if ranges.is_empty() { "closed".to_string() } else { ranges.join(" or ") };
                let why = format!(" outside {above} for {}, which is {is}", nesting.word(item.pool));
                let what = format!("{}{why}", item.what);
                faults.push(Fault { refusal: Refusal::NotNested, what, why, who: vec![item.who] });
            }
        }
    }
    faults
}

fn overlap_faults(named: &NamedSheet) -> Vec<Fault> {
    let mut faults = Vec::new();
    let all: Vec<(u8, Item)> = named
        .sheet
        .functions()
        .flat_map(|function| items(named, &function).into_iter().map(move |item| (function.id.bus(), item)))
        .collect();
    for (index, (bus, one)) in all.iter().enumerate() {
        for (beside, other) in &all[..index] {
            let is_one_space = (one.pool == Pool::Io) == (other.pool == Pool::Io);
            let meet = one.range.start() <= other.range.end() && other.range.start() <= one.range.end();
            if bus == beside && is_one_space && meet {
                let what = format!("{} and {}", other.what, one.what);
                let who = vec![other.who, one.who];
                faults.push(Fault { refusal: Refusal::NotDisjoint, what, why: String::new(), who });
            }
        }
    }
    faults
}

/// The open pools.
fn pools(host: &HostRecord) -> Vec<(Pool, RangeInclusive<u64>)> {
    let HostRecord { low, high, io, .. } = *host;
    let all = [
        (Pool::Low, u64::from(low.0)..=low.1.into()),
        (Pool::High, high.0..=high.1),
        (Pool::Io, u64::from(io.0)..=io.1.into()),
    ];
    all.into_iter().filter(|(_, range)| !range.is_empty()).collect()
}

fn items(named: &NamedSheet, function: &Function) -> Vec<Item> {
    let title = named.title(function);
    let bars = function.bars().map(|placed| {
        let range = placed.range();
        let what = format!("{title} BAR {} ({} {})", placed.slot, placed.bar.kind, text(&range));
        Item { pool: pool_of(&placed), range, what, who: (function.record, Place::Bar(placed.slot)) }
    });
    let windows = windows(function).into_iter().map(|(pool, range)| {
        let what = format!("{title} {} window ({})", listed(pool), text(&range));
        Item { pool, range, what, who: (function.record, Place::Window(pool)) }
    });
    bars.chain(windows).collect()
}

fn text(range: &RangeInclusive<u64>) -> String {
    format!("{:X}-{:X}", range.start(), range.end())
}
