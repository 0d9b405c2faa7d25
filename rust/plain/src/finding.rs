//! Who fails an audit: the first record, in record order, that fails the check with the audit's number, its place, and the
//! other one that it meets there.

use crate::audit::audit;
use crate::bar::{self, Bar};
use crate::board::Host;
use crate::pool::{Pool, Range};
use crate::sheet::{records_of, Record};

/// A record, from 1, and a place in it: 0 to 5 a BAR slot, 6 the low, 7 the high and 8 the I/O window, 9 the bus registers,
/// 10 the ID. Both are 0 where there is no record.
#[derive(Clone, Copy, Debug, Default, PartialEq, Eq)]
pub struct Party {
    pub record: usize,
    pub place: u8,
}

#[derive(Clone, Copy, Debug, Default, PartialEq, Eq)]
pub struct Finding {
    pub number: u8,
    pub party: Party,
    /// The least record and place that the first one meets, for an ID twice, two bridges to one bus, siblings with a bus
    /// in common, and an overlap.
    pub other: Party,
}

const BUSES: u8 = 9;
pub const ID: u8 = 10;

/// The audit's number, and whom it is about. For 20 to 22, for 26 and for an accepted sheet that is nobody.
pub fn audit_where(host: &[u8], sheet: &[u8]) -> Finding {
    let number = audit(host, sheet);
    let found = match number {
        24 | 25 | 27..=29 => own(number, sheet),
        50..=52 => under(number, host, sheet),
        _ => None,
    };
    let (party, other) = found.unwrap_or_default();
    Finding { number, party, other }
}

/// Where a record fails, and whom it meets there.
type Fault = Option<(u8, Party)>;

/// The first record with a fault.
fn first(records: &[Record<'_>], fault: impl Fn(usize, Record<'_>) -> Fault) -> Option<(Party, Party)> {
    records.iter().enumerate().find_map(|(index, &record)| {
        let (place, other) = fault(index, record)?;
        Some((Party { record: index + 1, place }, other))
    })
}

/// The first record but the one at `index` that passes the test.
fn another(records: &[Record<'_>], index: usize, test: impl Fn(Record<'_>) -> bool) -> Option<usize> {
    records.iter().enumerate().find(|&(at, &record)| at != index && test(record)).map(|(at, _)| at + 1)
}

fn alone(place: u8) -> (u8, Party) {
    (place, Party::default())
}

/// 24, 25, 27, 28 and 29, of a sheet whose frame is right.
fn own(number: u8, sheet: &[u8]) -> Option<(Party, Party)> {
    let records: Vec<_> = records_of(sheet).collect();
    first(&records, |index, record| match number {
        24 => (!record.has_lawful_type()).then_some(alone(ID)),
        25 => wrong_slot(record).map(alone),
        27 => (!record.has_lawful_buses()).then_some(alone(BUSES)),
        28 => {
            another(&records, index, |other| other.id() == record.id()).map(|record| (ID, Party { record, place: ID }))
        }
        _ => wrong_window(record).map(alone),
    })
}

/// The first slot whose read-back is none, whose value does not fit it, or that a bridge does not have.
fn wrong_slot(record: Record<'_>) -> Option<u8> {
    let (all, count) = (record.read_backs(), record.slots());
    let mut slot = 0;
    while slot < count {
        slot += match Bar::at(&all[..count], slot) {
            Ok(None) if record.bar_register(slot) == 0 => 1,
            Ok(Some(bar)) if bar.admits(record.value(&bar)) => bar.slots(),
            _ => return Some(slot as u8),
        };
    }
    (count..all.len()).find(|&slot| all[slot] != 0).map(|slot| slot as u8)
}

/// The first window of a bridge whose base or limit has other low bits than its kind.
fn wrong_window(record: Record<'_>) -> Option<u8> {
    let wrong = |pool: &Pool| {
        let low_bits = u8::from(*pool == Pool::High);
        record.window_nibbles(*pool).into_iter().any(|nibble| nibble != low_bits)
    };
    Pool::ALL.into_iter().filter(|_| record.is_bridge()).find(wrong).map(window_place)
}

pub fn window_place(pool: Pool) -> u8 {
    6 + pool as u8
}

/// 50, 51 and 52, of a host record and a sheet that are right by themselves.
fn under(number: u8, host: &[u8], sheet: &[u8]) -> Option<(Party, Party)> {
    let host = Host::parse(host.try_into().ok()?);
    let records: Vec<_> = records_of(sheet).collect();
    match number {
        50 => first(&records, |index, record| bus_fault(&host, &records, index, record)),
        51 => first(&records, |_, record| {
            let outer = |pool| above(&host, &records, record.bus()).map(|above| above.range(pool));
            let lies = |item: &Item| {
                outer(item.pool).is_some_and(|outer| outer.base <= item.range.base && item.range.last <= outer.last)
            };
            items(record).into_iter().find(|item| !lies(item)).map(|item| alone(item.place))
        }),
        _ => first(&records, |index, record| {
            items(record).into_iter().find_map(|item| Some((item.place, met(&records, index, &item)?)))
        }),
    }
}

/// What stands above a bus.
enum Above<'a> {
    Host(&'a Host),
    Bridge(Record<'a>),
}

impl Above<'_> {
    fn buses(&self) -> (u8, u8) {
        match self {
            Above::Host(host) => (host.first_bus, host.last_bus),
            Above::Bridge(bridge) => (bridge.secondary(), bridge.subordinate()),
        }
    }

    fn range(&self, pool: Pool) -> Range {
        match self {
            Above::Host(host) => host.pools[pool as usize],
            Above::Bridge(bridge) => bridge.window(pool),
        }
    }
}

fn leads_to(record: Record<'_>, bus: u8) -> bool {
    record.is_bridge() && record.secondary() == bus
}

/// The host on the root bus, and elsewhere the one bridge that leads there.
fn above<'a>(host: &'a Host, records: &[Record<'a>], bus: u8) -> Option<Above<'a>> {
    if bus == host.first_bus {
        return Some(Above::Host(host));
    }
    let mut bridges = records.iter().filter(|record| leads_to(**record, bus));
    let bridge = bridges.next()?;
    bridges.next().is_none().then_some(Above::Bridge(*bridge))
}

/// 50, sentence by sentence: the first record's bus, a parent, buses in the parent's and in the host's, siblings apart.
fn bus_fault(host: &Host, records: &[Record<'_>], index: usize, record: Record<'_>) -> Fault {
    if index == 0 && record.bus() != host.first_bus {
        return Some(alone(ID));
    }
    let Some(parent) = above(host, records, record.bus()) else {
        let bridge = records.iter().position(|other| leads_to(*other, record.bus()));
        return Some((ID, bridge.map_or(Party::default(), |at| Party { record: at + 1, place: BUSES })));
    };
    if !record.is_bridge() {
        return None;
    }
    let (secondary, subordinate) = (record.secondary(), record.subordinate());
    let within = |(first, last): (u8, u8)| first <= secondary && subordinate <= last;
    if !(within(parent.buses()) && within((host.first_bus, host.last_bus))) {
        return Some(alone(BUSES));
    }
    let meets = |other: Record<'_>| {
        other.is_bridge()
            && other.bus() == record.bus()
            && other.secondary() <= subordinate
            && secondary <= other.subordinate()
    };
    another(records, index, meets).map(|record| (BUSES, Party { record, place: BUSES }))
}

/// A BAR or an open window.
struct Item {
    place: u8,
    pool: Pool,
    range: Range,
}

/// Those of a function, slots before windows.
fn items(record: Record<'_>) -> Vec<Item> {
    let bars = bar::bars(record.read_backs()).map(|bar| Item {
        place: bar.slot as u8,
        pool: bar.pool,
        range: bar.range(record.value(&bar)),
    });
    let windows = Pool::ALL.into_iter().filter(|_| record.is_bridge()).map(|pool| Item {
        place: window_place(pool),
        pool,
        range: record.window(pool),
    });
    bars.chain(windows.filter(|window| !window.range.is_closed())).collect()
}

/// The least record and place on the bus of the record at `index` whose BAR or open window shares an address with this one of
/// it.
fn met(records: &[Record<'_>], index: usize, item: &Item) -> Option<Party> {
    let shares = |other: &Item| {
        (other.pool == Pool::Io) == (item.pool == Pool::Io)
            && other.range.base <= item.range.last
            && item.range.base <= other.range.last
    };
    records.iter().enumerate().filter(|(_, record)| record.bus() == records[index].bus()).find_map(|(at, &record)| {
        let other =
            items(record).into_iter().find(|other| (at, other.place) != (index, item.place) && shares(other))?;
        Some(Party { record: at + 1, place: other.place })
    })
}
