//! Who fails an audit.

use crate::functions::{of_checked, Buses, Function};
use crate::{calls, HostRecord, Id, Pool, Refusal};
use core::error::Error;
use core::fmt;
use core::ops::RangeInclusive;

/// A place in a function's record.
#[derive(Clone, Copy, Debug, PartialEq, Eq, Hash)]
pub enum Place {
    /// A BAR, by its slot; of 64 bits the first of two.
    Bar(u8),
    /// A bridge's window.
    Window(Pool),
    /// A bridge's bus registers.
    Buses,
    /// The ID, and so the function as a whole.
    Id,
}

impl Place {
    /// The place with this number, as [`calls::audit_where`] has them.
    pub const fn from_number(number: u64) -> Option<Place> {
        Some(match number {
            0..=5 => Place::Bar(number as u8),
            6 => Place::Window(Pool::Low),
            7 => Place::Window(Pool::High),
            8 => Place::Window(Pool::Io),
            9 => Place::Buses,
            10 => Place::Id,
            _ => return None,
        })
    }

    /// Its number: 0 to 5 a BAR, 6 the low, 7 the high and 8 the I/O window, 9 the bus registers, 10 the ID.
    pub const fn number(self) -> u64 {
        match self {
            Place::Bar(slot) => slot as u64,
            Place::Window(pool) => 6 + pool as u64,
            Place::Buses => 9,
            Place::Id => 10,
        }
    }
}

/// A function that a refusal is about, and the place in its record.
#[derive(Clone, Debug, PartialEq, Eq, Hash)]
pub struct Party {
    /// Its record, from 1.
    pub record: u16,
    /// Its ID.
    pub id: Id,
    /// The place.
    pub place: Place,
    /// The addresses of the BAR or window, where the sheet passes its own checks.
    pub range: Option<RangeInclusive<u64>>,
    /// The buses of a bridge whose bus registers are the place.
    pub buses: Option<Buses>,
}

/// Why a sheet is refused, and for whom: the first record at which the check fails, and the other one that it meets there.
///
/// ```
/// use cartsundial::{audit_where, HostRecord};
///
/// // Two functions on bus 0, each with a memory BAR of 4 KiB at F9000000.
/// let host = HostRecord { low: (0xF900_0000, 0xF9FF_FFFF), ..HostRecord::CLOSED };
/// let mut sheet = vec![1];
/// for device_function in [0x00, 0x08] {
///     let mut record = [0; 92];
///     record[..4].copy_from_slice(&[0, 90, 0, device_function]);
///     record[4 + 0x10..][..4].copy_from_slice(&0xF900_0000_u32.to_le_bytes());
///     record[68..72].copy_from_slice(&0xFFFF_F000_u32.to_be_bytes());
///     sheet.extend(record);
/// }
/// let finding = audit_where(&host, &sheet).unwrap_err();
/// assert_eq!(
///     finding.to_string(),
///     "52 overlap: record 1 (00:00.0) BAR 0 F9000000-F9000FFF and record 2 (00:01.0) BAR 0 F9000000-F9000FFF"
/// );
/// ```
#[derive(Clone, Debug, PartialEq, Eq, Hash)]
pub struct Finding {
    /// The number of the check that fails.
    pub refusal: Refusal,
    /// The first record that fails it. `None` where it is about the host record or the sheet as a whole: 20 to 22 and 26.
    pub party: Option<Party>,
    /// The least record and place that it meets: for an ID twice (28), two bridges to one bus or siblings with a bus in
    /// common (50), and an overlap (52).
    pub other: Option<Party>,
}

/// Judges a sheet as [`audit`](crate::audit) does, and names who fails.
pub fn audit_where(host: &HostRecord, sheet: &[u8]) -> Result<(), Finding> {
    let mut who = [0; calls::WHO];
    match calls::audit_where(&host.bytes(), sheet, &mut who) {
        0 => Ok(()),
        number => Err(Finding::of(crate::refused(number), who, sheet)),
    }
}

impl Finding {
    /// Of a call's number and its four numbers.
    fn of(refusal: Refusal, who: [u64; calls::WHO], sheet: &[u8]) -> Finding {
        let passes = refusal.number() >= Refusal::NotTree.number();
        let party = |record: u64, place: u64| Party::of(record, Place::from_number(place)?, sheet, passes);
        Finding { refusal, party: party(who[0], who[1]), other: party(who[2], who[3]) }
    }
}

impl Party {
    /// A record of a sheet whose records are whole, which is all that is asked of it here; record 0 is nobody.
    fn of(record: u64, place: Place, sheet: &[u8], passes: bool) -> Option<Party> {
        let index = usize::try_from(record).ok()?.checked_sub(1)?;
        let function = of_checked(sheet).nth(index)?;
        let buses = if place == Place::Buses { function.buses() } else { None };
        let range = if passes { range_at(&function, place) } else { None };
        Some(Party { record: function.record, id: function.id, place, range, buses })
    }
}

/// The addresses of a BAR or a window.
fn range_at(function: &Function<'_>, place: Place) -> Option<RangeInclusive<u64>> {
    match place {
        Place::Bar(slot) => function.bars().find(|placed| placed.slot == slot).map(|placed| placed.range()),
        Place::Window(pool) => function.windows().and_then(|windows| match pool {
            Pool::Low => windows.low,
            Pool::High => windows.high,
            Pool::Io => windows.io,
        }),
        Place::Buses | Place::Id => None,
    }
}

/// `BAR 4`, `I/O window`, `bus registers`, `ID`.
impl fmt::Display for Place {
    fn fmt(&self, f: &mut fmt::Formatter<'_>) -> fmt::Result {
        match self {
            Place::Bar(slot) => write!(f, "BAR {slot}"),
            Place::Window(Pool::Low) => f.write_str("low window"),
            Place::Window(Pool::High) => f.write_str("high window"),
            Place::Window(Pool::Io) => f.write_str("I/O window"),
            Place::Buses => f.write_str("bus registers"),
            Place::Id => f.write_str("ID"),
        }
    }
}

/// `record 9 (00:1d.0) BAR 4 6040-605F`. The ID stands there already, as lspci has it, so it is not said as a place.
impl fmt::Display for Party {
    fn fmt(&self, f: &mut fmt::Formatter<'_>) -> fmt::Result {
        let (bus, device, function) = (self.id.bus(), self.id.device(), self.id.function());
        write!(f, "record {} ({bus:02x}:{device:02x}.{function})", self.record)?;
        if self.place != Place::Id {
            write!(f, " {}", self.place)?;
        }
        if let Some(range) = &self.range {
            write!(f, " {:X}-{:X}", range.start(), range.end())?;
        }
        if let Some(buses) = self.buses {
            write!(f, " {:02X}-{:02X}", buses.secondary, buses.subordinate)?;
        }
        Ok(())
    }
}

/// `52 overlap: record 7 (00:1c.0) I/O window 6000-6FFF and record 9 (00:1d.0) BAR 4 6040-605F`.
impl fmt::Display for Finding {
    fn fmt(&self, f: &mut fmt::Formatter<'_>) -> fmt::Result {
        write!(f, "{} {}", self.refusal.number(), word(self.refusal))?;
        if let Some(party) = &self.party {
            write!(f, ": {party}")?;
        }
        if let Some(other) = &self.other {
            write!(f, " and {other}")?;
        }
        Ok(())
    }
}

impl Error for Finding {}

/// A word for each number that a record fails; of the others their meaning.
fn word(refusal: Refusal) -> &'static str {
    match refusal {
        Refusal::HeaderType => "header type",
        Refusal::ReadBack => "read-back or BAR value",
        Refusal::BusRange => "bus numbers",
        Refusal::IdTwice => "ID twice",
        Refusal::WindowNibbles => "window nibbles",
        Refusal::NotTree => "bus tree",
        Refusal::NotNested => "place",
        Refusal::NotDisjoint => "overlap",
        other => other.meaning(),
    }
}
