//! What does not fit of a board.

use crate::board::records;
use crate::{calls, HostRecord, Id, Place, Pool, Refusal, Size};
use core::error::Error;
use core::fmt;

/// No pool reaches so far.
const PAST_POOLS: u64 = 1 << 52;

/// What a board that passes its own checks needs of its host, whether it is planned or not.
///
/// A pool's bytes are counted from its base to the edge of a granule after the last item of the root bus: 1 MiB for memory, 4 KiB
/// for I/O. They are 0 where the root bus has nothing of that pool. A closed pool has no base: its bytes are enough from any
/// multiple of its alignment, and from another base it can take more. With pools of that size, an open one from the same base on
/// and a closed one from such a multiple, the board is not refused with 31 to 33; with a granule less in one of them it is. An
/// end past 2^62 is counted as 2^62, which is past every pool.
#[derive(Clone, Copy, Debug, Default, PartialEq, Eq, Hash)]
pub struct Needs {
    /// Bus numbers: the root bus's, and those that the bridges and their spares take.
    pub buses: u32,
    /// Bytes of the low pool.
    pub low: u64,
    /// Bytes of the high pool.
    pub high: u64,
    /// Bytes of the I/O pool.
    pub io: u64,
    /// The low pool's alignment: the largest among the root bus's items there, and no less than the granule.
    pub low_align: u64,
    /// The high pool's.
    pub high_align: u64,
    /// The I/O pool's.
    pub io_align: u64,
}

impl Needs {
    /// The bytes of this pool.
    pub const fn of(&self, pool: Pool) -> u64 {
        match pool {
            Pool::Low => self.low,
            Pool::High => self.high,
            Pool::Io => self.io,
        }
    }

    /// Where this pool is closed, its bytes are enough from any multiple of this.
    pub const fn align(&self, pool: Pool) -> u64 {
        match pool {
            Pool::Low => self.low_align,
            Pool::High => self.high_align,
            Pool::Io => self.io_align,
        }
    }
}

/// A function of a board that a refusal is about, and the place in its record.
#[derive(Clone, Copy, Debug, PartialEq, Eq, Hash)]
pub struct PlanParty {
    /// Its record, from 1.
    pub record: u16,
    /// The record of the bridge just above it, or 0 for the host.
    pub parent: u16,
    /// 0 to 31.
    pub device: u8,
    /// 0 to 7.
    pub function: u8,
    /// Its ID, where it is on the root bus. The numbers of the other buses are the plan's.
    pub id: Option<Id>,
    /// A BAR, a window, or for the function as a whole its ID.
    pub place: Place,
}

/// Why a board is refused, who finds no room, and what the board needs.
///
/// ```
/// use cartsundial::plan_where;
///
/// // A low pool of 32 MiB, the others closed; cards of 1 MiB, 16 MiB and 4 KiB.
/// let mut board = vec![1, 0, 30, 0, 255, 0xF8, 0, 0, 0, 0xF9, 0xFF, 0xFF, 0xFF];
/// board.extend([1, 0, 0, 0, 0, 0, 0, 0, 0, 0, 0, 0, 0, 0, 0, 0, 1, 0, 0, 0]);
/// for (device_function, read_back) in [(0x00, 0xFFF0_0000_u32), (0x08, 0xFF00_0000), (0x10, 0xFFFF_F000)] {
///     board.extend([0, 30, 0, 0, device_function, 0, 0, 3]);
///     board.extend(read_back.to_be_bytes());
///     board.extend([0; 20]);
/// }
/// let finding = plan_where(&board).unwrap_err();
/// assert_eq!(finding.needs.unwrap().low, 33 << 20);
/// assert_eq!(
///     finding.to_string(),
///     "31 low pool full: record 3 (00:02.0) BAR 0 ends past it; needs 33 MiB, has 32 MiB; \
///      most room is lost to alignment before record 2 (00:01.0) BAR 0"
/// );
/// ```
#[derive(Clone, Debug, PartialEq, Eq, Hash)]
pub struct PlanFinding {
    /// The planner's number.
    pub refusal: Refusal,
    /// For 23 to 25 the first record that fails the check. For 31 to 33 the first item of the root bus that ends past its pool,
    /// in a closed pool the first item. `None` for the others.
    pub party: Option<PlanParty>,
    /// For 31 to 33 the item of that pool, on any bus, before which most room is lost to alignment, the first of those that lose
    /// most. An address past 2^62 counts as 2^62 here too. `None` where nothing is lost.
    pub lost_before: Option<PlanParty>,
    /// For 30 to 33. `None` where the board fails its own checks, 20 to 26.
    pub needs: Option<Needs>,
    /// What there is. `None` for 20 and 21 only.
    pub host: Option<HostRecord>,
}

/// What a board needs, or the number that [`plan`](crate::plan) refuses it with, whom that is about, and what it needs then. No sheet
/// is made, so there is no 11.
pub fn plan_where(board: &[u8]) -> Result<Needs, PlanFinding> {
    let mut who = [0; calls::PLAN_WHO];
    let number = calls::plan_where(board, &mut who);
    let [record, place, other, other_place, buses, low, high, io, low_align, high_align, io_align] = who;
    let needs = Needs { buses: buses as u32, low, high, io, low_align, high_align, io_align };
    if number == 0 {
        return Ok(needs);
    }
    let refusal = crate::refused(number);
    Err(PlanFinding {
        refusal,
        party: PlanParty::of(record, place, board),
        lost_before: PlanParty::of(other, other_place, board),
        needs: is_short(refusal).then_some(needs),
        host: HostRecord::of_board(board).ok(),
    })
}

/// What does not fit of a board: its buses (30), or what is to lie in a pool (31 to 33). `None` where it is planned, or fails its
/// own checks. Where two pools run out, this is about the one that [`plan`](crate::plan) names; what the others need is told too.
pub fn what_does_not_fit(board: &[u8]) -> Option<PlanFinding> {
    plan_where(board).err().filter(|finding| is_short(finding.refusal))
}

/// Whether something of the host runs out, and the board itself is lawful.
fn is_short(refusal: Refusal) -> bool {
    refusal == Refusal::NoBuses || Pool::short_by(refusal).is_some()
}

impl PlanParty {
    /// A record of a board whose records are whole; record 0 is nobody.
    fn of(record: u64, place: u64, board: &[u8]) -> Option<PlanParty> {
        let number = u16::try_from(record).ok().filter(|&number| number > 0)?;
        let (part, _) = records(board).nth(number.into())?;
        let (&[high, low, device_function], _) = part.split_first_chunk()?;
        let parent = u16::from_be_bytes([high, low]);
        let root = HostRecord::of_board(board).ok()?.buses.0;
        Some(PlanParty {
            record: number,
            parent,
            device: device_function >> 3,
            function: device_function & 7,
            id: (parent == 0).then_some(Id(u16::from_be_bytes([root, device_function]))),
            place: Place::from_number(place)?,
        })
    }
}

/// `record 5 (00:1b.0) BAR 0`, below a bridge `record 5 (1b.0 below record 4) BAR 0`. Where the function as a whole is meant, no
/// place is said.
impl fmt::Display for PlanParty {
    fn fmt(&self, f: &mut fmt::Formatter<'_>) -> fmt::Result {
        let (device, function) = (self.device, self.function);
        write!(f, "record {} (", self.record)?;
        match self.id {
            Some(id) => write!(f, "{:02x}:{device:02x}.{function})", id.bus())?,
            None => write!(f, "{device:02x}.{function} below record {})", self.parent)?,
        }
        if self.place != Place::Id {
            write!(f, " {}", self.place)?;
        }
        Ok(())
    }
}

impl PlanFinding {
    /// The bytes of the pool that has no room left, 0 of a closed one.
    fn room(&self, pool: Pool) -> u64 {
        self.host.map_or(0, |host| host.room(pool))
    }

    /// `; needs 33 MiB, has 32 MiB`; of a closed pool `; needs 8 GiB at a multiple of 8 GiB, has none`.
    fn write_room(&self, f: &mut fmt::Formatter<'_>, needs: u64, align: u64, has: u64) -> fmt::Result {
        match needs {
            PAST_POOLS.. => f.write_str("; needs more than any pool has")?,
            _ => write!(f, "; needs {:#}", Size(needs))?,
        }
        if has == 0 && needs < PAST_POOLS {
            write!(f, " at a multiple of {:#}", Size(align))?;
        }
        match has {
            0 => f.write_str(", has none"),
            _ => write!(f, ", has {:#}", Size(has)),
        }
    }
}

/// `30 bus numbers: needs 5, has 4`; `31 low pool full: record 7 (00:1c.0) BAR 0 ends past it; needs 33 MiB, has 32 MiB; most room is
/// lost to alignment before record 5 (00:1b.0) BAR 0`.
impl fmt::Display for PlanFinding {
    fn fmt(&self, f: &mut fmt::Formatter<'_>) -> fmt::Result {
        write!(f, "{} {}", self.refusal.number(), word(self.refusal))?;
        let short = Pool::short_by(self.refusal);
        let is_closed = short.is_some_and(|pool| self.room(pool) == 0);
        if short.is_some() {
            f.write_str(if is_closed { " closed" } else { " full" })?;
        }
        if let Some(party) = &self.party {
            write!(f, ": {party}")?;
        }
        match (short, self.needs, self.host) {
            (Some(pool), Some(needs), _) => {
                f.write_str(if is_closed { " finds no room" } else { " ends past it" })?;
                self.write_room(f, needs.of(pool), needs.align(pool), self.room(pool))?;
            }
            (None, Some(needs), Some(host)) => write!(f, ": needs {}, has {}", needs.buses, host.bus_numbers())?,
            _ => {}
        }
        match &self.lost_before {
            Some(party) => write!(f, "; most room is lost to alignment before {party}"),
            None => Ok(()),
        }
    }
}

impl Error for PlanFinding {}

/// A word for each number that a record, or what a board needs, is told of; of the others their meaning.
fn word(refusal: Refusal) -> &'static str {
    match refusal {
        Refusal::Order => "order",
        Refusal::HeaderType => "header type or length",
        Refusal::ReadBack => "read-back",
        Refusal::NoBuses => "bus numbers",
        Refusal::NoLowRoom => "low pool",
        Refusal::NoHighRoom => "high pool",
        Refusal::NoIoRoom => "I/O pool",
        other => other.meaning(),
    }
}
