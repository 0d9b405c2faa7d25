//! A box that is drawn: a sheet, or a board with its plan. A board that is refused for want of room is drawn as it would lie in
//! pools that are large enough: the same planner plans it there.

use crate::failure::Failure;
use crate::listing::pool_of;
use crate::named::NamedSheet;
use crate::source::Source;
use crate::unfit::Unfit;
use cartsundial::{plan_where, Board, Function, HostRecord, Needs, Place, PlacedBar, PlanFinding, Pool, Spares};
use std::ops::RangeInclusive;

/// Low memory ends here.
const FOUR_GIB: u64 = 1 << 32;
/// High pools end before this.
const PAST_POOLS: u64 = 1 << 52;

pub struct Machine {
    /// The file that it was read from.
    pub file: String,
    /// What is drawn; nothing of a board that fails its own checks, or that no pools would be large enough for.
    pub named: Option<NamedSheet>,
    /// The host's buses and pools, where they are known.
    pub host: Option<HostRecord>,
    /// What bridges keep free, by record; a sheet does not say it.
    spares: Vec<Spares>,
    pub is_board: bool,
    pub refused: Option<Refused>,
}

/// Why a board is not planned.
pub struct Refused {
    pub finding: PlanFinding,
    /// In words, a line each: the number first.
    pub lines: Vec<String>,
    /// What is added to an address of the drawn sheet to have it where it would lie: low, high, I/O.
    shift: [u64; 3],
}

impl Machine {
    /// Of a file, and of a host record where the file is a sheet.
    pub fn read(file: &str, host: Option<HostRecord>) -> Result<Machine, Failure> {
        let source = Source::read(file)?;
        let file = source.name.clone();
        if !source.is_board() {
            let named = source.into_sheet()?;
            return Ok(Machine { file, host, named: Some(named), spares: Vec::new(), is_board: false, refused: None });
        }
        if host.is_some() {
            return Err(Failure::Usage(format!("{file} is a board, which has its own host: leave --host out")));
        }
        let comment = source.host_comment();
        let board = source.into_board_or_bytes()?;
        let spares =
            board.as_ref().map_or(Vec::new(), |board| board.functions().iter().map(|one| one.spares).collect());
        let bytes = board.as_ref().map_or_else(Vec::clone, Board::bytes);
        let host = HostRecord::of_board(&bytes).ok();
        if let Some(named) = board.as_ref().ok().and_then(|board| NamedSheet::planned(board).ok()) {
            return Ok(Machine { file, host, named: Some(named), spares, is_board: true, refused: None });
        }
        let lines = Unfit::new(&bytes, board.as_ref().ok(), comment, &[]).text();
        let finding = plan_where(&bytes).expect_err("a board that is not planned is refused");
        let needs = finding.needs.unwrap_or_default();
        let would = board.ok().and_then(|board| would_lie(&board, &needs));
        let (named, shift) = would.map_or((None, [0; 3]), |(named, shift)| (Some(named), shift));
        let lines = lines.lines().map(|line| line.trim().to_string()).collect();
        let refused = Some(Refused { finding, lines, shift });
        Ok(Machine { file, host, named, spares, is_board: true, refused })
    }

    pub fn functions(&self) -> Vec<Function<'_>> {
        self.named.as_ref().map_or(Vec::new(), |named| named.sheet.functions().collect())
    }

    /// `03:00.0 "capture"`.
    pub fn title(&self, function: &Function) -> String {
        self.named.as_ref().map_or(function.id.to_string(), |named| named.title(function))
    }

    pub fn name(&self, record: u16) -> Option<&str> {
        self.named.as_ref()?.name(record)
    }

    /// The bridge just above a function; `None` on the root bus, and on a bus to which no bridge leads, or more than one.
    pub fn parent(&self, function: &Function) -> Option<u16> {
        self.named.as_ref()?.sheet.bridge_to(function.id.bus()).map(|bridge| bridge.record)
    }

    pub fn spares(&self, record: u16) -> Spares {
        self.spares.get(usize::from(record).wrapping_sub(1)).copied().unwrap_or_default()
    }

    /// The buses that a bridge keeps free, the last ones of its range.
    pub fn spare_buses(&self, function: &Function) -> Option<RangeInclusive<u8>> {
        let (buses, kept) = (function.buses()?, self.spares(function.record).buses);
        (kept > 0).then(|| buses.subordinate.saturating_sub(kept) + 1..=buses.subordinate)
    }

    /// The memory that a bridge keeps free, the end of its low window.
    pub fn spare_memory(&self, function: &Function) -> Option<RangeInclusive<u64>> {
        let kept = u64::from(self.spares(function.record).memory) << 20;
        let low = function.windows()?.low?;
        (kept > 0).then(|| self.shifted(Pool::Low, &((low.end() + 1).saturating_sub(kept)..=*low.end())))
    }

    /// Where a BAR lies, or would lie, and in which map: memory by its address, since firmware puts prefetchable memory below 4 GiB too.
    pub fn bar(&self, placed: &PlacedBar) -> (Pool, RangeInclusive<u64>) {
        self.placed(pool_of(placed) == Pool::Io, &placed.range())
    }

    /// The open windows, low, high and I/O.
    pub fn windows(&self, function: &Function) -> Vec<(Pool, RangeInclusive<u64>)> {
        let Some(all) = function.windows() else { return Vec::new() };
        let each = [(false, all.low), (false, all.high), (true, all.io)];
        each.into_iter().filter_map(|(is_io, window)| Some(self.placed(is_io, &window?))).collect()
    }

    fn placed(&self, is_io: bool, range: &RangeInclusive<u64>) -> (Pool, RangeInclusive<u64>) {
        let pool = match (is_io, *range.start() < FOUR_GIB) {
            (true, _) => Pool::Io,
            (false, true) => Pool::Low,
            (false, false) => Pool::High,
        };
        (pool, self.shifted(pool, range))
    }

    fn shifted(&self, pool: Pool, range: &RangeInclusive<u64>) -> RangeInclusive<u64> {
        let shift = self.refused.as_ref().map_or(0, |refused| refused.shift[at(pool)]);
        range.start().wrapping_add(shift)..=range.end().wrapping_add(shift)
    }

    /// Whether this is the BAR or window that the refusal is about.
    pub fn is_party(&self, record: u16, place: Place) -> bool {
        let party = self.refused.as_ref().and_then(|refused| refused.finding.party);
        party.is_some_and(|party| party.record == record && party.place == place)
    }
}

pub fn at(pool: Pool) -> usize {
    Pool::ALL.iter().position(|one| *one == pool).expect("there are three pools")
}

/// The plan of a board in pools that are as large as it needs, and how far its addresses are from where they would lie.
fn would_lie(board: &Board, needs: &Needs) -> Option<(NamedSheet, [u64; 3])> {
    let mut host = *board.host_record();
    let count = u16::try_from(needs.buses).ok()?;
    if u16::from(host.buses.0) + count > 256 {
        host.buses.0 = 0;
    }
    host.buses.1 = u8::try_from((u16::from(host.buses.0) + count).checked_sub(1)?).ok()?.max(host.buses.1);
    let mut shift = [0; 3];
    for pool in Pool::ALL {
        let (base, is_closed) = match board.host_record().pool(pool) {
            Some(range) => (*range.start(), false),
            None => (0, true),
        };
        let bytes = needs.of(pool).max(board.host_record().room(pool));
        if bytes == 0 {
            continue;
        }
        let start = base_with_room(pool, base, bytes, needs.align(pool), is_closed)?;
        shift[at(pool)] = base.wrapping_sub(start);
        let last = start + (bytes - 1);
        match pool {
            Pool::Low => host.low = (start.try_into().ok()?, last.try_into().ok()?),
            Pool::High => host.high = (start, last),
            Pool::Io => host.io = (start.try_into().ok()?, last.try_into().ok()?),
        }
    }
    let mut large = Vec::from(&board.bytes()[..3]);
    large.extend(host.bytes());
    large.extend(&board.bytes()[3 + HostRecord::BYTES..]);
    let large = Board::of_bytes(&large).ok()?;
    let names: Vec<Option<String>> = board.functions().iter().map(|one| one.name.clone()).collect();
    let named = NamedSheet::planned(&large).ok()?.with_names(names);
    Some((named, shift))
}

/// A base from which a pool has so many bytes: its own, or one with the same rest by the largest alignment, from which everything lies
/// as far from the base.
fn base_with_room(pool: Pool, base: u64, bytes: u64, align: u64, is_closed: bool) -> Option<u64> {
    let (least, past) = match pool {
        Pool::Low => (0, FOUR_GIB),
        Pool::High => (FOUR_GIB, PAST_POOLS),
        Pool::Io => (0, 1 << 16),
    };
    let fits = |start: &u64| start.checked_add(bytes).is_some_and(|end| end <= past);
    if !is_closed && fits(&base) {
        return Some(base);
    }
    let align = align.max(1);
    let rest = base % align;
    let start = (least + align - 1 - rest.min(align - 1)) / align * align + rest;
    Some(start).filter(|start| *start >= least).filter(fits)
}

#[cfg(test)]
mod tests {
    use super::*;

    #[test]
    fn a_base_with_the_same_rest() {
        let m = |number: u64| number << 20;
        assert_eq!(base_with_room(Pool::Low, m(0xF80), m(65), m(16), false), Some(m(0xF80)));
        assert_eq!(base_with_room(Pool::Low, m(0xFE1), m(65), m(16), false), Some(m(1)));
        assert_eq!(base_with_room(Pool::High, 0, m(8192), m(8192), true), Some(m(8192)));
        assert_eq!(base_with_room(Pool::High, PAST_POOLS - m(1), m(64), m(64), false), Some(m(4096 + 63)));
        assert_eq!(base_with_room(Pool::Low, 0, m(8192), m(4096), true), None);
    }
}
