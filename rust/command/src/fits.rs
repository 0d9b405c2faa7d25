//! What lets a board be planned that finds no room: more of its host, a part left out, or cards in another order. Each answer is
//! planned by the proved call before it is given; the search for them is not proved, and is bounded.

use crate::tree::{self, Record};
use cartsundial::{plan_where, Board, HostRecord, Needs, PlanFinding, Pool, Spares};
use std::collections::BTreeSet;

/// How many boards are planned at the most in search of an order, and how many in search of a set to leave out.
pub const MOST_TRIED: usize = 2_000;

/// How many exchanges are named at the most.
const MOST_EXCHANGES: usize = 4;

/// No pool reaches so far.
const PAST_POOLS: u64 = 1 << 52;

pub struct Fits {
    /// The host with more of what runs out; none where no host has so much.
    pub host: Option<HostRecord>,
    /// It is enough that no bridge keeps anything free.
    pub no_spares: bool,
    /// Cards and subtrees, any one of which may be left out, by the record that names it; those of fewest functions first. None of
    /// them holds another.
    pub without: Vec<Record>,
    /// Where none is enough alone: some that are together.
    pub together: Vec<Record>,
    pub order: Order,
}

pub enum Order {
    /// Bus numbers run out, or the BARs alone are more than the pool: no order helps.
    Never,
    /// Pairs of devices, each pair in each other's place, one after the other, by the records of the board as it is.
    Found(Vec<(Record, Record)>, usize),
    /// So many were tried.
    NotFound(usize),
}

impl Fits {
    /// Of a lawful board that is refused so.
    pub fn new(board: &Board, finding: &PlanFinding) -> Fits {
        let without = singles(board, Pool::short_by(finding.refusal));
        let together = if without.is_empty() { together(board) } else { Vec::new() };
        let host = finding.needs.and_then(|needs| larger(board, &needs)).filter(|host| fits(&board.with_host(*host)));
        let no_spares = has_spares(board) && fits(&spareless(board));
        Fits { host, no_spares, without, together, order: order(board, finding) }
    }
}

/// Whether the proved call plans it.
fn fits(board: &Board) -> bool {
    board.plan().is_ok()
}

/// How much more a board needs than its host has, bytes of all pools and bus numbers; nothing where it is planned, and as much as can
/// be for one that is not lawful.
fn missing(board: &Board) -> u128 {
    let Err(finding) = plan_where(&board.bytes()) else { return 0 };
    let (Some(needs), Some(host)) = (finding.needs, finding.host) else { return u128::MAX };
    let over = |needs: u64, has: u64| u128::from(needs.saturating_sub(has));
    let pools = Pool::ALL.map(|pool| over(needs.of(pool), host.room(pool)));
    pools.iter().sum::<u128>() + over(needs.buses.into(), host.bus_numbers().into())
}

/// The host with as much as is needed, each pool from its base on, a closed one from the least multiple of its alignment that it may
/// have.
fn larger(board: &Board, needs: &Needs) -> Option<HostRecord> {
    let mut host = *board.host_record();
    let last = u32::from(host.buses.0) + needs.buses.checked_sub(1)?;
    host.buses.1 = host.buses.1.max(u8::try_from(last).ok()?);
    for pool in Pool::ALL.into_iter().filter(|&pool| needs.of(pool) > board.host_record().room(pool)) {
        let least = if pool == Pool::High { 1 << 32 } else { needs.align(pool) };
        let first = host.pool(pool).map_or(needs.align(pool).max(least), |range| *range.start());
        let last = first.checked_add(needs.of(pool))? - 1;
        match pool {
            Pool::Low => host.low = (u32::try_from(first).ok()?, u32::try_from(last).ok()?),
            Pool::High => host.high = (first, Some(last).filter(|&last| last < PAST_POOLS)?),
            Pool::Io => host.io = (u16::try_from(first).ok()?, u16::try_from(last).ok()?),
        }
    }
    Some(host)
}

fn has_spares(board: &Board) -> bool {
    board.functions().iter().any(|one| one.spares != Spares::default())
}

fn spareless(board: &Board) -> Board {
    let mut functions = board.functions().to_vec();
    functions.iter_mut().for_each(|one| one.spares = Spares::default());
    board.with_functions(functions)
}

/// All that may be left out alone.
fn singles(board: &Board, pool: Option<Pool>) -> Vec<Record> {
    let mut units: Vec<(Record, BTreeSet<Record>)> =
        tree::records(board).map(|record| (record, tree::unit(board, record))).collect();
    units.sort_by_key(|(record, unit)| (unit.len(), bytes(board, unit, pool), *record));
    let mut found: Vec<(Record, BTreeSet<Record>)> = Vec::new();
    for (record, unit) in units {
        let holds_one = found.iter().any(|(_, other)| other.is_subset(&unit));
        if !holds_one && fits(&tree::without(board, &unit)) {
            found.push((record, unit));
        }
    }
    found.into_iter().map(|(record, _)| record).collect()
}

/// The bytes of its BARs in a pool, or in all.
fn bytes(board: &Board, unit: &BTreeSet<Record>, pool: Option<Pool>) -> u128 {
    let of_pool = |record: &Record, pool: Pool| {
        let bars = board.function(*record).map_or(Vec::new(), |one| tree::bars(one, pool));
        bars.into_iter().map(|(_, size)| u128::from(size)).sum::<u128>()
    };
    let pools = Pool::ALL.into_iter().filter(|one| pool.is_none_or(|pool| pool == *one));
    pools.map(|pool| unit.iter().map(|record| of_pool(record, pool)).sum::<u128>()).sum()
}

/// Some that are enough together: the one whose going leaves least missing, then the next; in the end none that can come back.
fn together(board: &Board) -> Vec<Record> {
    let (mut gone, mut tried) = (Vec::new(), 0);
    while !fits(&left(board, &gone)) {
        let stays = |record: &Record| !united(board, &gone).contains(record);
        let left: Vec<Record> = tree::records(board).filter(stays).collect();
        tried += left.len();
        let missing_without = |&record: &Record| {
            let going = [&gone[..], &[record]].concat();
            (missing(&self::left(board, &going)), tree::unit(board, record).len(), record)
        };
        match left.iter().min_by_key(|record| missing_without(record)) {
            Some(&record) if tried <= 4 * MOST_TRIED => gone.push(record),
            _ => return Vec::new(),
        }
    }
    for record in gone.clone() {
        let others: Vec<Record> = gone.iter().copied().filter(|&other| other != record).collect();
        if fits(&left(board, &others)) {
            gone = others;
        }
    }
    gone.sort_unstable();
    gone
}

fn united(board: &Board, gone: &[Record]) -> BTreeSet<Record> {
    gone.iter().flat_map(|&record| tree::unit(board, record)).collect()
}

fn left(board: &Board, gone: &[Record]) -> Board {
    tree::without(board, &united(board, gone))
}

/// A board on the way, where each of its records was before, and the pairs that were exchanged.
struct Arranged {
    board: Board,
    origin: Vec<Record>,
    pairs: Vec<(Record, Record)>,
}

/// One pair after the other: at each step every pair that differs is tried, the largest difference first, and where none is enough
/// the one that leaves least missing is kept.
fn order(board: &Board, finding: &PlanFinding) -> Order {
    let Some(pool) = Pool::short_by(finding.refusal) else { return Order::Never };
    let all = tree::records(board).collect();
    if bytes(board, &all, Some(pool)) > board.host_record().room(pool).into() {
        return Order::Never;
    }
    let mut tried = 0;
    let mut now = Arranged { board: board.clone(), origin: all.into_iter().collect(), pairs: Vec::new() };
    for _ in 0..MOST_EXCHANGES {
        let before = missing(&now.board);
        let mut best: Option<(u128, Arranged)> = None;
        for (one, other) in pairs(&now.board, pool) {
            if tried == MOST_TRIED {
                break;
            }
            let Some(next) = now.exchanged(one, other) else { continue };
            tried += 1;
            let still = missing(&next.board);
            if still == 0 && fits(&next.board) {
                return Order::Found(next.pairs, tried);
            }
            if best.as_ref().is_none_or(|(least, _)| still < *least) {
                best = Some((still, next));
            }
        }
        match best {
            Some((least, next)) if least < before => now = next,
            _ => break,
        }
    }
    Order::NotFound(tried)
}

impl Arranged {
    fn exchanged(&self, one: Record, other: Record) -> Option<Arranged> {
        let (board, order) = tree::exchanged(&self.board, one, other)?;
        let before = |record: Record| self.origin[usize::from(record) - 1];
        let pair = (before(one), before(other));
        let origin = order.into_iter().map(before).collect();
        Some(Arranged { board, origin, pairs: self.pairs.iter().copied().chain([pair]).collect() })
    }
}

/// Devices that may change places, in pairs whose BARs of the pool differ: those in which the later one is larger first, by how much.
fn pairs(board: &Board, pool: Pool) -> Vec<(Record, Record)> {
    let sizes = |record: Record| -> Vec<u64> {
        let unit = tree::unit(board, record);
        let bars = unit.iter().filter_map(|&one| board.function(one)).flat_map(|one| tree::bars(one, pool));
        bars.map(|(_, size)| size).collect()
    };
    let cards: Vec<(Record, Vec<u64>)> =
        tree::records(board).filter(|&record| is_slot(board, record)).map(|record| (record, sizes(record))).collect();
    let mut pairs = Vec::new();
    for (at, (one, first)) in cards.iter().enumerate() {
        for (other, second) in cards[at + 1..].iter().filter(|(_, second)| second != first) {
            let most = |sizes: &[u64]| i128::from(sizes.iter().copied().max().unwrap_or(0));
            pairs.push((most(first) - most(second), *one, *other));
        }
    }
    pairs.sort_unstable();
    pairs.into_iter().map(|(_, one, other)| (one, other)).collect()
}

/// Whether something is there that may be plugged in elsewhere: a card, or a bridge that is alone below another one, as a card with a
/// switch on it. The ports of a board or of a switch stay where they are.
fn is_slot(board: &Board, record: Record) -> bool {
    let Some(one) = board.function(record).filter(|one| one.function == 0) else { return false };
    let beside = |other: &&cartsundial::BoardFunction| other.parent == one.parent && other.device != one.device;
    let is_alone = one.parent != 0 && !board.functions().iter().any(|other| beside(&other));
    let has_bridge = tree::unit(board, record).iter().any(|&one| board.function(one).is_some_and(|one| one.is_bridge));
    !has_bridge || is_alone
}
