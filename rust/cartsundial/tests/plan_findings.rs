//! What does not fit of a board: in words, against the sheet of a roomier host, and with pools as large as is needed, closed ones opened.

use cartsundial::{
    plan, plan_where, what_does_not_fit, Function, Needs, Place, PlanParty, Pool, Refusal, Sheet, FULL_SHEET,
};
use inputs::board::{high, io, memory, wide, Board, CLOSED_HIGH, CLOSED_IO, CLOSED_LOW};
use inputs::random::Random;
use inputs::trees;
use std::ops::RangeInclusive;

const MIB: u64 = 1 << 20;

/// 32 MiB of low memory, 1 MiB of high memory and 4 KiB of I/O.
fn small() -> Board {
    Board {
        low: (0xF800_0000, 0xF9FF_FFFF),
        high: (0x2_4000_0000, 0x2_400F_FFFF),
        io: (0x4000, 0x4FFF),
        ..Board::new()
    }
}

fn planned(board: &Board) -> Result<Vec<u8>, Refusal> {
    let mut room = vec![0; FULL_SHEET];
    let length = plan(&board.bytes(), &mut room)?;
    room.truncate(length);
    Ok(room)
}

fn words(board: &Board) -> String {
    plan_where(&board.bytes()).unwrap_err().to_string()
}

/// The record and place that are named, and those before which most room is lost.
fn named(board: &Board) -> Option<[Option<(u16, Place)>; 2]> {
    let finding = plan_where(&board.bytes()).err()?;
    let named = |party: Option<PlanParty>| party.map(|party| (party.record, party.place));
    Some([named(finding.party), named(finding.lost_before)])
}

#[test]
fn in_words() {
    let mut board = small();
    for (device, bits) in [(0, 20), (1, 24), (2, 12)] {
        board.end(0, device << 3, &[memory(bits)]);
    }
    let gap = "most room is lost to alignment before record 2 (00:01.0) BAR 0";
    let ends = "31 low pool full: record 3 (00:02.0) BAR 0 ends past it; needs 33 MiB, has 32 MiB";
    assert_eq!(words(&board), format!("{ends}; {gap}"));
    let bridge = board.bridge(0, 0x18);
    board.end(bridge, 0x00, &[io(4), io(8)]);
    board.low.1 += 0x10_0000;
    board.io = CLOSED_IO;
    assert_eq!(
        words(&board),
        "33 I/O pool closed: record 4 (00:03.0) I/O window finds no room; needs 4 KiB at a multiple of 4 KiB, has none; \
         most room is lost to alignment before record 5 (00.0 below record 4) BAR 1"
    );
    board.buses = (4, 4);
    assert_eq!(words(&board), "30 bus numbers: needs 2, has 1");
    board.functions[4].read_backs[1] = 2;
    assert_eq!(words(&board), "25 read-back: record 5 (00.0 below record 4) BAR 1");
    board.functions[1].device_function = 0x00;
    assert_eq!(words(&board), "23 order: record 2 (04:00.0)");
    board.functions[4].read_backs.pop();
    assert_eq!(words(&board), "24 header type or length: record 5 (00.0 below record 4)");
    board.version = 3;
    assert_eq!(words(&board), "21 version not 1, of a board neither 1 nor 2");
}

/// Past 2^52 no figure is told.
#[test]
fn more_than_any_pool_has() {
    let mut board = small();
    board.end(0, 0x00, &high(63));
    assert_eq!(
        words(&board),
        "32 high pool full: record 1 (00:00.0) BAR 0 ends past it; needs more than any pool has, has 1 MiB; \
         most room is lost to alignment before record 1 (00:00.0) BAR 0"
    );
    board.functions[0].read_backs = [wide(33), high(20), [0, 0]].concat();
    board.low = (0, 0xFFFF_FFFF);
    assert_eq!(words(&board), "31 low pool full: record 1 (00:00.0) BAR 0 ends past it; needs 8 GiB, has 4 GiB");
}

/// High memory runs out at record 1, low memory at record 3, I/O at record 2. The board's number is of the low pool, so the record is
/// that pool's; what each pool needs is told at once.
#[test]
fn several_pools_short() {
    let mut board = Board { low: (0xF900_0000, 0xF90F_FFFF), high: CLOSED_HIGH, io: CLOSED_IO, ..small() };
    board.end(0, 0x00, &high(20));
    board.end(0, 0x08, &[memory(20), io(4)]);
    board.end(0, 0x10, &[memory(20)]);
    let needs = Needs { buses: 1, low: 2 * MIB, high: MIB, io: 4096, low_align: MIB, high_align: MIB, io_align: 4096 };
    for (refusal, record) in [(Refusal::NoLowRoom, 3), (Refusal::NoHighRoom, 1), (Refusal::NoIoRoom, 2)] {
        let finding = what_does_not_fit(&board.bytes()).unwrap();
        assert_eq!((finding.refusal, finding.needs), (refusal, Some(needs)));
        assert_eq!(finding.party.unwrap().record, record);
        match Pool::short_by(refusal).unwrap() {
            Pool::Low => board.low.1 += 0x10_0000,
            Pool::High => board.high = small().high,
            Pool::Io => board.io = small().io,
        }
    }
    assert_eq!((plan_where(&board.bytes()), what_does_not_fit(&board.bytes())), (Ok(needs), None));
    board.functions[0].read_backs[0] = 2;
    assert_eq!(what_does_not_fit(&board.bytes()), None);
    assert_eq!(what_does_not_fit(&[]), None);
}

/// An item with its addresses, and where its bus was filled before it.
struct Item {
    named: (u16, Place),
    on_root: bool,
    range: RangeInclusive<u64>,
    before: u64,
}

/// The items of a pool on a planned sheet, in record order, a function's BARs before its window.
fn items(sheet: &Sheet<Vec<u8>>, pool: Pool, base: u64) -> Vec<Item> {
    let root = sheet.functions().next().map_or(0, |first| first.id.bus());
    // For each bus the end so far.
    let mut ends = [0; 256];
    ends[usize::from(root)] = base;
    let mut all = Vec::new();
    for function in sheet.functions() {
        let bus = function.id.bus();
        let bars = function.bars().filter(|placed| placed.bar.kind.pool() == Some(pool));
        let mut own: Vec<_> = bars.map(|placed| (Place::Bar(placed.slot), placed.range())).collect();
        own.extend(window(&function, pool).map(|range| (Place::Window(pool), range)));
        for (place, range) in own {
            let before = std::mem::replace(&mut ends[usize::from(bus)], range.end() + 1);
            if let (Place::Window(_), Some(buses)) = (place, function.buses()) {
                ends[usize::from(buses.secondary)] = *range.start();
            }
            all.push(Item { named: (function.record, place), on_root: bus == root, range, before });
        }
    }
    all
}

fn window(function: &Function, pool: Pool) -> Option<RangeInclusive<u64>> {
    let windows = function.windows()?;
    match pool {
        Pool::Low => windows.low,
        Pool::High => windows.high,
        Pool::Io => windows.io,
    }
}

/// The bases and the granules of the pools, as they are counted in [`Pool::ALL`].
fn bases(board: &Board) -> [u64; 3] {
    [board.low.0.into(), board.high.0, board.io.0.into()]
}

const GRANULES: [u64; 3] = [MIB, MIB, 4096];

/// Gives a pool so many bytes.
fn set_size(board: &mut Board, pool: Pool, bytes: u64) {
    match pool {
        Pool::Low => board.low.1 = (u64::from(board.low.0) + bytes - 1) as u32,
        Pool::High => board.high.1 = board.high.0 + bytes - 1,
        Pool::Io => board.io.1 = (u64::from(board.io.0) + bytes - 1) as u16,
    }
}

/// A board that is planned, with one pool cut: the sheet that it has with more room tells where everything would lie, so who ends past
/// the cut, before whom most room is lost, and what is needed.
#[test]
fn against_a_roomier_sheet() {
    let mut random = Random::new(31);
    let mut cuts = [0; 3];
    while cuts.iter().any(|&count| count < 200) {
        let board = trees::lawful(&mut random);
        let Ok(sheet) = planned(&board).and_then(Sheet::new) else { continue };
        let needs = plan_where(&board.bytes()).unwrap();
        assert_eq!(needs.buses as usize, 1 + board.bus_numbers());
        for pool in Pool::ALL {
            let (base, granule) = (bases(&board)[pool as usize], GRANULES[pool as usize]);
            let items = items(&sheet, pool, base);
            let end = items.iter().filter(|item| item.on_root).map(|item| item.range.end() + 1 - base).max();
            assert_eq!(needs.of(pool), end.map_or(0, |end| end.next_multiple_of(granule)));
            // Just enough room, then less.
            let granules = needs.of(pool) / granule;
            if granules < 2 {
                continue;
            }
            let mut cut = board.clone();
            set_size(&mut cut, pool, granules * granule);
            assert!(planned(&cut).is_ok());
            let fewer = if random.chance(1, 2) { granules - 1 } else { 1 + random.below(granules - 1) };
            set_size(&mut cut, pool, fewer * granule);
            let out = items.iter().find(|item| item.on_root && *item.range.end() >= base + fewer * granule);
            let most = items.iter().map(|item| item.range.start() - item.before).max().filter(|&most| most > 0);
            let gap = most.and_then(|most| items.iter().find(|item| item.range.start() - item.before == most));
            assert_eq!(named(&cut), Some([out.map(|item| item.named), gap.map(|item| item.named)]));
            let finding = what_does_not_fit(&cut.bytes()).unwrap();
            assert_eq!((Pool::short_by(finding.refusal), finding.needs), (Some(pool), Some(needs)));
            cuts[pool as usize] += 1;
        }
    }
}

/// Opens a pool from a base, with so many bytes; with none it stays closed.
fn opened(board: &Board, pool: Pool, base: u64, bytes: u64) -> Board {
    let mut board = board.clone();
    if bytes > 0 {
        match pool {
            Pool::Low => board.low.0 = base as u32,
            Pool::High => board.high.0 = base,
            Pool::Io => board.io.0 = base as u16,
        }
        set_size(&mut board, pool, bytes);
    }
    board
}

/// 8 GiB of prefetchable memory and no high pool: 8 GiB from 8 GiB on are enough, from 4 GiB on they are not.
#[test]
fn eight_gib_in_a_closed_pool() {
    let mut board = Board { high: CLOSED_HIGH, ..small() };
    board.end(0, 0x00, &high(33));
    assert_eq!(
        words(&board),
        "32 high pool closed: record 1 (00:00.0) BAR 0 finds no room; needs 8 GiB at a multiple of 8 GiB, has none"
    );
    let needs = what_does_not_fit(&board.bytes()).unwrap().needs.unwrap();
    assert_eq!((needs.high, needs.high_align), (8 << 30, 8 << 30));
    assert!(planned(&opened(&board, Pool::High, 8 << 30, needs.high)).is_ok());
    assert_eq!(planned(&opened(&board, Pool::High, 8 << 30, needs.high - MIB)), Err(Refusal::NoHighRoom));
    assert_eq!(planned(&opened(&board, Pool::High, 4 << 30, needs.high)), Err(Refusal::NoHighRoom));
}

/// A board that is planned, with one pool closed: opened again at any multiple of its alignment with the bytes that are told it is
/// planned, and with a granule less it is not.
#[test]
fn closed_pools_opened() {
    const KINDS: [(u64, u64); 3] = [(0, 1 << 32), (1 << 32, 1 << 52), (0, 1 << 16)];
    let mut random = Random::new(41);
    let mut counts = [0; 3];
    while counts.iter().any(|&count| count < 400) {
        let board = trees::lawful(&mut random);
        if planned(&board).is_err() {
            continue;
        }
        for pool in Pool::ALL {
            let mut closed = board.clone();
            match pool {
                Pool::Low => closed.low = CLOSED_LOW,
                Pool::High => closed.high = CLOSED_HIGH,
                Pool::Io => closed.io = CLOSED_IO,
            }
            let Some(finding) = what_does_not_fit(&closed.bytes()) else { continue };
            assert_eq!(Pool::short_by(finding.refusal), Some(pool));
            let needs = finding.needs.unwrap();
            let (bytes, align) = (needs.of(pool), needs.align(pool));
            let (first, end) = KINDS[pool as usize];
            let (least, most) = (first.div_ceil(align), end.saturating_sub(bytes) / align);
            if most < least || bytes > end {
                continue;
            }
            let base = (least + random.below(most - least + 1)) * align;
            assert!(planned(&opened(&closed, pool, base, bytes)).is_ok());
            let short = opened(&closed, pool, base, bytes - GRANULES[pool as usize]);
            assert_eq!(planned(&short), Err(finding.refusal));
            counts[pool as usize] += 1;
        }
    }
}
