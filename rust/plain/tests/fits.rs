//! What does not fit of a board: who fails, who ends past a pool, before whom most room is lost, and what is needed.

use inputs::board::{high, io, memory, wide, Board, Spares, CLOSED_HIGH, CLOSED_IO, CLOSED_LOW};
use inputs::planted;
use inputs::random::Random;
use inputs::trees;
use plain::{plan, plan_where, Fit, Needs, Party, FULL_SHEET};

const MIB: u64 = 1 << 20;
const NOBODY: Party = Party { record: 0, place: 0 };
/// The low window, the high window, the I/O window, and the function as a whole.
const LOW: u8 = 6;
const HIGH: u8 = 7;
const IO: u8 = 8;
const ID: u8 = 10;

fn at(record: usize, place: u8) -> Party {
    Party { record, place }
}

/// 32 MiB of low memory, 1 MiB of high memory and 4 KiB of I/O.
fn small() -> Board {
    Board {
        low: (0xF800_0000, 0xF9FF_FFFF),
        high: (0x2_4000_0000, 0x2_400F_FFFF),
        io: (0x4000, 0x4FFF),
        ..Board::new()
    }
}

fn fit(board: &Board) -> Fit {
    plan_where(&board.bytes())
}

/// The number, the party and the other one.
fn who(board: &Board) -> (u8, Party, Party) {
    let Fit { number, party, other, .. } = fit(board);
    (number, party, other)
}

#[test]
fn planned() {
    let mut board = small();
    assert_eq!(
        fit(&board),
        Fit { needs: Needs { buses: 1, bytes: [0; 3], aligns: [MIB, MIB, 4096] }, ..Fit::default() }
    );
    let bridge = board.bridge(0, 0x00);
    board.end(bridge, 0x00, &[memory(12), io(4)]);
    board.end(0, 0x08, &high(12));
    // A window is rounded already; of the BAR on the root bus the granule is needed.
    assert_eq!(fit(&board).needs, Needs { buses: 2, bytes: [MIB, MIB, 4096], aligns: [MIB, MIB, 4096] });
    assert_eq!(who(&board), (0, NOBODY, NOBODY));
}

/// 20, 21, 22 and 26 are about nobody, and nothing is needed.
#[test]
fn the_board_as_a_whole() {
    let one = |change: fn(&mut Board)| {
        let mut board = small();
        board.end(0, 0x00, &[memory(12)]);
        change(&mut board);
        fit(&board)
    };
    let alone = |number| Fit { number, ..Fit::default() };
    assert_eq!(plan_where(&[]), alone(20));
    assert_eq!(one(|board| board.tail = vec![0]), alone(20));
    assert_eq!(one(|board| board.version = 3), alone(21));
    assert_eq!(one(|board| board.functions = vec![board.functions[0].clone(); 513]), alone(22));
    assert_eq!(one(|board| board.buses = (9, 8)), alone(26));
}

/// The first record that fails, and of 25 its first wrong slot.
#[test]
fn own_checks() {
    let mut board = small();
    let bridge = board.bridge(0, 0x00);
    let card = board.end(bridge, 0x00, &[memory(12), 0, 0, 0, 0, 0]);
    let second = board.end(bridge, 0x08, &[memory(12)]);
    board.end(0, 0x08, &[]);
    let with = |change: &dyn Fn(&mut Board)| {
        let mut changed = board.clone();
        change(&mut changed);
        let Fit { number, party, other, needs } = fit(&changed);
        assert_eq!((other, needs), (NOBODY, Needs::default()));
        (number, party)
    };
    let (card, second) = (usize::from(card), usize::from(second));
    assert_eq!(with(&|board| board.functions[1].header_type = 2), (24, at(card, ID)));
    assert_eq!(with(&|board| board.functions[3].read_backs.truncate(5)), (24, at(4, ID)));
    // 24 is asked of every record before 23.
    let both = |board: &mut Board| (board.functions[0].parent, board.functions[2].header_type) = (7, 2);
    assert_eq!(with(&both), (24, at(second, ID)));
    assert_eq!(with(&|board| board.functions[2].device_function = 0x00), (23, at(second, ID)));
    assert_eq!(with(&|board| board.functions[2].parent = 2), (23, at(second, ID)));
    // A function 1 whose function 0 has bit 7 not set.
    assert_eq!(with(&|board| board.functions[2].device_function = 0x01), (23, at(second, ID)));
    // 25 in the second slot, in a 64-bit BAR's lower half, in a slot after one, in the last slot.
    assert_eq!(with(&|board| board.functions[1].read_backs[1] = 0xF0FF_F000), (25, at(card, 1)));
    assert_eq!(with(&|board| board.functions[1].read_backs[2..4].copy_from_slice(&[4, 1])), (25, at(card, 2)));
    let after = |board: &mut Board| board.functions[2].read_backs[..3].copy_from_slice(&[4, 0x8000_0000, 2]);
    assert_eq!(with(&after), (25, at(second, 2)));
    assert_eq!(with(&|board| board.functions[3].read_backs[5] = 0xFFFF_F004), (25, at(4, 5)));
    assert_eq!(with(&|board| board.functions[0].read_backs[1] = 0xFFFF_F004), (25, at(1, 1)));
}

/// 30 says how many numbers are needed, and the pools are told all the same.
#[test]
fn buses() {
    let mut board = Board { version: 2, buses: (5, 8), ..small() };
    board.spare_bridge(0, 0x00, 2, 1);
    let second = board.spare_bridge(0, 0x08, 0, 0);
    board.end(second, 0x00, &[memory(12)]);
    assert_eq!(
        fit(&board),
        Fit {
            number: 30,
            needs: Needs { buses: 5, bytes: [2 * MIB, 0, 0], aligns: [MIB, MIB, 4096] },
            ..Fit::default()
        }
    );
    board.buses = (5, 9);
    assert_eq!(
        fit(&board),
        Fit {
            number: 0,
            needs: Needs { buses: 5, bytes: [2 * MIB, 0, 0], aligns: [MIB, MIB, 4096] },
            ..Fit::default()
        }
    );
}

/// 1 MiB, 16 MiB and 4 KiB: before the second 15 MiB stay empty, and the third ends past 32 MiB.
#[test]
fn a_gap_before_another() {
    let mut board = small();
    board.end(0, 0x00, &[memory(20)]);
    board.end(0, 0x08, &[memory(24)]);
    assert_eq!(
        fit(&board),
        Fit { needs: Needs { buses: 1, bytes: [32 * MIB, 0, 0], aligns: [16 * MIB, MIB, 4096] }, ..Fit::default() }
    );
    board.end(0, 0x10, &[memory(12)]);
    board.end(0, 0x18, &[memory(12)]);
    assert_eq!(who(&board), (31, at(3, 0), at(2, 0)));
    assert_eq!(fit(&board).needs.bytes, [33 * MIB, 0, 0]);
}

/// The example of docs/FORMATS.md: 7 MiB are needed of 16, and with 6 the last card ends past the pool.
#[test]
fn the_example_of_the_formats() {
    let mut board = Board { low: (0xF800_0000, 0xF8FF_FFFF), high: CLOSED_HIGH, io: CLOSED_IO, ..Board::new() };
    board.end(0, 0x00, &[memory(12)]);
    let bridge = board.bridge(0, 0x08);
    board.end(bridge, 0x00, &[memory(16), memory(21)]);
    board.end(0, 0x10, &[memory(12)]);
    assert_eq!(
        fit(&board),
        Fit { needs: Needs { buses: 2, bytes: [7 * MIB, 0, 0], aligns: [2 * MIB, MIB, 4096] }, ..Fit::default() }
    );
    board.low.1 = 0xF86F_FFFF;
    assert_eq!(who(&board).0, 0);
    board.low.1 = 0xF85F_FFFF;
    assert_eq!(who(&board), (31, at(4, 0), at(2, LOW)));
}

/// Inside a bridge, behind a BAR of 64 KiB, one of 8 MiB loses most; on the root bus the bridge's window ends past the pool.
#[test]
fn a_gap_inside_a_bridge() {
    let mut board = small();
    board.end(0, 0x00, &[memory(22)]);
    let outer = board.bridge(0, 0x08);
    let inner = board.bridge(outer, 0x00);
    let card = board.end(inner, 0x00, &[memory(16), 0, memory(23)]);
    board.end(outer, 0x08, &[memory(24)]);
    // The inner window has 16 MiB from 0 on, the BAR beside it 16 more; the window around both is aligned to 16.
    assert_eq!(who(&board), (31, at(outer.into(), LOW), at(outer.into(), LOW)));
    assert_eq!(fit(&board).needs.bytes, [48 * MIB, 0, 0]);
    // With the first card as large as the alignment, nothing is lost there any more.
    board.functions[0].read_backs[0] = memory(24);
    assert_eq!(who(&board), (31, at(outer.into(), LOW), at(card.into(), 2)));
    assert_eq!(fit(&board).needs.bytes, [48 * MIB, 0, 0]);
    board.functions[3].read_backs[0] = 0;
    assert_eq!(who(&board), (31, at(outer.into(), LOW), at(5, 0)));
    // Where nothing is lost, nobody is named.
    board.functions[4].read_backs[0] = memory(23);
    board.end(0, 0x10, &[memory(20)]);
    assert_eq!((who(&board), fit(&board).needs.bytes), ((31, at(6, 0), NOBODY), [33 * MIB, 0, 0]));
}

/// Two lose the same: the first is named, also where it comes later on its own bus than another record.
#[test]
fn the_first_of_two() {
    let mut board = small();
    let bridge = board.bridge(0, 0x00);
    board.end(bridge, 0x00, &[memory(20), memory(21)]);
    board.end(0, 0x08, &[memory(20), memory(21), memory(25)]);
    // 1 MiB is lost inside the window (4 MiB from 0), 1 MiB between the two BARs, then 24 MiB before the last.
    assert_eq!(who(&board), (31, at(3, 2), at(3, 2)));
    board.functions[2].read_backs[2] = memory(12);
    board.low.1 = 0xF85F_FFFF;
    assert_eq!(who(&board), (31, at(3, 1), at(2, 1)));
}

/// A closed pool is laid out from 0; its first item is the one that finds no room.
#[test]
fn closed_pools() {
    let mut board = Board { low: CLOSED_LOW, high: CLOSED_HIGH, io: CLOSED_IO, ..Board::new() };
    let bridge = board.bridge(0, 0x00);
    board.end(bridge, 0x00, &[io(4), io(8)]);
    board.end(0, 0x08, &[io(5)]);
    assert_eq!(
        fit(&board),
        Fit {
            number: 33,
            party: at(1, IO),
            other: at(2, 1),
            needs: Needs { buses: 2, bytes: [0, 0, 8192], aligns: [MIB, MIB, 4096] }
        }
    );
    board.functions[1].read_backs[2..4].copy_from_slice(&high(20));
    assert_eq!(who(&board), (32, at(1, HIGH), NOBODY));
    board.functions[2].read_backs[0] = memory(12);
    assert_eq!(who(&board), (31, at(3, 0), NOBODY));
    assert_eq!(fit(&board).needs.bytes, [MIB, MIB, 4096]);
    // Closed one byte above its base, wherever that is.
    board.low = (0xF910_0001, 0xF910_0000);
    assert_eq!((who(&board).0, fit(&board).needs.bytes), (31, [MIB, MIB, 4096]));
}

/// Spare memory sizes the window, and is no item by itself.
#[test]
fn spares() {
    let mut board = Board { version: 2, ..small() };
    board.spare_bridge(0, 0x00, 0, 30);
    let second = board.spare_bridge(0, 0x08, 0, 1);
    board.end(second, 0x00, &[memory(20)]);
    assert_eq!((who(&board).0, fit(&board).needs.bytes), (0, [32 * MIB, 0, 0]));
    board.functions[1].spares = Some(Spares { buses: 0, memory: 2 });
    assert_eq!((who(&board), fit(&board).needs.bytes), ((31, at(2, LOW), NOBODY), [33 * MIB, 0, 0]));
    board.functions[0].spares = Some(Spares { buses: 0, memory: 33 });
    assert_eq!((who(&board), fit(&board).needs.bytes), ((31, at(1, LOW), NOBODY), [36 * MIB, 0, 0]));
}

/// Addresses past 2^64, and what is told of them.
#[test]
fn huge() {
    let mut board = small();
    board.end(0, 0x00, &[high(20), high(63), high(63)].concat());
    let needs = (1 << 62) - 0x2_4000_0000;
    assert_eq!((who(&board), fit(&board).needs.bytes), ((32, at(1, 2), at(1, 2)), [0, needs, 0]));
    // 2^62 is told whole; what is lost past it is not, so the first of two gaps counts.
    board.functions[0].read_backs = [high(61), high(62), [0, 0]].concat();
    assert_eq!((who(&board), fit(&board).needs.bytes), ((32, at(1, 0), at(1, 0)), [0, needs, 0]));
    board.functions[0].read_backs = [wide(63), [memory(20), memory(31)], [0, 0]].concat();
    assert_eq!((who(&board), fit(&board).needs.bytes), ((31, at(1, 0), at(1, 0)), [(1 << 62) - 0xF800_0000, 0, 0]));
}

fn number(board: &Board) -> u8 {
    plan(&board.bytes(), &mut [0; FULL_SHEET]).err().unwrap_or(0)
}

/// A board with one fault: its number, and the record and place that the fault was planted in.
#[test]
fn planted_faults() {
    let mut random = Random::new(20);
    for wanted in planted::NUMBERS {
        for _ in 0..300 {
            let planted = planted::board(wanted, &mut random, number);
            let (number, party, _) = who(&planted.board);
            assert_eq!(number, wanted);
            match planted.party {
                Some((record, place)) => assert_eq!(party, at(record.into(), place), "{wanted}"),
                None => assert!(party.record > 0 && party.place <= IO, "{wanted}"),
            }
        }
    }
}

/// A closed pool opened at a multiple of its alignment, with the bytes that are needed, is not what the board is refused for; with a
/// granule less it is, if nothing before it is.
#[test]
fn needs_of_closed_pools_are_exact() {
    let mut random = Random::new(34);
    let mut opened = [0; 3];
    for turn in 0..6_000 {
        let mut board = trees::lawful(&mut random);
        let pool = turn % 3;
        let close = |board: &mut Board| match pool {
            0 => board.low = (u32::MAX, 0),
            1 => board.high = CLOSED_HIGH,
            _ => board.io = CLOSED_IO,
        };
        close(&mut board);
        let Needs { bytes, aligns, .. } = fit(&board).needs;
        let (bytes, align) = (bytes[pool], aligns[pool]);
        let (from, to) = [(0, 1 << 32), (1 << 32, 1 << 52), (0, 1 << 16)][pool];
        let (least, most) = (u64::div_ceil(from, align), (to - bytes.min(to)) / align);
        if bytes == 0 || bytes > to || most < least {
            continue;
        }
        let base = (least + random.below(most - least + 1)) * align;
        let with = |bytes: u64| {
            let mut board = board.clone();
            let last = (base + bytes).wrapping_sub(1);
            match pool {
                _ if bytes == 0 => close(&mut board),
                0 => board.low = (base as u32, last as u32),
                1 => board.high = (base, last),
                _ => board.io = (base as u16, last as u16),
            }
            usize::from(number(&board))
        };
        let granule = if pool == 2 { 4096 } else { MIB };
        assert_ne!(with(bytes), 31 + pool);
        assert!((30..=31 + pool).contains(&with(bytes - granule)));
        opened[pool] += 1;
    }
    assert!(opened.iter().all(|&count| count > 100), "{opened:?}");
}

/// With pools of the size that is needed the board is not refused for them; with a granule less it is, and for that pool.
#[test]
fn needs_are_exact() {
    let mut random = Random::new(33);
    let (mut enough, mut short) = (0, [0; 3]);
    for _ in 0..6_000 {
        let mut board = trees::lawful(&mut random);
        let Fit { number: before, needs, .. } = fit(&board);
        assert_eq!(before, number(&board));
        let has = u64::from(board.buses.1 - board.buses.0) + 1;
        assert_eq!(before == 30, needs.buses > has);
        let base = [board.low.0.into(), board.high.0, board.io.0.into()];
        let last = [board.low.1.into(), board.high.1, board.io.1.into()];
        // What fits only into a larger pool than there can be, or into one that is closed, is left alone.
        let most = [(1 << 32) - 1, (1 << 52) - 1, 0xFFFF];
        let can = |pool: usize| base[pool] <= last[pool] && base[pool] + needs.bytes[pool].max(1) - 1 <= most[pool];
        if before == 30 || !(0..3).all(can) {
            continue;
        }
        set_sizes(&mut board, needs.bytes);
        assert_eq!(number(&board), 0);
        enough += 1;
        for pool in 0..3 {
            let granule = if pool == 2 { 4096 } else { MIB };
            let mut less = needs.bytes;
            if less[pool] > granule {
                less[pool] -= granule;
                let mut smaller = board.clone();
                set_sizes(&mut smaller, less);
                assert_eq!(usize::from(number(&smaller)), 31 + pool);
                short[pool] += 1;
            }
        }
    }
    assert!(enough > 500 && short.iter().all(|&count| count > 100), "{enough} {short:?}");
}

/// Gives the pools so many bytes, and one granule where that is none.
fn set_sizes(board: &mut Board, bytes: [u64; 3]) {
    board.low.1 = (u64::from(board.low.0) + bytes[0].max(MIB) - 1) as u32;
    board.high.1 = board.high.0 + bytes[1].max(MIB) - 1;
    board.io.1 = (u64::from(board.io.0) + bytes[2].max(4096) - 1) as u16;
}
