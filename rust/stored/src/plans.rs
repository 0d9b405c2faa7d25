//! Runs of the program `plan`: the board that each reads.

use crate::traces::Run;
use inputs::board::*;

pub fn runs() -> Vec<Run> {
    [planned(), refused(), edges(), spares(), long()].concat()
}

fn of(board: Board, change: impl Fn(&mut Board)) -> Vec<u8> {
    let mut board = board;
    change(&mut board);
    board.bytes()
}

fn planned() -> Vec<Run> {
    let host = Board { high: (1, 0), io: (1, 0), ..p10() };
    // 4 KiB, 1 MiB and 4 KiB, in record order.
    let in_order = |last| {
        of(Board { low: (0xF900_0000, last), functions: vec![], ..host.clone() }, |board| {
            for (device, bits) in [(0, 12), (1, 20), (2, 12)] {
                board.end(0, device << 3, &[memory(bits)]);
            }
        })
    };
    // The least memory BARs in each form, and the least I/O BAR.
    let least = of(Board { functions: vec![], ..p10() }, |board| {
        board.end(0, 0, &[memory(7), prefetchable(7), io(2), 0, high(7)[0], high(7)[1]]);
        board.end(0, 8, &[wide(7)[0], wide(7)[1], memory(7)]);
    });
    vec![
        ("p10", p10().bytes()),
        ("128-byte-bars", least),
        ("p8", Board::closed().bytes()),
        ("tree-001", document_001().bytes()),
        ("record-order-2-mib", in_order(0xF91F_FFFF)),
        ("record-order-3-mib", in_order(0xF92F_FFFF)),
    ]
}

/// Every number that the program can print, of small boards; 22 and 23 are among the edges.
fn refused() -> Vec<Run> {
    let two = |board: &mut Board, first: &[u32], second: &[u32]| {
        board.end(0, 0x00, first);
        board.end(0, 0x08, second);
    };
    vec![
        ("refused-20", vec![]),
        ("refused-21", of(p10(), |board| board.version = 0)),
        ("refused-24", of(p10(), |board| board.tail = vec![0, 6, 0, 0, 8, 0, 0, 0])),
        ("refused-25", of(Board::new(), |board| _ = board.end(0, 0, &[0xF0FF_F000]))),
        ("refused-25-64-bytes", of(Board::new(), |board| _ = board.end(0, 0, &[memory(6)]))),
        ("refused-25-64-bytes-of-64-bits", of(Board::new(), |board| _ = board.end(0, 0, &high(6)))),
        ("refused-26", of(p10(), |board| board.buses = (1, 0))),
        ("refused-30", of(Board { buses: (0, 0), ..Board::new() }, |board| _ = board.bridge(0, 0))),
        (
            "refused-31",
            of(Board { low: (0xF900_0000, 0xF90F_FFFF), ..Board::new() }, |board| {
                two(board, &[memory(20)], &[memory(20)])
            }),
        ),
        (
            "refused-32",
            of(Board { high: (0x1_0000_0000, 0x1_3FFF_FFFF), ..Board::new() }, |board| {
                two(board, &[high(29), high(28), high(28)].concat(), &high(28));
            }),
        ),
        (
            "refused-33",
            of(Board { io: (0x4000, 0x4FFF), ..Board::new() }, |board| {
                two(board, &[io(11), io(10), short_io(10)], &[short_io(10)]);
            }),
        ),
    ]
}

/// As many functions, and as many bridges above one, as there may be; and one more.
fn edges() -> Vec<Run> {
    let below = |bridges| {
        of(Board::new(), |board| {
            let last = board.chain(0, 0, bridges);
            board.end(last, 0, &[memory(12)]);
        })
    };
    vec![
        ("512-functions", full(&[memory(12)]).bytes()),
        ("refused-22", of(full(&[memory(12)]), |board| _ = board.end(256, 0, &[]))),
        ("32-bridges-above", below(32)),
        ("33-bridges", of(Board::new(), |board| _ = board.chain(0, 0, 33))),
        ("refused-23", below(33)),
        ("34-bridges-refused-23", of(Board::new(), |board| _ = board.chain(0, 0, 34))),
    ]
}

/// Boards of version 2, with spares and without (document 02, E10).
fn spares() -> Vec<Run> {
    // Two bridges in a row, a card below the second, and a card behind them.
    let tree = |outer: (u8, u16), inner: (u8, u16)| {
        let mut board = Board { buses: (0, 7), low: (0xF900_0000, 0xF97F_FFFF), ..Board::version_2() };
        let bridge = board.spare_bridge(0, 0x00, outer.0, outer.1);
        let below = board.spare_bridge(bridge, 0x00, inner.0, inner.1);
        board.end(below, 0x00, &[memory(12)]);
        board.end(0, 0x08, &[memory(12)]);
        board
    };
    let alone = of(Board::version_2(), |board| {
        let bridge = board.spare_bridge(0, 0x00, 0, 0);
        board.spare_bridge(bridge, 0x00, 1, 1);
    });
    let deep = of(Board::version_2(), |board| {
        let last = (0..32).fold(0, |above, _| board.spare_bridge(above, 0x00, 1, 1));
        board.end(last, 0x00, &[memory(12)]);
    });
    // P10's board, and a second bridge with nothing below.
    let p10_and_slot = of(p10().without_spares(), |board| {
        board.functions[0].spares = Some(Spares { buses: 2, memory: 3 });
        board.spare_bridge(0, 0x08, 1, 1);
    });
    let most = of(Board::version_2(), |board| {
        (0..512u16).for_each(|at| _ = board.add(if at < 256 { 0 } else { 256 }, at as u8, 0x81, &[]));
        board.functions.iter_mut().for_each(|bridge| bridge.spares = Some(Spares { buses: 255, memory: 65_535 }));
    });
    vec![
        ("p10-version-2", p10().without_spares().bytes()),
        ("tree-001-version-2", document_001().without_spares().bytes()),
        ("p10-spares", p10_and_slot),
        ("spares", tree((2, 3), (3, 2)).bytes()),
        ("spares-none", tree((0, 0), (0, 0)).bytes()),
        ("spares-alone", alone),
        ("spares-32-bridges-above", deep),
        ("512-functions-version-2", full(&[memory(12)]).without_spares().bytes()),
        ("spares-version-2-bridge-14-refused-24", of(tree((2, 3), (3, 2)), |board| board.functions[1].spares = None)),
        ("spares-version-1-bridge-17-refused-24", of(tree((2, 3), (3, 2)), |board| board.version = 1)),
        ("spares-version-3-refused-21", of(tree((2, 3), (3, 2)), |board| board.version = 3)),
        ("spares-refused-30", tree((2, 3), (4, 2)).bytes()),
        ("spares-most-refused-30", most),
        ("spares-refused-31", tree((2, 3), (3, 4)).bytes()),
        ("spares-most-refused-31", tree((2, 3), (3, 65_535)).bytes()),
        ("spares-closed-pool-refused-31", of(tree((0, 0), (0, 1)), |board| board.low = CLOSED_LOW)),
    ]
}

/// The longest input that is kept whole, of 16,417 bytes, and longer ones.
fn long() -> Vec<Run> {
    let ends = |count| {
        of(Board { functions: vec![], ..p10() }, |board| {
            for _ in 0..count {
                board.end(0, 0, &[]);
            }
        })
    };
    let (longest, long) = (ends(512), ends(600));
    // A record of 20,000 bytes after the host and three functions.
    let record = [&ends(3)[..], &20_000u16.to_be_bytes(), &[0; 20_000]].concat();
    vec![
        ("longest-refused-23", longest.clone()),
        ("longest-and-a-byte-refused-20", [&longest[..], &[0]].concat()),
        ("long-refused-20", [&long[..], &[0]].concat()),
        ("long-refused-21", [&[3], &long[1..]].concat()),
        ("long-refused-22", long),
        ("long-refused-24", record),
    ]
}
