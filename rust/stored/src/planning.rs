//! The planner's lines: every shape of board, every pool to its last byte, every refusal.

use crate::lines::Lines;
use crate::spares;
use inputs::board::*;
use inputs::random::Random;

const MIB: u32 = 1 << 20;

pub fn lines() -> String {
    let mut lines = Lines::default();
    examples(&mut lines);
    shapes(&mut lines);
    buses(&mut lines);
    low_pool(&mut lines);
    high_pool(&mut lines);
    io_pool(&mut lines);
    closed_pools(&mut lines);
    huge_sizes(&mut lines);
    slots(&mut lines);
    io_read_backs(&mut lines);
    memory_read_backs(&mut lines);
    least_bars(&mut lines);
    refused_20_21(&mut lines);
    refused_22_24(&mut lines);
    refused_26(&mut lines);
    refused_23(&mut lines);
    two_faults(&mut lines);
    random_boards(&mut lines);
    long_boards(&mut lines);
    spares::boards(&mut lines);
    lines.0
}

/// Notes what the board shows and writes it.
pub fn put(lines: &mut Lines, why: &str, board: &Board) {
    lines.note(why);
    lines.board(&board.bytes());
}

fn examples(lines: &mut Lines) {
    put(lines, "P10", &p10());
    put(lines, "source document 001's tree", &document_001());
    put(lines, "P8: no functions", &Board::new());
    put(lines, "P8 with all pools closed", &Board::closed());
    let mut p7 = Board { low: (0xF900_0000, 0xF90F_FFFF), ..Board::new() };
    p7.end(0, 0, &[memory(20)]);
    put(lines, "P7: one BAR of 1 MiB in a low pool of 1 MiB", &p7);
    p7.end(0, 8, &[memory(20)]);
    put(lines, "P7: two: 31", &p7);
    let mut p9 = Board::new();
    p9.end(0, 0, &[0xF0FF_F000]);
    put(lines, "P9: 25", &p9);
    for count in [255, 256] {
        put(lines, &format!("P6: {count} bridges on buses 0 to 255"), &flat_bridges(count));
    }
}

/// Bridges on the root bus, eight to a device.
fn flat_bridges(count: usize) -> Board {
    let mut board = Board::new();
    for device_function in 0..count {
        board.add(0, device_function as u8, 0x81, &[]);
    }
    board
}

fn shapes(lines: &mut Lines) {
    let card = [memory(12), 0, io(4), prefetchable(16), high(21)[0], high(21)[1]];
    let mut board = Board::new();
    let last = board.chain(0, 0, 32);
    board.end(last, 0, &card);
    put(lines, "32 bridges above an endpoint", &board);

    let mut board = Board::new();
    let mut above = 0;
    let mut levels = Vec::new();
    for _ in 0..32 {
        board.end(above, 0x00, &[memory(12)]);
        levels.push(above);
        above = board.add(above, 0x08, 1, &[memory(13), prefetchable(7)]);
    }
    board.end(above, 0x18, &card);
    for level in levels.into_iter().rev() {
        board.end(level, 0xF8, &[memory(7), high(7)[0], high(7)[1]]);
    }
    put(lines, "32 bridges with endpoints before and after each", &board);

    let mut board = Board::new();
    board.chain(0, 0, 33);
    put(lines, "a chain of 33 bridges with nothing below", &board);
    board.end(0, 0x08, &card);
    put(lines, "the same with an endpoint on the root bus after it", &board);
    let mut board = Board::new();
    let last = board.chain(0, 0, 33);
    board.end(last, 0, &card);
    put(lines, "an endpoint below 33 bridges: 23", &board);
    let mut board = Board::new();
    board.chain(0, 0, 34);
    put(lines, "a chain of 34 bridges: 23", &board);
    let mut board = Board::new();
    for device_function in [0x00, 0x08, 0x10] {
        let last = board.chain(0, device_function, 32);
        board.end(last, 0x10, &card);
    }
    put(lines, "three chains of 32 bridges", &board);

    let mut board = Board::new();
    for device in 0..32 {
        board.end(0, device << 3, &[memory(7 + u32::from(device) % 14), io(2 + u32::from(device) % 6)]);
    }
    put(lines, "32 devices on the root bus", &board);
    let mut board = Board::new();
    for device_function in 0..=255 {
        board.add(0, device_function, 0x80, &[0, 0, 0, 0, 0, memory(12)]);
    }
    put(lines, "256 functions on the root bus", &board);
    put(lines, "512 functions: 255 and a bridge on the root bus, 256 below it", &full(&[0, 0, 0, 0, 0, memory(12)]));
    let mut board = Board { io: (0, 0xFFFF), ..Board::new() };
    for device in 0..32 {
        let bridge = board.bridge(0, device << 3);
        for end in 0..15 {
            // 64 KiB of I/O are 16 windows.
            board.end(bridge, end << 3, &[prefetchable(14), if device % 2 == 0 { io(4) } else { 0 }]);
        }
    }
    put(lines, "512 functions: 32 bridges with 15 endpoints each", &board);
    let mut board = Board::new();
    halves(&mut board, 0, 0, 7);
    put(lines, "bridges in pairs, seven deep, 128 endpoints", &board);
    let mut board = Board::new();
    let mut bridges = 0;
    for device in 0..31 {
        for function in 0..4 {
            let multiple = if function == 0 { 0x80 } else { 0 };
            let bridge = board.add(0, device << 3 | function, 1 | multiple, &[]);
            board.end(bridge, 0, &[memory(7)]);
            bridges += 1;
        }
    }
    put(lines, &format!("{bridges} bridges on the root bus with one endpoint each"), &board);
    for shift in 0..2 {
        let mut board = Board::new();
        for function in 0..8 {
            let multiple = if function == 0 { 0x80 } else { 0 };
            if function % 2 == shift {
                let bridge = board.add(0, 0x18 | function, 1 | multiple, &[memory(15), io(5)]);
                board.add(bridge, 0xF8, 0x80, &[memory(16)]);
                board.add(bridge, 0xFF, 0x00, &[memory(17)]);
            } else {
                board.add(0, 0x18 | function, multiple, &[memory(15), 0, io(6)]);
            }
        }
        put(lines, "eight functions of a device, every second a bridge", &board);
    }
    let mut board = Board::new();
    let a = board.bridge(0, 0);
    let b = board.bridge(a, 0);
    let c = board.bridge(b, 0);
    board.end(c, 0, &[memory(20)]);
    board.end(b, 8, &[memory(21)]);
    let d = board.bridge(a, 8);
    board.bridge(d, 0);
    board.end(0, 8, &[memory(22)]);
    put(lines, "back from the depth one bridge, then two", &board);
    let mut board = Board::new();
    for device in 0..4 {
        let bridge = board.bridge(0, device << 3);
        board.bridge(bridge, 0);
    }
    put(lines, "bridges with nothing below: every window closed", &board);
    let mut board = Board::new();
    board.add(0, 0x00, 0x81, &[]);
    board.add(0, 0x08, 0x80, &[]);
    board.add(0, 0x10, 0x80, &[]);
    board.add(0, 0x11, 0x80, &[]);
    board.add(0, 0x17, 0x81, &[]);
    board.add(5, 0xF8, 0x80, &[io(2)]);
    put(lines, "bit 7 where it is free", &board);
    let mut board = Board::new();
    let bridge = board.bridge(0, 0);
    board.end(bridge, 0, &[memory(12)]);
    board.functions[0].command = 0;
    board.functions[1].command = 0xFFFF;
    put(lines, "command words as given", &board);
}

/// Two bridges below `parent`, and so on; two endpoints at the bottom.
fn halves(board: &mut Board, parent: u16, level: u32, levels: u32) {
    for device_function in [0x00, 0x28] {
        if level + 1 < levels {
            let bridge = board.bridge(parent, device_function);
            halves(board, bridge, level + 1, levels);
        } else {
            board.end(parent, device_function, &[memory(7 + u32::from(parent) % 10)]);
        }
    }
}

fn buses(lines: &mut Lines) {
    for (buses, bridges) in
        [((0, 0), 0), ((0, 0), 1), ((255, 255), 0), ((255, 255), 1), ((250, 255), 5), ((250, 255), 6)]
    {
        let mut board = Board { buses, ..Board::new() };
        board.chain(0, 0, bridges);
        put(lines, &format!("buses {} to {}, {bridges} bridges", buses.0, buses.1), &board);
    }
    for last in [17, 16, 15] {
        let mut board = Board { buses: (7, last), ..Board::new() };
        for device in 0..3 {
            board.chain(0, device << 3, 3);
        }
        board.end(9, 0, &[memory(12)]);
        put(lines, &format!("nine bridges in chains of three on buses 7 to {last}"), &board);
    }
}

fn low_pool(lines: &mut Lines) {
    let pool = |first: u32, count: u32| Board { low: (first, first + (count * MIB - 1)), ..Board::new() };
    let bars: [(&str, &[u32]); 6] = [
        ("512 KiB, 256 KiB, 256 KiB fill 1 MiB", &[memory(19), memory(18), memory(18)]),
        ("128 bytes more: 31", &[memory(19), memory(18), memory(18), memory(7)]),
        ("256, 512, 256 KiB leave a hole: 31", &[memory(18), memory(19), memory(18)]),
        ("256, 256, 512 KiB fill it", &[memory(18), memory(18), memory(19)]),
        ("128 bytes, then 512 KiB at the half", &[memory(7), memory(19)]),
        ("32-bit prefetchable and 64-bit BARs are low", &[prefetchable(19), wide(18)[0], wide(18)[1], memory(18)]),
    ];
    for (why, read_backs) in bars {
        let mut board = pool(0xA000_0000, 1);
        board.end(0, 0, read_backs);
        put(lines, &format!("low: {why}"), &board);
    }
    for (count, first) in [(1, 0), (1, 0xFFF0_0000), (2, 0xFFE0_0000)] {
        let mut board = pool(first, count);
        let bridge = board.bridge(0, 0);
        board.end(bridge, 0, &[memory(7)]);
        put(lines, &format!("low: 128 bytes behind a bridge, {count} MiB at {first:08X}"), &board);
        let bridge = board.bridge(0, 8);
        board.end(bridge, 0, &[memory(7)]);
        put(lines, "low: and 128 bytes behind a second one", &board);
    }
    for count in [1, 2] {
        let mut board = pool(0x1000_0000, count);
        let bridge = board.add(0, 0, 1, &[memory(7)]);
        board.end(bridge, 0, &[memory(20)]);
        put(lines, &format!("low: a bridge's own BAR beside its window, {count} MiB"), &board);
    }
    for count in [16, 17] {
        let mut board = pool(0x0010_0000, count);
        let bridge = board.bridge(0, 0);
        board.end(bridge, 0, &[memory(23), memory(7)]);
        board.end(0, 8, &[memory(20)]);
        put(lines, &format!("low: 8 MiB behind a bridge, pool of {count} MiB from 1 MiB"), &board);
    }
    let mut board = pool(0, 64);
    let outer = board.bridge(0, 0);
    board.end(outer, 0, &[memory(7)]);
    let inner = board.bridge(outer, 8);
    board.end(inner, 0, &[memory(20), memory(23)]);
    board.end(outer, 0x10, &[memory(20)]);
    board.end(0, 8, &[memory(21)]);
    put(lines, "low: the inner window's alignment counts outside", &board);
    let four_gib = wide(32);
    let mut board = Board { low: (0, 0xFFFF_FFFF), ..Board::new() };
    board.end(0, 0, &four_gib);
    put(lines, "low: 4 GiB on the root bus fill the whole pool", &board);
    board.end(0, 8, &[memory(7)]);
    put(lines, "low: and 128 bytes more: 31", &board);
    let mut board = Board { low: (0, 0xFFFF_FFFF), ..Board::new() };
    let last = board.chain(0, 0, 2);
    board.end(last, 0, &four_gib);
    put(lines, "low: 4 GiB behind two bridges", &board);
    let mut board = Board { low: (MIB, 0xFFFF_FFFF), ..Board::new() };
    board.end(0, 0, &four_gib);
    put(lines, "low: 4 GiB in a pool from 1 MiB: 31", &board);
    let mut board = Board { low: (0, 0xFFFF_FFFF), ..Board::new() };
    let bridge = board.bridge(0, 0);
    board.end(bridge, 0, &[memory(31)]);
    board.end(0, 8, &[prefetchable(31)]);
    put(lines, "low: 2 GiB twice fill the whole pool", &board);
}

fn high_pool(lines: &mut Lines) {
    let gib = 1 << 30;
    let pool = |first: u64, length: u64| Board { high: (first, first + (length - 1)), ..Board::new() };
    for bits in [28, 7] {
        let mut board = pool(1 << 32, gib);
        board.end(0, 0, &[high(29), high(28), high(bits)].concat());
        put(lines, "high: 512 MiB, 256 MiB and one more in 1 GiB", &board);
        board.end(0, 8, &high(bits));
        put(lines, "high: and once more", &board);
    }
    for count in [1, 2] {
        let mut board = pool(0xF_FFE0_0000, count << 20);
        let bridge = board.bridge(0, 0);
        board.end(bridge, 0, &high(7));
        put(lines, &format!("high: 128 bytes behind a bridge, {count} MiB up to a 4 GiB edge"), &board);
        let other = board.bridge(bridge, 8);
        board.end(other, 0, &high(8));
        put(lines, "high: and 256 behind a bridge below it", &board);
    }
    let whole = pool(1 << 32, (1 << 52) - (1 << 32));
    let mut board = whole.clone();
    board.end(0, 0, &high(51));
    put(lines, "high: 2^51 bytes end at the last byte below 2^52", &board);
    board.end(0, 8, &high(7));
    put(lines, "high: and 128 bytes: 32", &board);
    let mut board = whole.clone();
    let bridge = board.bridge(0, 0);
    board.end(bridge, 0, &high(51));
    put(lines, "high: 2^51 bytes behind a bridge", &board);
    let mut board = whole.clone();
    board.end(0, 0, &high(52));
    put(lines, "high: 2^52 bytes: 32", &board);
    let mut board = pool(0x1_FFF0_0000, 0x20_0000);
    let bridge = board.bridge(0, 0);
    board.end(bridge, 0, &[high(20), high(20)].concat());
    put(lines, "high: a window across a 4 GiB edge", &board);
    let mut board = pool(3 << 32, 5 << 32);
    let bridge = board.add(0, 0, 1, &high(32));
    board.end(bridge, 0, &[high(20), high(33)].concat());
    put(lines, "high: BARs of 4 and 8 GiB, the window ends at the pool's last byte", &board);
    board.functions[1].read_backs[4..6].copy_from_slice(&high(7));
    put(lines, "high: one granule over: 32", &board);
}

fn io_pool(lines: &mut Lines) {
    let pool = |base, last| Board { io: (base, last), ..Board::new() };
    for more in [10, 2] {
        let mut board = pool(0x4000, 0x4FFF);
        board.end(0, 0, &[io(11), io(10), short_io(more)]);
        put(lines, "I/O: 2048, 1024 and one more in 4 KiB", &board);
        board.end(0, 8, &[short_io(more)]);
        put(lines, "I/O: and once more", &board);
    }
    for (base, last) in [(0, 0xFFF), (0xF000, 0xFFFF), (0xE000, 0xFFFF)] {
        let mut board = pool(base, last);
        let bridge = board.bridge(0, 0);
        board.end(bridge, 0, &[io(2)]);
        put(lines, &format!("I/O: 4 bytes behind a bridge, {base:04X} to {last:04X}"), &board);
        let bridge = board.add(0, 8, 1, &[0, io(2)]);
        put(lines, "I/O: and 4 of a bridge's own", &board);
        board.end(bridge, 0, &[io(2)]);
        put(lines, "I/O: and 4 behind that one", &board);
    }
    let mut board = pool(0, 0xFFFF);
    let bridge = board.bridge(0, 0);
    board.end(bridge, 0, &[io(15)]);
    board.end(0, 8, &[io(15)]);
    put(lines, "I/O: 32 KiB twice fill the whole pool", &board);
    board.end(0, 16, &[io(2)]);
    put(lines, "I/O: and 4 bytes: 33", &board);
    let mut board = pool(0x1000, 0xFFFF);
    let bridge = board.bridge(0, 0);
    board.end(bridge, 0, &[io(2), io(15)]);
    put(lines, "I/O: 32 KiB after 4 bytes behind a bridge: 33", &board);
    board.functions[1].read_backs.swap(0, 1);
    put(lines, "I/O: 32 KiB before 4 bytes behind a bridge: 33", &board);
    board.functions[1].read_backs[1] = 0;
    put(lines, "I/O: 32 KiB alone behind a bridge", &board);
}

fn closed_pools(lines: &mut Lines) {
    let items: [(&str, [u32; 2]); 3] = [("low", [memory(7), 0]), ("high", high(7)), ("I/O", [io(2), 0])];
    for (name, read_backs) in items {
        let mut board = Board::closed();
        let bridge = board.bridge(0, 0);
        board.end(bridge, 8, &read_backs);
        put(lines, &format!("{name}: an item while the pools are closed"), &board);
    }
    let mut board = Board::closed();
    board.chain(0, 0, 3);
    board.end(3, 0, &[]);
    put(lines, "closed pools and no item", &board);
    let mut board = Board { low: (0x1000_0001, 0x1000_0000), high: (2, 1), io: (1, 0), ..Board::new() };
    put(lines, "closed pools off every edge", &board);
    board.end(0, 0, &[io(2), 0, 0, 0, high(7)[0], high(7)[1]]);
    put(lines, "closed pools off every edge: 32 before 33", &board);
    let mut board = Board { low: (0x1000_0000, 0x0FFF_FFFF), ..Board::new() };
    board.end(0, 0, &[memory(7)]);
    put(lines, "a closed low pool, last just below base: 31", &board);
    let mut board = Board { high: (u64::MAX, u64::MAX - 1), ..Board::new() };
    put(lines, "a closed high pool at the top", &board);
    board.end(0, 0, &high(63));
    put(lines, "and an item that starts past 2^64: 32", &board);
    let mut board = Board { high: (u64::MAX, u64::MAX - 1), ..Board::new() };
    board.chain(0, 0, 2);
    board.end(2, 0, &high(7));
    put(lines, "and 128 bytes behind bridges: 32", &board);
    let mut board = Board { low: (0xFFFF_FFFF, 0xFFFF_FFFE), ..Board::new() };
    board.end(0, 0, &[memory(31)]);
    put(lines, "a closed low pool at the top: 31", &board);
    let mut board = Board { io: (0xFFFF, 0xFFFE), ..Board::new() };
    board.end(0, 0, &[io(15)]);
    put(lines, "a closed I/O pool at the top: 33", &board);
    let mut board = Board { low: (0, 0xFFFF_FFFF), high: CLOSED_HIGH, io: CLOSED_IO, ..Board::new() };
    board.end(0, 0, &[memory(12), io(2), high(12)[0], high(12)[1]]);
    put(lines, "low open, high and I/O closed: 32", &board);
    let mut board = Board { low: CLOSED_LOW, io: CLOSED_IO, ..Board::new() };
    let bridge = board.bridge(0, 0);
    board.end(bridge, 0, &high(12));
    put(lines, "only the high pool open", &board);
}

fn huge_sizes(lines: &mut Lines) {
    for (name, bar) in [("low", wide as fn(u32) -> [u32; 2]), ("high", high)] {
        for behind in [0, 2] {
            let mut board = Board::new();
            let parent = board.chain(0, 0, behind);
            board.end(parent, 0, &bar(63));
            put(lines, &format!("{name}: 2^63 bytes behind {behind} bridges"), &board);
            board.end(parent, 8, &bar(63));
            put(lines, &format!("{name}: 2^64 bytes in two BARs behind {behind} bridges"), &board);
        }
        for behind in [0, 2] {
            let mut board = Board::new();
            let parent = board.chain(0, 0, behind);
            // 2^63 down to 2^7.
            for device in 0..19 {
                let bits = 63 - 3 * u32::from(device);
                board.end(parent, device << 3, &[bar(bits), bar(bits - 1), bar(bits - 2)].concat());
            }
            put(lines, &format!("{name}: 2^64 - 128 bytes in 57 BARs behind {behind} bridges"), &board);
        }
        let mut board = Board { low: (0, 0xFFFF_FFFF), ..Board::new() };
        board.end(0, 0, &[bar(7), bar(63), bar(63)].concat());
        board.end(0, 8, &[bar(63), bar(63), bar(20)].concat());
        put(lines, &format!("{name}: sums past 2^65, a small BAR last"), &board);
        let mut board = Board { low: (0, 0xFFFF_FFFF), ..Board::new() };
        for device in 0..2 {
            let bridge = board.bridge(0, device << 3);
            board.end(bridge, 0, &[bar(63), bar(63)].concat());
            board.end(bridge, 8, &bar(12));
        }
        put(lines, &format!("{name}: two windows of more than 2^64 bytes"), &board);
        let mut board = Board { low: (0, 0xFFFF_FFFF), ..Board::new() };
        board.end(0, 0, &bar(33));
        put(lines, &format!("{name}: 8 GiB"), &board);
    }
}

fn slots(lines: &mut Lines) {
    for slot in 0..6 {
        let bar = if slot % 2 == 0 { wide(13) } else { high(24) };
        let mut read_backs = vec![0; slot];
        read_backs.extend(bar);
        read_backs.truncate(6);
        let mut board = Board::new();
        board.end(0, 0, &read_backs);
        put(lines, &format!("a 64-bit BAR in slot {slot}"), &board);
    }
    let mut board = Board::new();
    board.end(0, 0, &[high(63 - 30), wide(20), high(20)].concat());
    put(lines, "three 64-bit BARs", &board);
    board.functions[0].read_backs = vec![memory(14), wide(14)[0], u32::MAX, high(30)[0], u32::MAX, io(8)];
    put(lines, "32-bit, 64-bit, 64-bit, I/O", &board);
    board.functions[0].read_backs[4] = 0;
    put(lines, "the second one's upper half is 0: 25", &board);
    for read_backs in [high(22).to_vec(), wide(22).to_vec(), vec![io(8), memory(22)]] {
        let mut board = Board::new();
        let bridge = board.add(0, 0, 1, &read_backs);
        board.add(bridge, 0, 0, &[memory(12)]);
        put(lines, "a bridge's BARs", &board);
    }
    for read_backs in [[0, high(22)[0]], [memory(12), wide(12)[0]]] {
        let mut board = Board::new();
        board.add(0, 0, 1, &read_backs);
        put(lines, "a 64-bit BAR in a bridge's slot 1: 25", &board);
    }
}

fn io_read_backs(lines: &mut Lines) {
    let mut board = Board { io: (0, 0xFFFF), ..Board::new() };
    for (device, bits) in (2..8).zip((2..14).step_by(2)) {
        let both = [io(bits), short_io(bits), io(bits + 1), short_io(bits + 1)];
        board.end(0, device << 3, &both[..if bits < 12 { 4 } else { 3 }]);
    }
    put(lines, "I/O BARs of 4 to 8192 bytes in both spellings", &board);
    let mut board = Board { io: (0, 0xFFFF), ..Board::new() };
    board.end(0, 0, &[0x8001, 0xC001, 0xE001]);
    put(lines, "I/O BARs of 32, 16 and 8 KiB, upper half zero", &board);
    let bad = [0x0000_0001, 0xFFFF_0001, 0x0001_FF01, 0xFFFF_FFFF, 0xFFFF_FF03, 0xFFFF_7F01, 0x8000_FF01];
    for read_back in bad {
        let mut board = Board::new();
        board.end(0, 0, &[0, 0, read_back]);
        put(lines, &format!("I/O read-back {read_back:08X}: 25"), &board);
    }
}

fn memory_read_backs(lines: &mut Lines) {
    let mut board = Board { low: (0, 0xFFFF_FFFF), ..Board::new() };
    let sizes: Vec<u32> = (7..29).map(memory).collect();
    for (device, sizes) in (0..).zip(sizes.chunks(5)) {
        board.end(0, device << 3, sizes);
    }
    put(lines, "memory BARs of 2^7 to 2^28 bytes in rising order", &board);
    for function in &mut board.functions {
        function.read_backs.reverse();
        function.read_backs.iter_mut().filter(|read_back| **read_back != 0).for_each(|read_back| *read_back |= 8);
    }
    put(lines, "the same falling in each function and prefetchable", &board);
    let bad = [
        [0xF0FF_F000, 0],
        [0x0000_0008, 0],
        [0x0000_0002, 0],
        [0xFFFF_F002, 0],
        [0x7FFF_F000, 0],
        [0xFFFF_F00C, 0],
        [0xFFFF_F00C, 0xFFFF_FFFE],
        [0x8000_0004, 0xFFFF_FFFE],
    ];
    for [first, second] in bad {
        let mut board = Board::new();
        board.end(0, 0, &[memory(12)]);
        board.end(0, 8, &[0, first, second]);
        put(lines, &format!("memory read-back {first:08X} {second:08X}: 25"), &board);
    }
}

/// Memory BARs of 128 bytes in every form, smaller ones, and I/O BARs, which may be smaller (document 02, E9).
fn least_bars(lines: &mut Lines) {
    let bars = |bits| [&[memory(bits), prefetchable(bits)][..], &wide(bits), &high(bits)].concat();
    let mut board = Board::new();
    board.end(0, 0, &bars(7));
    let bridge = board.add(0, 8, 1, &high(7));
    board.end(bridge, 0, &bars(7));
    let bridge = board.add(0, 16, 1, &[memory(7), prefetchable(7)]);
    board.end(bridge, 0, &[io(2), io(3), io(4), short_io(5), short_io(6), memory(7)]);
    put(lines, "memory BARs of 128 bytes in every form, I/O BARs of 4 to 64", &board);
    for bits in 4..7 {
        for read_backs in [vec![memory(bits)], vec![prefetchable(bits)], wide(bits).to_vec(), high(bits).to_vec()] {
            for is_bridge in [false, true] {
                let mut board = Board::new();
                board.add(0, 0, u8::from(is_bridge), &read_backs);
                let whose = if is_bridge { "a bridge's" } else { "a" };
                put(lines, &format!("{whose} memory BAR of {} bytes, {:08X}: 25", 1 << bits, read_backs[0]), &board);
            }
        }
    }
    let mut board = Board { low: CLOSED_LOW, ..Board::new() };
    board.end(0, 0, &[memory(7)]);
    board.end(0, 8, &[0, 0, 0, 0, 0, memory(6)]);
    put(lines, "64 bytes in the last slot: 25 before 31", &board);
    board.functions[1].device_function = 0;
    put(lines, "23 before 64 bytes", &board);
}

fn refused_20_21(lines: &mut Lines) {
    let good = p10().bytes();
    let function = 1 + 32;
    let changed = |at: usize, byte: u8| {
        let mut bytes = good.clone();
        bytes[at] = byte;
        bytes
    };
    let with_tail = |tail: &[u8]| [&good[..], tail].concat();
    let boards: [(&str, Vec<u8>); 20] = [
        ("20: no byte", vec![]),
        ("20: the version alone", vec![1]),
        ("20: one byte of the host's length", vec![1, 0]),
        ("20: a host cut short", good[..32].to_vec()),
        ("20: host length 29", changed(2, 29)),
        ("20: host length 31", changed(2, 31)),
        ("20: host length 30 + 256", changed(1, 1)),
        ("20: a function's length past the end", good[..good.len() - 1].to_vec()),
        ("20: the last function cut after its length", good[..function + 16 + 2].to_vec()),
        ("20: the last function's length cut", good[..function + 16 + 1].to_vec()),
        ("20: a stray byte", with_tail(&[0])),
        ("20: a function of no bytes", with_tail(&[0, 0])),
        ("20: a function of five bytes", with_tail(&[0, 5, 0, 0, 8, 0, 0])),
        ("24: a function of six bytes", with_tail(&[0, 6, 0, 0, 8, 0, 0, 0])),
        ("20: of five bytes before one with header type 2", {
            let mut bytes = good[..33].to_vec();
            bytes.extend([0, 6, 0, 0, 0, 2, 0, 0, 0, 5, 0, 0, 8, 0, 0]);
            bytes
        }),
        ("21: version 0", changed(0, 0)),
        ("21: version 3 alone", vec![3]),
        ("21: version 255 before a stray byte", [&[0xFF], &good[1..], &[0]].concat()),
        ("21: version 3 before a host of 29", [&[3, 0, 29], &good[4..33]].concat()),
        ("20: a host of 29 bytes, whole", [&[1, 0, 29], &good[4..33]].concat()),
    ];
    for (why, bytes) in boards {
        lines.note(why);
        lines.board(&bytes);
    }
}

fn refused_22_24(lines: &mut Lines) {
    let mut board = full(&[]);
    board.bridge(1, 0);
    put(lines, "22: 513 functions", &board);
    board.functions[3].header_type = 2;
    board.buses = (9, 3);
    put(lines, "22 before 24 and 26", &board);
    board.tail = vec![0];
    put(lines, "20 before 22", &board);
    for (header_type, slots) in [(2, 6), (0x82, 2), (0x7F, 6), (0, 2), (1, 6), (0x81, 0), (0, 7), (3, 4)] {
        let mut board = p10();
        board.functions.truncate(1);
        board.end(1, 0, &[]);
        board.end(0, 8, &[]);
        board.functions[1].header_type = header_type;
        board.functions[1].read_backs.resize(slots, 0);
        put(lines, &format!("24: header type {header_type:02X} with {slots} read-backs"), &board);
    }
    let mut bytes = p10().bytes();
    let length = bytes.len();
    bytes[33 + 16 + 1] = 31;
    bytes.insert(length, 0);
    lines.note("24: a type 0 function of 31 bytes");
    lines.board(&bytes);
}

fn refused_26(lines: &mut Lines) {
    let good = p10();
    let low = |base, last| Board { low: (base, last), ..good.clone() };
    let high = |base, last| Board { high: (base, last), ..good.clone() };
    let io = |base, last| Board { io: (base, last), ..good.clone() };
    let boards = [
        ("first bus above last", Board { buses: (1, 0), ..good.clone() }),
        ("first bus 255 above last 254", Board { buses: (255, 254), ..good.clone() }),
        ("low base", low(0xF908_0000, 0xF9FF_FFFF)),
        ("low last", low(0xF900_0000, 0xF9FF_FFFE)),
        ("low base and last equal", low(0xF900_0000, 0xF900_0000)),
        ("high base below 4 GiB", high(0xFFF0_0000, 0x2_7FFF_FFFF)),
        ("high last at 2^52", high(1 << 32, (1 << 52) + 0xF_FFFF)),
        ("high to 2^64", high(1 << 32, u64::MAX)),
        ("high base", high(0x2_4000_1000, 0x2_7FFF_FFFF)),
        ("high last", high(0x2_4000_0000, 0x2_7FFF_EFFF)),
        ("high base and last equal", high(1 << 32, 1 << 32)),
        ("I/O base", io(0x4800, 0x4FFF)),
        ("I/O last", io(0x4000, 0x4FFE)),
        ("I/O shifted by four", io(0x4004, 0x5003)),
    ];
    for (why, board) in boards {
        put(lines, &format!("26: {why}"), &board);
    }
}

fn refused_23(lines: &mut Lines) {
    // A bridge with two endpoints, a second bridge with one, an endpoint.
    let mut good = Board::new();
    let a = good.bridge(0, 0x00);
    good.add(a, 0x00, 0x80, &[memory(12)]);
    good.add(a, 0x01, 0x00, &[memory(12)]);
    let b = good.bridge(0, 0x08);
    good.end(b, 0x00, &[memory(12)]);
    good.end(0, 0x10, &[memory(12)]);
    put(lines, "a lawful tree, damaged below", &good);
    let parents: [(usize, u16); 7] = [(0, 1), (0, 2), (1, 3), (2, 2), (4, 1), (5, 7), (5, 0xFFFF)];
    for (index, parent) in parents {
        let mut board = good.clone();
        board.functions[index].parent = parent;
        put(lines, &format!("23: record {} below {parent}", index + 1), &board);
    }
    let mut board = good.clone();
    board.functions[5].parent = 1;
    board.functions[5].device_function = 0x18;
    put(lines, "23: back to a bridge that was left", &board);
    for (index, byte) in [(2, 0x00), (2, 0x08), (2, 0x09), (3, 0x00), (3, 0x04), (5, 0x08), (5, 0x09), (4, 0x01)] {
        let mut board = good.clone();
        board.functions[index].device_function = byte;
        put(lines, &format!("record {} at {byte:02X}", index + 1), &board);
    }
    let mut board = good.clone();
    board.functions[1].header_type = 0;
    put(lines, "23: function 1 while function 0 lacks bit 7", &board);
    board.functions[2].header_type = 0x80;
    put(lines, "23: bit 7 on function 1 instead", &board);
    let mut board = good.clone();
    board.functions[3].header_type = 0x81;
    board.functions[5].device_function = 0x0F;
    put(lines, "function 7 of a bridge's device, after its subtree", &board);
    board.functions[3].header_type = 1;
    put(lines, "23: the same while the bridge lacks bit 7", &board);
    let mut board = Board::new();
    let last = board.chain(0, 0, 32);
    board.add(last, 0x00, 0x81, &[]);
    board.end(last, 0x03, &[]);
    put(lines, "32 bridges above two functions, one a bridge", &board);
    board.functions[33].parent = 33;
    board.functions[33].device_function = 0;
    put(lines, "23: 33 above one of them", &board);
}

/// Boards with two faults, whose numbers show the order of the checks.
fn two_faults(lines: &mut Lines) {
    type Damage = fn(&mut Board);
    let faults: [(u8, Damage); 10] = [
        (21, |board| board.version = 0),
        (20, |board| board.tail = vec![0, 3, 0, 0, 0]),
        (24, |board| board.functions[2].header_type = 0x42),
        (26, |board| board.high.1 += 1 << 52),
        (23, |board| board.functions[3].device_function = 0),
        (25, |board| board.functions[0].read_backs[1] = 0xFFFF_F00C),
        (30, |board| board.buses = (7, 7)),
        (31, |board| board.functions[3].read_backs[0] = memory(31)),
        (32, |board| board.functions[2].read_backs[2..4].copy_from_slice(&high(63))),
        (33, |board| board.functions[3].read_backs[5] = io(15)),
    ];
    let mut good = Board { buses: (7, 9), low: (0x1000_0000, 0x1FFF_FFFF), io: (0x2000, 0x2FFF), ..Board::new() };
    let bridge = good.bridge(0, 0);
    good.end(bridge, 0, &[memory(12)]);
    good.end(bridge, 8, &[io(4)]);
    good.end(0, 8, &[0, memory(14), high(20)[0], high(20)[1]]);
    put(lines, "a lawful board, damaged twice below", &good);
    for (i, (first, damage)) in faults.iter().enumerate() {
        for (second, other) in faults.iter().skip(i + 1).step_by(4).take(2) {
            let mut board = good.clone();
            other(&mut board);
            damage(&mut board);
            put(lines, &format!("{first} before {second}"), &board);
        }
    }
}

/// Random boards, with each pool cut to what the board needs and then one granule shorter.
fn random_boards(lines: &mut Lines) {
    let mut random_numbers = Random::new(20_011);
    let styles = [
        Style { functions: 5, bridges: 40, memory_bits: 22, io_bits: 8 },
        Style { functions: 12, bridges: 40, memory_bits: 24, io_bits: 6 },
        Style { functions: 24, bridges: 30, memory_bits: 20, io_bits: 4 },
        Style { functions: 48, bridges: 20, memory_bits: 26, io_bits: 3 },
    ];
    for round in 0..3 {
        for style in &styles {
            let mut board = random(&mut random_numbers, style);
            let spread = 1 + random_numbers.below(200) as u8;
            let bridges = board.bus_numbers() as u8;
            board.buses = (spread, spread.saturating_add(bridges));
            let why = format!("random, round {round}, {} functions", board.functions.len());
            put(lines, &why, &tighten(&mut random_numbers, &board));
            let tight = tighten(&mut random_numbers, &board);
            let short = match random_numbers.below(3) {
                0 => Board { low: (tight.low.0, tight.low.1.wrapping_sub(MIB)), ..tight },
                1 => Board { high: (tight.high.0, tight.high.1.wrapping_sub(1 << 20)), ..tight },
                _ => Board { io: (tight.io.0, tight.io.1.wrapping_sub(1 << 12)), ..tight },
            };
            put(lines, "one granule less", &short);
        }
    }
}

/// As long as a lawful board can be, of 16,417 bytes, and longer.
fn long_boards(lines: &mut Lines) {
    let longest = {
        let mut board = Board { functions: vec![], ..p10() };
        for _ in 0..512 {
            board.end(0, 0, &[]);
        }
        board
    };
    put(lines, "23: as long as a lawful board, 512 functions of one device/function", &longest);
    let mut board = longest.clone();
    board.tail = vec![0];
    put(lines, "20: a byte after 512 functions of 30 bytes", &board);
    board.version = 3;
    put(lines, "21: the same of another version", &board);
    let mut board = longest.clone();
    board.end(0, 8, &[]);
    put(lines, "22: 513 functions of 30 bytes", &board);
    let mut board = longest;
    board.tail = vec![0, 5, 0, 0, 0, 0, 0];
    put(lines, "20: 513 functions, the last under 6 bytes", &board);
    let mut board = Board { functions: vec![], ..p10() };
    board.tail = [&16_384u16.to_be_bytes()[..], &[0; 16_384]].concat();
    put(lines, "24: one function of 16,384 bytes", &board);
}

/// Moves each pool's base and takes the least last address with which the board is planned.
pub fn tighten(random: &mut Random, board: &Board) -> Board {
    let mut tight = board.clone();
    let low = (random.below(64) as u32) << 20;
    let high = (4096 + random.below(4096)) << 20;
    let io = (random.below(4) as u16) << 12;
    least(&mut tight, 4096 - u64::from(low >> 20), |board, granules| {
        board.low = (low, low.wrapping_add((granules << 20) as u32).wrapping_sub(1));
    });
    least(&mut tight, (1 << 32) - (high >> 20), |board, granules| board.high = (high, high + (granules << 20) - 1));
    least(&mut tight, 16 - u64::from(io >> 12), |board, granules| {
        board.io = (io, io.wrapping_add((granules << 12) as u16).wrapping_sub(1));
    });
    tight
}

/// Sets a pool to the least number of granules, 1 to `most`, with which the board is planned; to `most` if none is.
fn least(board: &mut Board, most: u64, set: impl Fn(&mut Board, u64)) {
    let mut room = vec![0; plain::FULL_SHEET];
    let (mut below, mut enough) = (0, most);
    while below + 1 < enough {
        let middle = below + (enough - below) / 2;
        set(board, middle);
        if plain::plan(&board.bytes(), &mut room).is_ok() {
            enough = middle;
        } else {
            below = middle;
        }
    }
    set(board, enough);
}
