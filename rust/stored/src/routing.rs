//! The router's lines: planned sheets at their edges, command words, sheets that no planner wrote, refusals,
//! messages, tags of ten bits, spare room, and card to card last.

use crate::cards;
use crate::lines::Lines;
use crate::messages;
use crate::spares;
use crate::tags;
use inputs::board::{self, memory, wide, Board, Style};
use inputs::foreign::*;
use inputs::random::Random;

pub fn lines() -> String {
    let mut lines = Lines::default();
    no_sheet(&mut lines);
    example(&mut lines);
    command_words(&mut lines);
    tree(&mut lines);
    depth(&mut lines);
    edges(&mut lines);
    outside(&mut lines);
    contested(&mut lines);
    tops(&mut lines);
    io_windows(&mut lines);
    closed_spellings(&mut lines);
    odd_buses(&mut lines);
    long_chains(&mut lines);
    no_functions(&mut lines);
    damaged_headers(&mut lines);
    damaged_sheets(&mut lines);
    two_faults(&mut lines);
    full_sheets(&mut lines);
    messages::groups(&mut lines);
    tags::groups(&mut lines);
    spares::routes(&mut lines);
    cards::groups(&mut lines);
    lines.0
}

/// A sheet, then headers over it.
pub fn put(lines: &mut Lines, why: &str, records: &[Record], headers: &[Vec<u8>]) {
    lines.note(why);
    lines.sheet(&sheet(records));
    for header in headers {
        lines.header(header);
    }
}

fn no_sheet(lines: &mut Lines) {
    lines.note("before any sheet");
    lines.header(&request(MRD, 0xF900_0FFC));
    lines.header(&request(MRD, 0xF900_0FFD));
    lines.header(&[]);
    lines.lookup(0x0000);
    lines.command(0x0000, 0x0003);
}

fn example(lines: &mut Lines) {
    lines.note("P10");
    lines.board(&board::p10().bytes());
    for address in [0xF900_0FFC, 0xF900_1000, 0xF900_0000, 0xF8FF_FFFC, 0xF90F_FFFC] {
        lines.header(&request(MRD, address));
    }
    for address in [0x2_4000_0000, 0x2_43FF_FFFC, 0x2_4400_0000, 0x2_3FFF_FFFC, 0x1_F900_0000, 0x4000_0000] {
        lines.header(&request(MWR, address));
    }
    for address in [0x4000, 0x40FC, 0x4100, 0x3FFC, 0x1_4000 & 0xFFFF_FFFF] {
        lines.header(&request(IORD, address));
    }
    for header in [
        configuration(CFGRD0, 0x0000, 0),
        configuration(CFGRD1, 0x0000, 0),
        configuration(CFGRD0, 0x0100, 0),
        configuration(CFGRD1, 0x0100, 0x3FF),
        configuration(CFGWR1, 0x0100, 0x041),
        configuration(CFGWR0, 0x0000, 0x100),
        configuration(CFGWR0, 0x0008, 0),
        configuration(CFGWR1, 0x0101, 0),
        configuration(CFGWR1, 0x0200, 0),
        configuration(CFGWR0, 0x0200, 0),
        completion(CPL, 0x0000),
        completion(CPLD, 0x0100),
        completion(CPLLK, 0x0100),
        completion(CPLDLK, 0x0108),
        completion(CPLD, 0x0200),
    ] {
        lines.header(&header);
    }
    lines.note("small letters and spaces");
    lines.raw("header 00 00 00 01 00 00 21 0f f9 00 0f fc");
    lines.raw("header 0000 0001 0000210F  f9000FfC");
    lines.note("a request arrives with every field as it was");
    lines.header(&[0x60, 0x54, 0xF4, 0x10, 0xBE, 0xEF, 0xA5, 0x1E, 0, 0, 0, 2, 0x40, 0, 0x0F, 0xC0, 0xDE, 0xAD]);
    lines.header(&[0x01, 0x70, 0x48, 0x02, 0x12, 0x34, 0x00, 0x5A, 0xF9, 0x00, 0x0F, 0xF8]);
    lines.header(&[0x20, 0x00, 0x00, 0x00, 0x00, 0x08, 0x80, 0xFF, 0, 0, 0, 2, 0x42, 0x00, 0x00, 0x00]);
    lines.header(&[0x4A, 0x34, 0xD0, 0x00, 0xFE, 0xDC, 0x5F, 0xFF, 0x01, 0x00, 0xFF, 0x7F]);
    for id in [0x0000, 0x0100, 0x0101, 0xFFFF] {
        lines.lookup(id);
    }
}

fn command_words(lines: &mut Lines) {
    lines.note("P10 with command words rewritten");
    lines.board(&board::p10().bytes());
    let words = [
        (0x0000, 0x0000),
        (0x0000, 0x0001),
        (0x0000, 0x0002),
        (0x0000, 0xFFFF),
        (0x0100, 0x0001),
        (0x0100, 0x0002),
        (0x0100, 0x0004),
        (0x0100, 0xFFFC),
        (0x0100, 0x0403),
    ];
    for (id, word) in words {
        lines.command(id, word);
        lines.header(&request(MRD, 0xF900_0000));
        lines.header(&request(MRD, 0x2_4000_0000));
        lines.header(&request(IOWR, 0x4000));
        lines.header(&configuration(CFGRD1, 0x0100, 1));
    }
    lines.header(&completion(CPL, 0x0100));
    lines.command(0x0200, 0x0003);
    lines.command(0x0001, 0x0003);
    lines.header(&request(MRD, 0xF900_0000));
    let mut board = Board::new();
    let bridge = board.add(0, 0, 1, &[memory(12), board::io(4)]);
    board.end(bridge, 0, &[memory(12), board::io(4)]);
    board.functions[0].command = 0;
    board.functions[1].command = 0;
    lines.note("a bridge with BARs of its own, nothing enabled");
    lines.board(&board.bytes());
    for (id, word) in [(0x0000, 0), (0x0000, 1), (0x0000, 2), (0x0100, 2), (0x0100, 1), (0x0000, 3), (0x0100, 3)] {
        lines.command(id, word);
        for address in [0x8000_0000, 0x8010_0000] {
            lines.header(&request(MRD, address));
        }
        for address in [0x1000, 0x2000] {
            lines.header(&request(IORD, address));
        }
    }
}

fn tree(lines: &mut Lines) {
    lines.note("source document 001's tree: every bus");
    lines.board(&board::document_001().bytes());
    for bus in 0..=11 {
        lines.header(&configuration(CFGRD1, bus << 8, 2));
        lines.header(&configuration(CFGWR0, bus << 8, 2));
        lines.header(&completion(CPLD, bus << 8 | 8));
    }
    lines.header(&completion(CPL, 0x0301));
    lines.header(&configuration(CFGRD1, 0x0301, 2));
    lines.header(&configuration(CFGRD1, 0x0610, 2));
    lines.header(&configuration(CFGRD1, 0xFF00, 2));
    for id in [0x0000, 0x0008, 0x0610, 0x0A00, 0x0A08] {
        lines.lookup(id);
    }
}

fn depth(lines: &mut Lines) {
    let mut board = Board::new();
    let last = board.chain(0, 0, 32);
    board.end(last, 0x18, &[memory(12), board::io(8), board::high(24)[0], board::high(24)[1]]);
    lines.note("32 bridges");
    lines.board(&board.bytes());
    for header in [
        request(MRD, 0x8000_0FFC),
        request(MRD, 0x8000_1000),
        request(IORD, 0x10FC),
        request(IORD, 0x1100),
        request(MWR, 0x10_00FF_FFFC),
        request(MWR, 0x10_0100_0000),
        configuration(CFGRD1, 0x2018, 0),
        configuration(CFGRD1, 0x1F00, 0),
        completion(CPL, 0x2018),
        completion(CPL, 0x2100),
    ] {
        lines.header(&header);
    }
    lines.command(0x0800, 0x0001);
    lines.header(&request(MRD, 0x8000_0000));
    lines.header(&request(IORD, 0x1000));
    lines.header(&configuration(CFGRD1, 0x2018, 0));
    lines.command(0x2018, 0x0002);
    lines.header(&request(IORD, 0x1000));
}

/// The first, last and next dword of every BAR and window of planned sheets, each register read from the sheet.
fn edges(lines: &mut Lines) {
    let mut numbers = Random::new(10_004);
    let styles = [
        Style { functions: 5, bridges: 40, memory_bits: 20, io_bits: 8 },
        Style { functions: 9, bridges: 40, memory_bits: 22, io_bits: 6 },
        Style { functions: 14, bridges: 50, memory_bits: 24, io_bits: 4 },
    ];
    for style in &styles {
        let mut room = vec![0; plain::FULL_SHEET];
        let mut board = board::random(&mut numbers, style);
        for function in &mut board.functions {
            // Most functions are enabled.
            function.command |= if numbers.chance(5, 6) { 3 } else { 0 };
        }
        let Ok(length) = plain::plan(&board.bytes(), &mut room) else { continue };
        lines.note("a planned sheet: first, last and next dword of BARs and windows");
        lines.board(&board.bytes());
        let mut requests = Vec::new();
        for record in room[1..length].chunks_exact(92) {
            bar_edges(record, &mut requests);
            window_edges(record, &mut requests);
        }
        let keep = requests.len().div_ceil(30);
        let start = numbers.below(keep as u64) as usize;
        for header in requests.iter().skip(start).step_by(keep) {
            lines.header(header);
        }
    }
}

fn register(record: &[u8], at: usize, width: usize) -> u64 {
    record[4 + at..4 + at + width].iter().rev().fold(0, |number, &byte| number << 8 | u64::from(byte))
}

fn around(requests: &mut Vec<Vec<u8>>, byte0: u8, first: u64, size: u64) {
    requests.push(request(byte0, first));
    requests.push(request(byte0, first + size - 4));
    requests.push(request(byte0, first + size));
}

fn bar_edges(record: &[u8], requests: &mut Vec<Vec<u8>>) {
    let slots = if record[4 + 0x0E] & 0x7F == 1 { 2 } else { 6 };
    let mut slot = 0;
    while slot < slots {
        let at = 68 + 4 * slot;
        let read_back = u32::from_be_bytes(record[at..at + 4].try_into().unwrap());
        let is_wide = read_back & 7 == 4;
        if read_back & 1 == 1 {
            let size = 1 << (read_back & 0xFFFC).trailing_zeros();
            around(requests, IORD, register(record, 0x10 + 4 * slot, 4) & !3, size);
        } else if read_back != 0 {
            let upper = if is_wide { register(record, 0x14 + 4 * slot, 4) } else { 0 };
            // The sizes here are below 4 GiB.
            let size = 1 << (read_back & !15).trailing_zeros();
            around(requests, MWR, upper << 32 | register(record, 0x10 + 4 * slot, 4) & !15, size);
        }
        slot += 1 + usize::from(is_wide);
    }
}

fn window_edges(record: &[u8], requests: &mut Vec<Vec<u8>>) {
    if record[4 + 0x0E] & 0x7F != 1 {
        return;
    }
    let (base, limit) = (register(record, 0x1C, 1) << 8, register(record, 0x1D, 1) << 8);
    if base <= limit {
        around(requests, IOWR, base, limit + 0x1000 - base);
    }
    let (base, limit) = (register(record, 0x20, 2) << 16, register(record, 0x22, 2) << 16);
    if base <= limit {
        around(requests, MRD, base, limit + 0x10_0000 - base);
    }
    let half = |at, upper| register(record, upper, 4) << 32 | (register(record, at, 2) & 0xFFF0) << 16;
    let (base, limit) = (half(0x24, 0x28), half(0x26, 0x2C));
    if base <= limit {
        around(requests, MRD, base, limit + 0x10_0000 - base);
    }
}

/// A bridge to bus 1 with a low window of 16 MiB at F9000000, and a function behind it.
pub fn bridge_and_end() -> [Record; 2] {
    [Record::bridge(0x0000, 1, 1).low(0xF900, 0xF9F0), Record::end(0x0100).bar(0, memory(12), 0xF900_0000)]
}

fn outside(lines: &mut Lines) {
    let [bridge, end] = bridge_and_end();
    let wide_end = |start| Record::end(0x0100).wide(2, 12, 20, start);
    put(
        lines,
        "a BAR outside the window above it: 40",
        &[bridge.clone(), end.clone().value(0, 0xFA00_0000)],
        &[request(MRD, 0xFA00_0000), request(MRD, 0xF900_0000)],
    );
    put(
        lines,
        "half of a BAR outside the window above it",
        &[bridge.clone().low(0xF900, 0xF900), Record::end(0x0100).bar(1, memory(21), 0xF900_0000 & !0x1F_FFFF)],
        &[request(MRD, 0xF900_0000), request(MRD, 0xF90F_FFFC), request(MRD, 0xF910_0000)],
    );
    put(
        lines,
        "a 64-bit BAR in the low window, and one in the high",
        &[
            bridge.clone().high(0x0011, 0x0011, 9, 9),
            wide_end(0xF9F0_0000),
            Record::end(0x0108).wide(4, 4, 20, 0x9_0010_0000),
        ],
        &[request(MRD, 0xF9F0_0000), request(MWR, 0x9_0010_0000), request(MWR, 0x9_0020_0000), request(MRD, 0x10_0000)],
    );
    put(
        lines,
        "a 32-bit BAR holds nothing above 4 GiB",
        &[bridge.clone().high(0xF901, 0xF901, 1, 1), end.clone()],
        &[request(MRD, 0xF900_0000), request(MRD, 0x1_F900_0000)],
    );
    put(
        lines,
        "a BAR at address 0 and an unused slot",
        &[Record::end(0x0000).bar(5, memory(7), 0).bar(1, 0xFFFF_FFFD, 1)],
        &[request(MRD, 0), request(MRD, 124), request(MRD, 128), request(IORD, 0), request(IORD, 4)],
    );
    put(
        lines,
        "every byte that no rule names is free",
        &[
            bridge.set(0x00, 0x86).set(0x06, 0xFF).set(0x1B, 9).set(0x1E, 0xA0).set(0x30, 0x11).set(0x3F, 0xFF),
            end.set(0x02, 0x34).set(0x28, 0x55).set(0x2C, 1).set(0x30, 1).set(0x3D, 1).set(0x0E, 0x80),
        ],
        &[request(MRD, 0xF900_0000), configuration(CFGRD1, 0x0100, 0)],
    );
}

fn contested(lines: &mut Lines) {
    let [bridge, end] = bridge_and_end();
    let twin = Record::bridge(0x0008, 2, 2).low(0xF9F0, 0xFA00);
    put(
        lines,
        "two windows over one address: 41",
        &[bridge.clone(), end.clone(), twin.clone()],
        &[request(MRD, 0xF9F0_0000), request(MRD, 0xF900_0000), request(MRD, 0xFA00_0000), request(MRD, 0xF9EF_FFFC)],
    );
    put(
        lines,
        "the same with the second disabled, then the first",
        &[bridge.clone().low(0xF900, 0xFA00), end.clone(), twin.clone().low(0xF900, 0xFA00).command(1)],
        &[request(MRD, 0xF900_0000)],
    );
    lines.command(0x0008, 0x0002);
    lines.header(&request(MRD, 0xF900_0000));
    lines.command(0x0000, 0x0001);
    lines.header(&request(MRD, 0xF900_0000));
    put(
        lines,
        "two functions' BARs over one address",
        &[
            bridge.clone(),
            end.clone(),
            Record::end(0x0101).bar(0, memory(13), 0xF900_0000),
            Record::end(0x0102).bar(3, memory(12), 0xF900_1000).command(1),
        ],
        &[request(MRD, 0xF900_0000), request(MRD, 0xF900_0FFC), request(MRD, 0xF900_1000)],
    );
    lines.command(0x0101, 0x0000);
    lines.header(&request(MRD, 0xF900_0000));
    lines.header(&request(MRD, 0xF900_1000));
    put(
        lines,
        "two BARs of one function",
        &[Record::end(0x0000).bar(0, memory(12), 0x1000).bar(1, memory(7), 0x1F80).wide(3, 12, 7, 0x1000)],
        &[request(MRD, 0x1000), request(MRD, 0x1080), request(MRD, 0x1F7C), request(MRD, 0x1F80)],
    );
    put(
        lines,
        "a bridge's BAR inside its own window",
        &[bridge.clone().bar(1, memory(20), 0xF900_0000), end.clone()],
        &[request(MRD, 0xF900_0000), request(MRD, 0xF910_0000)],
    );
    put(
        lines,
        "low and high window of one bridge over one address",
        &[bridge.clone().high(0xF901, 0xF911, 0, 0), Record::end(0x0100).bar(0, memory(22), 0xF900_0000)],
        &[request(MRD, 0xF900_0000), request(MRD, 0xF91F_FFFC), request(MRD, 0xF920_0000)],
    );
    put(
        lines,
        "a BAR of the other space is no claim",
        &[Record::end(0x0000).bar(0, memory(8), 0x4000).bar(1, 0xFFFF_FF01, 0x4001)],
        &[request(MRD, 0x4000), request(IORD, 0x4000), request(IORD, 0x40FC), request(IORD, 0x4100)],
    );
    put(
        lines,
        "contested on the second bus only",
        &[
            bridge.clone(),
            Record::bridge(0x0100, 2, 2).low(0xF900, 0xF900),
            Record::end(0x0108).bar(0, memory(20), 0xF900_0000),
            Record::end(0x0200).bar(0, memory(20), 0xF900_0000),
        ],
        &[request(MRD, 0xF900_0000), request(MRD, 0xF910_0000)],
    );
    put(
        lines,
        "two I/O windows, and an I/O BAR beside one",
        &[
            Record::bridge(0x0000, 1, 1).io(0x20, 0x30),
            Record::bridge(0x0008, 2, 2).io(0x30, 0x40),
            Record::end(0x0010).bar(0, 0xFFFF_F001, 0x4001),
            Record::end(0x0100).bar(0, 0xFFFF_E001, 0x2001),
        ],
        &[request(IORD, 0x2FFC), request(IORD, 0x3000), request(IORD, 0x4000), request(IORD, 0x5000)],
    );
}

fn tops(lines: &mut Lines) {
    let top = u64::MAX - 0x7F;
    put(
        lines,
        "BARs that end at 2^64",
        &[
            Record::end(0x0000).wide(0, 12, 7, top).wide(2, 4, 62, 1 << 63),
            Record::end(0x0008).wide(4, 4, 20, u64::MAX - 0xFFFF_FFFF),
        ],
        &[
            request(MRD, top),
            request(MRD, u64::MAX - 3),
            request(MRD, top - 4),
            request(MRD, 1 << 63),
            request(MRD, (1 << 63) + (1 << 62) - 4),
            request(MRD, (1 << 63) + (1 << 62)),
            request(MRD, 0),
            request(MRD, 0xFFFF_FFFF_0000_0000),
        ],
    );
    put(
        lines,
        "a BAR of 2^63 bytes, and both halves",
        &[Record::end(0x0000).wide(0, 12, 63, 1 << 63), Record::end(0x0008).wide(1, 12, 63, 0)],
        &[
            request(MRD, 0),
            request(MRD, (1 << 63) - 4),
            request(MRD, 1 << 63),
            request(MRD, u64::MAX - 3),
            request(MRD, 1 << 32),
        ],
    );
    put(
        lines,
        "windows that end at 2^64 and at 2^32",
        &[
            Record::bridge(0x0000, 1, 1).high(0x0001, 0xFFF1, 0xFFFF_FFFF, 0xFFFF_FFFF).low(0x8000, 0xFFF0),
            Record::end(0x0100).wide(0, 12, 7, top).bar(2, memory(16), 0xFFFF_0000),
        ],
        &[
            request(MRD, u64::MAX - 3),
            request(MRD, top - 4),
            request(MRD, 0xFFFF_FFFC),
            request(MRD, 0xFFFF_0000),
            request(MRD, 0xFFFF_FFFF_0000_0000),
            request(MRD, 0),
        ],
    );
    put(
        lines,
        "a high window over everything",
        &[
            Record::bridge(0x0000, 1, 1).high(0x0001, 0xFFF1, 0, 0xFFFF_FFFF),
            Record::end(0x0100).bar(2, memory(31), 0x8000_0000).wide(4, 4, 32, u64::MAX << 32),
        ],
        &[
            request(MRD, 0x8000_0000),
            request(MRD, 0xFFFF_FFFC),
            request(MRD, 0x7FFF_FFFC),
            request(MRD, u64::MAX - 3),
            request(MRD, (u64::MAX << 32) - 4),
        ],
    );
}

fn io_windows(lines: &mut Lines) {
    put(
        lines,
        "I/O windows hold nothing above FFFFh",
        &[
            Record::bridge(0x0000, 1, 1).io(0xF0, 0xF0),
            Record::bridge(0x0008, 2, 2).io(0x00, 0x00),
            Record::end(0x0100).bar(0, 0x0000_FF01, 0xFF01).bar(1, 0xFFFF_FF01, 0xF001),
            Record::end(0x0200).bar(0, 0xFFFF_F001, 0x0001),
        ],
        &[
            request(IORD, 0xFFFC),
            request(IORD, 0xFF00),
            request(IORD, 0xFEFC),
            request(IORD, 0xF000),
            request(IORD, 0x1_F000),
            request(IORD, 0x1_FFFC),
            request(IORD, 0x1_0000),
            request(IORD, 0x0FFC),
            request(IORD, 0x1000),
            request(IOWR, 0xFFFF_FFFC),
            request(IOWR, 0xFFFF_F000),
        ],
    );
    put(
        lines,
        "I/O BARs on the root bus hold nothing above FFFFh",
        &[Record::end(0x0000).bar(0, 0xFFFF_8001, 0x8001).bar(2, 0x0000_8001, 0x0001)],
        &[
            request(IORD, 0),
            request(IORD, 0x7FFC),
            request(IORD, 0x8000),
            request(IORD, 0xFFFC),
            request(IORD, 0x1_8000),
        ],
    );
}

fn closed_spellings(lines: &mut Lines) {
    let behind =
        Record::end(0x0100).bar(0, memory(20), 0x8000_0000).bar(1, 0xFFFF_F001, 0x2001).wide(2, 12, 20, 0x1_8000_0000);
    let headers = [request(MRD, 0x8000_0000), request(IORD, 0x2000), request(MRD, 0x1_8000_0000)];
    let bridge = || Record::bridge(0x0000, 1, 1);
    let spellings = [
        ("open by one granule each", bridge().low(0x8000, 0x8000).io(0x20, 0x20).high(0x8001, 0x8001, 1, 1)),
        ("closed by one granule each", bridge().low(0x8010, 0x8000).io(0x30, 0x20).high(0x8011, 0x8001, 1, 1)),
        ("closed below the address", bridge().low(0x8000, 0x7FF0).io(0x20, 0x10).high(0x8001, 0x7FF1, 1, 1)),
        ("closed by the upper words", bridge().low(0xFFF0, 0x8000).io(0xF0, 0x20).high(0x0001, 0xFFF1, 2, 1)),
        ("open by the upper words", bridge().low(0x0000, 0xFFF0).io(0x00, 0xF0).high(0xFFF1, 0x0001, 0, 2)),
        ("registers of 0 are open at 0", bridge().low(0, 0).io(0, 0).high(1, 1, 0, 0)),
        ("the usual spelling with upper words", bridge().high(0xFFF1, 0x0001, 0xFFFF_FFFF, 0)),
    ];
    for (why, bridge) in spellings {
        put(lines, &format!("windows: {why}"), &[bridge, behind.clone()], &headers);
    }
    lines.header(&request(MRD, 0));
    put(
        lines,
        "registers of 0 contest the first MiB",
        &[bridge().low(0, 0).high(1, 1, 0, 0), Record::end(0x0100).bar(0, memory(20), 0)],
        &[request(MRD, 0), request(MRD, 0x10_0000)],
    );
}

fn odd_buses(lines: &mut Lines) {
    let card = |id: u16, start| Record::end(id).bar(0, memory(20), start);
    put(
        lines,
        "two bridges to one bus",
        &[
            Record::bridge(0x0000, 3, 3).low(0x1000, 0x1000),
            Record::bridge(0x0008, 3, 3).low(0x1010, 0x1010),
            card(0x0300, 0x1000_0000),
            card(0x0308, 0x1010_0000),
        ],
        &[
            request(MRD, 0x1000_0000),
            request(MRD, 0x1010_0000),
            request(MRD, 0x1020_0000),
            configuration(CFGRD1, 0x0300, 0),
            completion(CPL, 0x0308),
        ],
    );
    put(
        lines,
        "the first record is on bus 5, a bridge above it is never met",
        &[
            card(0x0500, 0x1000_0000),
            Record::bridge(0x0000, 5, 9).low(0x1000, 0x1FF0),
            Record::bridge(0x0508, 9, 9).low(0x1010, 0x1010),
            card(0x0900, 0x1010_0000),
            card(0x0008, 0x1020_0000),
        ],
        &[
            request(MRD, 0x1000_0000),
            request(MRD, 0x1010_0000),
            request(MRD, 0x1020_0000),
            configuration(CFGRD0, 0x0500, 0),
            configuration(CFGRD0, 0x0000, 0),
            configuration(CFGRD1, 0x0000, 0),
            configuration(CFGRD1, 0x0500, 0),
            configuration(CFGRD1, 0x0900, 0),
            completion(CPLD, 0x0008),
            completion(CPLD, 0x0508),
        ],
    );
    lines.lookup(0x0008);
    lines.lookup(0x0900);
    put(
        lines,
        "bus ranges that overlap, and one that promises too much",
        &[
            Record::bridge(0x0000, 1, 6),
            Record::bridge(0x0008, 5, 9),
            Record::bridge(0x0100, 3, 3),
            Record::end(0x0300),
            Record::end(0x0500),
            Record::bridge(0x0508, 7, 8),
            Record::end(0x0700),
            Record::end(0x0A00),
        ],
        &[
            configuration(CFGRD1, 0x0100, 0),
            configuration(CFGRD1, 0x0300, 0),
            configuration(CFGRD1, 0x0200, 0),
            configuration(CFGRD1, 0x0400, 0),
            configuration(CFGRD1, 0x0500, 0),
            configuration(CFGRD1, 0x0600, 0),
            configuration(CFGRD1, 0x0700, 0),
            configuration(CFGRD1, 0x0800, 0),
            configuration(CFGRD1, 0x0900, 0),
            configuration(CFGRD1, 0x0A00, 0),
            completion(CPL, 0x0500),
            completion(CPL, 0x0508),
            completion(CPL, 0x0000),
            completion(CPL, 0x0018),
        ],
    );
    lines.command(0x0008, 0);
    lines.command(0x0508, 0);
    lines.header(&configuration(CFGWR1, 0x0700, 0));
    lines.header(&completion(CPL, 0x0700));
    put(
        lines,
        "buses up to 255",
        &[
            Record::bridge(0xFD00, 0xFE, 0xFF).low(0x1000, 0x1000),
            Record::bridge(0xFE00, 0xFF, 0xFF).low(0x1000, 0x1000),
            card(0xFFFF, 0x1000_0000),
        ],
        &[
            request(MRD, 0x1000_0000),
            configuration(CFGRD1, 0xFFFF, 0),
            configuration(CFGRD1, 0xFE00, 0),
            configuration(CFGRD0, 0xFD00, 0),
            configuration(CFGRD0, 0xFFFF, 0),
            completion(CPL, 0xFFF8),
            completion(CPL, 0xFC00),
        ],
    );
    put(
        lines,
        "a window to a bus without functions",
        &[Record::bridge(0x0000, 1, 3).low(0x1000, 0x1000), card(0x0200, 0x1000_0000)],
        &[request(MRD, 0x1000_0000), configuration(CFGRD1, 0x0200, 0), configuration(CFGRD1, 0x0100, 0)],
    );
}

fn long_chains(lines: &mut Lines) {
    for count in [40, 255] {
        let mut records: Vec<Record> = (0..count)
            .map(|bus: u16| Record::bridge(bus << 8, bus as u8 + 1, count as u8).low(0x1000, 0x1000).io(0x30, 0x30))
            .collect();
        records.push(Record::end(count << 8).bar(0, memory(7), 0x1000_0080).bar(1, 0xFFFF_FFFD, 0x3001));
        put(
            lines,
            &format!("{count} bridges in a row"),
            &records,
            &[
                request(MRD, 0x1000_0080),
                request(MRD, 0x1000_0100),
                request(IORD, 0x3000),
                configuration(CFGRD1, count << 8, 0),
                completion(CPL, (count - 1) << 8),
                message(MSG, 0b001, 0x50, 0x1000_0080),
                message(MSGD, 0b010, 0x7E, u64::from(count) << 56),
                message(MSG, 0b011, 0x19, 0),
            ],
        );
        lines.command((count - 1) << 8, 2);
        lines.header(&request(MRD, 0x1000_0080));
        lines.header(&request(IORD, 0x3000));
        lines.lookup(count << 8);
    }
}

fn no_functions(lines: &mut Lines) {
    lines.note("no functions: 40 before 42");
    lines.board(&Board::new().bytes());
    for header in [
        request(MRD, 0x8000_0000),
        request(IORD, 0x1000),
        configuration(CFGRD0, 0x0000, 0),
        configuration(CFGRD1, 0x0000, 0),
        configuration(CFGWR0, 0x0100, 0),
        completion(CPL, 0x0000),
        request(MRD, 0x8000_0001),
    ] {
        lines.header(&header);
    }
    lines.lookup(0x0000);
    lines.command(0x0000, 0x0003);
}

/// A header with some of its bytes changed.
pub fn changed(mut header: Vec<u8>, changes: &[(usize, u8)]) -> Vec<u8> {
    for &(at, byte) in changes {
        header[at] = byte;
    }
    header
}

fn damaged_headers(lines: &mut Lines) {
    let low = || request(MRD, 0xF900_0000);
    let high = || request(MRD, 0x2_4000_0000);
    let headers: Vec<Vec<u8>> = vec![
        low()[..11].to_vec(),
        high()[..15].to_vec(),
        high()[..12].to_vec(),
        changed(low(), &[(0, 0x1F)]),
        changed(low(), &[(0, 0x22)]),
        changed(low(), &[(0, 0xA0)]),
        changed(low(), &[(0, 0x30)]),
        changed(low(), &[(0, 0x80)]),
        changed(low(), &[(0, 0x6D)]),
        changed(request(MWR, 0xF900_0000), &[(1, 0x80)]),
        changed(low(), &[(1, 0x01)]),
        changed(low(), &[(2, 0x0C)]),
        changed(low(), &[(11, 0x02)]),
        changed(request(IORD, 0x4000), &[(11, 0x01)]),
        changed(configuration(CFGRD1, 0x0100, 0), &[(10, 0x10)]),
        changed(completion(CPL, 0x0100), &[(2, 0x04)]),
        changed(request(IORD, 0x4000), &[(2, 0x0C)]),
        changed(request(IORD, 0x4000), &[(3, 2)]),
        changed(configuration(CFGRD1, 0x0100, 0), &[(1, 0x04)]),
        changed(configuration(CFGRD1, 0x0100, 0), &[(7, 0x1F)]),
        changed(completion(CPLLK, 0x0100), &[(3, 1)]),
        changed(high(), &[(11, 0)]),
        changed(low(), &[(7, 0x1F)]),
        changed(low(), &[(3, 3), (7, 0xF5)]),
        changed(low(), &[(3, 2), (7, 0xF0)]),
        changed(low(), &[(2, 3), (3, 0xFF), (7, 0xFF), (11, 8)]),
        changed(low(), &[(3, 0), (7, 0xFF), (11, 4)]),
        changed(completion(CPL, 0x0100), &[(6, 0x60)]),
        changed(completion(CPLD, 0x0100), &[(6, 0xA0)]),
    ];
    lines.note("damaged headers over P10's sheet");
    lines.board(&board::p10().bytes());
    for header in &headers {
        lines.header(header);
    }
    lines.note("and over a sheet that fails its checks");
    lines.sheet(&sheet(&[Record::end(0x0100), Record::end(0x0100)]));
    for header in headers.iter().step_by(4) {
        lines.header(header);
    }
    lines.header(&low());
    lines.header(&configuration(CFGRD0, 0x0200, 0));
    lines.lookup(0x0100);
    lines.lookup(0x0200);
    lines.command(0x0100, 0x0000);
    lines.note("a refused board leaves the sheet before it");
    lines.board(&board::p10().bytes());
    lines.board(&[1]);
    lines.header(&low());
}

fn damaged_sheets(lines: &mut Lines) {
    let good = || {
        vec![
            Record::bridge(0x0000, 1, 2).low(0xF900, 0xF900).bar(0, 0xFFFF_FF01, 0x4001),
            Record::end(0x0100).bar(0, memory(12), 0xF900_0000).wide(1, 12, 33, 0x6_0000_0000),
        ]
    };
    put(lines, "a good sheet, damaged below", &good(), &[request(MRD, 0xF900_0000)]);
    let bytes = sheet(&good());
    let shortened = |mut bytes: Vec<u8>, at: usize, byte: u8| {
        bytes[at] = byte;
        bytes
    };
    let raw: [(&str, Vec<u8>); 11] = [
        ("20: no byte", vec![]),
        ("20: a stray byte", [&bytes[..], &[0]].concat()),
        ("20: the last byte is missing", bytes[..bytes.len() - 1].to_vec()),
        ("20: record length 89", shortened(bytes.clone(), 2, 89)),
        ("20: record length 91", shortened(bytes.clone(), 94, 91)),
        ("20: record length 90 + 256", shortened(bytes.clone(), 93, 1)),
        ("20: a record of no bytes", [&bytes[..], &[0, 0]].concat()),
        ("20: a record of 89 bytes, whole", [&[1, 0, 89], &bytes[3..92]].concat()),
        ("21: version 0", shortened(bytes.clone(), 0, 0)),
        ("21: version 2 alone", vec![2]),
        ("the version alone", vec![1]),
    ];
    for (why, bytes) in raw {
        lines.note(why);
        lines.sheet(&bytes);
    }
    let change = |index: usize, change: &dyn Fn(Record) -> Record| {
        let mut records = good();
        records[index] = change(records[index].clone());
        records
    };
    let sheets: Vec<(&str, Vec<Record>)> = vec![
        ("24: header type 2", change(1, &|r| r.set(0x0E, 2))),
        ("24: header type FF", change(0, &|r| r.set(0x0E, 0xFF))),
        ("header type 81 is a bridge", change(0, &|r| r.set(0x0E, 0x81))),
        ("27: primary is not the own bus", change(0, &|r| r.set(0x18, 1).set(0x19, 2))),
        ("27: secondary is the own bus", change(0, &|r| r.set(0x19, 0))),
        ("27: subordinate below secondary", change(0, &|r| r.set(0x19, 2).set(0x1A, 1))),
        ("a type 0 function has no bus numbers", change(1, &|r| r.set(0x2C, 9))),
        (
            "28: an ID twice",
            change(1, &|mut r| {
                r.id = 0;
                r
            }),
        ),
        ("25: read-back F0FFF000", change(1, &|r| r.read_back(0, 0xF0FF_F000))),
        ("25: a memory BAR of 64 bytes", change(1, &|r| r.read_back(0, memory(6)))),
        ("25: one of 16 bytes", change(1, &|r| r.read_back(0, memory(4)))),
        ("one of 128 bytes", change(1, &|r| r.read_back(0, memory(7)))),
        ("25: a 64-bit BAR of 64 bytes", change(1, &|r| r.wide(1, 12, 6, 0x6_0000_0000))),
        ("25: one that is not prefetchable", change(1, &|r| r.wide(1, 4, 6, 0x6_0000_0000))),
        ("one of 128 bytes", change(1, &|r| r.wide(1, 12, 7, 0x6_0000_0000))),
        ("25: a bridge's memory BAR of 64 bytes", change(0, &|r| r.bar(1, memory(6), 0xF900_0040))),
        ("one of 128 bytes", change(0, &|r| r.bar(1, memory(7), 0xF900_0080))),
        ("an I/O BAR of 4 bytes", change(0, &|r| r.read_back(0, 0xFFFF_FFFD))),
        ("25: a value off its size", change(1, &|r| r.value(0, 0xF900_0800))),
        ("25: a value without its type bits", change(1, &|r| r.value(1, 0))),
        ("25: a value with type bits that it lacks", change(1, &|r| r.value(0, 0xF900_0008))),
        ("25: an upper half off its size", change(1, &|r| r.value(2, 7))),
        ("25: a nonzero value in an unused slot", change(1, &|r| r.value(4, 0x10))),
        ("25: a nonzero value in a bridge's unused slot", change(0, &|r| r.value(1, 1))),
        ("25: an I/O BAR above FFFFh", change(0, &|r| r.value(0, 0x1_4001))),
        ("25: an I/O BAR of type memory", change(0, &|r| r.value(0, 0x4000))),
        ("25: an I/O BAR with bit 1", change(0, &|r| r.value(0, 0x4003))),
        ("25: an I/O read-back that is neither", change(0, &|r| r.read_back(0, 0x00FF_FF01))),
        ("25: a bridge's third read-back", change(0, &|r| r.read_back(2, memory(12)))),
        ("25: a bridge's last read-back", change(0, &|r| r.read_back(5, 1))),
        ("25: a 64-bit BAR in a bridge's slot 1", change(0, &|r| r.bar(1, wide(12)[0], 4))),
        ("25: a 64-bit BAR in slot 5", change(1, &|r| r.bar(5, wide(12)[0], 4))),
        ("29: I/O base", change(0, &|r| r.io(0xF1, 0))),
        ("29: I/O limit", change(0, &|r| r.io(0xF0, 0x01))),
        ("29: low base", change(0, &|r| r.low(0xF901, 0xF900))),
        ("29: low limit", change(0, &|r| r.low(0xF900, 0xF908))),
        ("29: high base", change(0, &|r| r.high(0xFFF0, 0x0001, 0, 0))),
        ("29: high limit", change(0, &|r| r.high(0xFFF1, 0x0003, 0, 0))),
    ];
    for (why, records) in sheets {
        put(lines, why, &records, &[]);
    }
    lines.header(&request(MRD, 0xF900_0000));
    lines.lookup(0x0000);
    lines.command(0x0000, 0);
}

/// Sheets with two faults, whose numbers show the order of the checks.
fn two_faults(lines: &mut Lines) {
    type Damage = fn(&mut Vec<Record>);
    let good = vec![
        Record::end(0x0008).bar(0, memory(12), 0xF900_0000),
        Record::bridge(0x0000, 1, 2),
        Record::bridge(0x0010, 3, 3),
        Record::end(0x0018),
    ];
    let faults: [(u8, Damage); 6] = [
        (20, |records| records[3].length = 91),
        (24, |records| records[3].registers[0x0E] = 2),
        (27, |records| records[2].registers[0x19] = 0),
        (28, |records| records[0].id = 0x0000),
        (25, |records| records[0].registers[0x10] = 1),
        (29, |records| records[1].registers[0x1C] = 0xF2),
    ];
    let mut bytes = sheet(&good);
    bytes[0] = 2;
    bytes.push(0);
    lines.note("21 before 20");
    lines.sheet(&bytes);
    for (i, (first, damage)) in faults.iter().enumerate() {
        for (second, other) in &faults[i + 1..] {
            let mut records = good.clone();
            other(&mut records);
            damage(&mut records);
            lines.note(&format!("{first} before {second}"));
            lines.sheet(&sheet(&records));
        }
    }
}

/// A full sheet, and one record more.
fn full_sheets(lines: &mut Lines) {
    let mut board = Board { io: (0, 0xFFFF), ..Board::new() };
    for device in 0..32 {
        let bridge = board.bridge(0, device << 3);
        for end in 0..15 {
            board.end(bridge, end << 3, &[memory(12), if device % 2 == 0 { board::io(4) } else { 0 }]);
        }
    }
    lines.note("a full sheet");
    lines.board(&board.bytes());
    for header in [
        request(MRD, 0x8000_0000),
        request(MRD, 0x81F0_EFFC),
        request(MRD, 0x81F0_F000),
        request(IORD, 0xF0EC),
        request(IORD, 0xF0F0),
        configuration(CFGRD1, 0x2070, 0),
        completion(CPL, 0x2070),
        message(MSG, 0b001, 0x50, 0x81F0_EFFC),
        message(MSGD, 0b010, 0x7E, 0x2070 << 48),
        message(MSG, 0b011, 0x19, 0),
        message(MSGD, 0b011, 0x7F, 0),
        message(MSG, 0b100, 0x20, 0),
        message(MSG, 0b000, 0x18, 0),
    ] {
        lines.header(&header);
    }
    for id in [0x0000, 0x0170, 0x2070, 0x2078] {
        lines.lookup(id);
    }
    lines.command(0x2070, 0);
    lines.header(&request(MRD, 0x81F0_EFFC));
    let mut records: Vec<Record> = (0..513).map(Record::end).collect();
    records[200].registers[0x0E] = 5;
    records[512].id = 0;
    put(lines, "22 before 24 and 28", &records, &[request(MRD, 0), message(MSG, 0b011, 0x19, 0)]);
}
