//! Runs of the program `audit`: what each reads.

use crate::routing::changed;
use crate::traces::{planned, Run};
use inputs::board::{self, io, memory, Board};
use inputs::foreign::*;

/// The sheets that real firmware left: tests/audit has NAME.host and NAME.sheet of each, which are read one after the
/// other.
pub const CAPTURES: [&str; 7] = [
    "ovmf-one-bridge",
    "ovmf-overlap",
    "seabios-deep-16",
    "seabios-flat",
    "seabios-one-bridge",
    "seabios-seed1",
    "seabios-seed2",
];

pub fn runs() -> Vec<Run> {
    [accepted(), refused_by_the_sheet(), refused_50(), refused_51(), refused_52(), ends(), long()].concat()
}

/// What the program reads: the host record of a board, then a sheet.
fn input(board: &Board, sheet: &[u8]) -> Vec<u8> {
    [&board.host(), sheet].concat()
}

fn of(records: &[Record]) -> Vec<u8> {
    input(&board::p10(), &sheet(records))
}

/// P10's bridge with one bus number more, and its function.
pub fn bridge_and_end() -> [Record; 2] {
    [
        Record::bridge(0x0000, 1, 2).low(0xF900, 0xF900).high(0x4001, 0x43F1, 2, 2).io(0x40, 0x40),
        Record::end(0x0100).bar(0, memory(12), 0xF900_0000).wide(1, 12, 26, 0x2_4000_0000).bar(3, io(8), 0x4001),
    ]
}

/// The two, and more.
fn and(more: &[Record]) -> Vec<u8> {
    of(&[&bridge_and_end(), more].concat())
}

/// The two, changed.
fn with(change: impl Fn([Record; 2]) -> [Record; 2]) -> Vec<u8> {
    of(&change(bridge_and_end()))
}

/// 512 functions: a page each, 255 and a bridge on the root bus, 256 below the bridge.
fn full() -> Vec<Record> {
    let page = |id: u16| Record::end(id).bar(0, memory(12), 0xF900_0000 + (u32::from(id) << 12));
    let mut records: Vec<Record> = (0..512).map(page).collect();
    records[255] = Record::bridge(0x00FF, 1, 1).low(0xF910, 0xF910);
    records
}

/// 255 bridges, and below the last one a function.
pub fn in_a_row() -> Vec<Record> {
    let bridge = |bus: u8| Record::bridge(u16::from(bus) << 8, bus + 1, 255).low(0xF900, 0xF900).io(0x40, 0x40);
    let mut records: Vec<Record> = (0..255).map(bridge).collect();
    records.push(Record::end(0xFF00).bar(0, memory(20), 0xF900_0000).bar(1, io(12), 0x4001));
    records
}

fn accepted() -> Vec<Run> {
    let tree = board::document_001();
    let bare = [Record::bridge(0x0000, 1, 3), Record::bridge(0x0100, 2, 2), Record::end(0x0200)];
    let spellings = [
        Record::bridge(0x0000, 1, 1).low(0xF910, 0xF900).high(0x4011, 0x4001, 2, 2).io(0x50, 0x40),
        Record::bridge(0x0008, 2, 2).low(0x0010, 0x0000).high(0x0001, 0xFFF1, 1, 0).io(0x10, 0x00),
    ];
    // In P10's pools, side by side.
    let least = of(&[Record::end(0x0000)
        .bar(0, memory(7), 0xF900_0000)
        .bar(1, memory(7), 0xF900_0080)
        .wide(2, 12, 7, 0x2_4000_0000)
        .wide(4, 4, 7, 0xF900_0100)]);
    let disabled = with(|records| records.map(|record| record.command(0)));
    vec![
        ("p10", input(&board::p10(), &planned(&board::p10()))),
        ("tree-001", input(&tree, &planned(&tree))),
        ("no-functions", of(&[])),
        ("pools-closed", input(&Board::closed(), &sheet(&bare))),
        ("full-sheet", of(&full())),
        ("bridges-in-a-row", of(&in_a_row())),
        ("windows-closed", of(&spellings)),
        ("disabled", disabled),
        ("128-byte-bars", least),
    ]
}

/// 21 to 29 of a sheet, over one that is also 50.
fn refused_by_the_sheet() -> Vec<Run> {
    let stray = Record::end(0x0200);
    let also = |record: Record| and(&[stray.clone(), record]);
    let mut too_many = full();
    too_many.push(stray.clone());
    vec![
        ("refused-21", changed(and(std::slice::from_ref(&stray)), &[(30, 2)])),
        ("refused-22", of(&too_many)),
        ("refused-24", also(Record::end(0x0008).set(0x0E, 2))),
        ("refused-25", also(Record::end(0x0008).value(0, 1))),
        ("refused-25-64-bytes", also(Record::end(0x0008).bar(0, memory(6), 0xF910_0000))),
        ("refused-27", also(Record::bridge(0x0008, 0, 0))),
        ("refused-28", also(Record::end(0x0100))),
        ("refused-29", also(Record::bridge(0x0008, 3, 3).io(0xF1, 0x00))),
    ]
}

fn refused_50() -> Vec<Run> {
    let host = Board { buses: (0, 1), ..board::p10() };
    vec![
        ("refused-50-first-record", with(|[bridge, end]| [end, bridge])),
        ("refused-50-no-bridge", and(&[Record::end(0x0200)])),
        ("refused-50-two-bridges", and(&[Record::bridge(0x0008, 1, 1)])),
        ("refused-50-parent", and(&[Record::bridge(0x0108, 2, 3)])),
        ("refused-50-host", input(&host, &sheet(&bridge_and_end()))),
        ("refused-50-siblings", and(&[Record::bridge(0x0008, 2, 3)])),
        // A BAR in no pool, and two on one another.
        (
            "refused-50-first",
            and(&[
                Record::end(0x0008).bar(0, memory(20), 0xFA00_0000).bar(1, memory(20), 0xFA00_0000),
                Record::end(0x0300),
            ]),
        ),
    ]
}

fn refused_51() -> Vec<Run> {
    vec![
        ("refused-51-bar", with(|[bridge, end]| [bridge, end.value(0, 0xF910_0000)])),
        ("refused-51-window", and(&[Record::bridge(0x0108, 2, 2).low(0xF900, 0xF910)])),
        ("refused-51-pool", and(&[Record::end(0x0008).bar(0, memory(20), 0xFA00_0000)])),
        ("refused-51-low-bar-high", and(&[Record::end(0x0008).wide(0, 4, 20, 0x2_5000_0000)])),
        ("refused-51-high-bar-low", and(&[Record::end(0x0008).wide(0, 12, 20, 0xF910_0000)])),
        ("refused-51-high-window-low", and(&[Record::bridge(0x0008, 3, 3).high(0xF911, 0xF911, 0, 0)])),
        ("refused-51-window-closed", with(|[bridge, end]| [bridge.io(0xF0, 0x00), end])),
        // Registers of zeros are no closed window: it is open at 0.
        ("refused-51-window-zeros", and(&[Record::bridge(0x0008, 3, 3).low(0, 0)])),
        ("refused-51-pool-closed", input(&Board { io: (0x4000, 0x3FFF), ..board::p10() }, &sheet(&bridge_and_end()))),
        // Two BARs on one another before it.
        (
            "refused-51-first",
            and(&[
                Record::end(0x0008).bar(0, memory(12), 0xF910_0000).bar(1, memory(12), 0xF910_0000),
                Record::end(0x0010).bar(0, memory(12), 0xFA00_0000),
            ]),
        ),
    ]
}

fn refused_52() -> Vec<Run> {
    let twin = |id, command| Record::end(id).bar(0, memory(12), 0xF910_0000).command(command);
    vec![
        ("refused-52-bars", and(&[twin(0x0008, 3), twin(0x0009, 3)])),
        ("refused-52-disabled", and(&[twin(0x0008, 0), twin(0x0009, 0)])),
        ("refused-52-bar-and-window", and(&[Record::end(0x0008).bar(0, io(2), 0x4FFD)])),
        ("refused-52-windows", and(&[Record::bridge(0x0008, 3, 3).low(0xF900, 0xF910)])),
        ("refused-52-own-window", with(|[bridge, end]| [bridge.bar(0, memory(12), 0xF90F_F000), end])),
    ]
}

fn ends() -> Vec<Run> {
    let p10 = input(&board::p10(), &planned(&board::p10()));
    // The first bus above the last, and no edge of the low pool.
    let (buses, edge) = ([(0, 1), (1, 0)], [(5, 1)]);
    vec![
        ("no-input-refused-20", vec![]),
        ("one-byte-refused-20", p10[..1].to_vec()),
        ("short-host-refused-20", p10[..29].to_vec()),
        ("short-host-unlawful-refused-20", changed(p10[..29].to_vec(), &buses)),
        ("host-alone-refused-20", p10[..30].to_vec()),
        ("host-alone-refused-26", changed(p10[..30].to_vec(), &buses)),
        ("host-buses-refused-26", changed(p10.clone(), &buses)),
        ("host-edge-refused-26", changed(p10.clone(), &edge)),
        ("host-and-version-refused-26", changed(p10.clone(), &[(0, 1), (1, 0), (30, 2)])),
        ("sheet-cut-refused-20", p10[..p10.len() - 1].to_vec()),
        ("sheet-longer-refused-20", [&p10[..], &[0]].concat()),
    ]
}

/// More than a full sheet.
fn long() -> Vec<Run> {
    let over = of(&[full(), vec![Record::end(0x0200)]].concat());
    // Past 64 KiB.
    let far = of(&vec![Record::end(0); 720]);
    let last_length = far.len() - 91;
    vec![
        ("long-refused-20", [&of(&full())[..], &[0]].concat()),
        ("long-refused-21", changed(over.clone(), &[(30, 0)])),
        ("long-refused-26", changed(over, &[(1, 0), (0, 1)])),
        ("longer-refused-20", changed(far.clone(), &[(last_length, 91)])),
        ("longer-refused-22", far),
    ]
}
