//! Runs of the program `annotate`: what each reads.

use crate::routing::{bridge_and_end, changed};
use crate::tags;
use inputs::board::{self, Board};
use inputs::foreign::*;
use inputs::trace::{self, input};

/// A run's name, and its whole standard input.
pub type Run = (&'static str, Vec<u8>);

pub fn runs() -> Vec<Run> {
    [headers(), records(), sheets(), ends()].concat()
}

pub fn planned(board: &Board) -> Vec<u8> {
    let mut room = vec![0; plain::FULL_SHEET];
    let length = plain::plan(&board.bytes(), &mut room).unwrap_or_else(|number| panic!("refused {number}"));
    room.truncate(length);
    room
}

pub fn p10() -> Vec<u8> {
    planned(&board::p10())
}

/// Over P10's sheet: owner 2, no owner, a refused header, every function, and the port.
pub fn examples() -> Vec<Vec<u8>> {
    vec![
        request(MRD, 0xF900_0FFC),
        request(IOWR, 0x4100),
        request(MRD, 0xF900_0FFD),
        message(MSG, 0b011, 0x19, 0),
        message(MSG, 0b100, 0x20, 0),
    ]
}

fn headers() -> Vec<Run> {
    let [bridge, end] = bridge_and_end();
    let windows_overlap = [bridge, end, Record::bridge(0x0008, 2, 2).low(0xF9F0, 0xFA00)];
    vec![
        ("p10", input(&p10(), &trace::of(&examples()))),
        ("kinds", input(&p10(), &trace::of(&kinds()))),
        ("ten-bit-tags", input(&p10(), &trace::of(&ten_bit_tags()))),
        ("refused-headers", input(&p10(), &trace::of(&refused_headers()))),
        ("refused-routes", input(&sheet(&windows_overlap), &trace::of(&refused_routes()))),
    ]
}

/// Every kind. Configuration requests of type 1 arrive as type 0, and are named as they were read.
pub fn kinds() -> [Vec<u8>; 15] {
    [
        request(MRD, 0xF900_0000),
        changed(request(MRD, 0xF900_0000), &[(0, 0x01)]),
        request(MWR, 0x2_4000_0000),
        request(IORD, 0x4000),
        request(IOWR, 0x40FC),
        configuration(CFGRD0, 0x0000, 0),
        configuration(CFGWR0, 0x0000, 1),
        configuration(CFGRD1, 0x0100, 0),
        configuration(CFGWR1, 0x0100, 1),
        completion(CPL, 0x0000),
        completion(CPLD, 0x0100),
        completion(CPLLK, 0x0100),
        completion(CPLDLK, 0x0000),
        message(MSG, 0b010, 0x7E, 0x0100 << 48),
        message(MSGD, 0b001, 0x50, 0xF900_0000),
    ]
}

/// Every kind whose tag has ten bits, with 1,023; those whose tag has eight, with 255, 256 and 512.
fn ten_bit_tags() -> Vec<Vec<u8>> {
    let long = tags::with_ten_bits().map(|header| tagged(header, 1023));
    let short = tags::with_eight_bits().map(|header| [255, 256, 512].map(|tag| tagged(header.clone(), tag)));
    [&long[..], short.as_flattened()].concat()
}

/// In the order of their numbers, 1 to 9.
pub fn refused_headers() -> [Vec<u8>; 9] {
    let read = request(MRD, 0xF900_0000);
    [
        read[..11].to_vec(),
        changed(read.clone(), &[(0, 0xFF)]),
        changed(read.clone(), &[(0, 0x80)]),
        changed(read.clone(), &[(1, 0x01)]),
        changed(request(IORD, 0x4000), &[(1, 0x10)]),
        changed(request(MRD, 1 << 32), &[(11, 0)]),
        changed(read.clone(), &[(3, 2), (7, 0x5A), (11, 4)]),
        changed(read, &[(3, 2), (7, 0xFF), (10, 0x0F), (11, 0xFC)]),
        changed(completion(CPLD, 0x0100), &[(6, 0x60)]),
    ]
}

/// 40, 41, 42 and 43, each in more than one way; then one that is delivered.
pub fn refused_routes() -> [Vec<u8>; 10] {
    [
        request(MRD, 0xF8FF_FFFC),
        request(IORD, 0x1000),
        completion(CPL, 0x0300),
        request(MWR, 0xF9F0_0000),
        message(MSG, 0b001, 0x50, 0xF9F0_0000),
        configuration(CFGRD0, 0x0100, 0),
        configuration(CFGRD1, 0x0000, 0),
        message(MSG, 0b000, 0x18, 0),
        message(MSGD, 0b101, 0x1B, 0),
        request(MRD, 0xF900_0000),
    ]
}

fn records() -> Vec<Run> {
    // Numbers of one digit to four. The lines are longer than their records: 84 KB from 16.
    let header = request(MRD, 0xF900_0000);
    let many: Vec<Vec<u8>> = (1..=5000).map(|number| if number % 10 == 0 { header.clone() } else { vec![] }).collect();
    vec![
        ("record-lengths", input(&p10(), &trace::of(&lengths()))),
        ("record-numbers", input(&p10(), &trace::of(&many))),
    ]
}

/// Headers of three dwords and of four in records from no bytes up to the longest.
pub fn lengths() -> Vec<Vec<u8>> {
    let (three, four) = (request(MRD, 0xF900_0000), request(MWR, 0x2_4000_0000));
    let mut lengths = Vec::new();
    for length in [0, 1, 11, 12, 13, 15, 16, 17, 40, 255, 256, 300] {
        for mut header in [three.clone(), four.clone()] {
            header.resize(length, 0xFF);
            lengths.push(header);
        }
    }
    lengths.push([&four[..], &[0xFF; 65_519]].concat());
    lengths
}

fn sheets() -> Vec<Run> {
    let examples = trace::of(&examples());
    let in_full = [
        request(MRD, 0x8000_0000),
        request(MRD, 0x801F_FFFC),
        request(MRD, 0x8020_0000),
        completion(CPLD, 0x01FF),
        message(MSG, 0b011, 0x19, 0),
    ];
    let full = input(&planned(&board::full(&[board::memory(12)])), &trace::of(&in_full));
    let long = vec![1; plain::FULL_SHEET + 1];
    let over: Vec<Record> = (0..513).map(Record::end).collect();
    vec![
        ("tree-001", tree_001()),
        ("full-sheet", full),
        ("no-functions", input(&[1], &examples)),
        ("bad-sheet", input(&sheet(&[Record::bridge(0x0000, 0, 0)]), &examples)),
        ("sheet-of-no-bytes", input(&[], &examples)),
        ("sheet-cut-refused-20", input(&p10(), &[])[..100].to_vec()),
        ("long-sheet-refused-22", input(&long, &examples)),
        ("513-functions-refused-22", input(&sheet(&over), &examples)),
        // At once: nothing follows the length.
        ("length-alone-refused-22", vec![0xFF, 0xFF]),
    ]
}

fn tree_001() -> Vec<u8> {
    let tree = planned(&board::document_001());
    input(&tree, &trace::of(&each_function(&tree)))
}

/// Each function of a sheet with root bus 0 by its ID, then all of them.
pub fn each_function(sheet: &[u8]) -> Vec<Vec<u8>> {
    let ids = sheet[1..].chunks_exact(92).map(|record| u16::from_be_bytes([record[2], record[3]]));
    let mut headers: Vec<Vec<u8>> =
        ids.map(|id| configuration(if id < 0x0100 { CFGRD0 } else { CFGRD1 }, id, 0)).collect();
    headers.push(message(MSG, 0b011, 0x19, 0));
    headers
}

fn ends() -> Vec<Run> {
    let trace = trace::of(&examples());
    let other = [&[2], &trace[1..]].concat();
    vec![
        ("no-input-refused-20", vec![]),
        ("one-byte-refused-20", vec![0]),
        ("no-trace-refused-20", input(&p10(), &[])),
        ("version-refused-21", input(&p10(), &other)),
        ("no-records", input(&p10(), &[1])),
        // After two whole records: one byte of a length, and a header short of its last byte.
        ("cut-length", input(&p10(), &trace[..30])),
        ("cut-header", input(&p10(), &trace[..42])),
    ]
}
