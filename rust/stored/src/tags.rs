//! The router's lines for tags of ten bits: delivered as they are, and refused where a tag has eight.

use crate::lines::Lines;
use crate::routing::{bridge_and_end, changed, put};
use inputs::board::{self, Board};
use inputs::foreign::*;

pub fn groups(lines: &mut Lines) {
    every_kind(lines);
    edges(lines);
    eight_bits(lines);
    refused(lines);
    deep(lines);
}

/// A request or completion of every kind whose tag has ten bits, each with an owner on P10's sheet.
pub fn with_ten_bits() -> [Vec<u8>; 14] {
    let locked = |address| {
        let read = request(MRD, address);
        let byte0 = read[0] | 1;
        changed(read, &[(0, byte0)])
    };
    [
        request(MRD, 0xF900_0000),
        request(MRD, 0x2_4000_0000),
        locked(0xF900_0FFC),
        locked(0x2_43FF_FFFC),
        request(IORD, 0x4000),
        request(IOWR, 0x40FC),
        configuration(CFGRD0, 0x0000, 0),
        configuration(CFGWR0, 0x0000, 1),
        configuration(CFGRD1, 0x0100, 0),
        configuration(CFGWR1, 0x0100, 1),
        completion(CPL, 0x0000),
        completion(CPLD, 0x0100),
        completion(CPLLK, 0x0100),
        completion(CPLDLK, 0x0000),
    ]
}

/// A memory write of each form, and a message of every routing: the tag has eight bits.
pub fn with_eight_bits() -> [Vec<u8>; 8] {
    [
        request(MWR, 0xF900_0000),
        request(MWR, 0x2_4000_0000),
        message(MSG, 0b000, 0x18, 0),
        message(MSGD, 0b001, 0x50, 0xF900_0000),
        message(MSG, 0b010, 0x7E, 0x0100 << 48),
        message(MSGD, 0b011, 0x19, 0),
        message(MSG, 0b100, 0x20, 0),
        message(MSGD, 0b101, 0x1B, 0),
    ]
}

fn every_kind(lines: &mut Lines) {
    lines.note("tags of ten bits: P10, every kind that has them");
    lines.board(&board::p10().bytes());
    for header in with_ten_bits() {
        lines.header(&tagged(header, 0x321));
    }
}

fn edges(lines: &mut Lines) {
    lines.note("0, 255, 256, 511, 512, 767, 768 and 1,023: a read, a configuration read of type 1, a completion");
    for header in [request(MRD, 0xF900_0000), configuration(CFGRD1, 0x0100, 0), completion(CPLD, 0x0100)] {
        for tag in [0, 255, 256, 511, 512, 767, 768, 1023] {
            lines.header(&tagged(header.clone(), tag));
        }
    }
    lines.note("beside TC, Attr2 and other fields");
    lines.header(&[0x01, 0xFC, 0xF8, 0x02, 0xBE, 0xEF, 0xFF, 0x5A, 0xF9, 0x00, 0x0F, 0xF8]);
    lines.header(&[0x4A, 0xFC, 0xF3, 0xFF, 0xFE, 0xDC, 0x9F, 0xFF, 0x01, 0x00, 0xFF, 0x7F]);
}

fn eight_bits(lines: &mut Lines) {
    lines.note("memory writes and messages have no bits 8 and 9 (4); 255 is lawful");
    for header in with_eight_bits() {
        for tag in [255, 256, 512] {
            lines.header(&tagged(header.clone(), tag));
        }
    }
}

fn refused(lines: &mut Lines) {
    lines.note("tags of ten bits: no owner, the wrong type, and wrong in another way");
    for header in [
        request(MRD, 0xF900_1000),
        request(IOWR, 0x4100),
        configuration(CFGRD0, 0x0100, 0),
        configuration(CFGWR1, 0x0000, 0),
        configuration(CFGRD1, 0x0101, 0),
        completion(CPLD, 0x0200),
        request(MRD, 0xF900_0001),
        changed(request(IORD, 0x4000), &[(3, 2)]),
        changed(request(MRD, 1 << 32), &[(11, 0)]),
        changed(request(MRD, 0xF900_0000), &[(7, 0x1F)]),
        changed(request(MRD, 0xF900_0FFC), &[(3, 2), (7, 0xFF)]),
        changed(completion(CPL, 0x0100), &[(6, 0x60)]),
    ] {
        lines.header(&tagged(header, 0x3A5));
    }
    for header in [request(MRD, 0xF900_0000), request(MWR, 0xF900_0000)] {
        for byte1 in [0x8A, 0x89] {
            lines.header(&changed(header.clone(), &[(1, byte1)]));
        }
    }
    let [bridge, end] = bridge_and_end();
    let headers =
        [request(MRD, 0xF9F0_0000), request(MRD, 0xF900_0000), request(MWR, 0xF9F0_0000), completion(CPL, 0x0008)];
    put(
        lines,
        "tags of ten bits: two windows over one address: 41, but 4 for a write",
        &[bridge, end, Record::bridge(0x0008, 2, 2).low(0xF9F0, 0xFA00)],
        &headers.map(|header| tagged(header, 0x2C3)),
    );
    for (why, sheet) in [
        ("over a sheet that fails its checks", sheet(&[Record::end(0x0100), Record::end(0x0100)])),
        ("over a sheet with no functions", vec![1]),
    ] {
        lines.note(why);
        lines.sheet(&sheet);
        lines.header(&tagged(request(MRD, 0xF900_0000), 0x100));
        lines.header(&tagged(configuration(CFGRD0, 0x0200, 0), 0x200));
        lines.header(&tagged(request(MWR, 0xF900_0000), 0x100));
        lines.header(&tagged(message(MSG, 0b011, 0x19, 0), 0x200));
    }
}

fn deep(lines: &mut Lines) {
    let mut board = Board::new();
    let last = board.chain(0, 0, 32);
    board.end(last, 0x18, &[board::memory(12), board::io(8)]);
    lines.note("tags of ten bits: 32 bridges");
    lines.board(&board.bytes());
    for header in [
        request(MRD, 0x8000_0FFC),
        request(IORD, 0x10FC),
        configuration(CFGRD1, 0x2018, 0),
        configuration(CFGWR1, 0x1F00, 0),
        completion(CPLDLK, 0x2018),
        request(MWR, 0x8000_0FFC),
    ] {
        lines.header(&tagged(header, 0x35A));
    }
}
