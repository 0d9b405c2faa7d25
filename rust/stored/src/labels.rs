//! Runs of the program `label`: what each reads.

use std::fs;

use crate::audits::{self, bridge_and_end, in_a_row};
use crate::routing::changed;
use crate::traces::{each_function, examples, kinds, lengths, p10, planned, refused_headers, refused_routes, Run};
use inputs::board;
use inputs::foreign::*;
use inputs::random::Random;
use inputs::{aim, labels, trace};

/// Runs over the sheets of tests/audit that real firmware left, named with the number where the audit refuses one.
const CAPTURES: [&str; 7] = [
    "ovmf-one-bridge",
    "ovmf-overlap-refused-52",
    "seabios-deep-16-refused-51",
    "seabios-flat-refused-25",
    "seabios-one-bridge-refused-51",
    "seabios-seed1",
    "seabios-seed2",
];

/// Runs of `audit` whose sheets are refused here as well, before a trace that could be labelled.
const REFUSED: [&str; 11] = [
    "refused-21",
    "refused-24",
    "refused-25",
    "refused-25-64-bytes",
    "refused-27",
    "refused-28",
    "refused-29",
    "refused-50-first",
    "refused-51-first",
    "refused-51-low-bar-high",
    "refused-52-bars",
];

pub fn runs() -> Vec<Run> {
    [headers(), sheets(), captures(), refused_sheets(), opening(), ends()].concat()
}

/// What the program reads: a host record, a sheet after its length, then a trace.
fn input(host: &[u8], sheet: &[u8], trace: &[u8]) -> Vec<u8> {
    [host, &trace::input(sheet, trace)].concat()
}

/// Over P10's sheet, for its host.
fn over_p10(trace: &[u8]) -> Vec<u8> {
    input(&board::p10().host(), &p10(), trace)
}

fn headers() -> Vec<Run> {
    vec![
        ("p10", over_p10(&trace::of(&examples()))),
        ("kinds", over_p10(&trace::of(&kinds()))),
        ("refused-headers", over_p10(&trace::of(&refused_headers()))),
        ("refused-routes", over_p10(&trace::of(&refused_routes()))),
        ("record-lengths", over_p10(&trace::of(&lengths()))),
    ]
}

fn sheets() -> Vec<Run> {
    let p10 = board::p10().host();
    let tree = board::document_001();
    let over_tree = planned(&tree);
    let row = sheet(&in_a_row());
    let mut down_the_row = each_function(&row);
    down_the_row.extend([request(MRD, 0xF90F_FFFC), request(IOWR, 0x4FFC), request(MWR, 0xF910_0000)]);
    let [bridge, end] = bridge_and_end();
    vec![
        ("tree-001", input(&tree.host(), &over_tree, &trace::of(&each_function(&over_tree)))),
        ("full-sheet", full()),
        ("bridges-in-a-row", input(&p10, &row, &trace::of(&down_the_row))),
        ("bridge-without-memory", input(&p10, &sheet(&[bridge.command(1), end]), &trace::of(&kinds()))),
        ("no-functions", input(&p10, &[1], &trace::of(&examples()))),
    ]
}

/// 512 functions, 32 bridges deep, and headers for those at every depth; then all of them, and the port.
fn full() -> Vec<u8> {
    let board = labels::board(512, 32);
    let sheet = planned(&board);
    let mut headers: Vec<Vec<u8>> = labels::headers(&sheet, 2000).iter().map(|header| header.to_vec()).collect();
    headers.extend([message(MSG, 0b011, 0x19, 0), message(MSG, 0b100, 0x20, 0)]);
    input(&board.host(), &sheet, &trace::of(&headers))
}

/// Headers for what the registers of each sheet name, and for what lies next to it.
fn captures() -> Vec<Run> {
    let run = |name: &'static str| {
        let capture = name.split("-refused").next().unwrap_or(name);
        let [host, sheet] = ["host", "sheet"].map(|extension| {
            let path = format!("{}/../../tests/audit/{capture}.{extension}", env!("CARGO_MANIFEST_DIR"));
            fs::read(&path).unwrap_or_else(|error| panic!("{path}: {error}"))
        });
        let mut random = Random::new(1);
        let headers: Vec<Vec<u8>> = (0..100).map(|_| aim::header(&sheet, &mut random)).collect();
        (name, input(&host, &sheet, &trace::of(&headers)))
    };
    CAPTURES.map(run).to_vec()
}

fn refused_sheets() -> Vec<Run> {
    let trace = trace::of(&examples());
    let mut runs = audits::runs();
    runs.retain(|(name, _)| REFUSED.contains(name));
    runs.into_iter().map(|(name, read)| (name, input(&read[..30], &read[30..], &trace))).collect()
}

/// What comes before a sheet's own checks.
fn opening() -> Vec<Run> {
    let whole = over_p10(&trace::of(&examples()));
    // The first bus above the last, and no edge of the low pool.
    let (buses, edge) = ([(0, 1), (1, 0)], [(5, 1)]);
    // One byte more than a full sheet's, and as many.
    let (over, full) = ([(30, 0xB8), (31, 0x02)], [(30, 0xB8), (31, 0x01)]);
    vec![
        ("no-input-refused-20", vec![]),
        ("short-host-refused-20", whole[..29].to_vec()),
        ("short-host-unlawful-refused-20", changed(whole[..29].to_vec(), &buses)),
        ("host-alone-refused-20", whole[..30].to_vec()),
        ("host-alone-refused-26", changed(whole[..30].to_vec(), &buses)),
        ("host-buses-refused-26", changed(whole.clone(), &buses)),
        ("host-edge-refused-26", changed(whole.clone(), &edge)),
        ("host-and-length-refused-26", changed(changed(whole.clone(), &buses), &over)),
        ("length-cut-refused-20", whole[..31].to_vec()),
        ("length-refused-22", changed(whole.clone(), &over)),
        ("length-alone-refused-22", changed(whole[..32].to_vec(), &over)),
        ("length-of-a-full-sheet-refused-20", changed(whole.clone(), &full)),
        ("sheet-cut-refused-20", whole[..100].to_vec()),
        // The trace's version byte is taken for the sheet's last.
        ("sheet-longer-refused-20", changed(whole.clone(), &[(31, whole[31] + 1)])),
        ("sheet-of-no-bytes-refused-20", input(&whole[..30], &[], &trace::of(&examples()))),
    ]
}

fn ends() -> Vec<Run> {
    let trace = trace::of(&examples());
    let other = [&[2], &trace[1..]].concat();
    let stray = sheet(&[Record::end(0x0100)]);
    vec![
        ("no-trace-refused-20", over_p10(&[])),
        ("version-refused-21", over_p10(&other)),
        // The sheet's number comes before the trace is looked at.
        ("no-trace-refused-50", input(&board::p10().host(), &stray, &[])),
        ("version-refused-50", input(&board::p10().host(), &stray, &other)),
        ("no-records", over_p10(&[1])),
        // After two whole records: one byte of a length, and a header short of its last byte.
        ("cut-length", over_p10(&trace[..30])),
        ("cut-header", over_p10(&trace[..42])),
    ]
}
