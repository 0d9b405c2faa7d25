//! Files and streams: a long trace by any number of jobs, text and bytes both ways, what fails, and what ends early.

mod run;

use inputs::{labels, trace};
use run::{command, folder, repository, run};
use std::fs::{self, File};
use std::io::{BufRead, BufReader, Write};

/// Some millions of bytes, so that there are several batches: by any number of jobs the lines of one, which are those that
/// the library gives.
#[test]
fn a_long_trace_by_jobs() {
    let folder = folder("jobs");
    let board = labels::board(64, 8).bytes();
    let mut sheet = vec![0; cartsundial::FULL_SHEET];
    let length = cartsundial::plan(&board, &mut sheet).unwrap();
    let trace = trace::of(&labels::headers(&sheet[..length], 350_000));
    // The last record is cut.
    let trace = &trace[..trace.len() - 1];
    assert!(trace.len() > 4 << 20);
    let files = [folder.join("board"), folder.join("trace")];
    fs::write(&files[0], &board).unwrap();
    fs::write(&files[1], trace).unwrap();
    let [board, file] = [0, 1].map(|at: usize| files[at].to_str().unwrap());
    let mut expected = Vec::new();
    for line in cartsundial::lines(&sheet[..length], trace) {
        writeln!(expected, "{line}").unwrap();
    }
    for jobs in ["1", "2", "4", "7"] {
        let ran = run(&["label", board, file, "--jobs", jobs], b"");
        assert!(ran.out == expected, "{jobs}");
        assert_eq!(ran.status, 1);
    }
    let named = |jobs| run(&["label", board, file, "--names", "--summary", "--jobs", jobs], b"");
    let (one, four) = (named("1"), named("4"));
    assert!(one.out == four.out && one.error == four.error && one.error.starts_with("349999 headers: "));
    assert_eq!(one.out.split(|byte| *byte == b'\n').count(), expected.split(|byte| *byte == b'\n').count());
}

/// From bytes to text and back, and a board's text with its names.
#[test]
fn both_ways() {
    let folder = folder("both-ways");
    let text = folder.join("text");
    let text = text.to_str().unwrap();
    for file in ["docs/example/board", "docs/example/trace", "tests/audit/ovmf-overlap.sheet", "tests/script/p10.out"] {
        assert_eq!(run(&["convert", file, "--out", text], b"").status, 0, "{file}");
        let back = run(&["convert", text], b"");
        assert_eq!((back.status, back.out), (0, fs::read(repository().join(file)).unwrap()), "{file}");
    }
    // Without its comment, the text is the one that comes back.
    let board = fs::read_to_string(repository().join("tests/command/recorder.txt")).unwrap();
    let shown = run(&["convert", "tests/command/recorder.txt", "--text"], b"").out;
    let lines = |text: &str| text.lines().filter(|line| !line.starts_with('#')).map(str::to_string).collect::<Vec<_>>();
    assert_eq!(lines(&board)[1..], lines(std::str::from_utf8(&shown).unwrap())[1..]);
    let crlf = board.replace('\n', "\r\n");
    assert_eq!(run(&["convert", "-"], crlf.as_bytes()).out, fs::read(repository().join("docs/example/board")).unwrap());
}

/// A sheet's text keeps the names.
#[test]
fn names_of_a_sheet() {
    let sheet = folder("names").join("sheet.txt");
    let sheet = sheet.to_str().unwrap();
    assert_eq!(run(&["plan", "tests/command/recorder.txt", "--sheet", sheet], b"").status, 0);
    let by = |sheet| run(&["label", sheet, "docs/example/trace", "--names"], b"").out;
    assert!(by(sheet) == by("tests/command/recorder.txt"));
    assert!(String::from_utf8(by(sheet)).unwrap().contains("\"larger capture\", BAR 2 + 1000"));
}

/// The picture is the documents' own.
#[test]
fn picture() {
    let svg = folder("picture").join("plan.svg");
    assert_eq!(run(&["plan", "tests/command/recorder.txt", "--svg", svg.to_str().unwrap()], b"").status, 0);
    assert!(fs::read(svg).unwrap() == fs::read(repository().join("docs/plan.svg")).unwrap());
}

/// A log that grows: each header is answered before the next one is there.
#[test]
fn a_log_that_grows() {
    for arguments in [&["route", "tests/command/recorder.txt", "--full"][..], &["decode", "-", "--json"]] {
        let mut child = command(arguments).spawn().unwrap();
        let mut log = child.stdin.take().unwrap();
        let mut lines = BufReader::new(child.stdout.take().unwrap()).lines();
        for time in ["1.5", "2.5", "3.5"] {
            writeln!(log, "[    {time}] pcieport 0000:00:02.0: AER: Corrected error message received").unwrap();
            writeln!(log, "[    {time}] e1000e 0000:01:00.0:   TLP Header: 40000001 0000020f f8100010 00000000")
                .unwrap();
            let line = lines.next().unwrap().unwrap();
            assert!(line.contains(time) && line.contains("0000:01:00.0") && line.contains("MWr"), "{line}");
        }
        drop(log);
        assert!(lines.next().is_none() && child.wait().unwrap().success());
    }
}

#[test]
fn streams_that_fail() {
    let full = || File::create("/dev/full").unwrap();
    for arguments in [
        &["plan", "docs/example/board"][..],
        &["label", "docs/example/board", "docs/example/trace"],
        &["decode", "000000010000050FF8110000"],
        &["--help"],
    ] {
        let output = command(arguments).stdout(full()).output().unwrap();
        assert_eq!(output.status.code(), Some(2), "{arguments:?}");
        assert!(String::from_utf8(output.stderr).unwrap().contains("standard output"), "{arguments:?}");
    }
    for arguments in [
        &["plan", "no-such-file"][..],
        &["plan", "docs"],
        &["label", "docs/example/board", "no-such-file"],
        &["plan", "docs/example/board", "--sheet", "no-such-folder/sheet"],
        &["plan"],
        &["plan", "docs/example/board", "--jobs", "4"],
        &["label", "docs/example/board", "docs/example/trace", "--jobs", "0"],
        &["label", "-", "-"],
        &["convert", "docs/example/board", "--text", "--bytes"],
        &[],
    ] {
        let ran = run(arguments, b"");
        assert_eq!((ran.status, ran.out.len()), (2, 0), "{arguments:?}");
        assert!(ran.error.starts_with("cartsundial: "), "{arguments:?}");
    }
}
