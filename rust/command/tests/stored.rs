//! Each subcommand on stored files: what it prints is in tests/command, `NAME.out`, and its exit status here. With
//! CARTSUNDIAL_STORE set the outputs are written anew.

mod run;

use run::{repository, run, Ran};
use std::{env, fs};

/// Name, exit status, arguments. Files are named from the repository's root.
const RUNS: &[(&str, i32, &str)] = &[
    ("plan", 0, "plan tests/command/recorder.txt"),
    ("plan-full", 0, "plan tests/command/recorder.txt --full"),
    ("plan-json", 0, "plan docs/example/board --json"),
    ("plan-lspci", 0, "plan tests/command/recorder.txt --lspci"),
    ("plan-lspci-full", 0, "plan tests/command/recorder.txt --lspci --full"),
    ("plan-refused-31", 1, "plan tests/command/full.txt"),
    ("plan-refused-31-full", 1, "plan tests/command/full.txt --full"),
    ("plan-refused-31-json", 1, "plan tests/command/full.txt --json"),
    ("plan-refused-31-json-full", 1, "plan tests/command/full.txt --json --full"),
    ("plan-refused-31-gap", 1, "plan tests/command/gap.txt"),
    ("plan-refused-31-gap-full", 1, "plan tests/command/gap.txt --full"),
    ("plan-refused-31-gap-json", 1, "plan tests/command/gap.txt --json"),
    ("plan-refused-31-gap-json-full", 1, "plan tests/command/gap.txt --json --full"),
    ("plan-refused-31-closed", 1, "plan tests/plan/spares-closed-pool-refused-31.board"),
    ("plan-refused-31-closed-full", 1, "plan tests/plan/spares-closed-pool-refused-31.board --full"),
    ("plan-refused-32-closed", 1, "plan tests/command/closed.txt"),
    ("plan-refused-32-closed-full", 1, "plan tests/command/closed.txt --full"),
    ("plan-refused-32-closed-json", 1, "plan tests/command/closed.txt --json"),
    ("plan-refused-32-closed-json-full", 1, "plan tests/command/closed.txt --json --full"),
    ("plan-refused-23", 1, "plan tests/command/order.txt"),
    ("plan-refused-23-full", 1, "plan tests/command/order.txt --full"),
    ("plan-refused-25", 1, "plan tests/command/small.txt"),
    ("plan-refused-25-full", 1, "plan tests/command/small.txt --full"),
    ("plan-refused-30", 1, "plan tests/plan/refused-30.board"),
    ("plan-refused-30-full", 1, "plan tests/plan/refused-30.board --full"),
    ("plan-refused-32", 1, "plan tests/command/chain.txt --full"),
    ("plan-refused-32-json", 1, "plan tests/command/chain.txt --json --full"),
    ("plan-refused-26", 1, "plan tests/command/edges.txt --full"),
    ("plan-without", 0, "plan tests/command/chain.txt --without 03:00.0 --without 2"),
    ("plan-without-json", 0, "plan tests/command/chain.txt --without 6 --json"),
    ("plan-without-lspci", 0, "plan tests/command/gap.txt --without clock --lspci --full"),
    ("plan-without-nobody", 2, "plan tests/command/gap.txt --without cap"),
    ("plan-wrong", 2, "plan tests/command/wrong.txt"),
    ("plan-wrong-full", 1, "plan tests/command/wrong.txt --full"),
    ("plan-latin-1", 2, "plan tests/command/latin-1.txt --full"),
    ("plan-tabs", 2, "plan tests/command/tabs.txt --full"),
    ("show-tabs", 2, "show tests/command/tabs.txt --full"),
    ("show-cut", 1, "show tests/command/cut.board --full"),
    ("convert-cut", 1, "convert tests/command/cut.board --full"),
    ("show-cut-trace", 1, "show tests/command/cut.trace --full"),
    ("show-refused-23", 1, "show tests/command/order.txt --full"),
    ("show-refused-27", 1, "show tests/command/buses.sheet --full"),
    ("label-refused-27", 1, "label tests/command/buses.sheet docs/example/trace --full"),
    ("label-refused-32", 1, "label tests/command/chain.txt docs/example/trace --full"),
    ("show-lspci", 2, "show tests/command/linux/spellings.lspci --full"),
    ("explain", 0, "explain"),
    ("explain-26", 0, "explain 26"),
    ("explain-json", 0, "explain 31 NoOwner --json"),
    ("explain-no-number", 2, "explain 12"),
    ("plan-trace", 2, "plan docs/example/trace"),
    ("plan-trace-full", 2, "plan docs/example/trace --full"),
    ("audit", 0, "audit tests/audit/ovmf-one-bridge.sheet --host tests/audit/ovmf-one-bridge.host"),
    ("audit-board", 0, "audit tests/command/recorder.txt"),
    ("audit-refused-52", 1, "audit tests/audit/ovmf-overlap.sheet --host tests/audit/ovmf-overlap.host"),
    ("audit-refused-52-full", 1, "audit tests/audit/ovmf-overlap.sheet --host tests/audit/ovmf-overlap.host --full"),
    ("audit-refused-25", 1, "audit tests/audit/seabios-flat.sheet --host tests/audit/seabios-flat.host"),
    ("audit-refused-25-full", 1, "audit tests/audit/seabios-flat.sheet --host tests/audit/seabios-flat.host --full"),
    ("audit-all", 1, "audit tests/audit/seabios-deep-16.sheet --host tests/audit/seabios-deep-16.host --all"),
    (
        "audit-all-full",
        1,
        "audit tests/audit/seabios-deep-16.sheet --host tests/audit/seabios-deep-16.host --all --full",
    ),
    ("audit-json", 1, "audit tests/audit/ovmf-overlap.sheet --host tests/audit/ovmf-overlap.host --json --full"),
    ("audit-json-accepted", 0, "audit tests/command/recorder.txt --json"),
    ("audit-no-host", 2, "audit tests/audit/ovmf-overlap.sheet"),
    ("route", 0, "route tests/command/recorder.txt 20000001 0000030F 00000002 48001000"),
    ("route-message", 0, "route tests/command/recorder.txt 33000000 00000019 00000000 00000000"),
    ("route-refused-40", 1, "route tests/command/recorder.txt 000000010000050FF8110000"),
    ("route-refused-41", 1, "route tests/audit/ovmf-overlap.sheet 02000001 0000040F 00006200"),
    (
        "route-from",
        0,
        "route tests/command/recorder.txt --from 03:00.0 400000010300020FF8200010 400000010300020F00100010",
    ),
    ("route-from-name", 0, "route tests/command/recorder.txt --from capture 400000010300020FF8200010"),
    ("route-from-two", 2, "route tests/command/recorder.txt --from port 400000010300020FF8200010"),
    ("route-from-nobody", 2, "route tests/command/recorder.txt --from 09:00.0 400000010300020FF8200010"),
    (
        "route-sent",
        0,
        "route tests/command/recorder.txt --sent 400000010300020F00100010 4A0000010500000400F80200 400000010000020FF8200010",
    ),
    ("route-sent-refused-44", 1, "route tests/command/recorder.txt --sent --host-id 00:1F.0 400000010500000F7F3A2000"),
    ("decode", 0, "decode 05000001 0000010F 03000000"),
    ("decode-refused-7", 1, "decode 00000002,0000065F,F8100014"),
    ("decode-trace", 1, "decode docs/example/trace"),
    ("decode-json", 1, "decode docs/example/trace.txt --json"),
    ("route-trace", 1, "route tests/command/recorder.txt docs/example/trace.txt"),
    ("route-json", 1, "route tests/command/recorder.txt docs/example/recorder-trace.txt --sent --json"),
    ("route-log-json", 1, "route tests/command/recorder.txt tests/command/aer.txt --json"),
    ("route-two", 2, "route tests/command/recorder.txt --sent --from 03:00.0 docs/example/trace"),
    ("label", 0, "label tests/command/recorder.txt docs/example/trace"),
    ("label-names", 0, "label tests/command/recorder.txt docs/example/trace.txt --names"),
    ("label-both", 0, "label tests/command/recorder.txt docs/example/recorder-trace.txt --both"),
    ("label-json", 0, "label tests/command/recorder.txt docs/example/trace --json"),
    ("label-both-json", 0, "label tests/command/recorder.txt docs/example/recorder-trace.txt --both --json"),
    ("label-log", 0, "label tests/command/recorder.txt tests/command/aer.txt --names"),
    ("label-log-json", 0, "label tests/command/recorder.txt tests/command/aer.txt --json"),
    (
        "label-filters",
        0,
        "label tests/command/recorder.txt docs/example/recorder-trace.txt --both --from capture --to host",
    ),
    ("label-records", 0, "label tests/command/recorder.txt docs/example/trace.txt --names --records 3-5"),
    ("label-no-records", 0, "label tests/command/recorder.txt docs/example/trace.txt --records 11-"),
    ("label-idle", 2, "label tests/command/recorder.txt docs/example/trace --from capture"),
    ("label-board", 2, "label tests/command/recorder.txt docs/example/board"),
    ("label-board-full", 2, "label tests/command/recorder.txt docs/example/board --full"),
    ("ledger", 1, "ledger docs/example/requests --names tests/command/recorder.txt"),
    ("ledger-json", 1, "ledger docs/example/requests --names tests/command/recorder.txt --json"),
    ("ledger-filters", 1, "ledger docs/example/requests --names tests/command/recorder.txt --to timecode --kind iowr"),
    ("diff", 1, "diff tests/command/recorder.txt tests/command/recorder-changed.txt"),
    ("diff-json", 1, "diff tests/command/recorder.txt tests/command/recorder-changed.txt --json"),
    ("diff-same", 0, "diff tests/command/recorder.txt tests/command/recorder.txt"),
    ("diff-machines", 1, "diff tests/command/linux/ports-seabios.lspci tests/command/linux/ports-ovmf.lspci"),
    ("diff-refused", 2, "diff tests/command/recorder.txt tests/command/full.txt"),
    ("page-no-output", 2, "page tests/command/recorder.txt"),
    ("page-refused-trace", 2, "page tests/command/full.txt docs/example/trace -o -"),
    ("page-host-of-a-board", 2, "page tests/command/recorder.txt --host docs/example/board -o -"),
    ("page-of-a-trace", 2, "page docs/example/trace -o -"),
    ("show-board", 0, "show docs/example/board"),
    ("show-sheet", 0, "show tests/audit/ovmf-one-bridge.sheet"),
    ("show-sheet-full", 0, "show tests/audit/ovmf-one-bridge.sheet --full"),
    ("show-trace", 0, "show docs/example/trace.txt"),
    ("show-script", 0, "show tests/script/p10.out"),
    ("convert-trace", 0, "convert docs/example/trace"),
    ("convert-sheet", 0, "convert tests/audit/ovmf-one-bridge.sheet"),
    ("export", 0, "export tests/audit/ovmf-one-bridge.sheet"),
    ("export-full", 0, "export tests/audit/ovmf-one-bridge.sheet --full"),
    ("import-not-read", 1, "import tests/command/linux/spellings.lspci"),
    ("help", 0, "--help"),
    ("help-audit", 0, "audit --help"),
    ("help-import", 0, "import --help"),
    ("help-label", 0, "label --help"),
    ("help-page", 0, "page --help"),
    ("no-subcommand", 2, "lable x y"),
    ("no-help", 2, "help lable"),
    ("plan-two-forms", 0, "plan tests/command/recorder.txt --json --lspci"),
    ("plan-no-script", 0, "plan tests/command/recorder.txt --requester 00:1F.0"),
];

/// Standard output, and after it what stands on standard error.
fn text(ran: &Ran) -> String {
    format!("{}{}", String::from_utf8_lossy(&ran.out), ran.error)
}

fn compare(name: &str, text: &str) {
    let file = repository().join("tests/command").join(format!("{name}.out"));
    if env::var_os("CARTSUNDIAL_STORE").is_some() {
        fs::write(&file, text).unwrap();
    }
    let stored = fs::read_to_string(&file).unwrap_or_else(|error| panic!("{}: {error}", file.display()));
    assert_eq!(text, stored, "{name}");
}

#[test]
fn stored_runs() {
    for &(name, status, arguments) in RUNS {
        let ran = run(&arguments.split(' ').collect::<Vec<_>>(), b"");
        compare(name, &text(&ran));
        assert_eq!(ran.status, status, "{name}");
    }
}

/// What comes from standard input.
#[test]
fn standard_input() {
    let log = fs::read(repository().join("tests/command/aer.txt")).unwrap();
    let ran = run(&["decode"], &log);
    compare("decode-log", &text(&ran));
    assert_eq!(ran.status, 1);
    let ran = run(&["route", "tests/command/recorder.txt", "-"], &log);
    compare("route-log", &text(&ran));
    assert_eq!(ran.status, 1);
    for (name, arguments) in [
        ("decode-log-full", &["decode", "--full"][..]),
        ("route-log-full", &["route", "tests/command/recorder.txt", "-", "--full"]),
    ] {
        let ran = run(arguments, &log);
        compare(name, &text(&ran));
        assert_eq!(ran.status, 1);
    }
    let board = fs::read(repository().join("docs/example/board")).unwrap();
    let ran = run(&["plan", "-", "--lines"], &board);
    assert_eq!(
        String::from_utf8(ran.out).unwrap(),
        fs::read_to_string(repository().join("docs/example/plan.txt")).unwrap()
    );
}

/// A summary beside the lines.
#[test]
fn summary() {
    let ran = run(&["label", "tests/command/recorder.txt", "docs/example/trace", "--summary"], b"");
    assert_eq!(ran.out, fs::read(repository().join("docs/example/labels.txt")).unwrap());
    compare("label-summary", &ran.error);
    let trace = "docs/example/recorder-trace.txt";
    let ran = run(&["label", "tests/command/recorder.txt", trace, "--both", "--jobs", "3", "--summary"], b"");
    compare("label-both", std::str::from_utf8(&ran.out).unwrap());
    compare("label-both-summary", &ran.error);
}

/// A script is text where its file's name ends so, and the same writes.
#[test]
fn script_as_text() {
    let [bytes, text] = ["box.script", "box.txt"].map(|name| run::folder("stored").join(name));
    for file in [&bytes, &text] {
        let ran = run(&["plan", "tests/command/recorder.txt", "--full", "--script", file.to_str().unwrap()], b"");
        assert_eq!(ran.status, 0, "{}", ran.error);
    }
    assert!(fs::read_to_string(&text).unwrap().starts_with("script\n"));
    assert_eq!(run(&["convert", text.to_str().unwrap()], b"").out, fs::read(&bytes).unwrap());
}

/// Every subcommand has its help.
#[test]
fn helps() {
    for name in [
        "plan",
        "audit",
        "route",
        "decode",
        "label",
        "ledger",
        "diff",
        "show",
        "convert",
        "import",
        "export",
        "completions",
    ] {
        let ran = run(&[name, "--help"], b"");
        assert_eq!((ran.status, ran.error.as_str()), (0, ""));
        assert!(ran.out.starts_with(format!("cartsundial {name} ").as_bytes()));
        assert_eq!(run(&["help", name], b"").out, ran.out);
    }
}
