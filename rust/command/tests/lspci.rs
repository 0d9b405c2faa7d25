//! Dumps of plans and of imported sheets as the real `lspci -F` shows them: every function with its command bits, buses,
//! windows and BARs. Where there is no lspci nothing is compared (.ci/compiled installs it, or says that it could not).

mod run;

use cartsundial::{BarKind, Function, Id, PlacedBar, Sheet};
use run::{folder, run};
use std::collections::BTreeMap;
use std::fs;
use std::io::ErrorKind;
use std::ops::RangeInclusive;
use std::process::Command;

/// What lspci says of each function.
type Shown = BTreeMap<Id, Vec<String>>;

/// `None` where there is no lspci.
fn lspci(name: &str, dump: &[u8]) -> Option<Shown> {
    let file = folder("lspci").join(name);
    fs::write(&file, dump).unwrap();
    let output = match Command::new("lspci").arg("-vv").arg("-F").arg(&file).output() {
        Err(error) if error.kind() == ErrorKind::NotFound => return None,
        output => output.unwrap(),
    };
    assert!(output.status.success(), "{name}: {}", String::from_utf8_lossy(&output.stderr));
    let has_classes = String::from_utf8_lossy(dump).starts_with("# cartsundial export");
    assert!(!has_classes || !String::from_utf8_lossy(&output.stdout).contains("Invalid class"), "{name}");
    let mut shown = Shown::new();
    for block in String::from_utf8(output.stdout).unwrap().split("\n\n").filter(|block| !block.trim().is_empty()) {
        let mut lines = block.trim_start_matches('\n').lines().map(str::to_string);
        let id = lines.next().unwrap().split(' ').next().unwrap().parse().unwrap();
        shown.insert(id, lines.map(|line| line.trim().to_string()).collect());
    }
    Some(shown)
}

/// What follows a line's first words.
fn after<'a>(lines: &'a [String], start: &str) -> &'a str {
    lines.iter().find_map(|line| line.strip_prefix(start)).unwrap_or_else(|| panic!("{start}: {lines:?}"))
}

/// `f8000000-f87fffff [size=8M]`; a closed window is `[disabled]` or `None`.
fn range(text: &str) -> Option<RangeInclusive<u64>> {
    let (first, last) = text.split([' ', '\t']).next()?.split_once('-')?;
    let number = |digits: &str| u64::from_str_radix(digits, 16).ok();
    Some(number(first)?..=number(last)?)
}

fn region(placed: &PlacedBar) -> String {
    let start = placed.start;
    let memory = |words: &str| format!("Region {}: Memory at {start:08x} ({words})", placed.slot);
    match placed.bar.kind {
        BarKind::Memory32 => memory("32-bit, non-prefetchable"),
        BarKind::Memory32Prefetchable => memory("32-bit, prefetchable"),
        BarKind::Memory64 => memory("64-bit, non-prefetchable"),
        BarKind::Memory64Prefetchable => memory("64-bit, prefetchable"),
        _ => format!("Region {}: I/O ports at {start:04x}", placed.slot),
    }
}

fn compare(function: &Function, lines: &[String]) {
    let control = after(lines, "Control: ");
    for (bit, word) in [(0, "I/O"), (1, "Mem"), (2, "BusMaster")] {
        let sign = if function.command() >> bit & 1 == 1 { '+' } else { '-' };
        assert!(control.contains(&format!("{word}{sign}")), "{}: {control}", function.id);
    }
    // The upper half of a 64-bit BAR may be shown as a region of its own.
    for placed in function.bars().filter(|placed| placed.start != 0) {
        let region = region(&placed);
        assert!(lines.iter().any(|line| line.starts_with(&region)), "{}: {region}: {lines:?}", function.id);
    }
    let (Some(buses), Some(windows)) = (function.buses(), function.windows()) else { return };
    let bus = format!(
        "primary={:02x}, secondary={:02x}, subordinate={:02x}",
        function.id.bus(),
        buses.secondary,
        buses.subordinate
    );
    assert!(after(lines, "Bus: ").starts_with(&bus), "{}: {bus}", function.id);
    assert_eq!(range(after(lines, "I/O behind bridge: ")), windows.io, "{}", function.id);
    assert_eq!(range(after(lines, "Memory behind bridge: ")), windows.low, "{}", function.id);
    assert_eq!(range(after(lines, "Prefetchable memory behind bridge: ")), windows.high, "{}", function.id);
}

/// The dump that `arguments` give, over the sheet that `convert` gives.
fn shown(name: &str, arguments: &[&str], sheet: &[u8]) {
    let dump = run(arguments, b"");
    assert_eq!(dump.status, 0, "{name}: {}", dump.error);
    let Some(shown) = lspci(name, &dump.out) else { return };
    let sheet = Sheet::new(sheet).unwrap();
    assert!(
        shown
            .keys()
            .copied()
            .eq(sheet.functions().map(|function| function.id).collect::<std::collections::BTreeSet<_>>()),
        "{name}"
    );
    for function in sheet.functions() {
        compare(&function, &shown[&function.id]);
    }
}

#[test]
fn plans() {
    for board in ["tests/command/recorder.txt", "docs/example/board", "crates/plan/stdin", "tests/plan/tree-001.board"]
    {
        let file = folder("lspci").join("sheet");
        assert_eq!(run(&["plan", board, "--sheet", file.to_str().unwrap()], b"").status, 0, "{board}");
        let sheet = fs::read(file).unwrap();
        shown("plan", &["plan", board, "--lspci"], &sheet);
        shown("plan-full", &["plan", board, "--lspci", "--full"], &sheet);
    }
}

#[test]
fn sheets_of_firmware() {
    for name in ["ovmf-one-bridge", "ovmf-overlap", "seabios-deep-16", "seabios-one-bridge", "seabios-seed1"] {
        let sheet = format!("tests/audit/{name}.sheet");
        let bytes = fs::read(run::repository().join(&sheet)).unwrap();
        shown(name, &["export", &sheet], &bytes);
        shown(name, &["export", &sheet, "--full"], &bytes);
    }
}

/// `lspci -t` draws every bridge of a plan with its buses, and every card below the one that it is behind.
#[test]
fn trees() {
    let file = folder("lspci").join("tree");
    let dump = run(&["plan", "tests/command/recorder.txt", "--lspci", "--full"], b"").out;
    fs::write(&file, dump).unwrap();
    let output = match Command::new("lspci").arg("-t").arg("-F").arg(&file).output() {
        Err(error) if error.kind() == ErrorKind::NotFound => return,
        output => output.unwrap(),
    };
    let tree = String::from_utf8(output.stdout).unwrap();
    assert!(tree.starts_with("-[0000:00]---00.0-[01-07]----00.0-[02-07]--+-00.0-[03]----00.0\n"), "{tree}");
    assert_eq!(tree.lines().count(), 3, "{tree}");
}
