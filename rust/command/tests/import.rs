//! What Linux says of machines: `lspci -vvx` with iomem and ioports or a boot log, and sysfs. tests/command/linux has lines of
//! boots of Linux 6.1 in QEMU 7.2: six trees, each over the places of SeaBIOS and of OVMF, over SeaBIOS's with Linux asked to
//! number and to place anew where something is missing (realloc), and over Linux's own.

mod run;

use cartsundial::{Board, Sheet};
use inputs::random::Random;
use inputs::{aim, trace};
use run::{folder, repository, run};
use std::fs;
use std::path::{Path, PathBuf};

const TREES: [&str; 6] = ["ports", "switch", "conventional", "deep", "hotplug", "noio"];
const PLACED_BY: [&str; 4] = ["seabios", "ovmf", "realloc", "linux"];

fn machines() -> impl Iterator<Item = String> {
    TREES.iter().flat_map(|tree| PLACED_BY.iter().map(move |by| format!("{tree}-{by}")))
}

/// The audit's: SeaBIOS leaves prefetchable windows below 4 GiB where there is anything for them, and Linux once a BAR outside
/// its bridge.
fn verdict(machine: &str) -> &'static str {
    let is_low = (machine.ends_with("-seabios") || machine.ends_with("-realloc")) && !machine.starts_with("hotplug");
    if is_low || machine == "conventional-linux" {
        "refused 51"
    } else {
        "accepted"
    }
}

/// Every address has one owner, also where the audit's answer is 51 for the kind alone. The BAR outside its bridge has none.
fn is_sound(machine: &str) -> bool {
    machine != "conventional-linux"
}

fn file(machine: &str, ending: &str) -> String {
    format!("tests/command/linux/{machine}.{ending}")
}

/// Imports into a folder of its own: what is printed, and the start of the files' names.
fn imported(name: &str, files: &[&str]) -> (String, PathBuf) {
    let prefix = folder("import").join(name);
    let ran = run(&[&["import"], files, &["--out", prefix.to_str().unwrap()]].concat(), b"");
    let line = String::from_utf8(ran.out).unwrap();
    assert_eq!(ran.status, i32::from(!line.contains(": accepted\n")), "{name}: {line}{}", ran.error);
    (line, PathBuf::from(format!("{}-0000-00", prefix.display())))
}

fn with(start: &Path, ending: &str) -> String {
    format!("{}.{ending}", start.display())
}

fn sheet_of(start: &Path) -> Vec<u8> {
    run(&["convert", &with(start, "sheet.txt")], b"").out
}

/// The verdicts, by the windows of the running machine and by those of its boot log.
#[test]
fn verdicts() {
    let (mut accepted, mut sound) = (0, 0);
    for machine in machines() {
        let verdict = verdict(&machine);
        let [lspci, iomem, ioports, dmesg] =
            ["lspci", "iomem", "ioports", "dmesg"].map(|ending| file(&machine, ending));
        let (line, start) = imported(&machine, &[&lspci, &iomem, &ioports]);
        assert!(line.starts_with("0000:00: ") && line.contains(verdict), "{machine}: {line}");
        let is_told = line.ends_with("; one owner for every address\n");
        assert_eq!(is_told, verdict != "accepted" && is_sound(&machine), "{machine}: {line}");
        let (line, by_log) = imported(&format!("{machine}-log"), &[&dmesg, &lspci]);
        assert!(line.contains(verdict), "{machine}: {line}");
        assert!(sheet_of(&start) == sheet_of(&by_log));
        let hosts = [&start, &by_log].map(|start| fs::read_to_string(with(start, "host.txt")).unwrap());
        // With pci=nocrs the boot log has one window for everything, and iomem names no root bus.
        assert!(hosts[0] == hosts[1] || machine.ends_with("-realloc"), "{machine}: {hosts:?}");
        let audit = run(&["audit", &with(&start, "sheet.txt"), "--host", &with(&start, "host.txt")], b"");
        let text = String::from_utf8(audit.out).unwrap();
        assert!(text.starts_with(verdict), "{machine}");
        assert_eq!(text.ends_with("\none owner for every address: yes\n"), is_sound(&machine), "{machine}: {text}");
        accepted += u32::from(audit.status == 0);
        sound += u32::from(is_sound(&machine));
        if !is_sound(&machine) {
            let (_, second) = text.split_once("\none owner for every address: refused 51: ").unwrap();
            assert_eq!(second.matches("\n  51: ").count(), 1, "{text}");
            assert!(second.contains("\n  51: 05:01.0 ") && second.contains(" BAR 0 "), "{text}");
        }
    }
    assert_eq!((accepted, sound, machines().count()), (13, 23, 24));
}

/// A trace over what is imported, by an index where every address has one owner: its lines are those of the walk.
#[test]
fn labelled() {
    let mut random = Random::new(1);
    for machine in machines() {
        let [lspci, iomem, ioports] = ["lspci", "iomem", "ioports"].map(|ending| file(&machine, ending));
        let (_, start) = imported(&format!("{machine}-labelled"), &[&lspci, &iomem, &ioports]);
        let sheet = sheet_of(&start);
        assert_eq!(cartsundial::sound_alone(&sheet).is_ok(), is_sound(&machine), "{machine}");
        let trace = trace::of(&(0..1000).map(|_| aim::header(&sheet, &mut random)).collect::<Vec<_>>());
        let trace_file = folder("import").join("trace");
        fs::write(&trace_file, &trace).unwrap();
        let ran = run(&["label", &with(&start, "sheet.txt"), trace_file.to_str().unwrap()], b"");
        assert_eq!(String::from_utf8(ran.out).unwrap(), plain::annotate(&sheet, &trace), "{machine}");
    }
}

/// A sheet that is exported and imported again is the same; and so it is by sysfs.
#[test]
fn again() {
    for machine in machines() {
        let (_, start) = imported(&format!("{machine}-again"), &[&file(&machine, "lspci")]);
        let exported = run(&["export", &with(&start, "sheet.txt")], b"").out;
        let dump = folder("import").join("dump");
        fs::write(&dump, &exported).unwrap();
        let (_, back) = imported("back", &[dump.to_str().unwrap()]);
        let sheet = sheet_of(&start);
        assert!(sheet.len() > 92 && sheet == sheet_of(&back), "{machine}");
        let (_, by_sysfs) = imported("sysfs", &[sysfs(&machine, &sheet).to_str().unwrap()]);
        assert!(sheet == sheet_of(&by_sysfs), "{machine}");
    }
}

/// A plan that is exported and imported again has its records in their order, with their names; only class codes are new.
#[test]
fn a_plan_again() {
    for board in ["tests/command/recorder.txt", "docs/example/board", "tests/plan/tree-001.board", "crates/plan/stdin"]
    {
        let folder = folder("import");
        let [planned, dump, back] = ["planned.txt", "planned.lspci", "again.txt"].map(|name| folder.join(name));
        let [planned, dump, back] = [&planned, &dump, &back].map(|file| file.to_str().unwrap());
        assert_eq!(run(&["plan", board, "--sheet", planned], b"").status, 0, "{board}");
        for arguments in [&["export", board, "--full"][..], &["plan", board, "--lspci", "--full"]] {
            fs::write(dump, run(arguments, b"").out).unwrap();
            fs::write(back, run(&["import", dump], b"").out).unwrap();
            assert_eq!(run(&["diff", planned, back], b"").status, 0, "{board}");
            let [one, other] = [planned, back].map(|file| run(&["convert", file], b"").out);
            assert_eq!(one.len(), other.len());
            let is_class = |at: usize| at > 0 && (4 + 9..4 + 12).contains(&((at - 1) % 92));
            let differ = (0..one.len()).find(|at| one[*at] != other[*at] && !is_class(*at));
            assert_eq!(differ, None, "{board}");
        }
    }
}

/// A folder as sysfs has it, of a sheet's registers and BARs.
fn sysfs(machine: &str, sheet: &[u8]) -> PathBuf {
    let devices = folder(&format!("devices-{machine}"));
    for function in Sheet::new(sheet).unwrap().functions() {
        let device = devices.join(format!("0000:{}", function.id).to_lowercase());
        fs::create_dir_all(&device).unwrap();
        fs::write(device.join("config"), function.registers).unwrap();
        let mut lines = [(0, 0); 13];
        for placed in function.bars() {
            lines[usize::from(placed.slot)] = placed.range().into_inner();
        }
        let line = |(first, last)| format!("{first:#018x} {last:#018x} {:#018x}\n", 0x200);
        fs::write(device.join("resource"), lines.map(line).concat()).unwrap();
    }
    devices
}

/// The board is planned, and every function has the ID that it had.
#[test]
fn boards() {
    for machine in machines() {
        let [lspci, iomem, ioports, dmesg] =
            ["lspci", "iomem", "ioports", "dmesg"].map(|ending| file(&machine, ending));
        let (_, start) = imported(&format!("{machine}-board"), &[&lspci, &iomem, &ioports, &dmesg]);
        let board: Board = fs::read_to_string(with(&start, "board.txt")).unwrap().parse().unwrap();
        let planned = board.plan().unwrap_or_else(|refusal| panic!("{machine}: {refusal}"));
        let planned = Sheet::new(planned).unwrap();
        let found = Sheet::new(sheet_of(&start)).unwrap();
        assert_eq!(planned.functions().len(), found.functions().len());
        for function in found.functions() {
            let again = planned.function(function.id).unwrap_or_else(|| panic!("{machine}: {}", function.id));
            assert_eq!((again.command(), again.buses()), (function.command(), function.buses()), "{machine}");
            assert!(again.bars().map(|placed| placed.bar.size).eq(function.bars().map(|placed| placed.bar.size)));
        }
    }
}

/// The machine that says its windows in other ways, without its BAR of unknown size.
fn spellings() -> String {
    let text = fs::read_to_string(repository().join("tests/command/linux/spellings.lspci")).unwrap();
    text.replace("08 00 00 00 00 00 00 00", "00 00 00 00 00 00 00 00")
}

/// What is normalised is told, and the sheet passes its checks; what must stay stays.
#[test]
fn normalised() {
    let text = spellings();
    let ran = run(&["import", "-"], text.as_bytes());
    assert_eq!(ran.status, 1);
    for note in [
        "00:01.0: its primary bus register is not its own bus: set",
        "00:01.0: the I/O window's registers",
        "00:01.0: the closed memory window",
        "00:01.0: the prefetchable window's registers",
        "00:02.0: a bridge without buses and windows: taken for a card",
        "00:03.0 BAR 0: the kernel has it at 1f0, the register has no BAR",
        "00:03.0 BAR 4: slot 4 is not placed and its space is off",
        "00:04.0: the I/O window reads 0000-0FFF: not implemented, or open there, and the kernel has none: left as it is",
        "00:04.0: the prefetchable window reads 00000000-000FFFFF: not implemented, or open there: left as it is",
        "00:04.0: it may decode subtractively (class 060401)",
        "0000:00: no root windows are known",
        "0000:00: 4 functions: refused 51",
    ] {
        assert!(ran.error.contains(note), "{note}\n{}", ran.error);
    }
    let sheet = folder("import").join("spellings.txt");
    fs::write(&sheet, &ran.out).unwrap();
    let bytes = run(&["convert", sheet.to_str().unwrap()], b"").out;
    let sheet = Sheet::new(bytes).unwrap();
    let bridge = sheet.record(1).unwrap();
    let windows = bridge.windows().unwrap();
    assert_eq!((windows.io, windows.low, windows.high), (Some(0x2000..=0x2FFF), None, Some(0xE000_0000..=0xE00F_FFFF)));
    assert!(!sheet.record(2).unwrap().is_bridge());
    assert_eq!(sheet.record(3).unwrap().bars().count(), 0);
    let windows = sheet.record(4).unwrap().windows().unwrap();
    assert_eq!((windows.io, windows.high), (Some(0..=0xFFF), Some(0..=0xF_FFFF)));
}

/// By sysfs the kernel's windows are the lines of `resource` after those of BARs, ROM and virtual functions.
#[test]
fn windows_of_zero() {
    let device = folder("devices-zero").join("0000:00:01.0");
    fs::create_dir_all(&device).unwrap();
    let mut config = [0; 64];
    config[0x0A..0x0C].copy_from_slice(&[4, 6]);
    config[0x0E] = 1;
    config[0x18..0x1B].copy_from_slice(&[0, 1, 1]);
    fs::write(device.join("config"), config).unwrap();
    let notes = |lines: usize, windows: usize, last: u64| {
        let line = |at: usize| if at == windows + 1 { (0, last, 0x200) } else { (0, 0, 0) };
        let text = |(first, last, flags): (u64, u64, u64)| format!("{first:#018x} {last:#018x} {flags:#018x}\n");
        let resource: String = (0..lines).map(|at| text(line(at))).collect();
        fs::write(device.join("resource"), resource).unwrap();
        run(&["import", device.parent().unwrap().to_str().unwrap()], b"").error
    };
    for (lines, windows) in [(17, 13), (11, 7)] {
        let told = notes(lines, windows, 0xF_FFFF);
        assert_eq!(told.matches("and the kernel has none: left as it is").count(), 2, "{told}");
        assert!(!told.contains("the memory window reads"), "{told}");
        let told = notes(lines, windows, 0);
        assert_eq!(told.matches("and the kernel has none").count(), 3, "{told}");
    }
    let told = notes(7, 20, 0);
    assert_eq!(
        (told.matches("open there: left").count(), told.matches("the kernel has none").count()),
        (3, 0),
        "{told}"
    );
}

/// What is cut of a copy of sysfs is told by ID.
#[test]
fn cut_sysfs() {
    let devices = folder("devices-cut");
    let whole = [("config", vec![0; 64]), ("resource", format!("{}\n", ["0x0 0x0 0x0"; 13].join("\n")).into_bytes())];
    let device = devices.join("0000:00:01.0");
    fs::create_dir_all(&device).unwrap();
    let ran = |changed: &str, bytes: &[u8]| {
        for (name, bytes) in &whole {
            fs::write(device.join(name), bytes).unwrap();
        }
        fs::write(device.join(changed), bytes).unwrap();
        run(&["import", devices.to_str().unwrap()], b"")
    };
    let all = ran("config", &whole[0].1);
    assert_eq!(all.status, 0, "{}", all.error);
    for (name, bytes, words) in [
        ("config", &whole[0].1[..63], "0000:00:01.0: `config` has 63 of its 64 bytes"),
        ("config", &[], "0000:00:01.0: `config` has 0 of its 64 bytes"),
        ("config", &[0xFF; 64], "0000:00:01.0: it does not answer"),
        ("resource", &whole[1].1[..40], "0000:00:01.0: `resource` has not"),
        ("resource", &whole[1].1[..154], "0000:00:01.0: `resource` has not"),
    ] {
        let ran = ran(name, bytes);
        assert_eq!((ran.status, ran.out.len()), (1, 0), "{words}");
        assert!(ran.error.contains(words), "{words}: {}", ran.error);
    }
}

/// The machine that this runs on, where it has PCI.
#[test]
fn a_live_machine() {
    let devices = Path::new("/sys/bus/pci/devices");
    if fs::read_dir(devices).is_ok_and(|mut entries| entries.next().is_some()) {
        let prefix = folder("import").join("live");
        let ran = run(&["import", devices.to_str().unwrap(), "--out", prefix.to_str().unwrap()], b"");
        assert!(ran.status < 2, "{}", ran.error);
        assert!(!ran.out.is_empty());
    }
}

/// The root folder is this machine.
#[test]
fn this_machine() {
    let this = run(&["import", "/", "--json"], b"");
    match fs::read_dir("/sys/bus/pci/devices").is_ok_and(|mut entries| entries.next().is_some()) {
        true => assert!(this.status < 2 && !this.out.is_empty(), "{}", this.error),
        false => assert_eq!(this.status, 2),
    }
}

/// Every machine in one call: a line for each root bus, the same ones as of each by itself, and one status.
#[test]
fn a_fleet() {
    let all: Vec<String> = machines().collect();
    let files: Vec<String> =
        all.iter().flat_map(|machine| ["lspci", "iomem", "ioports"].map(|ending| file(machine, ending))).collect();
    let arguments: Vec<&str> = ["import", "--fleet"].into_iter().chain(files.iter().map(String::as_str)).collect();
    let fleet = run(&arguments, b"");
    let lines = String::from_utf8(fleet.out).unwrap();
    assert_eq!((fleet.status, lines.lines().count()), (1, all.len()), "{}", fleet.error);
    let json = String::from_utf8(run(&[&arguments[..], &["--json", "--quiet"]].concat(), b"").out).unwrap();
    for ((machine, line), object) in all.iter().zip(lines.lines()).zip(json.lines()) {
        let own: Vec<String> = ["lspci", "iomem", "ioports"].map(|ending| file(machine, ending)).to_vec();
        let files: Vec<&str> = own.iter().map(String::as_str).collect();
        let alone = run(&[&["import"], &files[..]].concat(), b"");
        let last = alone.error.lines().find(|line| line.contains(" functions: ")).unwrap();
        assert_eq!(line, format!("{} {}", own[0], last.strip_prefix("cartsundial: ").unwrap()));
        assert!(object.starts_with(&format!("{{\"machine\": \"{}\", \"root\": \"0000:00\", \"read\": true", own[0])));
        assert_eq!(object.contains("\"accepted\": true"), alone.status == 0, "{object}");
        assert_eq!(object.contains("\"one_owner\": true"), is_sound(machine), "{object}");
    }
    let prefix = folder("import").join("fleet");
    let out = prefix.to_str().unwrap();
    let [one, other] = ["deep-ovmf", "ports-ovmf"].map(|machine| file(machine, "lspci"));
    assert_eq!(run(&["import", "--fleet", &one, &other, "--out", out, "--quiet"], b"").out, b"");
    for machine in ["deep-ovmf", "ports-ovmf"] {
        assert!(Path::new(&format!("{out}-{machine}-0000-00.board.txt")).is_file());
    }
    // Files that were to be captures do not stop the others.
    let [empty, wrong, cut] = ["empty.lspci", "wrong.lspci", "cut.lspci"].map(|name| folder("import").join(name));
    fs::write(&empty, "").unwrap();
    fs::write(&wrong, "ssh: connect to host box port 22: No route to host\n").unwrap();
    fs::write(&cut, text("deep-ovmf").split_once('\n').unwrap().1).unwrap();
    let broken = [&empty, &wrong, &cut].map(|file| file.to_str().unwrap());
    let ran = run(&[&["import", "--fleet", &one], &broken[..], &[&other]].concat(), b"");
    let lines = String::from_utf8(ran.out).unwrap();
    assert_eq!((ran.status, lines.lines().count()), (1, 5), "{lines}{}", ran.error);
    for (file, why) in broken.iter().zip(["it is empty", "neither what `lspci -vvx`", "line 1: a line of no function"])
    {
        assert!(lines.contains(&format!("{file}: refused: {why}")), "{lines}");
    }
    let ran = run(&["import", "--fleet", &one, &other, "--leave-out", "00:02.0"], b"");
    assert!(ran.status == 2 && ran.error.contains("--leave-out is for one machine, and here are 2"), "{}", ran.error);
}

/// A folder of captures is a fleet too; what has nothing of PCI is passed over.
#[test]
fn a_folder() {
    let captures = folder("import-captures");
    for (machine, ending) in [("deep-ovmf", "lspci"), ("deep-ovmf", "iomem"), ("ports-ovmf", "lspci")] {
        let bytes = fs::read(run::repository().join(file(machine, ending))).unwrap();
        fs::write(captures.join(format!("{machine}.{ending}")), bytes).unwrap();
    }
    fs::write(captures.join("README.md"), "# Captures\n").unwrap();
    let ran = run(&["import", captures.to_str().unwrap()], b"");
    let lines = String::from_utf8(ran.out).unwrap();
    assert_eq!(lines.lines().count(), 2, "{lines}{}", ran.error);
    assert!(lines.contains("deep-ovmf.lspci 0000:00: 30 functions: ") && ran.error.contains("passed over: "));
    let root = folder("import-root");
    fs::create_dir_all(root.join("sys/bus/pci/devices/0000:00:00.0")).unwrap();
    fs::create_dir_all(root.join("proc")).unwrap();
    fs::write(root.join("proc/iomem"), "e0000000-efffffff : PCI Bus 0000:00\n").unwrap();
    let mut registers = [0; 64];
    registers[0x0B] = 6;
    fs::write(root.join("sys/bus/pci/devices/0000:00:00.0/config"), registers).unwrap();
    let line = format!("0x{:016x} 0x{:016x} 0x{:016x}\n", 0, 0, 0);
    fs::write(root.join("sys/bus/pci/devices/0000:00:00.0/resource"), line.repeat(13)).unwrap();
    let ran = run(&["import", root.to_str().unwrap(), "--json"], b"");
    let object = String::from_utf8(ran.out).unwrap();
    assert!(
        object.contains("\"functions\": 1, \"accepted\": true") && object.contains("\"tight\": [\"io\"]"),
        "{object}"
    );
}

#[test]
fn nothing_to_import() {
    let empty = folder("import").join("empty");
    fs::write(&empty, "").unwrap();
    let empty = empty.to_str().unwrap();
    let iomem = file("ports-ovmf", "iomem");
    for (files, words) in [
        (&[][..], "it takes lspci's output"),
        (&["docs/example/board.txt"], "docs/example/board.txt: neither what `lspci -vvx` prints"),
        (&["docs/example/board"], "docs/example/board: neither what `lspci -vvx` prints"),
        (&["no-such-file"], "no-such-file: "),
        (&[empty], "empty is empty; no function found: `lspci -vvx` has them"),
        (&[&iomem], "no function found: `lspci -vvx` has them, or /sys/bus/pci/devices"),
        (&["man"], "man: neither /sys/bus/pci/devices, nor a folder with what `lspci -vvx` prints"),
        (
            &["--fleet", &file("deep-ovmf", "lspci"), &file("ports-ovmf", "lspci"), &file("switch-ovmf", "iomem")],
            "of which machine?",
        ),
    ] {
        let ran = run(&[&["import"], files].concat(), b"");
        assert_eq!((ran.status, ran.out.len()), (2, 0), "{files:?}");
        assert!(ran.error.contains(words), "{files:?}: {}", ran.error);
    }
    let ran = run(&["audit", &file("ports-ovmf", "lspci"), "--host", "tests/command/recorder.txt"], b"");
    assert!(ran.status == 2 && ran.error.contains("`cartsundial import` makes a sheet"), "{}", ran.error);
}

/// Imports an edited text into an empty folder: how it ended, and the names of what was written.
fn edited(name: &str, text: &str, more: &[&str]) -> (run::Ran, Vec<String>) {
    let folder = folder(&format!("edited-{name}"));
    fs::remove_dir_all(&folder).unwrap();
    fs::create_dir_all(&folder).unwrap();
    let prefix = folder.join("box");
    let ran = run(&[&["import", "-"], more, &["--out", prefix.to_str().unwrap()]].concat(), text.as_bytes());
    let names = fs::read_dir(&folder).unwrap().map(|file| file.unwrap().file_name().into_string().unwrap());
    let mut names: Vec<String> = names.collect();
    names.sort();
    (ran, names)
}

fn text(machine: &str) -> String {
    fs::read_to_string(repository().join(file(machine, "lspci"))).unwrap()
}

const FILES: [&str; 3] = ["box-0000-00.board.txt", "box-0000-00.host.txt", "box-0000-00.sheet.txt"];

/// Without -x, without -vv, cut or with a line missing: refused by ID, and nothing is written for that root bus. src/import/edited.rs
/// has all the ways.
#[test]
fn not_read() {
    let whole = text("switch-ovmf");
    let without = |is_out: &dyn Fn(&str) -> bool| -> String {
        whole.lines().filter(|line| !is_out(line)).map(|line| format!("{line}\n")).collect()
    };
    let [iomem, ioports] = ["iomem", "ioports"].map(|ending| file("switch-ovmf", ending));
    let functions = whole.lines().filter(|line| line.as_bytes().get(5) == Some(&b'.')).count();
    assert_eq!(functions, 13);
    for (name, text, words, told) in [
        (
            "no-x",
            without(&|line| line.as_bytes().get(2) == Some(&b':') && !line.contains('.')),
            "none of its 64 bytes",
            13,
        ),
        ("no-vv", without(&|line| line.starts_with('\t')), "its lines of -vv are missing", 13),
        (
            "no-20",
            without(&|line| line.starts_with("20: ")),
            "48 of its 64 bytes are there: the line `20:` is missing",
            13,
        ),
        ("cut", whole[..whole.trim_end().len() - 1].to_string(), "48 of its 64 bytes are there: the line `30:`", 1),
    ] {
        let (ran, names) = edited(name, &text, &[&iomem, &ioports]);
        assert_eq!((ran.status, names.len()), (1, 0), "{name}: {names:?}");
        assert_eq!(ran.error.matches(words).count(), told, "{name}: {}", ran.error);
        assert_eq!(ran.error.matches("`lspci -vvx`, as root").count(), 1, "{name}: {}", ran.error);
        assert!(!String::from_utf8(ran.out).unwrap().contains("accepted"), "{name}");
        // The same to standard output: nothing comes out.
        let ran = run(&["import", "-"], text.as_bytes());
        assert!(ran.out.is_empty() && ran.status == 1 && ran.error.contains(words), "{name}: {}", ran.error);
    }
    let (ran, names) = edited("whole", &whole, &[&iomem, &ioports]);
    assert_eq!((ran.status, &names[..]), (0, &FILES.map(String::from)[..]));
}

/// One that is not read is refused alone where the rest is another root bus, and may be left out. What may be below it is not
/// taken for a root bus.
#[test]
fn one_root_bus_of_two() {
    let whole = text("ports-ovmf");
    let is_header = |line: &str| line.as_bytes().get(5) == Some(&b'.');
    let second: String =
        whole.lines().map(|line| format!("{}{line}\n", if is_header(line) { "0001:" } else { "" })).collect();
    let (ran, names) = edited("two", &format!("{whole}\n{second}"), &[]);
    assert_eq!((ran.status, names.len()), (0, 6), "{}", ran.error);
    let row = "20: 00 00 00 00 00 00 00 00 00 00 00 00 f4 1a 00 11\n";
    let (ran, names) = edited("two-cut", &format!("{}\n{second}", whole.replacen(row, "", 1)), &[]);
    assert_eq!((ran.status, names.len()), (1, 3), "{}", ran.error);
    assert!(names.iter().all(|name| name.starts_with("box-0001-00.")), "{names:?}");
    // A bridge without its bytes: what is below it is no root bus.
    let port = whole.split("\n\n").find(|block| block.starts_with("00:02.0")).unwrap();
    let header = port.lines().next().unwrap();
    let unread = whole.replace(port, header);
    let (ran, names) = edited("bridge", &unread, &[]);
    assert_eq!((ran.status, names.len()), (1, 0), "{}", ran.error);
    assert!(String::from_utf8(ran.out)
        .unwrap()
        .contains("0000:01: refused: it may be below 0000:00:02.0, which is not read"));
    let (ran, names) = edited("bridge-left", &unread, &["--leave-out", "00:02.0"]);
    assert_eq!((ran.status, names.len()), (1, 3), "{}", ran.error);
}

/// Where a bridge is missing, what is below it looks like a root bus: iomem or a boot log tell that it is none.
#[test]
fn a_bridge_is_missing() {
    let whole = text("ports-ovmf");
    let port = whole.split("\n\n").find(|block| block.starts_with("00:02.0")).unwrap();
    let missing = whole.replace(&format!("{port}\n\n"), "");
    for windows in [&["iomem", "ioports"][..], &["dmesg"]] {
        let files: Vec<String> = windows.iter().map(|ending| file("ports-ovmf", ending)).collect();
        let (ran, names) = edited("no-bridge", &missing, &files.iter().map(String::as_str).collect::<Vec<_>>());
        let line = String::from_utf8(ran.out).unwrap();
        assert_eq!((ran.status, names.len()), (1, 0), "{line}{}", ran.error);
        assert!(
            line.contains("0000:01: refused: the bridge to bus 0000:01 is not there, which is no root bus"),
            "{line}"
        );
    }
    let (ran, names) = edited("no-bridge", &missing, &[]);
    assert_eq!(names.len(), 6);
    assert!(ran.error.contains("0000:01: taken for a root bus, since no bridge to it is there"), "{}", ran.error);
}

/// What the user leaves out is told in the line and in every file; with a bridge goes what is below it.
#[test]
fn left_out() {
    let whole = text("ports-ovmf");
    let (ran, names) = edited("left", &whole, &["--leave-out", "00:02.0,0000:00:1f.3", "--leave-out=00:03.0"]);
    let line = String::from_utf8(ran.out).unwrap();
    let ids = ["0000:00:02.0", "0000:00:03.0", "0000:00:1f.3", "0000:01:00.0", "0000:02:00.0"];
    assert!(
        line.starts_with("0000:00: 11 functions, ") && line.contains(&format!("left out: {}: ", ids.join(", "))),
        "{line}"
    );
    for name in &names {
        let text = fs::read_to_string(folder("edited-left").join(name)).unwrap();
        assert!(ids.iter().all(|id| text.contains(&format!("# left out by --leave-out: {id} "))), "{name}: {text}");
    }
    let sheet = Sheet::new(sheet_of(&folder("edited-left").join("box-0000-00"))).unwrap();
    assert_eq!((names.len(), sheet.functions().len()), (3, 11));
    for wrong in ["00:17.0", "0001:00:02.0", "2.0", ""] {
        let (ran, names) = edited("left-wrong", &whole, &["--leave-out", wrong]);
        assert_eq!((ran.status, names.len()), (2, 0), "{wrong}");
        assert!(ran.error.contains(&format!("--leave-out {wrong}: ")), "{wrong}: {}", ran.error);
    }
}

/// Intel's management engine has a memory BAR of 16 bytes, which no sheet may have: it is told, and the pools stay.
#[test]
fn a_small_memory_bar() {
    let engine = "00:16.0 Communication controller: Intel Corporation 82Q35 Express HECI Controller\n\
                  \tRegion 0: Memory at c0c47000 (64-bit, non-prefetchable) [size=16]\n\
                  00: 86 80 b4 29 06 00 10 00 02 00 80 07 00 00 00 00\n\
                  10: 04 70 c4 c0 00 00 00 00 00 00 00 00 00 00 00 00\n\
                  20: 00 00 00 00 00 00 00 00 00 00 00 00 86 80 00 00\n\
                  30: 00 00 00 00 50 00 00 00 00 00 00 00 0b 01 00 00\n\n";
    let whole = text("ports-ovmf");
    let with_engine = whole.replace("00:1f.0 ", &format!("{engine}00:1f.0 "));
    let [iomem, ioports] = ["iomem", "ioports"].map(|ending| file("ports-ovmf", ending));
    for windows in [&[][..], &[&iomem[..], &ioports]] {
        let hosts = [(&whole, "no-engine"), (&with_engine, "engine")].map(|(text, name)| {
            let (ran, names) = edited(name, text, windows);
            let first = |file: &str| {
                let text = fs::read_to_string(folder(&format!("edited-{name}")).join(file)).unwrap();
                text.lines().next().unwrap().to_string()
            };
            assert_eq!(names, FILES, "{}", ran.error);
            (first(FILES[0]), first(FILES[1]), ran.status, ran.error)
        });
        assert_eq!((&hosts[0].0, &hosts[0].1), (&hosts[1].0, &hosts[1].1));
        assert_eq!((hosts[0].2, hosts[1].2), (0, 1));
        let told = "0000:00:16.0 BAR 0: 16 bytes, and a memory BAR has at least 128";
        assert_eq!(hosts[1].3.matches(told).count(), 1, "{}", hosts[1].3);
        let (ran, _) = edited("engine", &with_engine, &[windows, &["--leave-out", "00:16.0"]].concat());
        assert_eq!(ran.status, 0, "{}", ran.error);
    }
}

/// Without root windows the pools are as tight as what is used; the host's line says so, and `plan` says it again where they are
/// too small. Zeros, which are for who is not root, are told once.
#[test]
fn tight_pools() {
    let mut refused = 0;
    for machine in machines() {
        let (_, start) = imported(&format!("{machine}-tight"), &[&file(&machine, "lspci")]);
        for ending in ["host.txt", "board.txt"] {
            let text = fs::read_to_string(with(&start, ending)).unwrap();
            let host = text.lines().next().unwrap();
            assert!(
                host.contains(" # the pools are as tight as what is used; /proc/iomem and /proc/ioports"),
                "{host}"
            );
        }
        let plan = run(&["plan", &with(&start, "board.txt")], b"");
        let text = String::from_utf8(plan.out).unwrap();
        let is_short = ["refused 31", "refused 32", "refused 33"].iter().any(|start| text.starts_with(start));
        assert_eq!(is_short, plan.status == 1, "{machine}: {text}");
        assert_eq!(
            text.contains("the host's line says: the pools are as tight as what is used"),
            is_short,
            "{machine}: {text}"
        );
        refused += u32::from(is_short);
        if is_short {
            let json = String::from_utf8(run(&["plan", &with(&start, "board.txt"), "--json"], b"").out).unwrap();
            assert!(json.contains("\"host_comment\":"), "{json}");
        }
        let windows = ["iomem", "ioports"].map(|ending| file(&machine, ending));
        let (_, known) = imported(&format!("{machine}-known"), &[&file(&machine, "lspci"), &windows[0], &windows[1]]);
        let host = fs::read_to_string(with(&known, "host.txt")).unwrap();
        // With pci=nocrs iomem names no root bus.
        assert_eq!(host.contains('#'), machine.ends_with("-realloc"), "{machine}: {host}");
    }
    assert!(refused > 0);
    let zeros: String = ["iomem", "ioports"]
        .map(|ending| fs::read_to_string(repository().join(file("ports-ovmf", ending))).unwrap())
        .concat()
        .lines()
        .map(|line| {
            let (range, name) = line.split_once(" : ").unwrap();
            let zero = |letter: char| if letter.is_ascii_hexdigit() { '0' } else { letter };
            format!("{} : {name}\n", range.chars().map(zero).collect::<String>())
        })
        .collect();
    let (ran, _) = edited("zeros", &format!("{}\n{zeros}", text("ports-ovmf")), &[]);
    assert_eq!(ran.error.matches("zeros for addresses, as who is not root sees them").count(), 1, "{}", ran.error);
    // I/O alone is known.
    let (ran, _) = edited("no-iomem", &text("ports-ovmf"), &[&file("ports-ovmf", "ioports")]);
    assert!(ran.error.contains("the memory pools are as tight as what is used; /proc/iomem,"), "{}", ran.error);
}

/// No word, and the exit status: of the audit's verdict, and of what is not read.
#[test]
fn quiet() {
    for (machine, status) in [("ports-ovmf", 0), ("ports-seabios", 1)] {
        let (ran, names) = edited("quiet", &text(machine), &["--quiet"]);
        assert_eq!((ran.status, ran.out.len(), &ran.error[..], names.len()), (status, 0, "", 3), "{machine}");
        let [sheet, host] =
            ["sheet.txt", "host.txt"].map(|ending| with(&folder("edited-quiet").join("box-0000-00"), ending));
        let ran = run(&["audit", &sheet, "--host", &host, "--quiet"], b"");
        assert_eq!((ran.status, ran.out.len(), &ran.error[..]), (status, 0, ""), "{machine}");
    }
    let (ran, names) = edited("quiet", &text("ports-ovmf").replacen("30: ", "3: ", 1), &["--quiet"]);
    assert_eq!((ran.status, ran.out.len(), &ran.error[..], names.len()), (1, 0, "", 0));
}

/// A sheet's text says how many functions it has: cut anywhere, no audit takes it for whole.
#[test]
fn a_sheet_that_is_cut() {
    let (_, start) = imported("cut-sheet", &[&file("hotplug-ovmf", "lspci")]);
    let text = fs::read_to_string(with(&start, "sheet.txt")).unwrap();
    let cut = folder("import").join("cut.sheet.txt");
    let host = with(&start, "host.txt");
    for (length, _) in text.match_indices('\n').filter(|(at, _)| at + 1 < text.len()) {
        fs::write(&cut, &text[..length]).unwrap();
        let ran = run(&["audit", cut.to_str().unwrap(), "--host", &host], b"");
        assert_eq!(ran.status, 2, "{length}: {}", String::from_utf8_lossy(&ran.out));
        assert!(ran.error.contains("it is cut, or was changed"), "{}", ran.error);
    }
}
