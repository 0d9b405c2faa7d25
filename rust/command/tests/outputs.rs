//! What a call writes is whole or not there: its files all or none, over no input and over no other output, under whatever name;
//! and nothing is left beside them.

mod run;

use run::{command, run, Ran};
use std::fs::{self, File, Permissions};
use std::io::Read;
use std::os::unix::fs::{symlink, FileTypeExt, MetadataExt, PermissionsExt};
use std::path::{Path, PathBuf};
use std::process::{Command, Stdio};
use std::thread;
use std::time::Duration;

const BOARD: &str = "tests/command/recorder.txt";
const OLD: &[u8] = b"as it was";

/// An empty folder of a test.
fn folder(name: &str) -> PathBuf {
    let folder = run::folder("outputs").join(name);
    let _ = fs::remove_dir_all(&folder);
    fs::create_dir_all(&folder).unwrap();
    folder
}

/// The names in a folder, in order.
fn names(folder: &Path) -> Vec<String> {
    let all = fs::read_dir(folder).unwrap().map(|entry| entry.unwrap().file_name().into_string().unwrap());
    let mut names: Vec<String> = all.collect();
    names.sort();
    names
}

/// Runs in a folder, which has the recorder's board as board.txt.
fn run_in(folder: &Path, arguments: &[&str]) -> Ran {
    fs::copy(run::repository().join(BOARD), folder.join("board.txt")).unwrap();
    let output = command(arguments).current_dir(folder).stdin(Stdio::null()).output().unwrap();
    let error = String::from_utf8(output.stderr).unwrap();
    Ran { status: output.status.code().unwrap(), out: output.stdout, error }
}

fn refused(folder: &Path, arguments: &[&str], why: &str) {
    let before = contents(folder);
    let ran = run_in(folder, arguments);
    assert_eq!((ran.status, ran.out.len()), (2, 0), "{arguments:?}");
    assert!(ran.error.contains(why), "{arguments:?}: {}", ran.error);
    assert_eq!(contents(folder), before, "{arguments:?}");
}

fn contents(folder: &Path) -> Vec<(String, Vec<u8>)> {
    fs::copy(run::repository().join(BOARD), folder.join("board.txt")).unwrap();
    names(folder).into_iter().map(|name| (name.clone(), fs::read(folder.join(&name)).unwrap_or_default())).collect()
}

/// The board by every spelling of its name.
#[test]
fn over_an_input() {
    let folder = folder("input");
    fs::copy(run::repository().join(BOARD), folder.join("board.txt")).unwrap();
    symlink("board.txt", folder.join("link")).unwrap();
    symlink("link", folder.join("link-to-link")).unwrap();
    fs::create_dir(folder.join("sub")).unwrap();
    symlink("..", folder.join("sub/up")).unwrap();
    let whole = folder.join("board.txt");
    let same = ["board.txt", "./board.txt", "sub/../board.txt", "link", "link-to-link", "sub/up/board.txt"];
    for name in same.into_iter().chain([whole.to_str().unwrap()]) {
        for option in ["--sheet", "--script", "--svg"] {
            refused(&folder, &["plan", "board.txt", option, name], "which is read");
            refused(&folder, &["plan", name, option, "board.txt"], "which is read");
        }
        refused(&folder, &["convert", "board.txt", "--out", name], "which is read");
    }
    fs::remove_file(folder.join("link")).unwrap();
    fs::hard_link(&whole, folder.join("hard")).unwrap();
    refused(&folder, &["plan", "board.txt", "--sheet", "hard"], "--sheet hard is board.txt, which is read");
    // Standard input is a file too.
    let mut from_file = command(&["plan", "-", "--sheet", "board.txt"]);
    let output = from_file.current_dir(&folder).stdin(File::open(&whole).unwrap()).output().unwrap();
    assert_eq!(output.status.code(), Some(2));
    assert!(String::from_utf8(output.stderr).unwrap().contains("standard input, which is read"));
    // An import's own text.
    let machine = run::repository().join("tests/command/linux/switch-linux.lspci");
    fs::copy(machine, folder.join("box-0000-00.host.txt")).unwrap();
    refused(&folder, &["import", "box-0000-00.host.txt", "--out", "box"], "which is read");
}

/// Two options with one file, there or not yet.
#[test]
fn over_another_output() {
    let folder = folder("output");
    fs::create_dir(folder.join("sub")).unwrap();
    symlink("x", folder.join("link")).unwrap();
    for other in ["x", "./x", "sub/../x", "link"] {
        refused(&folder, &["plan", "board.txt", "--sheet", "x", "--script", other], "are one place");
        refused(&folder, &["plan", "board.txt", "--svg", other, "--sheet", "x"], "are one place");
    }
    fs::write(folder.join("x"), OLD).unwrap();
    fs::hard_link(folder.join("x"), folder.join("hard")).unwrap();
    for other in ["x", "./x", "sub/../x", "link", "hard"] {
        refused(&folder, &["plan", "board.txt", "--sheet", "x", "--script", other], "are one place");
    }
    for [one, other] in [["-", "-"], ["-", "/dev/stdout"], ["/dev/stdout", "/dev/fd/1"], ["/proc/self/fd/1", "-"]] {
        refused(&folder, &["plan", "board.txt", "--sheet", one, "--script", other], "are one place");
    }
    // What is thrown away may be thrown away twice.
    assert_eq!(run_in(&folder, &["plan", "board.txt", "--sheet", "/dev/null", "--script", "/dev/null"]).status, 0);
}

/// Standard output that goes into a file of the call.
#[test]
fn over_standard_output() {
    let folder = folder("standard-output");
    fs::copy(run::repository().join(BOARD), folder.join("board.txt")).unwrap();
    let into = |file: &str, arguments: &[&str]| {
        let file = File::options().append(true).create(true).open(folder.join(file)).unwrap();
        let output = command(arguments).current_dir(&folder).stdin(Stdio::null()).stdout(file).output().unwrap();
        (output.status.code(), String::from_utf8(output.stderr).unwrap())
    };
    let (status, error) = into("x", &["plan", "board.txt", "--sheet", "x"]);
    assert!(status == Some(2) && error.contains("where standard output goes"), "{error}");
    let sheet = run::repository().join("tests/audit/ovmf-overlap.sheet");
    for arguments in [&["show", "board.txt"][..], &["audit", sheet.to_str().unwrap(), "--host", "./board.txt"]] {
        let (status, error) = into("board.txt", arguments);
        assert!(status == Some(2) && error.contains("standard output goes into it"), "{error}");
    }
    assert_eq!(fs::read(folder.join("x")).unwrap(), b"");
    let board = fs::read(run::repository().join(BOARD)).unwrap();
    assert_eq!(fs::read(folder.join("board.txt")).unwrap(), board);
}

/// A second file that cannot be written: the first is not there, and one that was there is unchanged.
#[test]
fn all_or_none() {
    let folder = folder("all-or-none");
    fs::create_dir(folder.join("sub")).unwrap();
    for bad in ["no-such-folder/x", "sub", "sub/", "", "board.txt/x", "/dev/full"] {
        for [good, bad_one] in [["--sheet", "--script"], ["--script", "--sheet"], ["--svg", "--sheet"]] {
            refused(&folder, &["plan", "board.txt", good, "good", bad_one, bad], "no file is written");
            assert_eq!(names(&folder), ["board.txt", "sub"]);
            fs::write(folder.join("good"), OLD).unwrap();
            refused(&folder, &["plan", "board.txt", good, "good", bad_one, bad], "no file is written");
            assert_eq!(
                (names(&folder), fs::read(folder.join("good")).unwrap()),
                (vec!["board.txt".to_string(), "good".into(), "sub".into()], OLD.to_vec())
            );
            fs::remove_file(folder.join("good")).unwrap();
        }
    }
    // One of an import's three.
    fs::create_dir(folder.join("box-0000-00.board.txt")).unwrap();
    let lspci = run::repository().join("tests/command/linux/switch-linux.lspci");
    refused(&folder, &["import", lspci.to_str().unwrap(), "--out", "box"], "no file is written");
    assert_eq!(names(&folder), ["board.txt", "box-0000-00.board.txt", "sub"]);
    // Standard output that fails.
    let output = command(&["plan", "board.txt", "--sheet", "x"])
        .current_dir(&folder)
        .stdout(File::create("/dev/full").unwrap())
        .output();
    assert_eq!(output.unwrap().status.code(), Some(2));
    assert_eq!(names(&folder), ["board.txt", "box-0000-00.board.txt", "sub"]);
}

/// A disk with room for one file of two, in words and with the file's name. Where no disk can be mounted, `all_or_none` has /dev/full.
#[test]
fn a_full_disk() {
    let folder = folder("disk");
    let mount = |arguments: &[&str]| {
        Command::new(arguments[0])
            .args(&arguments[1..])
            .arg(&folder)
            .output()
            .is_ok_and(|output| output.status.success())
    };
    if !mount(&["mount", "-t", "tmpfs", "-o", "size=16k", "tmpfs"]) {
        println!("no disk can be mounted");
        return;
    }
    fs::write(folder.join("x.txt"), OLD).unwrap();
    // A board of four pages is left out: it is read from elsewhere.
    let board = run::repository().join(BOARD);
    let text = fs::read_to_string(&board).unwrap();
    let [sheet, svg] = ["x.txt", "y.svg"].map(|name| folder.join(name).to_str().unwrap().to_string());
    fs::write(folder.join("filler"), vec![0; 8 << 10]).unwrap();
    let ran = run(&["plan", "-", "--sheet", &sheet, "--svg", &svg], text.as_bytes());
    let left = (names(&folder), fs::read(folder.join("x.txt")).unwrap());
    assert!(mount(&["umount"]));
    assert_eq!((ran.status, ran.out.len()), (2, 0), "{}", ran.error);
    assert!(
        ran.error.contains("the disk is full") && ran.error.contains(&folder.to_str().unwrap()[..]),
        "{}",
        ran.error
    );
    assert_eq!(left, (vec!["filler".to_string(), "x.txt".into()], OLD.to_vec()));
}

/// An old file keeps its permissions and its links, gets the new bytes, and nothing stays beside it.
#[test]
fn over_an_old_file() {
    let folder = folder("old");
    for name in ["x", "y"] {
        fs::write(folder.join(name), OLD).unwrap();
        fs::set_permissions(folder.join(name), Permissions::from_mode(0o640)).unwrap();
    }
    symlink("x", folder.join("link")).unwrap();
    symlink("new", folder.join("to-nothing")).unwrap();
    assert_eq!(
        run_in(&folder, &["plan", "board.txt", "--sheet", "link", "--script", "y", "--svg", "to-nothing"]).status,
        0
    );
    assert_eq!(names(&folder), ["board.txt", "link", "new", "to-nothing", "x", "y"]);
    assert!(fs::symlink_metadata(folder.join("link")).unwrap().is_symlink());
    for name in ["x", "y"] {
        assert_eq!(fs::metadata(folder.join(name)).unwrap().mode() & 0o7777, 0o640, "{name}");
        assert_ne!(fs::read(folder.join(name)).unwrap(), OLD, "{name}");
    }
    let again = run_in(&folder, &["show", "x"]);
    assert_eq!((again.status, again.error.as_str()), (0, ""));
}

/// What is no file stays what it is, and gets the bytes: a device, a pipe with a name.
#[test]
fn through() {
    let folder = folder("through");
    assert_eq!(run_in(&folder, &["plan", "board.txt", "--sheet", "/dev/null"]).status, 0);
    assert!(fs::metadata("/dev/null").unwrap().file_type().is_char_device());
    refused(&folder, &["plan", "board.txt", "--sheet", "/dev/full"], "/dev/full: the disk is full");
    assert!(fs::metadata("/dev/full").unwrap().file_type().is_char_device());
    let pipe = folder.join("pipe");
    if Command::new("mkfifo").arg(&pipe).status().is_ok_and(|status| status.success()) {
        let path = pipe.clone();
        let reader = thread::spawn(move || fs::read(path).unwrap());
        assert_eq!(run_in(&folder, &["plan", "board.txt", "--sheet", "pipe", "--script", "x"]).status, 0);
        assert!(cartsundial::check(&reader.join().unwrap()).is_ok());
        assert!(fs::metadata(&pipe).unwrap().file_type().is_fifo());
        assert_eq!(names(&folder), ["board.txt", "pipe", "x"]);
    }
}

/// A call that is stopped while it waits for a pipe's reader leaves everything as it was.
#[test]
fn stopped() {
    let folder = folder("stopped");
    fs::copy(run::repository().join(BOARD), folder.join("board.txt")).unwrap();
    fs::write(folder.join("x"), OLD).unwrap();
    if !Command::new("mkfifo").arg(folder.join("pipe")).status().is_ok_and(|status| status.success()) {
        return;
    }
    let mut waiting = command(&["plan", "board.txt", "--sheet", "x", "--script", "pipe"]);
    let mut waiting = waiting.current_dir(&folder).stdin(Stdio::null()).spawn().unwrap();
    thread::sleep(Duration::from_millis(300));
    assert!(waiting.try_wait().unwrap().is_none());
    waiting.kill().unwrap();
    waiting.wait().unwrap();
    assert_eq!(names(&folder), ["board.txt", "pipe", "x"]);
    assert_eq!(fs::read(folder.join("x")).unwrap(), OLD);
}

/// `-` has the bytes of the file, and nothing else; a refusal goes to standard error.
#[test]
fn standard_output() {
    let folder = folder("dash");
    assert_eq!(
        run_in(&folder, &["plan", "board.txt", "--sheet", "sheet", "--script", "script", "--svg", "svg"]).status,
        0
    );
    for [option, file] in [["--sheet", "sheet"], ["--script", "script"], ["--svg", "svg"]] {
        for name in ["-", "/dev/stdout", "/dev/fd/1"] {
            let ran = run_in(&folder, &["plan", "board.txt", option, name]);
            let wanted = fs::read(folder.join(file)).unwrap();
            assert!((ran.status, &ran.out, ran.error.as_str()) == (0, &wanted, ""), "{option} {name}");
        }
        refused(&folder, &["plan", "board.txt", option, "-", "--json"], "to standard output");
    }
    let full = run(&["plan", "tests/command/full.txt", "--sheet", "-"], b"");
    assert_eq!((full.status, full.out.len()), (1, 0));
    assert!(full.error.starts_with("refused 31"));
    let bytes = run_in(&folder, &["convert", "board.txt", "--out", "-"]).out;
    assert_eq!(bytes, run_in(&folder, &["convert", "board.txt"]).out);
    assert_eq!(bytes, fs::read(run::repository().join("docs/example/board")).unwrap());
    let lspci = run::repository().join("tests/command/linux/switch-linux.lspci");
    let [alone, dash] = [&["import"][..], &["import", "--out", "-"]]
        .map(|front| run_in(&folder, &[front, &[lspci.to_str().unwrap()]].concat()));
    assert!(alone.out == dash.out && alone.status == dash.status);
}

/// A reader that has seen enough is no failure, and the verdict stays what it is.
#[test]
fn reader_that_ends_early() {
    for (arguments, status) in [
        (&["plan", BOARD][..], 0),
        (&["plan", "tests/command/full.txt"], 1),
        (&["audit", BOARD], 0),
        (&["audit", "tests/audit/ovmf-overlap.sheet", "--host", "tests/audit/ovmf-overlap.host"], 1),
        (&["route", BOARD, "20000001 0000030F 00000002 48001000"], 0),
        (&["decode", "05000001 0000010F 03000000"], 0),
        (&["decode", "docs/example/trace", "--json"], 1),
        (&["diff", BOARD, "tests/command/recorder-changed.txt"], 1),
        (&["import", "tests/command/linux/deep-ovmf.lspci", "--json", "--quiet"], 0),
        (&["completions", "bash"], 0),
        (&["label", BOARD, "docs/example/trace"], 0),
        (&["label", BOARD, "docs/example/trace", "--names"], 0),
        (&["ledger", "docs/example/requests"], 1),
        (&["show", BOARD], 0),
        (&["convert", BOARD], 0),
        (&["export", BOARD], 0),
        (&["--help"], 0),
        (&["--version"], 0),
    ] {
        // A pipe whose reading end is gone before anything is written.
        let mut closed = Command::new("true").stdin(Stdio::piped()).spawn().unwrap();
        let pipe = closed.stdin.take().unwrap();
        closed.wait().unwrap();
        let output = command(arguments).stdin(Stdio::null()).stdout(pipe).output().unwrap();
        assert_eq!((output.status.code(), &output.stderr[..]), (Some(status), &b""[..]), "{arguments:?}");
    }
}

/// A long trace's lines to `head`: it ends soon, and quietly.
#[test]
fn label_to_head() {
    let folder = folder("head");
    let trace = [&[1][..], &b"\0\x0c\0\0\0\x01\0\0\x05\x0f\xf8\x11\0\0".repeat(400_000)].concat();
    fs::write(folder.join("trace"), trace).unwrap();
    let arguments = ["label", BOARD, folder.join("trace").to_str().unwrap()].map(String::from);
    let mut child = command(&arguments.each_ref().map(String::as_str)).spawn().unwrap();
    let mut front = [0; 40];
    child.stdout.take().unwrap().read_exact(&mut front).unwrap();
    let output = child.wait_with_output().unwrap();
    assert_eq!((output.status.code(), &output.stderr[..]), (Some(0), &b""[..]));
}

/// On a terminal, which `script` makes, bytes are refused with a word what to do, and text is shown.
#[test]
fn no_bytes_for_a_terminal() {
    let folder = folder("terminal");
    fs::copy(run::repository().join(BOARD), folder.join("board.txt")).unwrap();
    let program = env!("CARGO_BIN_EXE_cartsundial");
    let at_terminal = |arguments: &str| {
        let line = format!("'{program}' {arguments}");
        let output = Command::new("script")
            .args(["-qec", &line, "/dev/null"])
            .current_dir(&folder)
            .stdin(Stdio::null())
            .output();
        output.map(|output| (output.status.code(), output.stdout))
    };
    let Ok(shown) = at_terminal("convert board.txt --text") else {
        println!("no terminal can be made: no script");
        return;
    };
    assert!(shown.0 == Some(0) && shown.1.windows(6).any(|word| word == b"bridge"));
    for arguments in ["convert board.txt", "plan board.txt --sheet -", "plan board.txt --script x --sheet /dev/tty"] {
        let (status, shown) = at_terminal(arguments).unwrap();
        let shown = String::from_utf8(shown).unwrap();
        assert!(status == Some(2) && shown.contains("a terminal gets no raw bytes"), "{arguments}: {status:?} {shown}");
        assert_eq!(names(&folder), ["board.txt"], "{arguments}");
    }
    let (status, shown) = at_terminal("plan board.txt --svg -").unwrap();
    assert!(status == Some(0) && shown.starts_with(b"<svg"));
}
