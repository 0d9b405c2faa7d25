//! Whole programs on a million headers, from bytes to lines on standard output, by processor time: `label` and `annotate` as
//! they are installed, the yardstick's program, and this one as a caller of the library; over sheets that firmware left the
//! command too. Build with `--profile lto`, and the yardstick's program with it; the command with `--release`, as `make` does.

use crate::measure::median;
use crate::subjects::planned;
use crate::table;
use inputs::{labels, trace};
use std::env;
use std::ffi::OsString;
use std::fs::{self, File};
use std::io::Read;
use std::path::{Path, PathBuf};
use std::process::{self, Command, Stdio};

/// Functions of a sheet, and the bridges above the deepest of them.
const SHEETS: [(usize, usize); 4] = [(16, 8), (256, 16), (512, 16), (512, 32)];

/// Of tests/audit: the audit refuses them by 51, and every address has one owner.
const LEFT_BY_FIRMWARE: [(&str, &str); 2] = [("seabios-one-bridge", "6, depth 1"), ("seabios-deep-16", "29, depth 16")];

const HEADERS: usize = 1_000_000;

/// How many times each program runs, in turn.
const ROUNDS: usize = 10;

/// What this program is called with to label standard input itself.
pub const BY_CALL: &str = "through-cartsundial_label";
pub const BY_LABELLER: &str = "through-labeller";
pub const ALONE: &str = "through-labeller-alone";

pub fn print() {
    let folder = env::temp_dir().join(format!("cartsundial-bench-{}", process::id()));
    fs::create_dir_all(&folder).expect("a folder for the input");
    let files = Files::new(&folder);
    let programs = for_accepted(&files);
    head("sheet", &programs);
    for (functions, depth) in SHEETS {
        let board = labels::board(functions, depth);
        files.write(&board.host(), &planned(&board.bytes()));
        row(&format!("{functions}, depth {depth}"), &programs, &files);
    }
    let programs = for_sound(&files);
    head("sheet that SeaBIOS left", &programs);
    for (name, shape) in LEFT_BY_FIRMWARE {
        let read = |end| fs::read(in_repository("tests/audit").join(name).with_extension(end)).expect("it is there");
        files.write(&read("host"), &read("sheet"));
        row(shape, &programs, &files);
    }
    fs::remove_dir_all(&folder).expect("the folder is removed");
}

/// What the programs read: a sheet and a trace, by themselves, one after the other, and after a host record.
struct Files {
    sheet: PathBuf,
    trace: PathBuf,
    input: PathBuf,
    with_host: PathBuf,
    /// What a program printed.
    lines: PathBuf,
}

impl Files {
    fn new(folder: &Path) -> Files {
        let [sheet, trace, input, with_host, lines] =
            ["sheet", "trace", "input", "with-host", "lines"].map(|name| folder.join(name));
        Files { sheet, trace, input, with_host, lines }
    }

    /// With headers for that sheet.
    fn write(&self, host: &[u8], sheet: &[u8]) {
        let headers = labels::headers(sheet, HEADERS);
        let trace = trace::of(&headers.iter().map(|header| &header[..length(header)]).collect::<Vec<_>>());
        let input = trace::input(sheet, &trace);
        let with_host = [host, &input].concat();
        let files = [(&self.sheet, sheet), (&self.trace, &trace), (&self.input, &input), (&self.with_host, &with_host)];
        files.iter().for_each(|(path, bytes)| fs::write(path, bytes).expect("the input is written"));
    }
}

struct Program {
    name: &'static str,
    path: PathBuf,
    arguments: Vec<OsString>,
    /// On standard input.
    input: PathBuf,
}

impl Program {
    fn new(name: &'static str, path: &Path, input: &Path) -> Program {
        assert!(
            path.is_file(),
            "{} is missing: `.ci/build label annotate`, `cargo build --profile lto`, `cargo build --release -p command`",
            path.display()
        );
        Program { name, path: path.into(), arguments: Vec::new(), input: input.into() }
    }

    fn with(mut self, arguments: &[&Path]) -> Program {
        self.arguments.extend(arguments.iter().map(|argument| argument.into()));
        self
    }
}

/// The yardstick first.
fn for_accepted(files: &Files) -> Vec<Program> {
    let here = env::current_exe().expect("this program's path");
    let host = &files.with_host;
    vec![
        yardstick(files),
        Program::new("`label`", &installed("label"), host),
        Program::new("`cartsundial_label`, pieces of 16 KiB", &here, host).with(&[BY_CALL.as_ref()]),
        Program::new("Rust's `Labeller` by an index", &here, host).with(&[BY_LABELLER.as_ref()]),
        walks(files),
    ]
}

fn for_sound(files: &Files) -> Vec<Program> {
    let here = env::current_exe().expect("this program's path");
    let command = in_repository("rust/target/release/cartsundial");
    vec![
        yardstick(files),
        Program::new("`cartsundial label SHEET TRACE`", &command, Path::new("/dev/null")).with(&[
            "label".as_ref(),
            &files.sheet,
            &files.trace,
        ]),
        Program::new("Rust's `Labeller` by `Index::alone`", &here, &files.input).with(&[ALONE.as_ref()]),
        walks(files),
    ]
}

fn yardstick(files: &Files) -> Program {
    let path = env::current_exe().expect("this program's path").with_file_name("yardstick");
    Program::new("yardstick", &path, &files.with_host)
}

fn walks(files: &Files) -> Program {
    Program::new("`annotate`, which walks", &installed("annotate"), &files.input)
}

fn installed(name: &str) -> PathBuf {
    in_repository("target/bin").join(name)
}

fn in_repository(path: &str) -> PathBuf {
    Path::new(env!("CARGO_MANIFEST_DIR")).join("../..").join(path)
}

fn head(first: &str, programs: &[Program]) {
    table::head(first, &programs.iter().map(|program| program.name.into()).collect::<Vec<String>>());
}

fn row(name: &str, programs: &[Program], files: &Files) {
    let lines = programs[0].lines(files);
    assert_eq!(lines.iter().filter(|&&byte| byte == b'\n').count(), HEADERS);
    programs.iter().for_each(|program| assert!(program.lines(files) == lines, "{}", program.name));

    let mut times = vec![Vec::new(); programs.len()];
    for _ in 0..ROUNDS {
        for (program, times) in programs.iter().zip(&mut times) {
            times.push(program.time() / HEADERS as f64);
        }
    }
    let medians: Vec<f64> = times.into_iter().map(median).collect();
    let cells: Vec<String> = medians.iter().map(|&time| table::beside(time, medians[0])).collect();
    table::row(name, &cells);
}

/// Of a header, without the zeros after it.
fn length(header: &[u8; 16]) -> usize {
    if header[0] & 0x20 == 0 {
        12
    } else {
        16
    }
}

impl Program {
    fn command(&self) -> Command {
        let mut command = Command::new(&self.path);
        command.args(&self.arguments).stdin(File::open(&self.input).expect("the input is there"));
        command
    }

    /// What it prints.
    fn lines(&self, files: &Files) -> Vec<u8> {
        let out = File::create(&files.lines).expect("a file for the lines");
        let status = self.command().stdout(out).status().expect("the program starts");
        assert!(status.success(), "{}", self.name);
        fs::read(&files.lines).expect("the lines are there")
    }

    /// Its processor time in nanoseconds, which the kernel has until the process is waited for: that of the first thread, and
    /// none of the programs starts another.
    fn time(&self) -> f64 {
        let mut command = self.command();
        let mut child = command.stdout(Stdio::null()).stderr(Stdio::piped()).spawn().expect("the program starts");
        // Nothing is written there. It closes when the program ends.
        let mut errors = String::new();
        child.stderr.take().expect("a pipe").read_to_string(&mut errors).expect("the program ends");
        assert_eq!(errors, "", "{}", self.name);
        let about = |what: &str| fs::read_to_string(format!("/proc/{}/{what}", child.id())).expect("Linux");
        while !about("stat").contains(") Z ") {}
        let time = about("schedstat").split(' ').next().and_then(|time| time.parse().ok()).expect("nanoseconds first");
        assert!(child.wait().expect("it has ended").success(), "{}", self.name);
        time
    }
}
