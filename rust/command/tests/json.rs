//! What `--json` prints is JSON, a line each, and its members are those of the table in docs/COMMAND.md: none is missing there, and
//! none is there that does not come out.

mod run;

use run::{folder, repository, run};
use std::collections::BTreeSet;
use std::fs;
use std::iter::Peekable;
use std::str::Chars;

/// Reads a value, and gathers the names of members at any depth.
struct Reader<'a> {
    rest: Peekable<Chars<'a>>,
    names: &'a mut BTreeSet<String>,
}

impl Reader<'_> {
    fn space(&mut self) {
        while self.rest.next_if(|letter| letter.is_ascii_whitespace()).is_some() {}
    }

    fn expect(&mut self, letter: char) {
        self.space();
        assert_eq!(self.rest.next(), Some(letter));
    }

    fn is_next(&mut self, letter: char) -> bool {
        self.space();
        self.rest.next_if_eq(&letter).is_some()
    }

    fn text(&mut self) -> String {
        let mut text = String::new();
        loop {
            match self.rest.next().expect("a text ends") {
                '"' => return text,
                '\\' => match self.rest.next().unwrap() {
                    'u' => {
                        let digits: String = (0..4).map(|_| self.rest.next().unwrap()).collect();
                        text.push(char::from_u32(u32::from_str_radix(&digits, 16).unwrap()).unwrap());
                    }
                    letter @ ('"' | '\\' | '/') => text.push(letter),
                    letter => assert!("bfnrt".contains(letter), "\\{letter}"),
                },
                letter => {
                    assert!(letter >= ' ', "{letter:?}");
                    text.push(letter);
                }
            }
        }
    }

    /// `is_named` where the members' names are words of the documents, not of a header.
    fn value(&mut self, is_named: bool) {
        self.space();
        match self.rest.next().expect("a value") {
            '"' => drop(self.text()),
            '{' if self.is_next('}') => {}
            '{' => loop {
                self.expect('"');
                let name = self.text();
                self.expect(':');
                self.value(is_named && name != "words");
                if is_named {
                    self.names.insert(name);
                }
                if !self.is_next(',') {
                    return self.expect('}');
                }
            },
            '[' if self.is_next(']') => {}
            '[' => loop {
                self.value(is_named);
                if !self.is_next(',') {
                    return self.expect(']');
                }
            },
            first => {
                let mut word = first.to_string();
                while let Some(letter) = self.rest.next_if(|letter| letter.is_ascii_alphanumeric()) {
                    word.push(letter);
                }
                assert!(["null", "true", "false"].contains(&&word[..]) || word.parse::<u64>().is_ok(), "{word}");
            }
        }
    }
}

/// The members that these runs print, each line of which is an object.
fn members(runs: &[&str]) -> BTreeSet<String> {
    let mut names = BTreeSet::new();
    for arguments in runs {
        let ran = run(&arguments.split(' ').collect::<Vec<_>>(), b"");
        assert!(ran.status < 2, "{arguments}: {}", ran.error);
        let text = String::from_utf8(ran.out).unwrap();
        assert!(text.ends_with('\n'), "{arguments}");
        for line in text.lines() {
            assert!(line.starts_with('{'), "{arguments}: {line}");
            let mut reader = Reader { rest: line.chars().peekable(), names: &mut names };
            reader.value(true);
            assert_eq!(reader.rest.next(), None, "{arguments}: {line}");
        }
    }
    names
}

/// The words between back quotes of the table's row, but options.
fn documented(subcommand: &str) -> BTreeSet<String> {
    let text = fs::read_to_string(repository().join("docs/COMMAND.md")).unwrap();
    let (_, table) = text.split_once("\n## JSON\n").unwrap();
    let start = format!("| `{subcommand}` | ");
    let row =
        table.lines().find_map(|line| line.strip_prefix(&start)).unwrap_or_else(|| panic!("{subcommand}: no row"));
    let words = row.split('`').skip(1).step_by(2);
    words.filter(|word| !word.starts_with("--")).map(String::from).collect()
}

fn compare(subcommand: &str, runs: &[&str]) {
    let runs: Vec<String> = runs.iter().map(|run| format!("{subcommand} {run} --json")).collect();
    let runs: Vec<&str> = runs.iter().map(String::as_str).collect();
    assert_eq!(members(&runs), documented(subcommand), "{subcommand}");
}

#[test]
fn of_plans() {
    let boards = ["recorder", "full", "closed", "gap", "order"].map(|name| format!("tests/command/{name}.txt"));
    let tight = folder("json").join("tight.txt");
    fs::write(&tight, "host buses 00-0F low E0000000+1M # as tight as what is used\ncard 00.0 mem32 2M\n").unwrap();
    let all: Vec<&str> = boards.iter().map(String::as_str).chain([tight.to_str().unwrap()]).collect();
    let left_out = folder("json").join("left-out.txt");
    let board =
        "host buses 00-0F low E0000000+1M\nbridge 00.0 spare 2M\n  card 00.0 mem32 4K\ncard 01.0 \"odd\" mem32 4M\n";
    fs::write(&left_out, board).unwrap();
    let without = format!("{} --without odd", left_out.to_str().unwrap());
    let all = all.into_iter().chain(["tests/command/chain.txt", &without]);
    let all: Vec<String> = all.map(|one| format!("{one} --full")).collect();
    compare("plan", &all.iter().map(String::as_str).collect::<Vec<_>>());
}

#[test]
fn of_audits() {
    let judged = |name: &str| format!("tests/audit/{name}.sheet --host tests/audit/{name}.host --all");
    let mut all = ["ovmf-overlap", "seabios-deep-16", "ovmf-one-bridge", "seabios-flat"].map(judged).to_vec();
    // A host with too few buses for the sheet.
    let host = folder("json").join("host.txt");
    fs::write(&host, "host buses 00-01 low E0000000+1M\n").unwrap();
    all.push(format!("tests/command/recorder.txt --host {}", host.display()));
    compare("audit", &all.iter().map(String::as_str).collect::<Vec<_>>());
}

#[test]
fn of_headers() {
    let recorder = "tests/command/recorder.txt";
    let (trace, log) = ("docs/example/trace", "tests/command/aer.txt");
    let routes = [trace, log, "docs/example/recorder-trace.txt --sent", "--from 03:00.0 400000010300020FF8200010"];
    compare("route", &routes.map(|one| format!("{recorder} {one}")).iter().map(String::as_str).collect::<Vec<_>>());
    let by_id = "72000000000000190300000000000000 31000000000000190000000248001000";
    compare("decode", &[trace, log, by_id, "33000000000000190000000000000000"]);
}

#[test]
fn of_traces() {
    let (board, cut) = ("tests/command/recorder.txt", folder("json").join("cut"));
    let trace = fs::read(repository().join("docs/example/trace")).unwrap();
    fs::write(&cut, &trace[..trace.len() - 3]).unwrap();
    let traces = ["docs/example/recorder-trace.txt --both", "docs/example/trace", "tests/command/aer.txt"];
    let mut labels = traces.map(|one| format!("{board} {one}")).to_vec();
    labels.push(format!("{board} {}", cut.display()));
    compare("label", &labels.iter().map(String::as_str).collect::<Vec<_>>());
    let requests = format!("docs/example/requests --names {board}");
    compare("ledger", &[&requests, "tests/command/aer.txt", "docs/example/requests"]);
}

#[test]
fn of_machines() {
    let [one, other] = ["deep-ovmf", "ports-seabios"].map(|name| format!("tests/command/linux/{name}.lspci"));
    let out = folder("json").join("box");
    let fleet = format!("--fleet {one} {other} --out {}", out.display());
    let left_out = format!("{one} --leave-out 00:02.0");
    compare("import", &[&fleet, &left_out, "tests/command/linux/spellings.lspci"]);
    compare("diff", &[&format!("{one} {other}"), "tests/command/recorder.txt tests/command/recorder-changed.txt"]);
}
