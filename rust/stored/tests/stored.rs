//! The folders of tests/ and the test programs' crates have the runs that `stored` writes, the folders no other file but the
//! sheets that real firmware left.

use plain::programs;
use std::fs;
use std::path::PathBuf;
use stored::{Files, CAPTURES, PROGRAMS};

/// Where a program's stored runs are, from the repository's root.
fn folder(program: &str) -> PathBuf {
    let part = if program.starts_with("test_") { "crates" } else { "tests" };
    PathBuf::from(env!("CARGO_MANIFEST_DIR")).join("../..").join(part).join(program)
}

#[test]
fn runs() {
    for program in PROGRAMS {
        for (name, bytes) in stored::files(program, &folder(program)).unwrap() {
            let remedy = format!("{program}, {name}: in rust/, `cargo run --bin stored {program} DIR` writes it");
            let held = fs::read(folder(program).join(name)).unwrap_or_else(|error| panic!("{remedy}: {error}"));
            assert!(held == bytes, "{remedy}");
        }
    }
}

#[test]
fn no_other_files() {
    for program in PROGRAMS.iter().filter(|program| !program.starts_with("test_")) {
        let mut files: Files = stored::files(program, &folder(program)).unwrap();
        if *program == "audit" {
            let captures = CAPTURES.iter().flat_map(|name| ["host", "sheet"].map(|ending| format!("{name}.{ending}")));
            files.extend(captures.chain(["README.md".to_string()]).map(|name| (name, vec![])));
        }
        let held = fs::read_dir(folder(program)).unwrap().map(|file| file.unwrap().file_name().into_string().unwrap());
        let others: Vec<String> = held.filter(|name| !files.contains_key(name)).collect();
        assert!(others.is_empty(), "{program}: {others:?}");
    }
}

/// The line of a run whose name says a number.
fn refusal(name: &str) -> Option<String> {
    let number: u8 = name.split_once("refused-")?.1.split('-').next()?.parse().ok()?;
    Some(format!("refused {number}\n"))
}

/// A run whose name says a number is refused with it, any other is accepted.
#[test]
fn names_of_audits() {
    for (name, input) in stored::audits() {
        let expected = refusal(name).unwrap_or("accepted\n".to_string());
        assert_eq!(String::from_utf8(programs::audit(&input)).unwrap(), expected, "{name}");
    }
}

/// A run whose name says a number is refused with it, any other is labelled.
#[test]
fn names_of_labels() {
    for (name, input) in stored::labels() {
        let printed = String::from_utf8(programs::label(&input)).unwrap();
        match refusal(name) {
            Some(line) => assert_eq!(printed, line, "{name}"),
            None => assert!(!printed.starts_with("refused"), "{name}"),
        }
    }
}

/// A run whose name says a number is refused with it, any other has lines with both ends.
#[test]
fn names_of_follows() {
    for (name, input) in stored::follows() {
        let printed = String::from_utf8(programs::follow(&input)).unwrap();
        match refusal(name) {
            Some(line) => assert_eq!(printed, line, "{name}"),
            None => assert!(!printed.starts_with("refused"), "{name}"),
        }
    }
}

/// A run whose name says a number is refused with it, any other is written; the longest is as long as a script can be.
#[test]
fn names_of_scripts() {
    for (name, input) in stored::writes() {
        let printed = programs::script(&input);
        match refusal(name) {
            Some(line) => assert_eq!(printed, line.as_bytes(), "{name}"),
            None => assert!(!printed.starts_with(b"refused"), "{name}"),
        }
        assert!(name != "longest" || printed.len() == 73_692);
    }
}
