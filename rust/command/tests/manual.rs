//! The manual says what the command takes: a page for each subcommand with the options of its help, and an example that is so.

mod run;

use run::{command, folder, repository, run};
use std::collections::BTreeSet;
use std::fs;

fn help(arguments: &[&str]) -> String {
    let ran = run(&[arguments, &["--help"]].concat(), b"");
    assert_eq!(ran.status, 0, "{arguments:?}");
    String::from_utf8(ran.out).unwrap()
}

fn page(name: &str) -> String {
    let file = repository().join("man").join(name);
    fs::read_to_string(&file).unwrap_or_else(|error| panic!("{}: {error}", file.display()))
}

/// The names of the first list in the command's help.
fn subcommands() -> Vec<String> {
    let help = help(&[]);
    let list = help.split("\n\n").nth(1).unwrap();
    list.lines().map(|line| line.split_whitespace().next().unwrap().to_string()).collect()
}

/// `--names`, where the help's first line or its list has it.
fn helped(help: &str) -> BTreeSet<String> {
    let is_list = |(number, line): &(usize, &str)| *number == 0 || line.starts_with("  --");
    let lines = help.lines().enumerate().filter(is_list).map(|(number, line)| match number {
        0 => line,
        _ => line.trim().split(' ').next().unwrap(),
    });
    let words = lines.flat_map(|line| line.split(|letter: char| letter != '-' && !letter.is_ascii_lowercase()));
    words.filter(|word| word.len() > 2 && word.starts_with("--")).map(String::from).collect()
}

/// `.It Fl -names`, in a page.
fn described(page: &str) -> BTreeSet<String> {
    let items = page.lines().filter_map(|line| line.strip_prefix(".It Fl "));
    items.map(|item| format!("-{}", item.split(' ').next().unwrap())).collect()
}

/// No option is missing in a page, and none is there that the help does not have.
#[test]
fn options() {
    for name in subcommands() {
        let page = page(&format!("cartsundial-{name}.1"));
        assert!(page.contains(&format!("\n.Nm cartsundial {name}\n")), "{name}");
        assert_eq!(described(&page), helped(&help(&[&name])), "{name}");
    }
    assert_eq!(described(&page("cartsundial.1")), BTreeSet::from(["--help", "--version"].map(String::from)));
}

/// The version, which is the manual's.
#[test]
fn version() {
    let version = concat!("cartsundial ", env!("CARGO_PKG_VERSION"), "\n");
    for option in ["--version", "-V"] {
        let ran = run(&[option], b"");
        assert_eq!((ran.status, &ran.out[..], &ran.error[..]), (0, version.as_bytes(), ""));
    }
    assert!(page("cartsundial.1").contains(concat!("\n.Os Cartsundial ", env!("CARGO_PKG_VERSION"), "\n")));
}

/// cartsundial(1) lists the subcommands as the help does, and there is no other page of one.
#[test]
fn pages() {
    let names = subcommands();
    let page = page("cartsundial.1");
    let listed = page.lines().filter_map(|line| line.strip_prefix(".It Xr cartsundial-")?.strip_suffix(" 1"));
    assert_eq!(listed.collect::<Vec<_>>(), names);
    let files = fs::read_dir(repository().join("man")).unwrap().map(|file| file.unwrap().file_name());
    let pages: BTreeSet<String> = files.map(|name| name.into_string().unwrap()).collect();
    let commands = names.iter().map(|name| format!("cartsundial-{name}.1"));
    assert_eq!(pages, commands.chain([1, 3, 5].map(|section| format!("cartsundial.{section}"))).collect());
}

/// The example of cartsundial(1): a board, and then commands with what they print.
#[test]
fn example() {
    let page = page("cartsundial.1");
    let displays: Vec<&str> = page.split(".Bd -literal -offset indent\n").skip(1).collect();
    let [board, runs] = [0, 1].map(|at: usize| displays[at].split_once(".Ed\n").unwrap().0);
    let folder = folder("manual");
    fs::write(folder.join("box.txt"), board).unwrap();
    for run in runs.strip_prefix("$ cartsundial ").unwrap().split("\n$ cartsundial ") {
        let (arguments, expected) = run.split_once('\n').unwrap();
        let arguments: Vec<&str> = arguments.split(' ').collect();
        let output = command(&arguments).current_dir(&folder).output().unwrap();
        assert_eq!(String::from_utf8(output.stdout).unwrap().trim_end(), expected.trim_end(), "{arguments:?}");
    }
}
