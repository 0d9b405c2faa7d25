//! The command `cartsundial`: the proved library at a shell. Text or bytes go in, words come out; the exit status is 0 for
//! accepted, 1 for refused, 2 for usage or a stream that failed.

mod arguments;
mod audit;
mod completions;
mod convert;
mod decode;
mod diff;
mod ends;
mod explain;
mod export;
mod failure;
mod faults;
mod filters;
mod fits;
mod full;
mod hexadecimal;
mod import;
mod jobs;
mod json;
mod label;
mod ledger;
mod letters;
mod lines;
mod listing;
mod logged;
mod members;
mod named;
mod output;
mod page;
mod parts;
mod plan;
mod progress;
mod raw;
mod route;
mod said;
mod source;
mod spelling;
mod tally;
mod titles;
mod trace;
mod tree;
mod unfit;
mod unlawful;
mod without;
mod words;

use arguments::{Arguments, Options};
use cartsundial::calls;
use failure::{finish, print, Answer, Failure, Verdict};
use full::{is_full, set_full, FULL};
use std::env;
use std::process::ExitCode;

struct Subcommand {
    name: &'static str,
    options: Options,
    help: &'static str,
    run: fn(&Arguments) -> Answer,
}

const SUBCOMMANDS: &[Subcommand] = &[
    Subcommand { name: "plan", options: plan::OPTIONS, help: plan::HELP, run: plan::run },
    Subcommand { name: "audit", options: audit::OPTIONS, help: audit::HELP, run: audit::run },
    Subcommand { name: "route", options: route::OPTIONS, help: route::HELP, run: route::run },
    Subcommand { name: "decode", options: decode::OPTIONS, help: decode::HELP, run: decode::run },
    Subcommand { name: "label", options: label::OPTIONS, help: label::HELP, run: label::run },
    Subcommand { name: "ledger", options: ledger::OPTIONS, help: ledger::HELP, run: ledger::run },
    Subcommand { name: "diff", options: diff::OPTIONS, help: diff::HELP, run: diff::run },
    Subcommand { name: "page", options: page::OPTIONS, help: page::HELP, run: page::run },
    Subcommand { name: "show", options: convert::SHOW_OPTIONS, help: convert::SHOW_HELP, run: convert::run_show },
    Subcommand { name: "convert", options: convert::OPTIONS, help: convert::HELP, run: convert::run },
    Subcommand { name: "import", options: import::OPTIONS, help: import::HELP, run: import::run },
    Subcommand { name: "export", options: export::OPTIONS, help: export::HELP, run: export::run },
    Subcommand { name: "completions", options: completions::OPTIONS, help: completions::HELP, run: completions::run },
    Subcommand { name: "explain", options: explain::OPTIONS, help: explain::HELP, run: explain::run },
];

/// Those that have no other way to speak.
const ALWAYS_FULL: [&str; 4] = ["diff", "page", "explain", "completions"];

const HELP: &str = "\
cartsundial: PCI Express boards planned, sheets judged, packets routed and traces labelled, over proved code

  plan BOARD                a board's plan, with --sheet, --script, --svg, --json, --lspci
  audit SHEET --host HOST   whether a sheet that other firmware left is in order, and every address has one owner
  route SHEET HEADER..      where a header goes; --from 03:00.0 for card to card
  decode HEADER..           a header in words
  label SHEET TRACE         a line for each header of a trace; --names, --both, --jobs N, --summary
  ledger TRACE              requests never answered, completions of nothing
  diff A B                  two sheets, boards or machines by function: what moved, appeared and went
  page BOX [TRACE] -o FILE  a box as a page for a browser: its tree, address maps, who owns what, and its trace
  show FILE                 a board, a sheet, a trace or a script in words
  convert FILE              from bytes to text, from text to bytes
  import FILE..             lspci -vvx, or /sys/bus/pci/devices, with iomem, ioports or a boot log: sheet, host and board
  export SHEET              an lspci dump
  completions SHELL         what bash, zsh or fish needs to complete all of this
  explain [NUMBER..]        what a number means, what leads to it and what to do

cartsundial SUBCOMMAND --help says more, cartsundial --version which one this is. A file may be - for standard input, and bytes or
text, which is told by its content. In the place of SHEET a board may stand: then its plan is meant. A board's text:

  host buses 00-1F low E0000000+64M high 16G+4G io 2000-5FFF
  bridge 01.0 \"switch up\"
    card 00.0 \"gpu\" mem64p 256M, mem32 16M, io 128
    bridge 01.0 \"slot\" spare 2 buses, spare 4M

Buses, devices, addresses and command words are hexadecimal, sizes and counts decimal. BARs take slots in their order, - leaves
one out; further items are command 0006 (0007 unless given) and multi; # starts a comment.

Exit status: 0 accepted, 1 refused, 2 usage or a stream that failed.
";

fn main() -> ExitCode {
    finish(run())
}

fn run() -> Answer {
    let words: Result<Vec<String>, _> = env::args_os().skip(1).map(|word| word.into_string()).collect();
    let words = words.map_err(|word| Failure::Usage(format!("{}: not in UTF-8", word.to_string_lossy())))?;
    let Some((name, rest)) = words.split_first() else {
        return Err(Failure::Usage("which subcommand? cartsundial --help names them".into()));
    };
    one_version(calls::version(), calls::VERSION)?;
    if name == "--version" || name == "-V" {
        print(concat!("cartsundial ", env!("CARGO_PKG_VERSION"), "\n"))?;
        return Ok(Verdict::Accepted);
    }
    let is_help = |word: &String| word == "--help" || word == "-h";
    if is_help(name) || name == "help" && rest.is_empty() {
        print(HELP)?;
        return Ok(Verdict::Accepted);
    }
    if name == "help" {
        return help(rest);
    }
    let Subcommand { options, help, run, .. } = subcommand(name)?;
    if rest.iter().any(is_help) {
        print(help)?;
        return Ok(Verdict::Accepted);
    }
    let answer = Arguments::read(rest, options).and_then(|arguments| {
        if arguments.has(FULL) || ALWAYS_FULL.contains(&&name[..]) {
            set_full();
        }
        output::refuse_own_input(&arguments.inputs())?;
        run(&arguments)
    });
    answer.map_err(|failure| match failure {
        Failure::Input(message) if is_full() => Failure::Input(message),
        Failure::Usage(message) | Failure::Input(message) => {
            Failure::Usage(format!("{name}: {message} (cartsundial {name} --help)"))
        }
        other => other,
    })
}

fn subcommand(name: &str) -> Result<&'static Subcommand, Failure> {
    let unknown = || Failure::Usage(format!("{name}: no such subcommand; cartsundial --help names them"));
    SUBCOMMANDS.iter().find(|one| one.name == name).ok_or_else(unknown)
}

/// Of a subcommand.
fn help(names: &[String]) -> Answer {
    match names {
        [name] => print(subcommand(name)?.help)?,
        _ => return Err(Failure::Usage("help is of one subcommand: cartsundial help plan".into())),
    }
    Ok(Verdict::Accepted)
}

/// The archive in this command is of its own version; the build script has asked it where it could.
fn one_version(archive: u32, own: u32) -> Result<(), Failure> {
    let dotted = |version: u32| format!("{}.{}.{}", version / 10_000, version / 100 % 100, version % 100);
    let differ = || {
        let [archive, own] = [archive, own].map(dotted);
        Failure::Stream(format!("this is version {own}, over an archive of {archive}: build both from one state"))
    };
    (archive == own).then_some(()).ok_or_else(differ)
}

#[cfg(test)]
mod tests {
    use super::*;

    #[test]
    fn an_archive_of_another_version() {
        assert!(one_version(3100, 3100).is_ok());
        let Err(Failure::Stream(why)) = one_version(3000, 3100) else { panic!("two versions are one") };
        assert!(why.starts_with("this is version 0.31.0, over an archive of 0.30.0"));
    }
}
