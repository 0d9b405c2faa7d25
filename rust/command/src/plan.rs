//! `plan`: a board's plan as a table, a sheet, a script, a picture, JSON or an lspci dump.

use crate::arguments::{Arguments, Options};
use crate::failure::{print, Answer, Failure, Verdict};
use crate::full::{is_full, FULL};
use crate::json::Json;
use crate::named::NamedSheet;
use crate::output::{is_standard_output, Outputs};
use crate::source::{read_id, Source};
use crate::unfit::Unfit;
use crate::without::{without, LeftOut};
use crate::{convert, export, listing};
use cartsundial::{bridges, write_script, Id, Spares, FULL_SCRIPT};
use picture::Drawn;
use std::collections::HashMap;
use std::io::{self, Write};

pub const OPTIONS: Options = Options {
    flags: &["--json", "--lspci", "--lines", FULL],
    values: &["--sheet", "--script", "--svg", "--requester", "--tag", "--without"],
    more: &["--without"],
    ..Options::NONE
};

/// The options that name a file to write.
const FILES: [&str; 3] = ["--sheet", "--script", "--svg"];

/// Of those that are printed one at a time.
const PRINTED: [&str; 3] = ["--json", "--lspci", "--lines"];

pub const HELP: &str = "\
cartsundial plan BOARD [--sheet FILE] [--script FILE] [--svg FILE] [--json | --lspci | --lines]

Plans a board: bus numbers, BARs and windows for every function, or the number and the words that say why not, with the
record that they are about. Where bus numbers or a pool run out, also what the board needs of each, what its host has, and
before whom most room of that pool is lost to alignment. Numbers, records, places and needs are the proved library's.

  --sheet FILE        also write the register sheet: bytes, or with its names as text where FILE ends in .txt
  --script FILE       also write the configuration writes that bring the plan about, in their order
  --requester ID      who makes them, 00:00.0 unless given
  --tag NUMBER        the first one's tag, 0 to 255, 0 unless given
  --svg FILE          also draw the plan
  --json              JSON in place of the table
  --lspci             an lspci dump in its place, for lspci -F
  --lines             the proved program's lines in its place
  --without WHOM      plan the rest, without a function and all below it, with function 0 the whole device: by its name, by its ID in
                      the whole board, or by its record; may be given more than once. It is named as left out in all that comes out,
                      and where that is bytes on standard error
  --full              of a refused board also what is wrong at the place, down to whose BAR the largest part of what does not fit goes,
                      with what it fits (a larger host, the rest without a card or a part of the tree, cards in each other's place),
                      and what to do. Each of them was planned by the proved library before it is said. The search for another
                      order has a bound, which is told: where none is found there may be one. Nothing is left out and nothing
                      exchanged by itself. Of a plan: a picture with names, ends and sizes, an lspci dump with class codes and
                      names, and a script as text where FILE ends in .txt

All of the files are written, or none. One of them may be -, standard output; then no table is printed, and why a board is refused
goes to standard error.
";

pub fn run(arguments: &Arguments) -> Answer {
    let [name] = arguments.exactly(["BOARD"])?;
    let source = Source::read(name)?;
    let host_comment = source.host_comment();
    let board = source.into_board_or_bytes()?;
    let (board, left_out) = match board {
        Ok(board) => without(&board, &arguments.values("--without")).map(|(rest, left_out)| (Ok(rest), left_out))?,
        refused => (refused, Vec::new()),
    };
    let bytes = match &board {
        Ok(board) => board.bytes(),
        Err(bytes) => bytes.clone(),
    };
    let prints = prints(arguments)?;
    let planned = board.as_ref().ok().and_then(|board| NamedSheet::planned(board).ok());
    let Some(named) = planned else {
        let unfit = Unfit::new(&bytes, board.as_ref().ok(), host_comment, &left_out);
        match prints {
            true => print(if arguments.has("--json") { format!("{}\n", unfit.json()) } else { unfit.text() })?,
            // Where standard error cannot be written the status says it.
            false => drop(io::stderr().write_all(unfit.text().as_bytes())),
        }
        return Ok(Verdict::Refused);
    };
    let planned = Planned { named, board: bytes, left_out };
    let ready = planned.outputs(arguments)?.prepare()?;
    if prints {
        print(planned.shown(arguments))?;
    }
    ready.commit()?;
    planned.tell(arguments, prints);
    Ok(Verdict::Accepted)
}

/// Whether the plan is printed: not where standard output is one of the files.
fn prints(arguments: &Arguments) -> Result<bool, Failure> {
    let is_taken = |option: &&&str| arguments.value(option).is_some_and(is_standard_output);
    let Some(taken) = FILES.iter().find(is_taken) else { return Ok(true) };
    match PRINTED.iter().find(|flag| arguments.has(flag)) {
        Some(flag) => Err(Failure::Usage(format!("{flag} is printed where {taken} goes, to standard output"))),
        None => Ok(false),
    }
}

struct Planned {
    named: NamedSheet,
    board: Vec<u8>,
    left_out: Vec<LeftOut>,
}

impl Planned {
    fn shown(&self, arguments: &Arguments) -> String {
        let Planned { named, left_out, .. } = self;
        if arguments.has("--json") {
            let members = [("functions", listing::json(named))].into_iter().chain(LeftOut::json(left_out));
            format!("{}\n", Json::Object(members.collect()))
        } else if arguments.has("--lspci") {
            LeftOut::lines(left_out, "# ") + &export::dump(named)
        } else if arguments.has("--lines") {
            listing::plan_lines(named)
        } else {
            let count = convert::functions(named.sheet.functions().len());
            format!("planned: {count}\n{}{}", LeftOut::lines(left_out, ""), listing::table(named))
        }
    }

    /// On standard error, where something comes out that has no place for it: bytes, and the lines of the proved program.
    fn tell(&self, arguments: &Arguments, prints: bool) {
        let is_text = |option: &str, file: &str| file.ends_with(".txt") && (is_full() || option == "--sheet");
        let is_bytes = |option: &&str| arguments.value(option).is_some_and(|file| !is_text(option, file));
        if arguments.has("--lines") || !prints || ["--sheet", "--script"].iter().any(is_bytes) {
            // Where standard error cannot be written the files are there all the same.
            let _ = io::stderr().write_all(LeftOut::lines(&self.left_out, "cartsundial: ").as_bytes());
        }
    }

    fn outputs<'a>(&self, arguments: &'a Arguments) -> Result<Outputs<'a>, Failure> {
        let Planned { named, board, left_out } = self;
        let comments = LeftOut::lines(left_out, "# ");
        let mut outputs = Outputs::new(&arguments.files);
        let [sheet, script, svg] = FILES.map(|option| arguments.value(option));
        if let Some(file) = sheet {
            match file.ends_with(".txt") {
                true => outputs.add("--sheet", file, comments.clone() + &convert::named_text(named)),
                false => outputs.add("--sheet", file, named.sheet.bytes()),
            }
        }
        if let Some(file) = script {
            let script = script_of(arguments, board)?;
            match is_full() && file.ends_with(".txt") {
                true => outputs.add("--script", file, comments + &convert::script_text(&script)),
                false => outputs.add("--script", file, script),
            }
        }
        if let Some(file) = svg {
            outputs.add("--svg", file, LeftOut::drawn(left_out, picture_of(named, board)?));
        }
        Ok(outputs)
    }
}

/// With what bridges keep free, which the board says; by `--full` with names, ends and sizes.
fn picture_of(named: &NamedSheet, board: &[u8]) -> Result<String, Failure> {
    if !is_full() {
        let drawn = picture::draw_plan(&listing::plan_lines(named), Some(board));
        return drawn.map_err(|why| Failure::Usage(format!("no picture: {why}")));
    }
    let kept: HashMap<u16, Spares> = bridges(board).into_iter().flatten().map(|one| (one.record, one.spares)).collect();
    let drawn: Vec<Drawn> = named
        .sheet
        .functions()
        .map(|function| {
            let spares = kept.get(&function.record).copied().unwrap_or_default();
            Drawn { function, name: named.name(function.record), spares }
        })
        .collect();
    Ok(picture::draw_named(&drawn))
}

fn script_of(arguments: &Arguments, board: &[u8]) -> Result<Vec<u8>, Failure> {
    let requester = arguments.value("--requester").map_or(Ok(Id(0)), read_id)?;
    let tag = arguments.value("--tag").map_or(Ok(0), str::parse);
    let tag = tag.map_err(|_| Failure::Usage("--tag has a number from 0 to 255".into()))?;
    let mut script = vec![0; FULL_SCRIPT];
    let length = write_script(board, requester, tag, &mut script);
    script.truncate(length.map_err(|refusal| Failure::refused("the board", refusal))?);
    Ok(script)
}
