//! Draws a text that comes in on standard input, as an SVG picture on standard output.
//!
//! `picture plan` takes what the program `plan` prints and shows the buses from the host down, each bridge with its open
//! windows and each function with its BARs. `picture plan BOARD` also shows what the bridges of that board, which the plan
//! is of, keep free. `picture crates` takes crates.txt and shows what each crate is built on. A refusal, or another text,
//! gives a message on standard error and exit status 1.

use picture::draw_crates;
use std::io::{self, Read, Write};
use std::process::ExitCode;
use std::{env, fs};

fn main() -> ExitCode {
    match run() {
        Ok(()) => ExitCode::SUCCESS,
        Err(message) => {
            eprintln!("picture: {message}");
            ExitCode::FAILURE
        }
    }
}

fn run() -> Result<(), String> {
    let words: Vec<String> = env::args().skip(1).collect();
    let picture = match words.iter().map(String::as_str).collect::<Vec<_>>()[..] {
        ["plan"] => draw_plan(&input()?, None)?,
        ["plan", board] => draw_plan(&input()?, Some(board))?,
        ["crates"] => draw_crates(&input()?)?,
        _ => return Err("usage: picture plan [BOARD] | picture crates, the text on standard input".to_string()),
    };
    io::stdout().write_all(picture.as_bytes()).map_err(|error| format!("standard output: {error}"))
}

fn input() -> Result<String, String> {
    let mut bytes = Vec::new();
    io::stdin().read_to_end(&mut bytes).map_err(|error| format!("standard input: {error}"))?;
    String::from_utf8(bytes).map_err(|_| "standard input is not text".to_string())
}

/// The plan, with the spares of its board where that is named.
fn draw_plan(text: &str, board: Option<&str>) -> Result<String, String> {
    let Some(name) = board else { return picture::draw_plan(text, None) };
    let bytes = fs::read(name).map_err(|error| format!("{name}: {error}"))?;
    picture::draw_plan(text, Some(&bytes)).map_err(|why| format!("{name}: {why}"))
}
