//! Several runs of this program, one after the other, and their tables as one: each figure is the median over the runs.

use crate::measure::median;
use crate::table::apart;
use std::env;
use std::error::Error;
use std::process::Command;

/// What this program is called with, then how many runs, then parts.
pub const ASKED: &str = "medians";

pub fn print(arguments: &[String]) -> Result<(), Box<dyn Error>> {
    let [runs, parts @ ..] = arguments else { return Err("how many runs?".into()) };
    let runs: usize = runs.parse()?;
    let mut texts = Vec::new();
    for run in 1..=runs {
        let output = Command::new(env::current_exe()?).args(parts).output()?;
        if !output.status.success() {
            return Err(String::from_utf8_lossy(&output.stderr).into());
        }
        texts.push(String::from_utf8(output.stdout)?);
        eprintln!("run {run} of {runs}");
    }
    merged(&texts).for_each(|line| println!("{line}"));
    println!();
    match runs {
        1 => println!("One run."),
        _ => println!("Medians of {runs} runs; no run's ratio was more than {:.0} % off.", 100.0 * farthest(&texts)),
    }
    Ok(())
}

/// Line by line: every run prints the same but for its figures.
fn merged(texts: &[String]) -> impl Iterator<Item = String> + '_ {
    by_line(texts).map(|lines| {
        if lines.iter().all(|line| *line == lines[0]) {
            return lines[0].into();
        }
        let rows: Vec<Vec<Piece>> = lines.iter().map(|line| pieces_of(line)).collect();
        let place = |(at, piece): (usize, &Piece)| match piece {
            Piece::Text(text) => text.clone(),
            Piece::Figure(_, decimals) => {
                written(median(rows.iter().filter_map(|row| row.get(at)?.value()).collect()), *decimals)
            }
        };
        rows[0].iter().enumerate().map(place).collect()
    })
}

fn by_line(texts: &[String]) -> impl Iterator<Item = Vec<&str>> + '_ {
    let count = texts.first().map_or(0, |text| text.lines().count());
    (0..count).map(|at| texts.iter().filter_map(|text| text.lines().nth(at)).collect())
}

/// How far a run's ratio lies from its median, at the most, as a part of it.
fn farthest(texts: &[String]) -> f64 {
    by_line(texts).fold(0.0, |most, lines| {
        let rows: Vec<Vec<f64>> = lines.iter().map(|line| ratios(line)).collect();
        (0..rows[0].len()).fold(most, |most, at| {
            let values: Vec<f64> = rows.iter().filter_map(|row| row.get(at).copied()).collect();
            let middle = median(values.clone());
            values.iter().fold(most, |most: f64, value| most.max((value / middle - 1.0).abs()))
        })
    })
}

/// The figures in brackets.
fn ratios(line: &str) -> Vec<f64> {
    line.split('(').skip(1).filter_map(|rest| rest.split(')').next()?.parse().ok()).collect()
}

enum Piece {
    Text(String),
    /// With so many decimals.
    Figure(f64, usize),
}

impl Piece {
    fn value(&self) -> Option<f64> {
        match self {
            Piece::Text(_) => None,
            Piece::Figure(value, _) => Some(*value),
        }
    }
}

/// A row of a table taken apart. Its name, which may have figures too, is one piece.
fn pieces_of(line: &str) -> Vec<Piece> {
    let name = line.match_indices('|').nth(1).map_or(line.len(), |(at, _)| at);
    let is_figure = |byte: u8| byte.is_ascii_digit() || byte == b'.' || byte == b',';
    let mut pieces = vec![Piece::Text(line[..name].into())];
    for group in line.as_bytes()[name..].chunk_by(|&a, &b| is_figure(a) == is_figure(b)) {
        let text = String::from_utf8_lossy(group);
        let decimals = text.split_once('.').map_or(0, |(_, after)| after.len());
        pieces.push(match text.replace(',', "").parse() {
            Ok(value) => Piece::Figure(value, decimals),
            Err(_) => Piece::Text(text.into()),
        });
    }
    pieces
}

/// As the tables write it.
fn written(value: f64, decimals: usize) -> String {
    if decimals > 0 {
        format!("{value:.decimals$}")
    } else {
        apart(&format!("{value:.0}"))
    }
}
