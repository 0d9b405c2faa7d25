//! `--without`: parts of a board that are left out before it is planned. They are named in everything that comes out.

use crate::failure::Failure;
use crate::json::Json;
use crate::titles::Titles;
use crate::tree::{self, Record};
use cartsundial::{Board, Id};
use std::collections::BTreeSet;
use std::fmt;

/// The height of a line in a picture.
const ROW: usize = 20;

/// A part that was left out, as the whole board has it.
pub struct LeftOut {
    title: String,
    members: Vec<(&'static str, Json)>,
    /// How many functions it has.
    functions: usize,
}

/// `record 5, 03:00.0 "cap 3", line 9`, and how much goes with it.
impl fmt::Display for LeftOut {
    fn fmt(&self, f: &mut fmt::Formatter<'_>) -> fmt::Result {
        f.write_str(&self.title)?;
        match self.functions {
            ..=1 => Ok(()),
            2 => f.write_str(", and 1 function with it"),
            count => write!(f, ", and {} functions with it", count - 1),
        }
    }
}

impl LeftOut {
    /// A member of an object, where there is any.
    pub fn json(all: &[LeftOut]) -> Option<(&'static str, Json)> {
        let one = |one: &LeftOut| {
            let functions = ("functions", Json::number(one.functions as u64));
            Json::Object(one.members.iter().cloned().chain([functions]).collect())
        };
        (!all.is_empty()).then(|| ("left_out", Json::List(all.iter().map(one).collect())))
    }

    /// Lines of a text, each after this.
    pub fn lines(all: &[LeftOut], before: &str) -> String {
        all.iter().map(|one| format!("{before}left out: {one}\n")).collect()
    }
}

impl LeftOut {
    /// The picture with a line for each below it.
    pub fn drawn(all: &[LeftOut], svg: String) -> String {
        let number = |name: &str| -> Option<usize> {
            let (_, after) = svg.split_once(&format!(" {name}=\""))?;
            after.split_once('"')?.0.parse().ok()
        };
        let (Some(width), Some(height), false) = (number("width"), number("height"), all.is_empty()) else {
            return svg;
        };
        let taller = height + ROW * all.len() + ROW / 2;
        let size = |height: usize| format!("width=\"{width}\" height=\"{height}\" viewBox=\"0 0 {width} {height}\"");
        let card = |height: usize| format!("width=\"{}\" height=\"{}\"", width - 1, height - 1);
        let escaped = |text: String| text.replace('&', "&amp;").replace('<', "&lt;").replace('>', "&gt;");
        let rows = all.iter().zip((height..).step_by(ROW)).map(|(one, top)| {
            let text = escaped(one.to_string());
            format!("<text x=\"{ROW}\" y=\"{}\">left out: {text}</text>\n", top + ROW / 2)
        });
        let svg = svg.replacen(&size(height), &size(taller), 1).replacen(&card(height), &card(taller), 1);
        svg.replacen("</svg>", &(rows.collect::<String>() + "</svg>"), 1)
    }
}

/// The rest of a board, and what was left out of it: each named by its name, its ID in the whole board, or its record.
pub fn without(board: &Board, wanted: &[&str]) -> Result<(Board, Vec<LeftOut>), Failure> {
    let bytes = board.bytes();
    let titles = Titles::new(&bytes, Some(board));
    let mut gone = BTreeSet::new();
    let mut left_out = Vec::new();
    for name in wanted {
        let record = named(board, &titles, name)?;
        let unit = tree::unit(board, record);
        if unit.is_subset(&gone) {
            continue;
        }
        left_out.push(LeftOut {
            title: titles.title(record),
            members: titles.json(record),
            functions: unit.difference(&gone).count(),
        });
        gone.extend(unit);
    }
    Ok((tree::without(board, &gone), left_out))
}

fn named(board: &Board, titles: &Titles, wanted: &str) -> Result<Record, Failure> {
    let of_name: Vec<Record> = tree::records(board).filter(|&one| titles.name(one) == Some(wanted)).collect();
    match of_name[..] {
        [record] => return Ok(record),
        [] => {}
        _ => {
            let all: Vec<String> = of_name.iter().map(|&record| titles.title(record)).collect();
            return Err(Failure::Usage(format!("--without {wanted}: more than one has this name: {}", all.join("; "))));
        }
    }
    let by_id = wanted.parse::<Id>().ok().and_then(|id| tree::records(board).find(|&one| titles.id(one) == Some(id)));
    let number = wanted.strip_prefix("record ").unwrap_or(wanted).parse::<Record>().ok();
    let by_record = number.filter(|&record| board.function(record).is_some());
    by_id.or(by_record).ok_or_else(|| {
        let count = board.functions().len();
        Failure::Usage(format!("--without {wanted}: no function has this name or ID, and the records are 1 to {count}"))
    })
}
