//! Times the proved library and the plain implementation side by side, and prints tables.
//!
//! `cargo run --release --offline -p bench` prints all of them but `programs`, names after `--` only those parts: `headers`,
//! `boards`, `audits`, `ids`, `traces`, `labels`, `ledgers`, `programs`. `medians 10` before the names runs them ten times and
//! prints medians. `rust/bench/tables` puts all of it into docs/BENCHMARK.md.

mod audits;
mod boards;
mod headers;
mod ids;
mod labels;
mod ledgers;
mod measure;
mod medians;
mod programs;
mod subjects;
mod table;
mod through;
mod traces;

use std::env;
use std::error::Error;

/// What is printed, and can be asked for by name.
const PARTS: [(&str, fn()); 8] = [
    ("headers", headers::print),
    ("boards", boards::print),
    ("audits", audits::print),
    ("ids", ids::print),
    ("traces", traces::print),
    ("labels", labels::print),
    ("ledgers", ledgers::print),
    (PROGRAMS, programs::print),
];

/// Only if asked for: it needs what is not built with this program.
const PROGRAMS: &str = "programs";

fn main() -> Result<(), Box<dyn Error>> {
    let asked: Vec<String> = env::args().skip(1).collect();
    match &asked[..] {
        [name] if name == programs::BY_CALL => return through::call(),
        [name] if name == programs::BY_LABELLER => return through::labeller(),
        [name] if name == programs::ALONE => return through::alone(),
        [name, rest @ ..] if name == medians::ASKED => return medians::print(rest),
        _ => {}
    }
    if let Some(other) = asked.iter().find(|name| !PARTS.iter().any(|(part, _)| part == name)) {
        return Err(format!("no part is called {other}").into());
    }
    let is_asked = |part: &str| asked.iter().any(|name| name == part) || asked.is_empty() && part != PROGRAMS;
    PARTS.iter().filter(|(part, _)| is_asked(part)).for_each(|(_, print)| print());
    Ok(())
}
