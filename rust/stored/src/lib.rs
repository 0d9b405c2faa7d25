//! The programs' stored runs: chosen inputs, the same bytes at every run, and what plain says that each program prints.
//!
//! `plan`, `annotate`, `audit`, `label`, `follow` and `script` have theirs in a folder of tests/, the test programs lines in their
//! crate's `stdin` and the answers in its `stdout`.

mod audits;
mod cards;
mod follows;
mod labels;
mod lines;
mod messages;
mod planning;
mod plans;
mod routing;
mod spares;
mod tags;
mod traces;
mod writes;

pub use audits::{runs as audits, CAPTURES};
pub use follows::runs as follows;
pub use labels::runs as labels;
pub use planning::lines as boards;
pub use plans::runs as plans;
pub use routing::lines as routes;
pub use traces::runs as traces;
pub use traces::Run;
pub use writes::runs as writes;

use plain::programs;
use std::collections::BTreeMap;
use std::path::Path;
use std::{fs, io};

/// The programs that have stored runs.
pub const PROGRAMS: [&str; 9] =
    ["plan", "annotate", "audit", "label", "follow", "script", "test_boards", "test_routes", "test_headers"];

/// After a test program's chosen lines, and an empty one, come some that were written by hand.
const BY_HAND: &str = "\n# How a line may be written";

/// File names, and what the files hold.
pub type Files = BTreeMap<String, Vec<u8>>;

/// What the program's folder has to hold: its inputs and its answers. Of inputs that were not chosen here, the sheets that
/// real firmware left and lines written by hand, the answers alone.
pub fn files(program: &str, folder: &Path) -> io::Result<Files> {
    match program {
        "plan" => Ok(runs(plans(), "board", programs::plan)),
        "annotate" => Ok(runs(traces(), "in", programs::annotate)),
        "audit" => {
            let mut files = runs(audits(), "in", programs::audit);
            for name in CAPTURES {
                let part = |extension: &str| fs::read(folder.join(format!("{name}.{extension}")));
                files.insert(format!("{name}.out"), programs::audit(&[part("host")?, part("sheet")?].concat()));
            }
            Ok(files)
        }
        "label" => Ok(runs(labels(), "in", programs::label)),
        "follow" => Ok(runs(follows(), "in", programs::follow)),
        "script" => Ok(runs(writes(), "in", programs::script)),
        "test_boards" => answered(Some(boards()), folder, programs::test_boards),
        "test_routes" => answered(Some(routes()), folder, programs::test_routes),
        "test_headers" => answered(None, folder, programs::test_headers),
        other => Err(io::Error::other(format!("{other} is not one of {}", PROGRAMS.join(", ")))),
    }
}

/// NAME.ENDING, what the program reads, and NAME.out, what it prints, of each run.
fn runs(runs: Vec<Run>, ending: &str, program: fn(&[u8]) -> Vec<u8>) -> Files {
    let mut files = Files::new();
    for (name, input) in runs {
        assert!(files.insert(format!("{name}.out"), program(&input)).is_none(), "{name} twice");
        files.insert(format!("{name}.{ending}"), input);
    }
    files
}

/// A test program's `stdin`, of which the chosen lines are given, and its `stdout`.
fn answered(chosen: Option<String>, folder: &Path, program: fn(&[u8]) -> Vec<u8>) -> io::Result<Files> {
    let mut lines = fs::read_to_string(folder.join("stdin"))?;
    if let Some(chosen) = chosen {
        let by_hand = lines.rfind(BY_HAND).ok_or_else(|| io::Error::other(format!("stdin has no{BY_HAND}")))?;
        lines.replace_range(..by_hand, &chosen);
    }
    let answers = program(lines.as_bytes());
    Ok(Files::from([("stdin".to_string(), lines.into_bytes()), ("stdout".to_string(), answers)]))
}
