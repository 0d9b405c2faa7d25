//! Writes a program's stored runs: `stored PROGRAM DIR` leaves in DIR what the program reads, and what plain says that it
//! prints. The same bytes at every run.

use std::path::Path;
use std::process::ExitCode;
use std::{env, fs, io};

fn main() -> ExitCode {
    let arguments: Vec<String> = env::args().skip(1).collect();
    let [program, folder] = &arguments[..] else {
        eprintln!("usage: stored PROGRAM DIR, PROGRAM one of {}", stored::PROGRAMS.join(", "));
        return ExitCode::FAILURE;
    };
    match store(program, Path::new(folder)) {
        Ok(()) => ExitCode::SUCCESS,
        Err(error) => {
            eprintln!("stored: {error}");
            ExitCode::FAILURE
        }
    }
}

fn store(program: &str, folder: &Path) -> io::Result<()> {
    let files = stored::files(program, folder)?;
    fs::create_dir_all(folder)?;
    files.iter().try_for_each(|(name, bytes)| fs::write(folder.join(name), bytes))
}
