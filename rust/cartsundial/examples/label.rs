//! Plans a board and labels a trace by the index of its sheet: `label BOARD < TRACE`, both as bytes. docs/example has one of
//! each:
//!
//! `cargo run --release --offline --features std --example label -- ../docs/example/board < ../docs/example/trace`

use cartsundial::{plan, HostRecord, Index, Labeller, FULL_SHEET};
use std::error::Error;
use std::{env, fs, io};

fn main() -> Result<(), Box<dyn Error>> {
    let path = env::args_os().nth(1).ok_or("usage: label BOARD < TRACE")?;
    let board = fs::read(path)?;
    let mut sheet = [0; FULL_SHEET];
    let length = plan(&board, &mut sheet)?;
    // A planned board has its host record after its version and that record's length. The planned sheet is accepted for it.
    let host = HostRecord::from_bytes(board[3..].first_chunk().ok_or("no host record")?);
    let index = Index::new(&host, &sheet[..length])?;
    // Each piece of the trace is labelled as it comes, however long the trace is.
    let mut labeller = Labeller::new(&index, io::stdout());
    io::copy(&mut io::stdin(), &mut labeller)?;
    labeller.finish()?;
    Ok(())
}
