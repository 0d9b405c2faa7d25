// What a Rust example of the documents stands in: docs/examples.sh puts it in the place of the line that says so.
#![allow(unused)]

use cartsundial::*;
use std::{fs, io};

fn main() -> Result<(), Box<dyn std::error::Error>> {
    let board = fs::read("docs/example/board")?;
    let host = HostRecord::of_board(&board)?;
    let mut full = vec![0; FULL_SHEET];
    let length = plan(&board, &mut full)?;
    let sheet = &full[..length];
    let trace = fs::read("docs/example/trace")?;
    // The host writes to the capture card; it reads four dwords of it, and two come back.
    let header = [0x40, 0, 0, 1, 0, 0, 2, 0x0F, 0xF8, 0x10, 0, 0x10];
    let request = [0, 0, 0, 4, 0, 0, 7, 0xFF, 0xF8, 0x10, 0, 0];
    let completion = [0x4A, 0, 0, 2, 3, 0, 0, 0x10, 0, 0, 7, 0];
    // EXAMPLE
    Ok(())
}
