//! Draws a plan, as the program `plan` prints it, or crates.txt, as the text of an SVG picture.

mod crate_drawing;
mod crates;
mod drawing;
mod entry;
mod layers;
mod named;
mod plan;
mod registers;
mod spares;
mod svg;
mod tree;

use crates::Crates;
pub use named::{draw_named, Drawn};
use plan::Plan;

/// The buses from the host down, each bridge with its open windows and each function with its BARs; with the bytes of the
/// board that the plan is of, also what its bridges keep free.
pub fn draw_plan(text: &str, board: Option<&[u8]>) -> Result<String, String> {
    let mut plan = Plan::read(text).map_err(|undrawable| undrawable.to_string())?;
    if let Some(bytes) = board {
        let spares = spares::read(bytes).ok_or("not a board")?;
        plan.set_spares(&spares)?;
    }
    Ok(drawing::draw(&plan))
}

/// What each crate of crates.txt is built on.
pub fn draw_crates(text: &str) -> Result<String, String> {
    crate_drawing::draw(&Crates::read(text)?)
}
