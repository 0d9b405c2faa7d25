//! A plan drawn with the names of its functions, and with the ends and sizes of what they have.

mod drawing;
mod entry;
mod tree;

use cartsundial::{Function, Spares};

/// A function of a plan, with its name and what it keeps free.
#[derive(Clone, Copy, Debug)]
pub struct Drawn<'a> {
    pub function: Function<'a>,
    pub name: Option<&'a str>,
    pub spares: Spares,
}

/// The buses from the host down, each bridge with its open windows and what it keeps free, and each function with its BARs. The
/// functions are a plan's, in its order: each is on the first one's bus or on the secondary bus of a bridge before it.
pub fn draw_named(functions: &[Drawn]) -> String {
    drawing::draw(functions)
}
