//! Labels headers by a sorted index, as an ordinary, fast Rust program would: it decodes the header and finds the owner with
//! `partition_point`. Request E8 of document 02 measures the proved search against it.
//!
//! [`BothEnds`] puts lines with both ends of each packet (document 03), by the same tables.
//!
//! The program `yardstick` does the whole job of the program `label`: from standard input to lines on standard output.
//!
//! Written from the documents. It is for sheets that the audit accepts (E6) and checks nothing of them. Built with
//! `--profile lto`, as the measurement is, it is one optimised whole.

mod both;
mod index;
mod packet;
mod program;

pub use both::BothEnds;
pub use index::{Index, ANSWER};
pub use program::label;
