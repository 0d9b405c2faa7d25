//! Inputs for the tests: chosen ones, and random ones that are the same at every run with the same seed.

pub mod aim;
pub mod audit;
pub mod board;
pub mod cards;
pub mod damage;
pub mod ends;
pub mod foreign;
pub mod header;
pub mod labels;
pub mod ledger;
pub mod numbers;
pub mod planted;
pub mod random;
pub mod registers;
pub mod trace;
pub mod trees;
