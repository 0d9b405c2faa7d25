//! The proved library against the plain implementation: every call, on the same inputs, chosen and random.
//!
//! Answers, bytes and refusals must be equal; nothing past an answer's length may be written; a refused call must leave
//! everything that it was lent as it was. At the end a table says how often each number came back. A number that a call
//! can give must have been seen, and no other.
//!
//! `CARTSUNDIAL_SEED` changes the inputs, `CARTSUNDIAL_ROUNDS` multiplies them.

mod audits;
mod boards;
mod cards;
mod chosen;
mod ends;
mod headers;
mod indexes;
mod ledgers;
mod lent;
mod routes;
mod sheets;
mod tally;
mod traces;
mod typed;
mod writes;

use inputs::random::Random;
use std::env;
use std::process::ExitCode;
use std::time::Instant;
use tally::Tally;

/// Compares on some inputs: for a seed, rounds and a tally.
type Part = fn(&mut Random, u64, &mut Tally);

fn main() -> ExitCode {
    let seed = setting("CARTSUNDIAL_SEED", 1);
    let rounds = setting("CARTSUNDIAL_ROUNDS", 1);
    println!("against plain: seed {seed}, rounds {rounds}");
    let mut tally = Tally::default();
    let parts: [(&str, Part); 12] = [
        ("chosen", chosen::compare),
        ("headers", headers::compare),
        ("boards", boards::compare),
        ("sheets", sheets::compare),
        ("routes", routes::compare),
        ("traces", traces::compare),
        ("audits", audits::compare),
        ("indexes", indexes::compare),
        ("cards", cards::compare),
        ("ledgers", ledgers::compare),
        ("writes", writes::compare),
        ("ends", ends::compare),
    ];
    for (number, (name, compare)) in (0..).zip(parts) {
        let before = tally.total();
        let start = Instant::now();
        // Each part has its own numbers, so that one can change without the others.
        let mut random = Random::new(seed.wrapping_mul(16).wrapping_add(number));
        compare(&mut random, rounds, &mut tally);
        println!("{name}: {} calls in {:.1} s", tally.total() - before, start.elapsed().as_secs_f64());
    }
    print!("{tally}");
    match tally.faults() {
        faults if faults.is_empty() => {
            println!("against plain: {} calls, no difference", tally.total());
            ExitCode::SUCCESS
        }
        faults => {
            println!("{faults}");
            ExitCode::FAILURE
        }
    }
}

fn setting(name: &str, default: u64) -> u64 {
    match env::var(name) {
        Ok(text) => text.trim().parse().unwrap_or_else(|_| panic!("{name} is not a number: {text}")),
        Err(_) => default,
    }
}
