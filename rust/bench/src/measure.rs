//! The clock.

use std::hint::black_box;
use std::time::{Duration, Instant};

/// How many times each side is timed; and at the least, where a call is longer than a round.
const ROUNDS: usize = 301;
const FEWEST: usize = 21;

/// How long a round takes, about: short, so that most rounds are not interrupted.
const ROUND: Duration = Duration::from_micros(500);

/// After so long there are no more rounds than the fewest.
const LONGEST: Duration = Duration::from_secs(2);

/// Nanoseconds a call.
pub struct Times {
    pub plain: f64,
    pub proved: f64,
}

/// The medians of both sides, which take turns.
pub fn compare<A, B>(mut plain: impl FnMut() -> A, mut proved: impl FnMut() -> B) -> Times {
    let counts = (calls_in_round(&mut plain), calls_in_round(&mut proved));
    let (mut plain_rounds, mut proved_rounds) = (Vec::new(), Vec::new());
    let start = Instant::now();
    while plain_rounds.len() < FEWEST || plain_rounds.len() < ROUNDS && start.elapsed() < LONGEST {
        plain_rounds.push(round(&mut plain, counts.0));
        proved_rounds.push(round(&mut proved, counts.1));
    }
    Times { plain: median(plain_rounds), proved: median(proved_rounds) }
}

/// How many calls take about a round, found by doubling, which also warms the caches.
fn calls_in_round<A>(call: &mut impl FnMut() -> A) -> u32 {
    let mut count = 1;
    loop {
        let start = Instant::now();
        for _ in 0..count {
            black_box(call());
        }
        if start.elapsed() >= ROUND / 2 {
            return 2 * count;
        }
        count *= 2;
    }
}

fn round<A>(call: &mut impl FnMut() -> A, count: u32) -> f64 {
    let start = Instant::now();
    for _ in 0..count {
        black_box(call());
    }
    start.elapsed().as_nanos() as f64 / f64::from(count)
}

pub fn median(mut rounds: Vec<f64>) -> f64 {
    rounds.sort_by(f64::total_cmp);
    rounds[rounds.len() / 2]
}
