//! Settles a drawn day again and again with the engine alone, for `tools/profile` to look at.

use std::env;
use std::time::Instant;

use cases::accepted::{self, Shape};
use cases::file::{Interval, STATEMENT_ROOM};
use cases::ladder::{filled, ladder};
use cases::random::Random;
use cases::windless;

const QUARTERS: usize = 96;
const ROWS: usize = 256;

/// A quarter of the day that the benchmark has by this name, or a ladder of so many rounds.
fn quarter(random: &mut Random, name: &str) -> Interval {
    let shape = match name {
        "mixed" => Shape::Mixed,
        "stated" => {
            let terms = accepted::terms(random);
            return accepted::interval_stating(random, Shape::Mixed, ROWS as u32, Some(terms));
        }
        "windless" => return windless::lowered(random, Shape::Mixed, ROWS as u32, None),
        "edges" => Shape::Edges,
        "tied-bids" => Shape::TiedBids,
        "tied-remainders" => Shape::TiedRemainders,
        "all-capped" => Shape::AllCapped,
        rounds => return filled(ladder(random, rounds.parse().expect("a shape or a number of rounds")).interval, ROWS),
    };
    accepted::interval_of(random, shape, ROWS as u32)
}

fn main() {
    let words: Vec<String> = env::args().collect();
    let [_, name, days] = &words[..] else { panic!("usage: profile SHAPE DAYS") };
    let days: usize = days.parse().expect("a number of days");
    let mut random = Random::from_seed(1);
    let day: Vec<Vec<u8>> = (0..QUARTERS).map(|_| quarter(&mut random, name).bytes()).collect();
    let mut statement = vec![0; STATEMENT_ROOM];
    let start = Instant::now();
    for interval in (0..days).flat_map(|_| &day) {
        assert!(wheatrudder::settle(interval, &[], &mut statement).is_ok());
    }
    println!("{name}: {:.2} µs a quarter", start.elapsed().as_secs_f64() * 1e6 / (days * QUARTERS) as f64);
}
