//! Writes the interval file of a ladder to standard output: `ladder ROUNDS [ROWS]`, filled to so many rows with rows that take no part.

use std::io::{Write, stdout};

use cases::ladder::{FEWEST, MOST, filled, ladder};
use cases::random::Random;

fn main() {
    let mut words = std::env::args().skip(1).map(|word| word.parse().ok());
    let rounds = words.next().flatten().filter(|rounds| (FEWEST..=MOST).contains(rounds));
    let rows = words.next().unwrap_or(Some(0)).filter(|rows| (0..=256).contains(rows));
    let (Some(rounds), Some(rows)) = (rounds, rows) else {
        eprintln!("ladder ROUNDS [ROWS], from {FEWEST} to {MOST} rounds, at most 256 rows");
        std::process::exit(2);
    };
    let interval = filled(ladder(&mut Random::from_seed(1), rounds).interval, rows);
    stdout().write_all(&interval.bytes()).expect("the file is written");
}
