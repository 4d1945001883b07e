//! The engine's time beside the reference's, in one run: a day of 96 quarters, by rows and by rounds, and a month of such days.
//!
//! Every figure is the median of the repetitions with the least and the greatest. A repetition is the best of a few passes over
//! the same files for each of the two, the one that goes first in turn, so that other work on the machine does not count as theirs.

use std::hint::black_box;
use std::time::Instant;

use cases::accepted::{self, Shape};
use cases::file::{Interval, STATEMENT_ROOM};
use cases::ladder::{MOST, filled, ladder};
use cases::random::Random;
use cases::windless;
use reference::Desk;

const QUARTERS: usize = 96;
const DAYS: usize = 31;
const REPETITIONS: usize = 20;
const MONTH_REPETITIONS: usize = 10;
const PASSES: usize = 5;
const ROWS: usize = 256;

/// An interval file and its correction, empty where there is none.
type Pair = (Vec<u8>, Vec<u8>);

type Work = Box<dyn FnMut(&[u8], &[u8], &mut [u8]) -> bool>;

/// The same work by the engine and by the reference.
type Both = [Work; 2];

fn settle() -> Both {
    let mut desk = Desk::new();
    [
        Box::new(|interval, correction, out| wheatrudder::settle(interval, correction, out).is_ok()),
        Box::new(move |interval, correction, out| desk.settle(interval, correction, out).is_ok()),
    ]
}

fn rewrite() -> Both {
    [
        Box::new(|interval, _, out| wheatrudder::rewrite(interval, out).is_ok()),
        Box::new(|interval, _, out| reference::rewrite(interval, out).is_ok()),
    ]
}

/// Microseconds for all pairs, in the best of a few passes.
fn time(work: &mut Work, pairs: &[Pair]) -> f64 {
    let mut out = vec![0; STATEMENT_ROOM];
    let pass = |_| {
        let start = Instant::now();
        for (interval, correction) in pairs {
            assert!(black_box(work(black_box(interval), black_box(correction), &mut out)));
        }
        start.elapsed().as_secs_f64() * 1e6
    };
    (0..PASSES).map(pass).fold(f64::INFINITY, f64::min)
}

/// What both take, once to warm up and then in so many repetitions.
fn repeat<T>(repetitions: usize, [engine, reference]: &mut Both, take: impl Fn(&mut Work) -> T) -> Vec<[T; 2]> {
    let mut repetition = |number| {
        if number % 2 == 0 {
            let first = take(engine);
            [first, take(reference)]
        } else {
            let first = take(reference);
            [take(engine), first]
        }
    };
    repetition(0);
    (0..repetitions).map(repetition).collect()
}

/// The median, the least and the greatest.
fn spread(times: impl Iterator<Item = f64>) -> String {
    let mut times: Vec<f64> = times.collect();
    times.sort_by(f64::total_cmp);
    let median = (times[times.len() / 2 - 1] + times[times.len() / 2]) / 2.0;
    format!("{median:.2} ({:.2} to {:.2})", times[0], times[times.len() - 1])
}

/// A line of a table: microseconds a quarter.
fn measure(name: &str, both: &mut Both, pairs: &[Pair]) {
    let times = repeat(REPETITIONS, both, |work| time(work, pairs) / pairs.len() as f64);
    let [engine, reference] = [0, 1].map(|which| spread(times.iter().map(|times| times[which])));
    let ratio = spread(times.iter().map(|[engine, reference]| engine / reference));
    println!("| {name} | {engine} | {reference} | {ratio} |");
}

/// A whole table: milliseconds for the first day of a month and for all of it.
fn measure_month(both: &mut Both, month: &[Pair]) {
    let times =
        repeat(MONTH_REPETITIONS, both, |work| [&month[..QUARTERS], month].map(|pairs| time(work, pairs) / 1e3));
    println!("\n| a month of {DAYS} days, 256 rows | a day, ms | the month, ms | month / day |\n|---|---|---|---|");
    for (which, name) in ["engine", "reference"].into_iter().enumerate() {
        let [day, all] = [0, 1].map(|span| spread(times.iter().map(|times| times[which][span])));
        let ratio = spread(times.iter().map(|times| times[which][1] / times[which][0]));
        println!("| {name} | {day} | {all} | {ratio} |");
    }
    let [day, all] = [0, 1].map(|span| spread(times.iter().map(|times| times[0][span] / times[1][span])));
    println!("| engine / reference | {day} | {all} | |");
}

fn quarters(count: usize, mut quarter: impl FnMut() -> Interval) -> Vec<Pair> {
    (0..count).map(|_| (quarter().bytes(), Vec::new())).collect()
}

fn day(quarter: impl FnMut() -> Interval) -> Vec<Pair> {
    quarters(QUARTERS, quarter)
}

/// A mixed day of PG files, each quarter under terms of its own.
fn stated_day(random: &mut Random) -> Vec<Pair> {
    day(|| {
        let terms = accepted::terms(random);
        accepted::interval_stating(random, Shape::Mixed, ROWS as u32, Some(terms))
    })
}

/// A mixed day with its farms at 0 and no thermal row above half load, so that the thermal average rules every quarter.
fn windless_day(random: &mut Random) -> Vec<Pair> {
    day(|| windless::lowered(random, Shape::Mixed, ROWS as u32, None))
}

/// Quarters of so many rows, with as many rows in all as a day of full ones: of few rows, gone through again and again, a processor
/// learns by heart which way each branch goes, as it never could of a day's real files.
fn as_many_rows(random: &mut Random, rows: usize) -> Vec<Pair> {
    quarters(QUARTERS * ROWS / rows, || accepted::interval_of(random, Shape::Mixed, rows as u32))
}

/// All quarters of a month, mixed, one in three with a correction.
fn month(random: &mut Random) -> Vec<Pair> {
    let pair = |number: usize| {
        let (day, quarter) = ((number / QUARTERS) as u32, (number % QUARTERS) as u8);
        let interval = Interval { day, quarter, ..accepted::interval_of(random, Shape::Mixed, ROWS as u32) };
        if random.once_in(3) {
            let (interval, correction) = accepted::spoil(random, interval);
            (interval.bytes(), correction.bytes())
        } else {
            (interval.bytes(), Vec::new())
        }
    };
    (0..DAYS * QUARTERS).map(pair).collect()
}

fn main() {
    let mut random = Random::from_seed(1);
    let (mut settle, mut rewrite) = (settle(), rewrite());
    let head =
        |what| println!("\n| {what} | engine, µs a quarter | reference | engine / reference |\n|---|---|---|---|");
    head("a day of 96 quarters, 256 rows");
    for shape in [Shape::Mixed, Shape::Edges, Shape::TiedBids, Shape::TiedRemainders, Shape::AllCapped] {
        let day = day(|| accepted::interval_of(&mut random, shape, ROWS as u32));
        measure(&format!("{shape:?}"), &mut settle, &day);
    }
    // Drawn by themselves, so that the other days are the same with them and without them.
    measure("Mixed, terms stated", &mut settle, &stated_day(&mut Random::from_seed(2)));
    measure("a windless day", &mut settle, &windless_day(&mut Random::from_seed(3)));
    head("rows, mixed");
    for rows in [16, 64, 256] {
        measure(&rows.to_string(), &mut settle, &as_many_rows(&mut random, rows));
    }
    head("rounds, 256 rows");
    for rounds in [2, 4, 8, 12, 16, 20, 25, MOST] {
        measure(&rounds.to_string(), &mut settle, &day(|| filled(ladder(&mut random, rounds).interval, ROWS)));
    }
    head("a file rewritten, rows");
    for rows in [16, 64, 256] {
        measure(&rows.to_string(), &mut rewrite, &as_many_rows(&mut random, rows));
    }
    measure_month(&mut settle, &month(&mut random));
}
