//! How long the reference takes for a day of 96 quarters of 256 rows, for each shape of interval; best of many rounds.

use std::hint::black_box;
use std::time::{Duration, Instant};

use cases::accepted::{self, Shape};
use cases::file::{ROW, STATEMENT_ROOM, heads};
use cases::random::Random;
use cases::windless;
use reference::Desk;

const QUARTERS: u32 = 96;
const ROWS: u32 = 256;

fn day(shape: Shape, seed: u64) -> Vec<Vec<u8>> {
    let mut random = Random::from_seed(seed);
    let interval = |_| match shape {
        Shape::ManyRounds => accepted::interval(&mut random, shape).bytes(),
        Shape::Windless => windless::lowered(&mut random, Shape::Mixed, ROWS, None).bytes(),
        _ => accepted::interval_of(&mut random, shape, ROWS).bytes(),
    };
    (0..QUARTERS).map(interval).collect()
}

fn settle_all(desk: &mut Desk, intervals: &[Vec<u8>], statement: &mut [u8]) -> Duration {
    let start = Instant::now();
    for interval in intervals {
        let answer = desk.settle(black_box(interval), &[], statement);
        assert!(black_box(answer).is_ok());
    }
    start.elapsed()
}

fn main() {
    let mut desk = Desk::new();
    let mut statement = vec![0; STATEMENT_ROOM];
    let shapes = [
        Shape::Full,
        Shape::Edges,
        Shape::TiedBids,
        Shape::TiedRemainders,
        Shape::AllCapped,
        Shape::ManyRounds,
        Shape::Windless,
    ];
    for shape in shapes {
        let intervals = day(shape, 1);
        let rows: usize = intervals.iter().map(|interval| (interval.len() - heads(interval).0) / ROW).sum();
        let best = (0..200).map(|_| settle_all(&mut desk, &intervals, &mut statement)).min().expect("many rounds");
        let quarter = best.as_nanos() as f64 / f64::from(QUARTERS) / 1_000.0;
        println!("{shape:?}: {quarter:.1} µs a quarter of {} rows on average", rows / QUARTERS as usize);
    }
}
