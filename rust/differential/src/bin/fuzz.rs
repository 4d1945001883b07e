//! Tries the engine beside the reference for so many seconds, on every processor: `fuzz SECONDS SEED`.

use std::time::{Duration, Instant};

use differential::{Averaged, Tally, run};

/// Trials between two looks at the clock.
const BATCH: u64 = 1_000;

fn main() {
    let words: Vec<u64> = std::env::args().skip(1).map(|word| word.parse().expect("two numbers")).collect();
    let [seconds, seed] = words[..] else { panic!("usage: fuzz SECONDS SEED") };
    let threads = std::thread::available_parallelism().map_or(1, |count| count.get()) as u64;
    let start = Instant::now();
    let until = start + Duration::from_secs(seconds);
    let worker = |mine: u64| {
        let mut tally = Tally::default();
        let mut batch = mine;
        while Instant::now() < until {
            match run(seed, batch * BATCH, 1, (batch + 1) * BATCH) {
                Ok(part) => tally.add(&part),
                Err(what) => {
                    println!("{what}");
                    std::process::exit(1);
                }
            }
            batch += threads;
        }
        tally
    };
    let mut tally = Tally::default();
    std::thread::scope(|scope| {
        let workers: Vec<_> = (0..threads).map(|mine| scope.spawn(move || worker(mine))).collect();
        workers.into_iter().for_each(|worker| tally.add(&worker.join().expect("a worker ends")));
    });
    let rate = tally.trials() as f64 / start.elapsed().as_secs_f64();
    println!("seed {seed}: {} pairs of files in {} s, {rate:.0} a second: no difference", tally.trials(), seconds);
    let refused: Vec<String> =
        (1..=11).chain([14]).map(|number| format!("{number}: {}", tally.refused[number])).collect();
    println!("settled {}, refused by number {}", tally.settled, refused.join(", "));
    println!("terms stated in {}, a row between stated baseline and half load in {}", tally.stated, tally.between);
    println!("called bids above the price in {}", tally.outbid);
    println!("penalties in {}, a shortfall that they fill in {}", tally.penalised, tally.filled);
    println!("somebody cut all the same in {}, something returned in {}", tally.still_cut, tally.returned);
    println!("payers visited again in {}, as many visits as there can be in {}", tally.revisited, tally.at_bound);
    println!("others than by the lower id: calls, payments, cuts, returned penalties in {:?}", tally.turned);
    let Averaged { all, stated, paid, penalised, at_average, below_40_percent, begun, ended } = tally.averaged;
    println!(
        "thermal average in {all}, of which under stated terms {stated}, somebody pays in {paid}, penalties in {penalised},"
    );
    println!("a row at its average in {at_average}, the average below 40 percent in {below_40_percent}");
    println!("begun by a correction in {begun}, ended by one in {ended}");
    println!("rows copied {}, files rewritten {}", tally.rows_copied, tally.rewritten);
}
