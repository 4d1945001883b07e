//! Prints the small intervals that the definitions are tried with, each as the reference answers it. One line for each
//! case, parted by tabs, bytes in hex: its name, the interval, the correction; the length of the buffer, then number,
//! value and the buffer afterwards; ids and the bytes that count for each; and for contents that can be written, the
//! length of the writer's buffer, then number, value and that buffer afterwards.
//! Every buffer is full of 255 before. With two numbers, a count and a seed, so many cases are drawn at random.

use cases::file::{CORRECTION_HEAD, Interval, ROW, Row, Terms, heads};
use cases::random::Random;
use cases::{Answer, Case, accepted, refused};

mod small;
mod windless;

const MOST_ROWS: u32 = 5;

fn hex(bytes: &[u8]) -> String {
    bytes.iter().map(|byte| format!("{byte:02x}")).collect()
}

fn drawn(random: &mut Random) -> Case {
    match random.below(4) {
        0 | 1 => accepted::small_case(random, MOST_ROWS),
        2 => {
            let base = refused::base(random, MOST_ROWS);
            refused::several(random, &base).0
        }
        _ => {
            let case = accepted::small_case(random, MOST_ROWS);
            refused::scrambled(random, case)
        }
    }
}

fn cases_asked_for() -> Vec<Case> {
    let numbers: Vec<u64> = std::env::args().skip(1).map(|word| word.parse().expect("a count and a seed")).collect();
    match numbers[..] {
        [count, seed] => {
            let mut random = Random::from_seed(seed);
            (0..count).map(|_| drawn(&mut random)).collect()
        }
        _ => small::cases(),
    }
}

/// Length of the buffer, number, value and buffer afterwards of one call.
fn outcome(length: usize, call: impl FnOnce(&mut [u8]) -> Answer) -> String {
    let mut buffer = vec![255; length];
    let (number, value) = match call(&mut buffer) {
        Ok(written) => (0, written),
        Err((number, place)) => (number, place.into()),
    };
    format!("{length}\t{number}\t{value}\t{}", hex(&buffer))
}

/// A few ids that either file might name, and some that none does.
fn ids(case: &Case) -> Vec<u16> {
    let named = |file: &[u8], head: usize| -> Vec<u16> {
        let rows = file.get(head..).unwrap_or_default().chunks_exact(ROW);
        rows.map(|row| u16::from_le_bytes([row[2], row[3]])).take(3).collect()
    };
    let interval = named(&case.interval, heads(&case.interval).0);
    let mut ids = [interval, named(&case.correction, CORRECTION_HEAD), vec![0, 1, u16::MAX]].concat();
    ids.sort_unstable();
    ids.dedup();
    ids
}

/// The figures of a file of the right length as the reference's writer takes them.
fn contents(file: &[u8]) -> Option<reference::Interval> {
    let Interval { day, quarter, tariff, need, stated, rows, .. } = Interval::read(file)?;
    let terms = |Terms { percent, limits }| reference::Terms { percent, limits };
    let row = |Row { id, kind, capacity, metered, status, offered, minimum, bids, .. }| reference::Row {
        id,
        kind,
        capacity,
        metered,
        status,
        offered,
        minimum,
        bids,
    };
    let rows = rows.into_iter().map(row).collect();
    Some(reference::Interval { day, quarter, tariff, need, stated: stated.map(terms), rows })
}

fn main() {
    for (place, case) in cases_asked_for().into_iter().enumerate() {
        let settled = outcome(case.buffer, |buffer| reference::settle(&case.interval, &case.correction, buffer));
        let counting = |id| hex(reference::counting_row(&case.interval, &case.correction, id));
        let parts: Vec<String> = ids(&case).into_iter().map(|id| format!("{id}:{}", counting(id))).collect();
        // The writer meets buffers that are a byte short, exact and longer, in turn.
        let written = contents(&case.interval).map(|contents| {
            outcome(case.interval.len() + place % 3 - 1, |buffer| reference::write_interval(&contents, buffer))
        });
        let files = [hex(&case.interval), hex(&case.correction)].join("\t");
        println!("{}\t{files}\t{settled}\t{}\t{}", case.name, parts.join(","), written.unwrap_or_default());
    }
}
