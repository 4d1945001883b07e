//! Intervals with a known number of closing rounds, 2 to 27: in each round one group of like payers closes.
//!
//! The table was found by a search from the last round backwards (docs/TRIALS.md). The caps of the groups that are in make up
//! the total exactly, so leaving out groups from the front leaves out their rounds: the rest close as before, one round earlier.

use crate::file::{Interval, LINE, Row, THERMAL, WIND, statement_head};
use crate::many_rounds::receivers;
use crate::random::Random;

const TARIFF: u16 = 7_777;

/// Rows alike, kind, capacity and metered energy, from the group that closes first to the one that closes last.
const GROUPS: [(usize, u8, u16, u32); 27] = [
    (14, THERMAL, 1_988, 543_031),
    (23, THERMAL, 1_997, 397_953),
    (22, THERMAL, 1_987, 373_964),
    (17, THERMAL, 1_995, 368_208),
    (12, THERMAL, 1_982, 362_530),
    (8, THERMAL, 1_920, 349_468),
    (5, THERMAL, 1_954, 354_571),
    (3, THERMAL, 1_781, 322_520),
    (2, THERMAL, 1_836, 331_980),
    (1, THERMAL, 1_676, 302_742),
    (1, THERMAL, 1_113, 200_869),
    (1, THERMAL, 677, 122_112),
    (1, THERMAL, 337, 60_759),
    (1, THERMAL, 181, 32_621),
    (3, THERMAL, 40, 7_207),
    (2, THERMAL, 35, 6_305),
    (1, THERMAL, 34, 6_124),
    (1, THERMAL, 21, 3_782),
    (1, THERMAL, 13, 2_341),
    (33, WIND, 1, 11),
    (16, WIND, 1, 18),
    (8, WIND, 1, 19),
    (4, WIND, 1, 20),
    (2, WIND, 1, 21),
    (1, WIND, 1, 29),
    (1, WIND, 1, 15),
    (1, WIND, 1, 8),
];

/// The cap of the last group alone, 311 fen, is no sum of compensations at the prices that the receivers bid.
pub const FEWEST: usize = 2;

pub const MOST: usize = GROUPS.len();

/// An interval, and the round in which each of its rows closes; 0 for a row that receives.
pub struct Ladder {
    pub interval: Interval,
    pub closing: Vec<u16>,
}

impl Ladder {
    /// Everybody closes, so each payer is visited as many times as its closing round says.
    pub fn visits(&self) -> u32 {
        self.closing.iter().copied().map(u32::from).sum()
    }
}

/// An interval of so many closing rounds, its rows in a drawn order.
pub fn ladder(random: &mut Random, rounds: usize) -> Ladder {
    let mut total = 0;
    let mut rows = Vec::new();
    for (round, &(alike, kind, capacity, metered)) in (1..).zip(&GROUPS[MOST - rounds..]) {
        let divisor = if kind == THERMAL { 400 } else { 200 };
        total += alike as u64 * (u64::from(metered) * u64::from(TARIFF) / divisor);
        rows.extend(vec![(Row::new(0, kind, capacity, metered), round); alike]);
    }
    rows.extend(receivers(total).into_iter().map(|row| (row, 0)));
    random.shuffle(&mut rows);
    let (mut rows, closing): (Vec<Row>, Vec<u16>) = rows.into_iter().unzip();
    for (id, row) in (1..).zip(&mut rows) {
        row.id = id;
    }
    Ladder { interval: Interval::new(TARIFF, 64_000_000, rows), closing }
}

/// The interval with rows that take no part behind its own, up to so many.
pub fn filled(mut interval: Interval, rows: usize) -> Interval {
    while interval.rows.len() < rows {
        let id = interval.rows.last().map_or(1, |row| row.id + 1);
        interval.rows.push(Row::thermal(id, 100, 0));
    }
    interval
}

/// What a statement says: the rounds, the visits, and each line's closing round.
pub fn told(statement: &[u8]) -> (u16, u32, Vec<u16>) {
    let number = |bytes: &[u8], at: usize| u16::from_le_bytes([bytes[at], bytes[at + 1]]);
    let (head, lines) = statement.split_at(statement_head(statement).expect("a statement has its mark"));
    // The visits stand before the flag, which is the head's last byte.
    let visits = u32::from(number(head, head.len() - 5)) | u32::from(number(head, head.len() - 3)) << 16;
    (number(head, 27), visits, lines.chunks_exact(LINE).map(|line| number(line, 32)).collect())
}
