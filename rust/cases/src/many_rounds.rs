//! Intervals in which one payer, or a few alike, closes in each of many rounds.
//!
//! Built from the last round backwards. With `rest` and `weight` open after a round, a payer belongs before it if it
//! closes at that rate (`rest × w ≥ cap × weight`) and its joining brings the rate below the cap of the one that closes next.

use crate::file::{Interval, Row};
use crate::random::Random;

/// What one row receives at most, of tier 1 alone and of both.
const TIER_1_FULL: u64 = 505_000;
const BOTH_FULL: u64 = TIER_1_FULL + 15_000_000;

/// Payers and full receivers; the few rows more that meet the amount to the fen fit into 256.
const MOST_ROWS: u64 = 230;

/// Rows of one capacity and energy, which close together.
struct Payers {
    row: Row,
    rows: u64,
    weight: u64,
    cap: u64,
}

/// An interval built to have up to so many closing rounds.
pub fn interval(random: &mut Random, wanted: usize) -> Interval {
    let tariff = random.within(2_000..=10_000) as u16;
    let capacity = random.within(100..=300);
    let last = payers(capacity, 125 * capacity + random.within(capacity..=20 * capacity), tariff);
    let mut rest = last.cap - 1;
    let mut weight = last.weight;
    let mut rounds = vec![last];
    while rounds.len() <= wanted {
        let Some(before) = earlier(random, tariff, rest, weight, &rounds[rounds.len() - 1]) else {
            break;
        };
        let payers = rounds.iter().map(|round| round.rows).sum::<u64>() + before.rows;
        if payers + (rest + before.rows * before.cap) / BOTH_FULL > MOST_ROWS {
            break;
        }
        rest += before.rows * before.cap;
        weight += before.rows * before.weight;
        rounds.push(before);
    }
    let mut rows: Vec<Row> = rounds.iter().flat_map(|round| (0..round.rows).map(|_| round.row)).collect();
    rows.extend(receivers(rest));
    random.shuffle(&mut rows);
    for (place, row) in rows.iter_mut().enumerate() {
        row.id = 100 + 7 * place as u16;
    }
    Interval::new(tariff, 64_000_000, rows)
}

/// One thermal row at more than half load.
fn payers(capacity: u32, metered: u32, tariff: u16) -> Payers {
    let weight: u32 = [125, 150, 175].map(|load| metered.saturating_sub(load * capacity)).into_iter().sum();
    let row = Row::thermal(0, capacity as u16, metered);
    Payers { row, rows: 1, weight: weight.into(), cap: u64::from(metered) * u64::from(tariff) / 400 }
}

/// Of many drawn payers that would close one round earlier, the thriftiest: the less they owe beyond their caps and the
/// less they weigh, the more rounds there is room for.
fn earlier(random: &mut Random, tariff: u16, rest: u64, weight: u64, next: &Payers) -> Option<Payers> {
    let mut best: Option<(f64, Payers)> = None;
    for _ in 0..3_000 {
        let Some(drawn) = near_rate(random, tariff, rest as f64 / weight as f64, weight) else {
            continue;
        };
        let new_rest = rest + drawn.rows * drawn.cap;
        let new_weight = weight + drawn.rows * drawn.weight;
        let closes = rest * drawn.weight >= drawn.cap * weight;
        let next_waits = new_rest * next.weight < next.cap * new_weight;
        if closes && next_waits {
            let beyond = new_rest as f64 / new_weight as f64 - drawn.cap as f64 / drawn.weight as f64;
            let cost = beyond.max(1e-9).ln() + 0.5 * (new_weight as f64).ln();
            if best.as_ref().is_none_or(|(least, _)| cost < *least) {
                best = Some((cost, drawn));
            }
        }
    }
    best.map(|(_, payers)| payers)
}

/// Payers whose cap for each kWh of weight is a little below a rate, and that weigh about half of the weight given.
fn near_rate(random: &mut Random, tariff: u16, rate: f64, weight: u64) -> Option<Payers> {
    let below = 10f64.powf(-f64::from(random.within(0..=7_000)) / 1_000.0);
    let ratio = rate * (1.0 - below) * 400.0 / f64::from(tariff);
    let capacity = random.within(1..=2_000);
    // The energy at which a thermal row has this ratio of energy to weight, by the band of load it falls in.
    let load = match ratio {
        _ if ratio >= 6.0 => 125.0 * ratio / (ratio - 1.0),
        _ if ratio >= 7.0 / 3.0 => 275.0 * ratio / (2.0 * ratio - 1.0),
        _ => 450.0 * ratio / (3.0 * ratio - 1.0),
    };
    if !(125.0..=275.0).contains(&load) {
        return None;
    }
    let metered = (f64::from(capacity) * load).ceil() as u32;
    let one = payers(capacity, metered.clamp(125 * capacity + 1, 275 * capacity), tariff);
    let rows = (weight / 2 / one.weight).max(1);
    let heavy = rows * one.weight;
    (rows <= 24 && heavy * 4 >= weight && heavy <= weight * 3 / 4).then_some(Payers { rows, ..one })
}

/// Offering rows, all called in full at 101 and 750 li, whose compensations add up to exactly so many fen.
pub fn receivers(fen: u64) -> Vec<Row> {
    const FINE: u64 = 10_000;
    let receiver = |metered| Row::thermal(0, 2_000, metered).offering(0, 101, 750);
    let mut rows = Vec::new();
    let mut rest = fen;
    while rest > BOTH_FULL + FINE {
        rows.push(receiver(0));
        rest -= BOTH_FULL;
    }
    if rest > TIER_1_FULL {
        let tier_2 = rest.saturating_sub(TIER_1_FULL + FINE) / 75;
        rows.push(receiver(200_000 - tier_2 as u32));
        rest -= TIER_1_FULL + 75 * tier_2;
    }
    // A row paid for 5 kWh gets 51 fen: enough of them leave an amount that one row can meet to the fen.
    let fives = (0..=20).find_map(|fives: u64| {
        let rest = rest.checked_sub(51 * fives)?;
        let kwh = rest * 10 / 101;
        (kwh..=kwh + 1).find(|kwh| (kwh * 101 + 5) / 10 == rest).map(|kwh| (fives, kwh))
    });
    let (fives, kwh) = fives.unwrap_or((0, rest * 10 / 101));
    rows.extend((0..fives).map(|_| receiver(250_000 - 5)));
    rows.push(receiver(250_000 - kwh as u32));
    rows
}
