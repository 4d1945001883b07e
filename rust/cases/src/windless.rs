//! Quarters without wind or sun in which no thermal row is above its baseline, so that the thermal average rules, and quarters that
//! are at the edge of that or just past it.

use crate::accepted::{self, Shape};
use crate::file::{Interval, Row, SOLAR, THERMAL, Terms, WIND};
use crate::random::Random;

/// The thermal average of a quarter that it rules.
#[derive(Clone, Copy, Debug)]
pub struct Average {
    energy: u64,
    capacity: u64,
}

impl Average {
    /// The average that rules, if it does, by the rows that count.
    pub fn ruling(need: u32, terms: Terms, rows: &[Row]) -> Option<Average> {
        let thermal = || rows.iter().filter(|row| row.kind == THERMAL);
        let still = rows.iter().all(|row| row.kind == THERMAL || row.metered == 0);
        let low = thermal().all(|row| row.metered <= terms.baseline(row.capacity));
        let energy = thermal().map(|row| u64::from(row.metered)).sum();
        let capacity = thermal().map(|row| u64::from(row.capacity)).sum();
        (need > 0 && still && low && capacity > 0).then_some(Average { energy, capacity })
    }

    /// The average energy of a row, cut to whole kWh.
    pub fn of(&self, row: &Row) -> u32 {
        (u64::from(row.capacity) * self.energy / self.capacity) as u32
    }

    pub fn below_40_percent(&self) -> bool {
        self.energy < 100 * self.capacity
    }
}

/// What a windless quarter is drawn as, before its meters are lowered.
const DRAWN_AS: [Shape; 14] = [
    Shape::Mixed,
    Shape::Mixed,
    Shape::Edges,
    Shape::TiedBids,
    Shape::TiedRemainders,
    Shape::Alike,
    Shape::AllCapped,
    Shape::AtBaseline,
    Shape::Undelivered,
    Shape::Reduced,
    Shape::Reduced,
    Shape::HighestTariff,
    Shape::SmallestUnits,
    Shape::LargestUnits,
];

/// A quarter that the thermal average rules if one of its rows is thermal.
pub fn interval(random: &mut Random, count: u32, stated: Option<Terms>) -> Interval {
    let shape = random.one_of(&DRAWN_AS);
    let mut interval = lowered(random, shape, count, stated);
    if random.once_in(4) {
        let statuses = interval.rows.iter_mut().filter(|row| row.kind == THERMAL).map(|row| &mut row.status);
        statuses.for_each(|status| *status = random.within(0..=3) as u8);
    }
    if random.once_in(2) {
        beside_average(random, &mut interval);
    }
    interval
}

/// A quarter of another shape with its farms at 0, its thermal rows at or below their baselines, and a need.
pub fn lowered(random: &mut Random, shape: Shape, count: u32, stated: Option<Terms>) -> Interval {
    let mut interval = accepted::interval_stating(random, shape, count, stated);
    let terms = interval.terms();
    let loads = random.below(4);
    for row in &mut interval.rows {
        let (mw, baseline) = (u32::from(row.capacity), terms.baseline(row.capacity));
        row.metered = match loads {
            _ if row.kind != THERMAL => 0,
            // Mostly an average below 40 percent, and one above it.
            0 => random.within(0..=110 * mw).min(baseline),
            1 => random.within(95 * mw..=baseline),
            _ => row.metered.min(baseline),
        };
    }
    interval.need = interval.need.max(1);
    interval
}

/// Any meter of a row in a windless quarter.
pub fn low_meter(random: &mut Random, row: &Row, terms: Terms) -> u32 {
    if row.kind == THERMAL { random.within(0..=terms.baseline(row.capacity)) } else { 0 }
}

/// Puts a thermal row at its average, or a kWh beside it.
fn beside_average(random: &mut Random, interval: &mut Interval) {
    let terms = interval.terms();
    let thermal = places(interval, |row| row.kind == THERMAL);
    if thermal.is_empty() {
        return;
    }
    let place = random.one_of(&thermal);
    let others = || thermal.iter().filter(|&&other| other != place).map(|&other| &interval.rows[other]);
    let energy: u64 = others().map(|row| u64::from(row.metered)).sum();
    let capacity: u64 = others().map(|row| u64::from(row.capacity)).sum();
    let row = &mut interval.rows[place];
    // Where the others stand on average a row does not move the average. A lone one is at its average wherever it stands.
    let average = (u64::from(row.capacity) * energy).checked_div(capacity).unwrap_or(row.metered.into());
    let beside = average as u32 + random.one_of(&[0, 1, 1, 1, 2]);
    row.metered = beside.saturating_sub(1).min(terms.baseline(row.capacity));
}

fn places(interval: &Interval, is: impl Fn(&Row) -> bool) -> Vec<usize> {
    (0..interval.rows.len()).filter(|&place| is(&interval.rows[place])).collect()
}

/// A windless quarter in which one thing is at the edge of what the thermal average asks for, or just past it.
pub fn nearly(random: &mut Random, count: u32, stated: Option<Terms>) -> Interval {
    let mut interval = self::interval(random, count, stated);
    let terms = interval.terms();
    let thermal = places(&interval, |row| row.kind == THERMAL);
    let past = random.within(0..=1);
    if thermal.is_empty() {
        return interval;
    }
    let place = random.one_of(&thermal);
    match random.below(6) {
        0 => interval.need = past,
        1 => interval.rows[place] = farm(random, &interval.rows[place], past),
        // No thermal row at all.
        2 => thermal.iter().for_each(|&place| interval.rows[place] = farm(random, &interval.rows[place], 0)),
        3 => at_baseline(&mut interval.rows[place], terms, past),
        // All at their baselines, but for one perhaps.
        4 => {
            thermal.iter().for_each(|&place| at_baseline(&mut interval.rows[place], terms, 0));
            at_baseline(&mut interval.rows[place], terms, past);
        }
        // At half load: above a stated baseline that is lower.
        _ => at_baseline(&mut interval.rows[place], Terms::OF_01, 0),
    }
    interval
}

/// A wind or solar row in the place of another, at so many kWh.
fn farm(random: &mut Random, row: &Row, metered: u32) -> Row {
    Row::new(row.id, random.one_of(&[WIND, SOLAR]), row.capacity, metered).with_status(random.one_of(&[0, 3]))
}

fn at_baseline(row: &mut Row, terms: Terms, past: u32) {
    row.metered = terms.baseline(row.capacity) + past;
}
