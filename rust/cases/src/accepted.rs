//! Files that are accepted, in many shapes.

use crate::Case;
use crate::file::{Correction, Interval, Row, SOLAR, THERMAL, Terms, WIND};
use crate::ladder::ladder;
use crate::many_rounds;
use crate::random::Random;
use crate::windless;

#[derive(Clone, Copy, Debug, PartialEq, Eq)]
pub enum Shape {
    Mixed,
    /// Every field at an edge of its range or next to one.
    Edges,
    /// All bands at two or three bids, the need somewhere among them.
    TiedBids,
    /// Equal weights, so that leftovers of payments go by turn alone.
    TiedRemainders,
    /// Rows of two sorts, one that is called and delivers and one that pays: what is left over of calls, payments and cuts goes by turn.
    Alike,
    AllCapped,
    /// One payer, or a few alike, closes in each of many rounds.
    ManyRounds,
    /// Thermal payers at exactly their baseline: weight 0, yet with a cap.
    AtBaseline,
    /// Minimums at or above 40 percent, many at the baseline: bands without width.
    NoWidth,
    /// Offers only, most of them called and delivered in part or not at all, of any status: few rows set a price.
    Undelivered,
    /// Offers that are all called, nearly half of reduced units that delivered all, some or nothing: penalties below, near and far
    /// above the shortfall.
    Reduced,
    /// Offers alike but for the status, and few payers: a reduced unit owes as many fen as another gets, so penalties may equal the
    /// shortfall, and what is left over of cuts and of what is returned goes by turn.
    TiedPenalties,
    /// Neither wind nor sun, and no thermal row above its baseline: the thermal average rules.
    Windless,
    /// The same with one thing at the edge of it or just past it.
    NearlyWindless,
    NeedNothing,
    NeedBeyond,
    LowestTariff,
    HighestTariff,
    /// Thermal rows below their baselines, and a farm in a grid accident, without which the thermal average would rule.
    NobodyPays,
    NoRows,
    SmallestUnits,
    LargestUnits,
    /// 256 rows.
    Full,
}

pub const SHAPES: [Shape; 23] = [
    Shape::Mixed,
    Shape::Edges,
    Shape::TiedBids,
    Shape::TiedRemainders,
    Shape::Alike,
    Shape::AllCapped,
    Shape::ManyRounds,
    Shape::AtBaseline,
    Shape::NoWidth,
    Shape::Undelivered,
    Shape::Reduced,
    Shape::TiedPenalties,
    Shape::Windless,
    Shape::NearlyWindless,
    Shape::NeedNothing,
    Shape::NeedBeyond,
    Shape::LowestTariff,
    Shape::HighestTariff,
    Shape::NobodyPays,
    Shape::NoRows,
    Shape::SmallestUnits,
    Shape::LargestUnits,
    Shape::Full,
];

/// Any shape; one in five is the one with many ties, one in four has penalties in plenty, and one in four is windless or nearly so.
fn shape(random: &mut Random) -> Shape {
    match random.below(20) {
        0..4 => Shape::Alike,
        4..6 => Shape::Reduced,
        6..8 => Shape::TiedPenalties,
        8..11 => Shape::Windless,
        11..13 => Shape::NearlyWindless,
        _ => random.one_of(&SHAPES),
    }
}

/// A case that must be accepted, with a correction in half of the draws and a buffer of at least the needed length.
pub fn case(random: &mut Random) -> Case {
    let shape = shape(random);
    let interval = interval(random, shape);
    case_of(random, shape, interval)
}

/// The same with so few rows that it can be followed by hand.
pub fn small_case(random: &mut Random, most: u32) -> Case {
    let shape = shape(random);
    let count = random.within(0..=most);
    let interval = interval_of_either(random, shape, count);
    case_of(random, shape, interval)
}

fn case_of(random: &mut Random, shape: Shape, interval: Interval) -> Case {
    let buffer = interval.statement_length() + if random.once_in(2) { 0 } else { random.below(80) };
    let (interval, correction) = if random.once_in(2) || interval.rows.is_empty() {
        (interval.bytes(), Vec::new())
    } else {
        let (interval, correction) = if random.once_in(4) { lower(random, interval) } else { spoil(random, interval) };
        (interval.bytes(), correction.bytes())
    };
    Case { name: format!("{shape:?}"), interval, correction, buffer }
}

/// The form of a file: none stated in half of the draws, else any terms that are allowed.
pub fn form(random: &mut Random) -> Option<Terms> {
    (!random.once_in(2)).then(|| terms(random))
}

/// Terms that are allowed: those of document 01 now and then, else a percentage and limits of many sorts.
pub fn terms(random: &mut Random) -> Terms {
    if random.once_in(8) {
        return Terms::OF_01;
    }
    let percent = if random.once_in(3) { random.one_of(&[41, 50]) } else { random.within(41..=50) as u8 };
    Terms { percent, limits: limits(random) }
}

fn limits(random: &mut Random) -> [u16; 4] {
    match random.below(8) {
        0 | 1 => Terms::OF_01.limits,
        // The narrowest at either end, the widest, and those with a gap between the tiers.
        2 => random.one_of(&[[1, 2, 2, 3], [997, 998, 999, 1_000], [1, 500, 500, 1_000], [1, 999, 999, 1_000]]),
        3 => random.one_of(&[[100, 320, 321, 750], [99, 321, 321, 751], [101, 319, 319, 749], [1, 2, 999, 1_000]]),
        drawn => {
            let first = random.within(1..=500) as u16;
            let second = first + random.within(1..=250) as u16;
            let third = if drawn < 6 { second } else { second + random.within(0..=200) as u16 };
            [first, second, third, random.within(u32::from(third) + 1..=1_000) as u16]
        }
    }
}

/// A valid interval of the given shape, in either form.
pub fn interval(random: &mut Random, shape: Shape) -> Interval {
    if shape == Shape::ManyRounds {
        let wanted = random.within(10..=27) as usize;
        let interval =
            if random.once_in(2) { many_rounds::interval(random, wanted) } else { ladder(random, wanted).interval };
        let interval = dated(random, interval);
        // Their rows are made for a baseline of half load and bids of 101 and 750 li; these terms allow them.
        let narrow = Terms { limits: [101, 102, 749, 750], ..Terms::OF_01 };
        return match random.below(4) {
            0 => interval.stating(Terms::OF_01),
            1 => interval.stating(narrow),
            _ => interval,
        };
    }
    let count = match shape {
        Shape::NoRows => 0,
        Shape::Full => 256,
        _ if random.once_in(3) => random.within(1..=8),
        _ => random.within(1..=256),
    };
    interval_of_either(random, shape, count)
}

/// A valid interval of the given shape and number of rows in either form.
pub fn interval_of_either(random: &mut Random, shape: Shape, count: u32) -> Interval {
    let stated = form(random);
    interval_stating(random, shape, count, stated)
}

/// A valid PH file of the given shape and number of rows. Many rounds and full files are not to be had with few rows.
pub fn interval_of(random: &mut Random, shape: Shape, count: u32) -> Interval {
    interval_stating(random, shape, count, None)
}

/// A valid interval of the given shape, number of rows and terms: PG where they are stated, PH where none are.
pub fn interval_stating(random: &mut Random, shape: Shape, count: u32, stated: Option<Terms>) -> Interval {
    match shape {
        Shape::Windless => return windless::interval(random, count, stated),
        Shape::NearlyWindless => return windless::nearly(random, count, stated),
        _ => {}
    }
    let drawn = Drawn { shape, stated, terms: stated.unwrap_or(Terms::OF_01) };
    let mut rows: Vec<Row> = (0..count).map(|_| drawn.row(random)).collect();
    if shape == Shape::NobodyPays && count > 0 {
        let row = &mut rows[random.below(count as usize)];
        let metered = random.within(1..=load(row, 275));
        *row = Row::new(0, random.one_of(&[WIND, SOLAR]), row.capacity, metered).with_status(3);
    }
    number(random, &mut rows);
    let offered = rows.iter().filter(|row| row.offered == 1);
    let width: u32 = offered.map(|row| drawn.terms.baseline(row.capacity) - row.minimum).sum();
    let need = match shape {
        Shape::NeedNothing => 0,
        Shape::NeedBeyond => (width + random.within(1..=1_000_000)).min(64_000_000),
        Shape::Edges => random.one_of(&[0, 1, width.saturating_sub(1), width, width + 1, 64_000_000]),
        Shape::AllCapped | Shape::TiedRemainders | Shape::Reduced | Shape::TiedPenalties => width,
        _ => random.within(0..=width + width / 8),
    };
    let tariff = match shape {
        Shape::LowestTariff => 1,
        Shape::HighestTariff => 10_000,
        Shape::Edges => random.one_of(&[1, 2, 399, 400, 401, 9_999, 10_000]),
        Shape::AllCapped => random.within(1..=60) as u16,
        // A high tariff in half of them, so that payments are shared in many and cuts in many.
        Shape::Alike if random.once_in(2) => random.within(1_000..=10_000) as u16,
        // Low tariffs are as likely as high ones, so that caps bind for none, for some and for all.
        _ => 10f64.powf(random.within(0..=4_000) as f64 / 1_000.0) as u16,
    };
    let interval = dated(random, Interval::new(tariff, need.min(64_000_000), rows));
    match stated {
        Some(terms) => interval.stating(terms),
        None => interval,
    }
}

fn dated(random: &mut Random, interval: Interval) -> Interval {
    let day = if random.once_in(4) { random.one_of(&[0, 36_524]) } else { random.within(0..=36_524) };
    let quarter = if random.once_in(4) { random.one_of(&[0, 95]) } else { random.within(0..=95) as u8 };
    Interval { day, quarter, ..interval }
}

fn load(row: &Row, share: u32) -> u32 {
    u32::from(row.capacity) * share
}

/// Gives rising ids, close together or spread over the whole range.
fn number(random: &mut Random, rows: &mut [Row]) {
    let spread = random.one_of(&[1, 2, 100, 255]);
    let mut id = if random.once_in(2) { 0 } else { random.within(0..=200) };
    for row in rows.iter_mut() {
        id += random.within(1..=spread);
        row.id = id as u16;
    }
    if let (true, Some(last)) = (random.once_in(4), rows.last_mut()) {
        last.id = u16::MAX;
    }
}

/// What a row is drawn by.
struct Drawn {
    shape: Shape,
    stated: Option<Terms>,
    terms: Terms,
}

impl Drawn {
    fn row(&self, random: &mut Random) -> Row {
        let shape = self.shape;
        let capacity = match shape {
            Shape::SmallestUnits => 1,
            Shape::LargestUnits => 2_000,
            Shape::Edges => random.one_of(&[1, 2, 3, 1_999, 2_000]),
            Shape::TiedRemainders | Shape::Alike | Shape::TiedPenalties => 300,
            _ if random.once_in(3) => random.one_of(&[1, 100, 300, 600, 1_000, 2_000]),
            _ => random.within(1..=2_000) as u16,
        };
        let kind = match shape {
            Shape::TiedBids | Shape::NoWidth | Shape::NobodyPays => THERMAL,
            Shape::Undelivered | Shape::Reduced | Shape::TiedPenalties if !random.once_in(8) => THERMAL,
            _ => random.one_of(&[THERMAL, THERMAL, THERMAL, WIND, SOLAR]),
        };
        let receives = match shape {
            Shape::NobodyPays | Shape::Undelivered | Shape::Reduced | Shape::TiedPenalties => true,
            Shape::TiedBids | Shape::NoWidth => !random.once_in(4),
            _ => random.once_in(2),
        };
        let metered = self.metered(random, capacity, kind, receives);
        let status = match (kind, shape) {
            (_, Shape::AllCapped | Shape::TiedRemainders | Shape::Alike) => 0,
            (THERMAL, Shape::Edges | Shape::Undelivered) => random.within(0..=3) as u8,
            (THERMAL, Shape::Reduced) => random.one_of(&[0, 0, 0, 0, 1, 2, 2, 2, 2, 3]),
            (THERMAL, Shape::TiedPenalties) => random.one_of(&[0, 2]),
            (THERMAL, _) if random.once_in(6) => random.within(1..=3) as u8,
            (THERMAL, _) => 0,
            _ => random.one_of(&[0, 0, 0, 3]),
        };
        let row = Row::new(0, kind, capacity, metered).with_status(status);
        if kind == THERMAL && (receives || random.once_in(4)) { self.offer(random, row) } else { row }
    }

    fn metered(&self, random: &mut Random, capacity: u16, kind: u8, receives: bool) -> u32 {
        let baseline = self.terms.baseline(capacity);
        let mw = u32::from(capacity);
        match self.shape {
            Shape::Edges => self.edge(random, capacity),
            Shape::AtBaseline if kind == THERMAL && !receives => baseline,
            Shape::Alike if kind == THERMAL && receives => 20_000,
            // Of what is delivered below here and what is short, `offer` makes as many fen.
            Shape::TiedPenalties if kind == THERMAL => 20_002,
            Shape::Alike | Shape::TiedPenalties => 60_000,
            Shape::TiedRemainders if !receives => 60_000,
            Shape::NobodyPays if random.once_in(2) => 0,
            Shape::Undelivered => {
                let load = random.one_of(&[100 * mw, baseline, baseline, baseline, 200 * mw]);
                (load + random.within(0..=2)).saturating_sub(1)
            }
            // Below 40 percent, between the tiers' ends, and above the baseline, where the unit pays too.
            Shape::Reduced if kind == THERMAL => random.within(75 * mw..=140 * mw),
            // Where terms are stated, beside the stated baseline and beside half load, which would be the baseline without them.
            _ if self.stated.is_some() && self.shape != Shape::NobodyPays && random.once_in(3) => {
                let load = random.one_of(&[baseline, 125 * mw]);
                load + random.within(0..=4) - 2
            }
            _ if receives => random.within(0..=baseline - 1),
            _ => random.within(baseline..=275 * mw),
        }
    }

    fn edge(&self, random: &mut Random, capacity: u16) -> u32 {
        let mw = u32::from(capacity);
        let mut steps = vec![0, 100 * mw, self.terms.baseline(capacity), 150 * mw, 175 * mw, 275 * mw];
        if self.stated.is_some() {
            steps.push(125 * mw);
        }
        let beside = random.one_of(&steps) + random.within(0..=2);
        beside.saturating_sub(1).min(275 * mw)
    }

    fn offer(&self, random: &mut Random, row: Row) -> Row {
        let (two_fifths, baseline) = (load(&row, 100), self.terms.baseline(row.capacity));
        let [lowest_1, highest_1, lowest_2, highest_2] = self.terms.limits;
        let minimum = match self.shape {
            Shape::NoWidth if random.once_in(2) => baseline,
            Shape::NoWidth => random.within(two_fifths..=baseline),
            Shape::Edges => random.one_of(&[0, 1, two_fifths - 1, two_fifths, two_fifths + 1, baseline - 1, baseline]),
            Shape::TiedRemainders | Shape::Alike => 10_000,
            // 300 MW deliver 9,998 kWh in tier 2, and tier 1's width t; t and three times 9,998 are six times the kWh short in
            // tier 2. At bids of 1 to 3 that is as much money, since a kWh short costs twice its price.
            Shape::TiedPenalties => row.metered - ((baseline - two_fifths) + 3 * 9_998) / 6,
            // Most minimums are met to 2 kWh, so that penalties do not always come to more than the shortfall.
            Shape::Reduced if !random.once_in(6) => (row.metered + 2).min(baseline) - random.within(0..=4),
            _ => random.within(0..=baseline),
        };
        // A bid that the shape names is brought within the limits.
        let bids = |bids: [u16; 2]| [bids[0].clamp(lowest_1, highest_1), bids[1].clamp(lowest_2, highest_2)];
        let bids = match self.shape {
            Shape::Edges => [
                random.one_of(&[lowest_1, lowest_1 + 1, highest_1 - 1, highest_1]),
                random.one_of(&[lowest_2, lowest_2 + 1, highest_2 - 1, highest_2]),
            ],
            Shape::TiedBids => {
                let [tier_1, tier_2] = bids([200, 500]);
                [random.one_of(&[tier_1, tier_1, highest_1]), random.one_of(&[lowest_2, lowest_2, tier_2])]
            }
            Shape::Undelivered if random.once_in(2) => bids([200, 400]),
            Shape::TiedRemainders | Shape::Alike => bids([150, 400]),
            Shape::TiedPenalties => bids([107, 321]),
            _ => [
                random.within(lowest_1.into()..=highest_1.into()) as u16,
                random.within(lowest_2.into()..=highest_2.into()) as u16,
            ],
        };
        row.offering(minimum, bids[0], bids[1])
    }
}

/// Changes metered and status of some rows and returns the correction that puts them right again,
/// so that the pair settles as the interval did alone.
pub fn spoil(random: &mut Random, interval: Interval) -> (Interval, Correction) {
    spoil_by(random, interval, |random, row| {
        if !random.once_in(4) {
            row.metered = random.within(0..=load(row, 275));
        }
    })
}

/// The same, but what the correction puts right is low: so it may end what the thermal average begins in the interval file alone.
fn lower(random: &mut Random, interval: Interval) -> (Interval, Correction) {
    let terms = interval.terms();
    spoil_by(random, interval, |random, row| row.metered = windless::low_meter(random, row, terms))
}

fn spoil_by(
    random: &mut Random,
    mut interval: Interval,
    spoil: impl Fn(&mut Random, &mut Row),
) -> (Interval, Correction) {
    let mut places: Vec<usize> = (0..interval.rows.len()).collect();
    random.shuffle(&mut places);
    places.truncate(random.within(1..=interval.rows.len() as u32) as usize);
    places.sort_unstable();
    let correction = interval.correcting(&places);
    for place in places {
        let row = &mut interval.rows[place];
        spoil(random, row);
        if random.once_in(2) {
            row.status = if row.kind == THERMAL { random.within(0..=3) as u8 } else { random.one_of(&[0, 3]) };
        }
    }
    (interval, correction)
}
