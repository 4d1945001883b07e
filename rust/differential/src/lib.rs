//! The engine beside the reference on one trial: answers, whole buffers, and what every statement owes.
//!
//! Each trial is drawn from the run's seed and its own number, so that one alone can be repeated.

use cases::file::{CORRECTION_HEAD, Interval, ROW, THERMAL, heads, statement_length};
use cases::random::Random;
use cases::windless::Average;
use cases::{Answer, Case, Outcome, accepted, demands, lengths_near, pattern, refused};

/// The engine in the form that `Case::run` takes.
pub fn settle(interval: &[u8], correction: &[u8], statement: &mut [u8]) -> Answer {
    plain(wheatrudder::settle(interval, correction, statement))
}

pub fn rewrite(interval: &[u8], _: &[u8], out: &mut [u8]) -> Answer {
    plain(wheatrudder::rewrite(interval, out))
}

fn plain(answer: wheatrudder::Answer) -> Answer {
    answer.map_err(|refusal| {
        let number = refusal.number.try_into().expect("a refusal's number fits a byte");
        (number, refusal.place.try_into().expect("a place fits two bytes"))
    })
}

/// How the trials of a run ended.
#[derive(Clone, Debug, Default)]
pub struct Tally {
    pub settled: u64,
    /// Of these, the files that state their terms; and of those, the ones in which a thermal row is at or above the stated baseline and
    /// below half load, so that it is on the other side under the terms of document 01.
    pub stated: u64,
    pub between: u64,
    /// By number, 1 to 11 and 14.
    pub refused: [u64; 15],
    pub rows_copied: u64,
    pub rewritten: u64,
    /// Settlements in which a row that was called but did not deliver bid above a tier's price.
    pub outbid: u64,
    /// Settlements with a penalty above 0.
    pub penalised: u64,
    /// Of these, the ones in which penalties fill a shortfall, wholly or in part; in which somebody is cut all the same; and in
    /// which something is returned.
    pub filled: u64,
    pub still_cut: u64,
    pub returned: u64,
    /// Settlements in which a payer is looked at again after another has closed.
    pub revisited: u64,
    /// Settlements of two payers or more with as many visits as so many can take.
    pub at_bound: u64,
    /// Settlements whose calls, payments, cuts and returned penalties are others than by the lower id.
    pub turned: [u64; 4],
    pub averaged: Averaged,
}

/// Settlements that the thermal average ruled.
#[derive(Clone, Copy, Debug, Default)]
pub struct Averaged {
    pub all: u64,
    /// Of these, the ones under stated terms; in which somebody pays; in which somebody owes a penalty; in which one thermal row stands
    /// exactly at its average and another does not; and in which the average is below 40 percent.
    pub stated: u64,
    pub paid: u64,
    pub penalised: u64,
    pub at_average: u64,
    pub below_40_percent: u64,
    /// Those in which the average would not rule without the correction; and settlements in which it would, but for the correction.
    pub begun: u64,
    pub ended: u64,
}

impl Averaged {
    fn add(&mut self, other: &Averaged) {
        self.all += other.all;
        self.stated += other.stated;
        self.paid += other.paid;
        self.penalised += other.penalised;
        self.at_average += other.at_average;
        self.below_40_percent += other.below_40_percent;
        self.begun += other.begun;
        self.ended += other.ended;
    }
}

impl Tally {
    pub fn trials(&self) -> u64 {
        self.settled + self.refused.iter().sum::<u64>()
    }

    pub fn add(&mut self, other: &Tally) {
        self.settled += other.settled;
        self.stated += other.stated;
        self.between += other.between;
        self.refused.iter_mut().zip(other.refused).for_each(|(sum, more)| *sum += more);
        self.rows_copied += other.rows_copied;
        self.rewritten += other.rewritten;
        self.outbid += other.outbid;
        self.penalised += other.penalised;
        self.filled += other.filled;
        self.still_cut += other.still_cut;
        self.returned += other.returned;
        self.revisited += other.revisited;
        self.at_bound += other.at_bound;
        self.turned.iter_mut().zip(other.turned).for_each(|(sum, more)| *sum += more);
        self.averaged.add(&other.averaged);
    }
}

/// The trials numbered `first`, `first + step`, .. below `end`; the first disagreement ends the run.
pub fn run(seed: u64, first: u64, step: usize, end: u64) -> Result<Tally, String> {
    let mut tally = Tally::default();
    for number in (first..end).step_by(step) {
        trial(seed, number, &mut tally).map_err(|what| format!("{what}; trial {number} of seed {seed}"))?;
    }
    Ok(tally)
}

/// Draws one pair of files and checks the engine's three functions against the reference's.
pub fn trial(seed: u64, number: u64, tally: &mut Tally) -> Result<(), String> {
    let mut random = Random::from_seed(seed << 32 ^ number);
    let mut case = drawn(&mut random);
    if random.once_in(4) {
        case.buffer = near(&mut random, statement_length(&case.interval));
    }
    let outcome = same(&case, "settle", settle, reference::settle)?;
    match outcome.answer {
        Ok(length) => {
            let statement = &outcome.buffer[..length];
            demands::check(statement).map_err(|what| format!("{what} ({})", case.name))?;
            tally.settled += 1;
            count_terms(&case, statement, tally);
            tally.outbid += u64::from(outbid(&case.interval, statement)?);
            count_penalties(statement, tally);
            count_visits(statement, tally);
            count_averaged(&case, statement, &mut tally.averaged)?;
            tally.turned.iter_mut().zip(turned(&case, statement)).for_each(|(sum, is)| *sum += u64::from(is));
        }
        Err((number, _)) => tally.refused[usize::from(number)] += 1,
    }
    for id in ids(&mut random, &case) {
        tally.rows_copied += u64::from(same_row(&mut random, &case, id)?);
    }
    case.buffer = near(&mut random, case.interval.len());
    let again = same(&case, "rewrite", rewrite, |interval, _, out| reference::rewrite(interval, out))?;
    tally.rewritten += u64::from(again.answer.is_ok());
    Ok(())
}

/// Puts a settlement under stated terms into the tally.
fn count_terms(case: &Case, statement: &[u8], tally: &mut Tally) {
    let head = wheatrudder::head(statement).expect("a statement has a head");
    if !head.stated {
        return;
    }
    let between = |id: u16| {
        let row = reference::counting_row(&case.interval, &case.correction, id);
        let capacity = u32::from(u16::from_le_bytes([row[5], row[6]]));
        let metered = u32::from_le_bytes([row[7], row[8], row[9], row[10]]);
        let baseline = 250 * capacity * u32::from(head.terms.percent) / 100;
        row[4] == 1 && (baseline..125 * capacity).contains(&metered)
    };
    tally.stated += 1;
    tally.between += u64::from(wheatrudder::lines(statement).any(|line| between(line.id)));
}

/// Whether a price is below the highest bid called in its tier, as it never was before request 1; above it no price may be.
fn outbid(interval: &[u8], statement: &[u8]) -> Result<bool, String> {
    let bid = |row: &[u8], at: usize| u16::from_le_bytes([row[at], row[at + 1]]);
    let mut highest = [0; 2];
    for (row, line) in interval[heads(interval).0..].chunks_exact(ROW).zip(wheatrudder::lines(statement)) {
        let bids = [bid(row, 17), bid(row, 19)];
        for tier in (0..2).filter(|&tier| line.called[tier] > 0) {
            highest[tier] = bids[tier].max(highest[tier]);
        }
    }
    let prices = wheatrudder::head(statement).expect("a statement has a head").prices;
    if (0..2).any(|tier| prices[tier] > highest[tier]) {
        return Err(format!("prices {prices:?} above the bids called, {highest:?}"));
    }
    Ok(prices != highest)
}

/// Puts a settlement with penalties into the tally.
fn count_penalties(statement: &[u8], tally: &mut Tally) {
    if wheatrudder::lines(statement).all(|line| line.penalty == 0) {
        return;
    }
    let shortfall = wheatrudder::head(statement).expect("a statement has a head").shortfall;
    tally.penalised += 1;
    tally.filled += u64::from(shortfall > 0);
    tally.still_cut += u64::from(wheatrudder::lines(statement).any(|line| line.cut > 0));
    tally.returned += u64::from(wheatrudder::lines(statement).any(|line| line.returned > 0));
}

/// Puts the visits of a settlement into the tally.
fn count_visits(statement: &[u8], tally: &mut Tally) {
    let visits = wheatrudder::head(statement).expect("a statement has a head").visits;
    let payers = wheatrudder::lines(statement).filter(|line| line.weight > 0).count() as u32;
    tally.revisited += u64::from(visits > payers);
    tally.at_bound += u64::from(payers >= 2 && visits == payers * (payers + 1) / 2);
}

/// Puts a settlement into the tally of the thermal average, which the statement is held to.
fn count_averaged(case: &Case, statement: &[u8], tally: &mut Averaged) -> Result<(), String> {
    let counting = Interval::read_pair(&case.interval, &case.correction).ok_or("an accepted pair is not read")?;
    let told = |what| format!("{what} ({})", case.name);
    let average = demands::check_average(&counting, statement).map_err(told)?;
    let alone = Interval::read(&case.interval).ok_or("an accepted file is not read")?;
    let without_correction = Average::ruling(alone.need, alone.terms(), &alone.rows);
    let Some(average) = average else {
        tally.ended += u64::from(without_correction.is_some());
        return Ok(());
    };
    tally.all += 1;
    tally.begun += u64::from(without_correction.is_none());
    tally.stated += u64::from(counting.stated.is_some());
    tally.paid += u64::from(wheatrudder::lines(statement).any(|line| line.paid > 0));
    tally.penalised += u64::from(wheatrudder::lines(statement).any(|line| line.penalty > 0));
    let thermal = || counting.rows.iter().filter(|row| row.kind == THERMAL);
    let stands_there = thermal().any(|row| row.metered == average.of(row));
    tally.at_average += u64::from(stands_there && thermal().any(|row| row.metered != average.of(row)));
    tally.below_40_percent += u64::from(average.below_40_percent());
    Ok(())
}

/// Whether calls, payments, cuts and returned penalties are others than at quarter 0, where leftovers go to the lower id as before
/// request 2.
fn turned(case: &Case, statement: &[u8]) -> [bool; 4] {
    let at_quarter_0 = |file: &[u8]| {
        let mut file = file.to_vec();
        file.get_mut(6).into_iter().for_each(|quarter| *quarter = 0);
        file
    };
    let mut before = vec![0; statement.len()];
    reference::settle(&at_quarter_0(&case.interval), &at_quarter_0(&case.correction), &mut before)
        .expect("a pair is accepted at any quarter");
    let mut turned = [false; 4];
    for (line, before) in wheatrudder::lines(statement).zip(wheatrudder::lines(&before)) {
        turned[0] |= line.called != before.called;
        turned[1] |= line.paid != before.paid;
        turned[2] |= line.cut != before.cut;
        turned[3] |= line.returned != before.returned;
    }
    turned
}

/// Accepted files, files with faults put in, and files damaged without a plan.
fn drawn(random: &mut Random) -> Case {
    match random.below(4) {
        0 | 1 => accepted::case(random),
        2 => {
            let rows = random.within(4..=24);
            let base = refused::base(random, rows);
            refused::several(random, &base).0
        }
        _ => {
            let whole = accepted::case(random);
            refused::scrambled(random, whole)
        }
    }
}

fn near(random: &mut Random, needed: usize) -> usize {
    let lengths: Vec<usize> = lengths_near(needed).collect();
    random.one_of(&lengths)
}

/// Runs both on equal buffers; the answers and every byte afterwards have to be the same.
pub fn same(
    case: &Case,
    function: &str,
    engine: impl FnOnce(&[u8], &[u8], &mut [u8]) -> Answer,
    reference: impl FnOnce(&[u8], &[u8], &mut [u8]) -> Answer,
) -> Result<Outcome, String> {
    let told = |what: String| format!("{function}: {what} ({})", case.name);
    let (ours, theirs) = (case.run(engine).map_err(told)?, case.run(reference).map_err(told)?);
    if ours.answer != theirs.answer {
        return Err(told(format!("{:?}, reference {:?}", ours.answer, theirs.answer)));
    }
    if let Some(place) = (0..ours.buffer.len()).find(|&place| ours.buffer[place] != theirs.buffer[place]) {
        let (byte, due) = (ours.buffer[place], theirs.buffer[place]);
        return Err(told(format!("byte {place} is {byte}, reference {due}")));
    }
    Ok(ours)
}

/// A few ids that the files name, and some that hardly any does.
fn ids(random: &mut Random, case: &Case) -> Vec<u16> {
    let named = |file: &[u8], head: usize| -> Vec<u16> {
        let rows = file.get(head..).unwrap_or_default().chunks_exact(ROW);
        rows.map(|row| u16::from_le_bytes([row[2], row[3]])).collect()
    };
    let mut ids = vec![0, 1, u16::MAX, random.within(0..=65_535) as u16];
    for file_ids in [named(&case.interval, heads(&case.interval).0), named(&case.correction, CORRECTION_HEAD)] {
        ids.extend((0..3).filter(|_| !file_ids.is_empty()).map(|_| random.one_of(&file_ids)));
    }
    ids
}

/// One row by the engine and by the reference, into a buffer of some length; whether bytes were copied.
fn same_row(random: &mut Random, case: &Case, id: u16) -> Result<bool, String> {
    let part = reference::counting_row(&case.interval, &case.correction, id);
    let before = pattern(random.one_of(&[0, 1, ROW - 1, ROW, ROW, ROW, ROW + 1, 40]));
    let mut out = before.clone();
    let answer = plain(wheatrudder::row(&case.interval, &case.correction, id, &mut out));
    let mut due = before;
    let due_answer = match due.get_mut(..part.len()) {
        Some(front) => {
            front.copy_from_slice(part);
            Ok(part.len())
        }
        None => Err((11, 0)),
    };
    if (answer, &out) != (due_answer, &due) {
        return Err(format!("row {id}: {answer:?} {out:?}, reference {due_answer:?} {due:?} ({})", case.name));
    }
    Ok(answer.is_ok_and(|copied| copied > 0))
}
