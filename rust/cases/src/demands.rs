//! What every statement owes its readers, checked on its bytes alone; and what it owes to the rows that count, where the thermal
//! average is concerned.

use crate::file::{Interval, LINE, STATEMENT_HEAD_PT, THERMAL, Terms, statement_head};
use crate::windless::Average;

struct Line {
    called: [u128; 2],
    compensation: u128,
    cut: u128,
    weight: u128,
    cap: u128,
    paid: u128,
    closing: u128,
    penalty: u128,
    returned: u128,
}

fn number(bytes: &[u8]) -> u128 {
    bytes.iter().rev().fold(0, |number, &byte| number << 8 | u128::from(byte))
}

fn line(bytes: &[u8]) -> Line {
    Line {
        called: [number(&bytes[4..8]), number(&bytes[8..12])],
        compensation: number(&bytes[12..16]),
        cut: number(&bytes[16..20]),
        weight: number(&bytes[20..24]),
        cap: number(&bytes[24..28]),
        paid: number(&bytes[28..32]),
        closing: number(&bytes[32..34]),
        penalty: number(&bytes[34..38]),
        returned: number(&bytes[38..42]),
    }
}

fn demand(holds: bool, what: &str) -> Result<(), String> {
    if holds { Ok(()) } else { Err(format!("not so: {what}")) }
}

/// Checks a whole statement; the answer names the first demand it fails.
pub fn check(statement: &[u8]) -> Result<(), String> {
    let length = statement_head(statement).ok_or("not so: the head has its mark")?;
    let (head, body) = statement.split_at_checked(length).ok_or("not so: the statement has a whole head")?;
    let terms = terms(head)?;
    let (total, shortfall) = (number(&head[11..19]), number(&head[19..27]));
    let (rounds, rows) = (number(&head[27..29]), number(&head[33..35]));
    demand(body.len() as u128 == LINE as u128 * rows, "there are as many lines as the head says")?;
    demand(body.chunks_exact(LINE).all(|line| line.starts_with(b"PL")), "every line has its mark")?;
    let rising = body.chunks_exact(LINE).map(|line| number(&line[2..4])).is_sorted_by(|a, b| a < b);
    demand(rising, "ids rise")?;
    let lines: Vec<Line> = body.chunks_exact(LINE).map(line).collect();
    demand(total == sum(&lines, |line| line.compensation), "the total is the sum of the compensations")?;
    let clearing = [number(&head[7..9]), number(&head[9..11])];
    prices(&lines, clearing, terms)?;
    penalties(&lines, clearing)?;
    books(&lines)?;
    numbering(&lines, rounds)?;
    visits(&lines, rounds, number(&head[length - 5..length - 1]))?;
    averaged(&lines, number(&head[29..33]), head[length - 1])?;
    penalty_money_first(&lines, shortfall)?;
    let (closed, open): (Vec<&Line>, Vec<&Line>) =
        lines.iter().filter(|line| line.weight > 0).partition(|line| line.closing > 0);
    let caps: u128 = closed.iter().map(|line| line.cap).sum();
    demand(closed.iter().all(|line| line.paid == line.cap), "the capped pay their caps")?;
    demand(caps <= total, "the caps reached are together at most the total compensation")?;
    if open.is_empty() {
        demand(shortfall == total - caps, "the shortfall is exactly what the caps fail to cover")
    } else {
        demand(shortfall == 0, "there is a shortfall only if all payers are capped")?;
        common_rate(&open, &closed, total - caps)
    }
}

/// Checks of a statement that its flag says whether the thermal average rules the rows that count, and that where it does rows at or above
/// it weigh what they are above it, and only rows below it are paid. The answer is the average that rules.
pub fn check_average(counting: &Interval, statement: &[u8]) -> Result<Option<Average>, String> {
    let average = Average::ruling(counting.need, counting.terms(), &counting.rows);
    let length = statement_head(statement).ok_or("not so: the head has its mark")?;
    demand(statement[length - 1] == u8::from(average.is_some()), "the flag says whether the thermal average rules")?;
    let lines = statement[length..].chunks_exact(LINE).map(line);
    for (row, line) in counting.rows.iter().zip(lines).filter(|(row, _)| row.kind == THERMAL) {
        let Some(energy) = average.map(|average| average.of(row)) else { continue };
        let above = if row.status == 3 { None } else { row.metered.checked_sub(energy) };
        demand(line.weight == above.unwrap_or(0).into(), "a thermal row weighs what it is above its average")?;
        demand(line.cap == 0 || above.is_some(), "a thermal row below its average is no payer")?;
        let below = row.status == 0 && row.metered < energy;
        demand(line.compensation == 0 || below, "only a row below its average is paid")?;
    }
    Ok(average)
}

/// The terms of a statement: those that its head states have to be such as may be stated.
fn terms(head: &[u8]) -> Result<Terms, String> {
    if head.len() < STATEMENT_HEAD_PT {
        return Ok(Terms::OF_01);
    }
    let limits = [36, 38, 40, 42].map(|at| number(&head[at..at + 2]) as u16);
    demand((41..=50).contains(&head[35]), "the baseline is 41 to 50 percent")?;
    let [first, second, third, fourth] = limits;
    let rising = 0 < first && first < second && second <= third && third < fourth && fourth <= 1_000;
    demand(rising, "the limits rise from above 0 to 1,000 at most")?;
    Ok(Terms { percent: head[35], limits })
}

fn sum(lines: &[Line], field: impl Fn(&Line) -> u128) -> u128 {
    lines.iter().map(field).sum()
}

/// Li brought to fen, half a fen upward.
fn fen(li: u128) -> u128 {
    (li + 5) / 10
}

/// Whether a part of an amount is within a fen of what a weight gets of it, all weights together being `all`.
fn within_a_fen(part: u128, amount: u128, weight: u128, all: u128) -> bool {
    all == 0 && part == 0 || (part * all).abs_diff(amount * weight) < all
}

/// Whether a line was called in a tier that has a price.
fn priced(line: &Line, prices: [u128; 2]) -> bool {
    (0..2).any(|tier| line.called[tier] > 0 && prices[tier] > 0)
}

/// Who delivered sets the price and is paid by it: a kWh already comes to a fen where the price is 5 li or more.
fn prices(lines: &[Line], prices: [u128; 2], terms: Terms) -> Result<(), String> {
    let [lowest_1, highest_1, lowest_2, highest_2] = terms.limits.map(u128::from);
    let within = |price: u128, lowest, highest| price == 0 || (lowest..=highest).contains(&price);
    let both = within(prices[0], lowest_1, highest_1) && within(prices[1], lowest_2, highest_2);
    demand(both, "a price is 0 or within the limits of its tier's bids")?;
    let due = |line: &Line| line.compensation == 0 || priced(line, prices);
    demand(lines.iter().all(due), "nobody is paid where there is no price")?;
    let paid = |tier: usize| lines.iter().any(|line| line.called[tier] > 0 && line.compensation > 0);
    let set = |tier: usize| prices[tier] >= 5;
    demand((0..2).all(|tier| !set(tier) || paid(tier)), "a tier has a price only if a row called there is paid")
}

/// Who owes a penalty was called, and did not deliver all of it.
fn penalties(lines: &[Line], prices: [u128; 2]) -> Result<(), String> {
    let owing = || lines.iter().filter(|line| line.penalty > 0);
    demand(owing().all(|line| line.compensation == 0), "nobody with a penalty is paid")?;
    demand(owing().all(|line| line.called != [0, 0]), "nobody has a penalty who was not called")?;
    demand(owing().all(|line| priced(line, prices)), "nobody has a penalty where there is no price")?;
    let called = |line: &Line| line.called[0] * prices[0] + line.called[1] * prices[1];
    let within = |line: &Line| line.penalty <= fen(2 * called(line));
    demand(owing().all(within), "a penalty is at most twice the price of all that was called")
}

/// What holds of payments and cuts whoever is capped.
fn books(lines: &[Line]) -> Result<(), String> {
    demand(lines.iter().all(|line| line.cut <= line.compensation), "nobody is cut by more than its compensation")?;
    demand(lines.iter().all(|line| line.paid <= line.cap), "no payer pays above its cap")?;
    demand(lines.iter().all(|line| line.weight > 0 || line.paid == 0), "a weight of 0 pays nothing")?;
    demand(lines.iter().all(|line| line.weight == 0 || line.compensation == 0), "no payer receives")?;
    demand(lines.iter().all(|line| line.returned <= line.penalty), "nobody is returned more than its penalty")?;
    let owed = sum(lines, |line| line.paid + line.penalty - line.returned);
    let kept = sum(lines, |line| line.compensation - line.cut);
    demand(owed == kept, "what payers pay and penalties leave equals what receivers keep")
}

/// Penalties fill the shortfall. Cuts share what is still missing, and what is over goes back by the penalties.
fn penalty_money_first(lines: &[Line], shortfall: u128) -> Result<(), String> {
    let (penalties, compensations) = (sum(lines, |line| line.penalty), sum(lines, |line| line.compensation));
    let (missing, over) = (shortfall.saturating_sub(penalties), penalties.saturating_sub(shortfall));
    let nobody_cut = lines.iter().all(|line| line.cut == 0);
    demand(nobody_cut || penalties < shortfall, "receivers are cut only if penalties are below the shortfall")?;
    demand(sum(lines, |line| line.cut) == missing, "the cuts add up to the shortfall less the penalties")?;
    let cut = |line: &Line| within_a_fen(line.cut, missing, line.compensation, compensations);
    demand(lines.iter().all(cut), "each receiver is cut within a fen of its part")?;
    let whole = lines.iter().all(|line| line.returned == line.penalty);
    demand(whole || shortfall > 0, "without a shortfall every penalty is returned whole")?;
    demand(sum(lines, |line| line.returned) == over, "what is returned adds up to the penalties less the shortfall")?;
    let returned = |line: &Line| within_a_fen(line.returned, over, line.penalty, penalties);
    demand(lines.iter().all(returned), "each penalty is returned within a fen of its part")
}

/// Rounds are those in which a payer reached its cap: no more than the payers of weight above 0, nor than the capped ones.
fn numbering(lines: &[Line], rounds: u128) -> Result<(), String> {
    let payers = lines.iter().filter(|line| line.weight > 0).count() as u128;
    let capped = lines.iter().filter(|line| line.closing > 0).count() as u128;
    demand(rounds <= payers, "rounds are at most the payers of weight above 0")?;
    demand(rounds <= capped, "rounds are at most the capped payers")?;
    demand(lines.iter().all(|line| line.closing <= rounds), "nobody closes after the last round")?;
    demand(lines.iter().all(|line| line.weight > 0 || line.closing == 0), "only payers of weight above 0 close")?;
    let somebody = (1..=rounds).all(|round| lines.iter().any(|line| line.closing == round));
    demand(somebody, "somebody closes in every round")
}

/// A payer is visited in every round up to the one in which it closes; one that never closes, also in the quiet round at the end.
fn visits(lines: &[Line], rounds: u128, visits: u128) -> Result<(), String> {
    let looks = |line: &Line| if line.closing > 0 { line.closing } else { rounds + 1 };
    let each: Vec<u128> = lines.iter().filter(|line| line.weight > 0).map(looks).collect();
    let payers = each.len() as u128;
    demand(visits == each.iter().sum(), "the visits are those that the closing rounds tell")?;
    demand(visits <= payers * (payers + 1) / 2, "m payers of weight above 0 are visited at most m(m + 1)/2 times")
}

/// The flag at the head's end, whether the thermal average ruled: it needs a row, and a need that is then called or uncovered.
fn averaged(lines: &[Line], uncovered: u128, flag: u8) -> Result<(), String> {
    demand(flag <= 1, "the flag is 0 or 1")?;
    let needed = uncovered + sum(lines, |line| line.called[0] + line.called[1]);
    demand(flag == 0 || !lines.is_empty(), "the thermal average rules only where there is a row")?;
    demand(flag == 0 || needed > 0, "the thermal average rules only where there is a need")
}

/// The rate is `rest` for the sum of the open weights; every open and every capped payer is checked against it.
fn common_rate(open: &[&Line], closed: &[&Line], rest: u128) -> Result<(), String> {
    let weight: u128 = open.iter().map(|line| line.weight).sum();
    let at_rate = |line: &&Line| within_a_fen(line.paid, rest, line.weight, weight);
    demand(open.iter().all(at_rate), "open payers are within a fen of one rate")?;
    let below = |line: &&Line| rest * line.weight < line.cap * weight;
    demand(open.iter().all(below), "at that rate each open payer owes less than its cap")?;
    demand(!closed.iter().any(below), "at that rate each capped payer owes at least its cap")
}
