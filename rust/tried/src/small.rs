//! Intervals of 0 to 5 rows, chosen so that every rule and every refusal is met at least once.

use crate::windless;
use cases::Case;
use cases::file::{Correction, Interval, LINE, Row, STATEMENT_HEAD_PS, STATEMENT_HEAD_PT, Terms};

/// Length of the statement of interval X.
const X_STATEMENT: usize = STATEMENT_HEAD_PS + 3 * LINE;

/// The cases of every group, each under a name of its own.
pub fn cases() -> Vec<Case> {
    [
        figures(),
        calls(),
        prices(),
        pay(),
        rounds(),
        turns(),
        penalties(),
        corrections(),
        interval_faults(),
        correction_faults(),
        several_faults(),
        terms(),
        terms_faults(),
        windless::cases(),
    ]
    .concat()
}

/// A case with a buffer of exactly the needed length.
pub fn case(name: impl Into<String>, interval: &Interval) -> Case {
    bytes_case(name, interval.bytes(), Vec::new(), interval.statement_length())
}

pub fn corrected(name: impl Into<String>, interval: &Interval, correction: &Correction) -> Case {
    bytes_case(name, interval.bytes(), correction.bytes(), interval.statement_length())
}

fn bytes_case(name: impl Into<String>, interval: Vec<u8>, correction: Vec<u8>, buffer: usize) -> Case {
    Case { name: name.into(), interval, correction, buffer }
}

/// Interval X at tariff 1300 with a change.
fn x_with(change: impl FnOnce(&mut Interval)) -> Interval {
    let mut interval = Interval::x(1300);
    change(&mut interval);
    interval
}

/// A solar row in a grid accident: it takes no part, but at 1 kWh it keeps the thermal average from ruling.
fn sun(id: u16) -> Row {
    Row::solar(id, 100, 1).with_status(3)
}

/// Row 1 of interval X at tariff 1300, another row beside it, and X's wind farm; all that is offered is called.
fn x_beside(row: Row) -> Interval {
    x_with(|x| (x.need, x.rows[1]) = (9_000, row))
}

/// P1 to P5, and the figures of document 01 that are only run.
fn figures() -> Vec<Case> {
    let mut cases: Vec<Case> = [3545, 1350, 1300, 1200, 1000]
        .map(|tariff| case(format!("X at tariff {tariff}"), &Interval::x(tariff)))
        .to_vec();
    for metered in [12_499, 10_000, 9_999, 12_500, 0] {
        cases.push(case(format!("row 1 metered {metered}"), &x_with(|x| x.rows[0].metered = metered)));
    }
    cases.push(case("no rows", &x_with(|x| x.rows.clear())));
    cases.push(case("no rows and no need", &Interval::new(1, 0, Vec::new())));
    cases.push(case("no payers", &x_with(|x| x.rows = vec![x.rows[0], sun(2)])));
    cases.push(case("no payers, nothing to pay", &Interval { need: 0, ..x_with(|x| x.rows.truncate(1)) }));
    for capacity in [1, 2_000, 2_001] {
        let change = |x: &mut Interval| x.rows[1] = Row { capacity, metered: 200, ..x.rows[1] };
        cases.push(case(format!("capacity {capacity}"), &x_with(change)));
    }
    for bid in [99, 100, 320, 321] {
        cases.push(case(format!("tier 1 bid {bid}"), &x_with(|x| x.rows[0].bids[0] = bid)));
    }
    for bid in [319, 320, 750, 751] {
        cases.push(case(format!("tier 2 bid {bid}"), &x_with(|x| x.rows[0].bids[1] = bid)));
    }
    cases
}

/// Merit order, ties, empty bands and prices.
fn calls() -> Vec<Case> {
    // A band of 2,500 in tier 1 alone, for each 100 MW.
    let narrow = |id, capacity: u16, bid| {
        Row::thermal(id, capacity, 100 * u32::from(capacity)).offering(100 * u32::from(capacity), bid, 400)
    };
    let offers = |need, mut rows: Vec<Row>| {
        rows.push(sun(rows[rows.len() - 1].id + 1));
        Interval::new(500, need, rows)
    };
    let pair = || vec![narrow(1, 100, 200), narrow(2, 200, 200)];
    let at_320 = || {
        vec![
            Row::thermal(1, 100, 9_000).offering(8_000, 320, 320),
            Row::thermal(2, 100, 9_000).offering(9_000, 320, 320),
            Row::wind(3, 50, 5_000),
        ]
    };
    let mut cases = vec![
        case("P9 as an interval", &offers(100, pair())),
        case("three equal bands", &offers(100, vec![narrow(3, 7, 150), narrow(5, 7, 150), narrow(9, 7, 150)])),
        case("leftover of two among four", &offers(6, [1, 2, 3, 4].map(|id| narrow(id, 7, 150)).to_vec())),
        case("the dearer row first in the file", &offers(2_600, vec![narrow(1, 100, 300), narrow(2, 100, 200)])),
        case("the dearer row is not reached", &offers(2_500, vec![narrow(1, 100, 300), narrow(2, 100, 200)])),
        case("capacities 1 and 2000 tied", &offers(99, vec![narrow(1, 1, 100), narrow(65_534, 2_000, 100)])),
        case("minimum at half load", &offers(50, vec![Row::thermal(1, 4, 0).offering(500, 100, 320)])),
        case("minimum just below half load", &offers(50, vec![Row::thermal(1, 4, 0).offering(499, 100, 320)])),
        case("minimum at 40 percent", &offers(200, vec![Row::thermal(1, 4, 0).offering(400, 100, 320)])),
        case("minimum just below 40 percent", &offers(200, vec![Row::thermal(1, 4, 0).offering(399, 100, 320)])),
        case(
            "an empty band in a tied group",
            &offers(7, vec![Row::thermal(1, 4, 0).offering(500, 100, 320), narrow(2, 4, 100), narrow(3, 4, 100)]),
        ),
        case(
            "a dear empty band sets no price",
            &offers(900, vec![Row::thermal(1, 4, 0).offering(500, 320, 750), narrow(2, 4, 100)]),
        ),
        case(
            "every status is called",
            &offers(300, (0..4).map(|s| narrow(s + 1, 4, 100).with_status(s as u8)).collect()),
        ),
    ];
    for need in [0, 1, 4_999, 5_000, 5_001, 7_999, 8_000, 8_001, 64_000_000] {
        cases.push(case(format!("tiers tied at 320, need {need}"), &offers(need, at_320())));
    }
    cases
}

/// Who sets a price: row 1 of interval X delivers in both tiers unless changed, and a dearer row beside it is called in full too.
fn prices() -> Vec<Case> {
    let dearer = |metered| Row::thermal(2, 100, metered).offering(8_000, 300, 500);
    let tied = |need| {
        x_with(|x| {
            x.need = need;
            x.rows[0] = Row::thermal(1, 100, 9_000).offering(10_000, 200, 320);
            x.rows[1] = Row::thermal(2, 200, 25_000).offering(20_000, 200, 320);
        })
    };
    let mut cases = vec![
        case("called in tier 2, delivered in tier 1", &x_with(|x| x.rows[0].metered = 11_000)),
        case("nobody of those called delivered", &x_with(|x| x.rows[0].metered = 27_500)),
        case("the only row with energy is called for nothing", &tied(1)),
        case("one of two at a bid delivers", &tied(100)),
    ];
    for metered in [0, 9_999, 10_000, 12_499, 12_500, 20_000] {
        cases.push(case(format!("the dearer row metered {metered}"), &x_beside(dearer(metered))));
    }
    for status in [1, 2, 3] {
        cases.push(case(format!("the dearer row of status {status}"), &x_beside(dearer(9_000).with_status(status))));
        cases.push(case(format!("row 1 of status {status}"), &x_with(|x| x.rows[0].status = status)));
    }
    cases
}

/// Compensation: who is paid, for which tier, and half a fen.
fn pay() -> Vec<Case> {
    let lone = |need, row| Interval::new(10_000, need, vec![row, Row::wind(9, 100, 27_500)]);
    let offer = |metered| Row::thermal(1, 100, metered).offering(0, 101, 321);
    vec![
        case("half a fen upward", &lone(1, offer(12_495))),
        case("just below half a fen", &lone(1, offer(12_496))),
        case("both tiers added before rounding", &lone(12_500, offer(9_995))),
        case("called in tier 1 alone, metered in tier 2", &lone(1, offer(5_000))),
        case("not called, so not paid", &lone(0, offer(5_000))),
        case("starting, so not paid", &lone(12_500, offer(5_000).with_status(1))),
        case("reduced for its own reasons, so not paid", &lone(12_500, offer(5_000).with_status(2))),
        case("grid accident, so not paid", &lone(12_500, offer(5_000).with_status(3))),
        case("called and paying", &lone(12_500, offer(20_000))),
        case("not offering and below half load", &lone(12_500, Row::thermal(1, 100, 5_000))),
    ]
}

/// Weights, caps, rounds, shortfall and cuts.
fn rounds() -> Vec<Case> {
    let receiver = |id| Row::thermal(id, 100, 9_000).offering(8_000, 200, 400);
    let paying = |tariff, payers: &[Row]| {
        let rows = std::iter::once(receiver(1)).chain(payers.iter().copied()).collect();
        Interval::new(tariff, 3_000, rows)
    };
    let mut cases = Vec::new();
    for kwh in [12_500, 12_501, 15_000, 15_001, 17_500, 17_501, 27_500] {
        cases.push(case(format!("one thermal payer at {kwh}"), &paying(2_000, &[Row::thermal(2, 100, kwh)])));
    }
    let equal = [2, 3, 4, 5].map(|id| Row::wind(id, 100, 7_000));
    let mixed = [
        Row::thermal(2, 100, 27_500),
        Row::thermal(3, 100, 17_500),
        Row::solar(4, 100, 5_000),
        Row::thermal(5, 100, 13_000),
    ];
    for tariff in [1, 300, 500, 550, 600, 650, 700, 800, 900, 1_200, 10_000] {
        cases.push(case(format!("four unlike payers at tariff {tariff}"), &paying(tariff, &mixed)));
    }
    let staircase = |tariff| {
        let rows = vec![
            Row::thermal(1, 50, 10_900),
            receiver(2),
            Row::thermal(3, 300, 82_150),
            Row::thermal(4, 50, 7_000),
            Row::thermal(5, 100, 18_400),
        ];
        Interval::new(tariff, 3_000, rows)
    };
    // Three payers, of whom none, one, two and three close, each in a round of its own, two of them in one, and all in one.
    let three = [Row::thermal(2, 100, 27_500), Row::wind(3, 100, 5_000), Row::thermal(4, 100, 15_000)];
    for tariff in [1_091, 1_090, 700, 600, 401, 400, 100] {
        cases.push(case(format!("three payers at tariff {tariff}"), &paying(tariff, &three)));
    }
    let thirds = Interval { need: 2_500, ..paying(200, &equal.map(|row| Row { metered: 16_667, ..row })[..3]) };
    let a_hundred_and_one = |tariff| {
        let mut interval = Interval { need: 1, ..paying(tariff, &equal) };
        interval.rows[0] = Row { metered: 12_495, bids: [201, 400], ..interval.rows[0] };
        interval
    };
    cases.extend([
        case("three equal payers", &paying(10_000, &equal[..3])),
        case("three equal payers capped", &paying(500, &equal[..3])),
        case(
            "three equal payers exactly at their caps",
            &paying(1_000, &equal.map(|row| Row { metered: 6_000, ..row })[..3]),
        ),
        case("open payers rounded up to their caps", &thirds),
        case("101 fen among four equal payers", &a_hundred_and_one(10_000)),
        case("one payer in each of four rounds", &staircase(300)),
        case("a hao more of tariff", &staircase(301)),
        case("the last of four stays open", &staircase(305)),
        case(
            "half load beside a capped payer",
            &paying(300, &[Row::thermal(2, 100, 12_500), Row::wind(3, 100, 5_000)]),
        ),
        case("half load alone", &paying(300, &[Row::thermal(2, 100, 12_500), sun(3)])),
        case("a wind farm at nothing", &paying(300, &[Row::wind(2, 100, 0), sun(3)])),
        case("a cap of 0 closes though nothing is due", &Interval { need: 0, ..paying(1, &[Row::wind(2, 100, 199)]) }),
        case(
            "a cap of 1 stays open where nothing is due",
            &Interval { need: 0, ..paying(1, &[Row::wind(2, 100, 200)]) },
        ),
        case(
            "caps of 0, 0 and 1 where nothing is due",
            &Interval {
                need: 0,
                ..paying(1, &[(2, 199), (3, 199), (4, 200)].map(|(id, kwh)| Row::wind(id, 100, kwh)))
            },
        ),
        case("a cap of 0 beside an open payer", &paying(199, &[Row::wind(2, 1, 1), Row::wind(3, 2_000, 550_000)])),
        case(
            "wind in a grid accident",
            &paying(900, &[Row::wind(2, 100, 9_000).with_status(3), Row::solar(3, 100, 9_000)]),
        ),
        case(
            "every status of a thermal payer",
            &paying(
                900,
                &[0, 1, 2, 3].map(|status| Row::thermal(2 + u16::from(status), 100, 20_000).with_status(status)),
            ),
        ),
        case(
            "three receivers cut alike",
            &Interval::new(77, 9_000, vec![receiver(1), receiver(2), receiver(3), Row::wind(4, 10, 2_600)]),
        ),
        case(
            "unlike receivers cut",
            &Interval::new(
                77,
                9_000,
                vec![
                    Row { metered: 12_498, ..receiver(1) },
                    Row { metered: 12_499, ..receiver(2) },
                    receiver(3),
                    Row::wind(4, 10, 2_600),
                ],
            ),
        ),
        case("the longest day", &Interval { day: 36_524, quarter: 95, ..Interval::x(1300) }),
    ]);
    cases
}

/// Leftovers at several quarters: whose turn it is, in calls, payments and cuts, where it takes part and where it does not.
fn turns() -> Vec<Case> {
    let offer = |id, metered| Row::thermal(id, 100, metered).offering(10_000, 200, 320);
    let wind = |id, metered| Row::wind(id, 100, metered);
    let calls = || vec![offer(1, 12_500), offer(2, 12_500), wind(3, 5_000)];
    let apart = || vec![offer(1, 12_490), wind(2, 5_000), offer(3, 12_490), offer(4, 12_490)];
    let payments = || vec![offer(1, 12_495), wind(2, 5_000), wind(3, 5_000), wind(4, 5_000)];
    let cuts = || vec![offer(1, 12_495), offer(2, 12_495), offer(3, 12_495), wind(4, 200)];
    let mut cases = Vec::new();
    for quarter in [0, 1, 2, 3, 5, 95] {
        let mut tied = |what: &str, tariff, need, rows| {
            let interval = Interval { quarter, ..Interval::new(tariff, need, rows) };
            cases.push(case(format!("{what} tied at quarter {quarter}"), &interval));
        };
        tied("calls", 1_300, 101, calls());
        tied("calls of rows apart", 1_300, 100, apart());
        tied("payments", 1_300, 2_500, payments());
        tied("cuts", 100, 7_500, cuts());
        tied("one row, nothing", 1_300, 3_000, vec![offer(1, 9_000)]);
        tied("no rows, nothing", 1_300, 3_000, Vec::new());
    }
    let dated = Interval { quarter: 2, ..Interval::new(1_300, 2_500, payments()) };
    let mut correction = dated.correcting(&[2]);
    correction.rows[0].metered = 5_001;
    cases.push(corrected("a payer corrected out of a tie at its own turn", &dated, &correction));
    cases
}

/// Who owes a penalty, and what it fills of a shortfall. Unless changed, row 1 of interval X gets 90,000 fen, and row 2 beside it
/// is reduced and called in full, for 2,500 and 2,000 kWh.
fn penalties() -> Vec<Case> {
    let offer = |metered| Row::thermal(2, 100, metered).offering(8_000, 300, 500);
    let reduced = |tariff, metered| Interval { tariff, ..x_beside(offer(metered).with_status(2)) };
    let no_price = vec![offer(12_499).with_status(2), Row::wind(3, 100, 5_000)];
    let mut one_price = reduced(1300, 11_000);
    one_price.rows[0].metered = 11_000;
    let mut cases = vec![
        case("reduced, more in tier 1 than was called", &Interval { need: 3_500, ..reduced(1300, 11_000) }),
        case("reduced, more in tier 2 than was called", &Interval { need: 7_500, ..reduced(1300, 9_000) }),
        case("reduced, not called", &Interval { need: 2_500, ..reduced(1300, 12_000) }),
        case("reduced, not offering", &x_beside(Row::thermal(2, 100, 12_000).with_status(2))),
        case("reduced, nobody delivered", &Interval::new(1300, 4_500, no_price)),
        case("reduced, nobody delivered in tier 2", &one_price),
        case("reduced, the payer meets its cap exactly", &reduced(3600, 9_000)),
        case("reduced, the payer stays open", &reduced(3601, 9_000)),
        case("reduced and paying, all capped", &reduced(1000, 20_000)),
    ];
    for metered in [8_000, 9_500, 10_000, 11_000, 12_499, 12_500, 12_501, 20_000] {
        cases.push(case(format!("reduced, metered {metered}"), &reduced(1300, metered)));
    }
    // 60,000 fen are missing, and a kWh short in tier 2 costs 80.
    for metered in [8_001, 8_749, 8_750, 8_751] {
        cases.push(case(format!("60000 fen missing, metered {metered}"), &reduced(1200, metered)));
    }
    for status in [0, 1, 3] {
        cases.push(case(format!("short in status {status}"), &x_beside(offer(11_000).with_status(status))));
    }
    let (normal, reduced) = (x_beside(offer(9_000)), reduced(1300, 9_000));
    cases.push(corrected("corrected to reduced", &normal, &reduced.correcting(&[1])));
    cases.push(corrected("corrected from reduced", &reduced, &normal.correcting(&[1])));
    [cases, small_penalties(), returned()].concat()
}

/// Penalties of a few fen: 4 li dropped, 6 li rounded up, li doubled before they are rounded, both tiers added before.
fn small_penalties() -> Vec<Case> {
    let short = |bids: [u16; 2], metered, minimum| {
        let offer = |id, metered, minimum| Row::thermal(id, 100, metered).offering(minimum, bids[0], bids[1]);
        let rows = vec![offer(1, 9_000, 8_000), offer(2, metered, minimum).with_status(2), Row::wind(3, 100, 5_000)];
        Interval::new(1300, 9_000, rows)
    };
    vec![
        case("a penalty of 204 li", &short([102, 322], 10_001, 10_000)),
        case("a penalty of 206 li", &short([103, 322], 10_001, 10_000)),
        case("a penalty of twice 315 li", &short([105, 322], 10_003, 10_000)),
        case("a penalty of 204 and 644 li", &short([102, 322], 10_001, 9_999)),
    ]
}

/// Leftovers of what is returned at several quarters, and two files in which a larger penalty goes with a fen more of one cut.
fn returned() -> Vec<Case> {
    let tied = |quarter| {
        let offer = |id, metered| Row::thermal(id, 100, metered).offering(10_000, 200, 320);
        let mut rows = vec![offer(1, 12_495)];
        rows.extend([2, 3, 4].map(|id| offer(id, 10_001).with_status(2)));
        rows.push(sun(5));
        Interval { quarter, ..Interval::new(1300, 10_000, rows) }
    };
    let cut = |short: u32| {
        let offer = |id, metered| Row::thermal(id, 100, metered).offering(10_000, 105, 320);
        let receivers = [offer(1, 12_460), offer(2, 12_460), offer(3, 12_499)];
        let others = [Row::wind(4, 100, 3), offer(5, 10_000 + short).with_status(2)];
        Interval::new(200, 10_000, [&receivers[..], &others].concat())
    };
    let tied = [0, 1, 2, 3, 95].map(|quarter| case(format!("returned tied at quarter {quarter}"), &tied(quarter)));
    let cuts = [38, 39].map(|short| case(format!("{short} kWh short, others cut"), &cut(short)));
    [&tied[..], &cuts].concat()
}

/// Corrections that are accepted, and buffers of several lengths.
fn corrections() -> Vec<Case> {
    let x = Interval::x(1300);
    let changing = |places: &[usize], change: &dyn Fn(&mut [Row])| {
        let mut correction = x.correcting(places);
        change(&mut correction.rows);
        correction
    };
    let dated = Interval { day: 36_524, quarter: 95, ..x.clone() };
    let mut cases = vec![
        corrected("nothing changed", &x, &x.correcting(&[0, 1, 2])),
        corrected("the receiver's energy", &x, &changing(&[0], &|rows| rows[0].metered = 11_000)),
        corrected("a payer's energy", &x, &changing(&[1], &|rows| rows[0].metered = 27_500)),
        corrected("a payer becomes none", &x, &changing(&[1], &|rows| rows[0].metered = 12_499)),
        corrected("the wind farm had an accident", &x, &changing(&[2], &|rows| rows[0].status = 3)),
        corrected("the receiver was starting", &x, &changing(&[0], &|rows| rows[0].status = 1)),
        corrected(
            "first and last",
            &x,
            &changing(&[0, 2], &|rows| {
                rows[0].metered = 9_999;
                rows[1].metered = 27_500;
            }),
        ),
        corrected("on the longest day", &dated, &dated.correcting(&[1])),
    ];
    for buffer in [X_STATEMENT + 1, X_STATEMENT + 13, X_STATEMENT + LINE] {
        cases.push(bytes_case(format!("a buffer of {buffer}"), x.bytes(), Vec::new(), buffer));
    }
    let no_rows = x_with(|x| x.rows.clear()).bytes();
    cases.push(bytes_case("no rows in a buffer that is a byte longer", no_rows, Vec::new(), STATEMENT_HEAD_PS + 1));
    cases
}

/// 1 to 7 and 11, one fault at a time.
fn interval_faults() -> Vec<Case> {
    let x = Interval::x(1300);
    let cut =
        |length: usize| bytes_case(format!("cut to {length}"), x.bytes()[..length].to_vec(), Vec::new(), X_STATEMENT);
    let mut cases = vec![cut(0), cut(1), cut(14), cut(15), cut(77)];
    let mut head = |name: &str, change: &dyn Fn(&mut Interval)| {
        let changed = x_with(change);
        cases.push(bytes_case(name, changed.bytes(), Vec::new(), X_STATEMENT));
    };
    head("head mark PK", &|x| x.mark = *b"PK");
    head("head mark QH", &|x| x.mark = *b"QH");
    head("day 36525", &|x| x.day = 36_525);
    head("quarter 96", &|x| x.quarter = 96);
    head("tariff 0", &|x| x.tariff = 0);
    head("tariff 10001", &|x| x.tariff = 10_001);
    head("need 64000001", &|x| x.need = 64_000_001);
    head("257 rows", &|x| x.count = Some(257));
    head("256 rows counted, 3 there", &|x| x.count = Some(256));
    head("2 rows counted, 3 there", &|x| x.count = Some(2));
    head("row mark PL", &|x| x.rows[2].mark = *b"PL");
    head("row mark QR", &|x| x.rows[0].mark = *b"QR");
    head("id 0", &|x| x.rows[0].id = 0);
    head("kind 0", &|x| x.rows[1].kind = 0);
    head("kind 4", &|x| x.rows[1].kind = 4);
    head("capacity 0", &|x| x.rows[2] = Row { capacity: 0, metered: 0, ..x.rows[2] });
    head("metered one too many", &|x| x.rows[1].metered = 27_501);
    head("metered at the most", &|x| x.rows[1].metered = 27_500);
    head("thermal status 4", &|x| x.rows[0].status = 4);
    head("wind status 1", &|x| x.rows[2].status = 1);
    head("wind status 2", &|x| x.rows[2].status = 2);
    head("offered 2", &|x| x.rows[0].offered = 2);
    head("wind offers", &|x| x.rows[2] = x.rows[2].offering(0, 100, 320));
    head("not offered, with a minimum", &|x| x.rows[1].minimum = 1);
    head("not offered, with a tier 1 bid", &|x| x.rows[1].bids[0] = 100);
    head("not offered, with a tier 2 bid", &|x| x.rows[1].bids[1] = 320);
    head("offered without bids", &|x| x.rows[1].offered = 1);
    head("minimum above half load", &|x| x.rows[0].minimum = 12_501);
    head("an id twice", &|x| x.rows[1].id = 1);
    head("ids falling", &|x| x.rows[2].id = 1);
    let mut longer = x.bytes();
    longer.push(0);
    cases.push(bytes_case("a byte too many", longer, Vec::new(), X_STATEMENT));
    for buffer in [0, STATEMENT_HEAD_PS, X_STATEMENT - 1] {
        cases.push(bytes_case(format!("a buffer of {buffer}"), x.bytes(), Vec::new(), buffer));
    }
    let no_rows = x_with(|x| x.rows.clear()).bytes();
    cases.push(bytes_case("no rows in a buffer that is a byte short", no_rows, Vec::new(), STATEMENT_HEAD_PS - 1));
    cases
}

/// 8, 9 and 10, one fault at a time.
fn correction_faults() -> Vec<Case> {
    let x = Interval::x(1300);
    let good = x.correcting(&[0, 1, 2]);
    let cut = |length: usize| {
        bytes_case(format!("correction cut to {length}"), x.bytes(), good.bytes()[..length].to_vec(), X_STATEMENT)
    };
    let mut cases = vec![cut(1), cut(8), cut(9), cut(71)];
    let mut faulty = |name: &str, change: &dyn Fn(&mut Correction)| {
        let mut correction = good.clone();
        change(&mut correction);
        cases.push(corrected(name, &x, &correction));
    };
    faulty("correction mark PH", &|k| k.mark = *b"PH");
    faulty("correction day 36525", &|k| k.day = 36_525);
    faulty("correction quarter 96", &|k| k.quarter = 96);
    faulty("correction of 0 rows, 3 there", &|k| k.count = Some(0));
    faulty("correction of 0 rows", &|k| k.rows.clear());
    faulty("correction of 257 rows", &|k| k.count = Some(257));
    faulty("correction of 4 rows, 3 there", &|k| k.count = Some(4));
    faulty("correction row mark", &|k| k.rows[1].mark = *b"PL");
    faulty("correction id 0", &|k| k.rows[0].id = 0);
    faulty("correction metered too much", &|k| k.rows[2].metered = 27_501);
    faulty("correction wind status 2", &|k| k.rows[2].status = 2);
    faulty("correction bid 321", &|k| k.rows[0].bids[0] = 321);
    faulty("correction id twice", &|k| k.rows[2].id = 2);
    faulty("correction of another day", &|k| k.day = 1);
    faulty("correction of another quarter", &|k| k.quarter = 1);
    faulty("correction of an unknown row", &|k| k.rows[2].id = 4);
    faulty("correction of an unknown first row", &|k| {
        k.rows.truncate(1);
        k.rows[0].id = 65_535;
    });
    faulty("correction of kind", &|k| k.rows[2].kind = 3);
    faulty("correction of capacity", &|k| k.rows[1].capacity = 101);
    faulty("correction of offered", &|k| k.rows[1] = k.rows[1].offering(0, 100, 320));
    faulty("correction of an offer withdrawn", &|k| {
        k.rows[0] = Row { offered: 0, minimum: 0, bids: [0, 0], ..k.rows[0] }
    });
    faulty("correction of minimum", &|k| k.rows[0].minimum = 8_001);
    faulty("correction of the tier 1 bid", &|k| k.rows[0].bids[0] = 201);
    faulty("correction of the tier 2 bid", &|k| k.rows[0].bids[1] = 401);
    cases.push(corrected("correction of no rows at all", &x_with(|x| x.rows.clear()), &good));
    cases
}

/// Several faults at once: the first in order of checking counts.
fn several_faults() -> Vec<Case> {
    let x = Interval::x(1300);
    let good = x.correcting(&[0, 1, 2]);
    let mut cases = Vec::new();
    let mut faulty = |name: &str, buffer, change: &dyn Fn(&mut Interval, &mut Correction)| {
        let (mut interval, mut correction) = (x.clone(), good.clone());
        change(&mut interval, &mut correction);
        cases.push(bytes_case(name, interval.bytes(), correction.bytes(), buffer));
    };
    faulty("2 before 3", X_STATEMENT, &|x, _| (x.mark, x.tariff) = (*b"PX", 0));
    faulty("3 before 4", X_STATEMENT, &|x, _| (x.day, x.count) = (36_525, Some(1)));
    faulty("3 before 4 by the count", X_STATEMENT, &|x, _| x.count = Some(300));
    faulty("4 before 5", X_STATEMENT, &|x, _| (x.count, x.rows[0].mark) = (Some(4), *b"XX"));
    faulty("6 of row 1 before 5 of row 2", X_STATEMENT, &|x, _| (x.rows[0].kind, x.rows[1].mark) = (9, *b"XX"));
    faulty("7 of row 2 before 5 of row 3", X_STATEMENT, &|x, _| (x.rows[1].id, x.rows[2].mark) = (1, *b"XX"));
    faulty("5 before 6 and 7", X_STATEMENT, &|x, _| x.rows[1] = Row { mark: *b"XX", id: 1, kind: 9, ..x.rows[1] });
    faulty("6 before 7", X_STATEMENT, &|x, _| x.rows[1] = Row { id: 1, kind: 9, ..x.rows[1] });
    faulty("id 0 in row 2 is 6", X_STATEMENT, &|x, _| x.rows[1].id = 0);
    faulty("7 before 8", X_STATEMENT, &|x, k| (x.rows[2].id, k.mark) = (2, *b"XX"));
    faulty("8 by its length before its rows", X_STATEMENT, &|_, k| (k.count, k.rows[0].mark) = (Some(2), *b"XX"));
    faulty("8 by its day before its rows", X_STATEMENT, &|_, k| (k.day, k.rows[0].mark) = (36_525, *b"XX"));
    faulty("8 of row 1 before row 2", X_STATEMENT, &|_, k| (k.rows[0].id, k.rows[1].mark) = (0, *b"XX"));
    faulty("8 of row 3 before 9", X_STATEMENT, &|_, k| (k.day, k.rows[2].status) = (1, 1));
    faulty("8 of row 3 before 10 of row 1", X_STATEMENT, &|_, k| (k.rows[0].bids[0], k.rows[2].status) = (201, 1));
    faulty("9 before 10", X_STATEMENT, &|_, k| (k.quarter, k.rows[0].bids[0]) = (1, 201));
    faulty("10 of row 2 before row 3", X_STATEMENT, &|_, k| (k.rows[1].capacity, k.rows[2].id) = (101, 4));
    faulty("10 before 11", X_STATEMENT - 1, &|_, k| k.rows[2].kind = 3);
    faulty("11 last", X_STATEMENT - 1, &|_, _| ());
    faulty("8 with an interval that is too short", X_STATEMENT, &|x, k| {
        (x.rows, x.count, k.mark) = (Vec::new(), Some(3), *b"XX");
    });
    cases
}

/// Interval X at tariff 1300 as a PG file, with a change.
fn stated_with(percent: u8, limits: [u16; 4], change: impl FnOnce(&mut Interval)) -> Interval {
    x_with(change).stating(Terms { percent, limits })
}

const LIMITS_OF_01: [u16; 4] = Terms::OF_01.limits;

/// Terms that are stated: baselines, limits, who pays and who is paid, corrections, buffers.
fn terms() -> Vec<Case> {
    let at = |percent, change: &dyn Fn(&mut Interval)| stated_with(percent, LIMITS_OF_01, change);
    let of_01 =
        |name: &str, interval: Interval| case(format!("01's terms stated, {name}"), &interval.stating(Terms::OF_01));
    let mut cases = vec![
        of_01("X", Interval::x(1300)),
        of_01("X at tariff 1000", Interval::x(1000)),
        of_01("row 1 at half load", x_with(|x| x.rows[0].metered = 12_500)),
        of_01("no rows", x_with(|x| x.rows.clear())),
    ];
    for percent in [41, 45, 49, 50] {
        cases.push(case(format!("X at {percent} percent"), &at(percent, &|_| ())));
        // 101 MW, of which the baseline is cut at an odd percentage: below it, at it and above it.
        let baseline = Terms { percent, limits: LIMITS_OF_01 }.baseline(101);
        for metered in [baseline - 1, baseline, baseline + 1] {
            let odd = |x: &mut Interval| {
                x.rows[0] = Row { capacity: 101, metered, ..x.rows[0] };
                x.rows[1] = Row { capacity: 101, metered, ..x.rows[1] };
            };
            cases.push(case(format!("101 MW at {percent} percent metered {metered}"), &at(percent, &odd)));
        }
        let all_in = |x: &mut Interval| x.rows[0] = Row { capacity: 101, minimum: baseline, ..x.rows[0] };
        cases.push(case(format!("minimum at the baseline of {percent} percent"), &at(percent, &all_in)));
    }
    for metered in [9_999, 10_000, 11_249, 11_250, 11_251, 12_499, 12_500, 15_000, 15_001, 17_500, 17_501] {
        let both = |x: &mut Interval| (x.rows[0].metered, x.rows[1].metered) = (metered, metered);
        cases.push(case(format!("rows 1 and 2 metered {metered} at 45 percent"), &at(45, &both)));
    }
    let smallest = |x: &mut Interval| {
        x.rows[0] = Row::thermal(1, 1, 99).offering(98, 200, 400);
        x.rows[1] = Row::thermal(2, 1, 103);
        x.rows[2] = Row::wind(3, 1, 7);
    };
    cases.push(case("1 MW at 41 percent", &at(41, &smallest)));
    for limits in [[1, 2, 2, 3], [1, 500, 500, 1_000], [997, 998, 999, 1_000], [200, 201, 399, 400]] {
        for bids in [[limits[0], limits[2]], [limits[1], limits[3]]] {
            let name = format!("bids {bids:?} under limits {limits:?}");
            cases.push(case(name, &stated_with(45, limits, |x| x.rows[0].bids = bids)));
        }
    }
    let meeting = |need| {
        let rows = vec![
            Row::thermal(1, 100, 8_000).offering(8_000, 300, 300),
            Row::thermal(2, 100, 10_000).offering(10_000, 300, 400),
            sun(3),
        ];
        Interval::new(1300, need, rows).stating(Terms { percent: 45, limits: [200, 300, 300, 400] })
    };
    for need in [1, 2_499, 2_500, 2_501, 2_600, 4_501] {
        cases.push(case(format!("limits that meet at 300, need {need}"), &meeting(need)));
    }
    for metered in [11_249, 11_246, 11_245] {
        let cheap = |x: &mut Interval| x.rows[0] = Row { metered, bids: [1, 2], ..x.rows[0] };
        cases.push(case(
            format!("1 li for each kWh below 11250, metered {metered}"),
            &stated_with(45, [1, 2, 2, 3], cheap),
        ));
    }
    for metered in [8_000, 11_000, 11_249, 11_250, 12_000] {
        let reduced = Row::thermal(2, 100, metered).offering(8_000, 300, 320).with_status(2);
        let change = |x: &mut Interval| (x.need, x.rows[1]) = (9_000, reduced);
        cases.push(case(format!("reduced at 45 percent, metered {metered}"), &at(45, &change)));
    }
    for quarter in [0, 1, 2, 95] {
        let alike = |x: &mut Interval| {
            x.rows = [1, 2, 3].map(|id| Row::thermal(id, 101, 9_000).offering(10_100, 200, 400)).to_vec();
            (x.quarter, x.need) = (quarter, 100);
        };
        cases.push(case(format!("calls tied at quarter {quarter} and 45 percent"), &at(45, &alike)));
    }
    let x = at(45, &|_| ());
    let changing = |place: usize, change: &dyn Fn(&mut Row)| {
        let mut correction = x.correcting(&[place]);
        change(&mut correction.rows[0]);
        correction
    };
    cases.extend([
        corrected("a stated file, nothing changed", &x, &x.correcting(&[0, 1, 2])),
        corrected("a stated file, row 1 to its baseline", &x, &changing(0, &|row| row.metered = 11_250)),
        corrected("a stated file, row 1 a kWh below its baseline", &x, &changing(0, &|row| row.metered = 11_249)),
        corrected(
            "a stated file, row 2 to between baseline and half load",
            &x,
            &changing(1, &|row| row.metered = 12_000),
        ),
    ]);
    let whole = x.statement_length();
    for buffer in [whole + 1, whole + 9, whole + LINE] {
        cases.push(bytes_case(format!("a stated file, a buffer of {buffer}"), x.bytes(), Vec::new(), buffer));
    }
    cases
}

/// 14, the second 1, and every other refusal where terms are stated.
fn terms_faults() -> Vec<Case> {
    let x = stated_with(45, [150, 300, 300, 450], |_| ());
    let whole = x.statement_length();
    let mut cases = Vec::new();
    for percent in [0, 40, 51, 255] {
        cases.push(case(format!("{percent} percent"), &stated_with(percent, LIMITS_OF_01, |_| ())));
    }
    let wrong = [
        ("first limit 0", [0, 320, 320, 750]),
        ("first limit as the second", [320, 320, 320, 750]),
        ("first limit above the second", [321, 320, 320, 750]),
        ("second limit above the third", [100, 321, 320, 750]),
        ("third limit as the fourth", [100, 320, 750, 750]),
        ("third limit above the fourth", [100, 320, 751, 750]),
        ("last limit 1001", [100, 320, 320, 1_001]),
        ("last limit 65535", [100, 320, 320, 65_535]),
        ("no limits", [0, 0, 0, 0]),
    ];
    for (name, limits) in wrong {
        cases.push(case(name, &stated_with(50, limits, |_| ())));
    }
    for length in [0, 14, 15, 16, 23, 24, 45, 86] {
        let cut = x.bytes()[..length].to_vec();
        cases.push(bytes_case(format!("a stated file cut to {length}"), cut, Vec::new(), whole));
    }
    let mut faulty = |name: &str, change: &dyn Fn(&mut Interval)| {
        let mut changed = x.clone();
        change(&mut changed);
        cases.push(bytes_case(format!("stated, {name}"), changed.bytes(), Vec::new(), whole));
    };
    faulty("mark QG", &|x| x.mark = *b"QG");
    faulty("mark PT", &|x| x.mark = *b"PT");
    faulty("mark PH", &|x| x.mark = *b"PH");
    faulty("tariff 0", &|x| x.tariff = 0);
    faulty("257 rows counted", &|x| x.count = Some(257));
    faulty("2 rows counted, 3 there", &|x| x.count = Some(2));
    faulty("row mark PL", &|x| x.rows[2].mark = *b"PL");
    faulty("minimum above the baseline", &|x| x.rows[0].minimum = 11_251);
    faulty("minimum at half load", &|x| x.rows[0].minimum = 12_500);
    faulty("tier 1 bid below", &|x| x.rows[0].bids[0] = 149);
    faulty("tier 1 bid above", &|x| x.rows[0].bids[0] = 301);
    faulty("tier 2 bid below", &|x| x.rows[0].bids[1] = 299);
    faulty("tier 2 bid above", &|x| x.rows[0].bids[1] = 451);
    faulty("an id twice", &|x| x.rows[1].id = 1);
    faulty("3 before 14", &|x| (x.tariff, x.stated) = (0, Some(Terms { percent: 40, ..x.terms() })));
    faulty("14 before 4", &|x| (x.count, x.stated) = (Some(2), Some(Terms { percent: 40, ..x.terms() })));
    faulty("14 before 5", &|x| (x.rows[0].mark, x.stated) = (*b"XX", Some(Terms { percent: 51, ..x.terms() })));
    faulty("3 before 14 by the count", &|x| (x.count, x.stated) = (Some(300), Some(Terms { percent: 0, ..x.terms() })));
    let no_rows = x_with(|x| x.rows.clear());
    cases.push(case("no rows, with the mark of PG", &Interval { mark: *b"PG", ..no_rows.clone() }));
    cases.push(case("X with the mark of PG", &x_with(|x| x.mark = *b"PG")));
    for buffer in [0, STATEMENT_HEAD_PS, STATEMENT_HEAD_PT, whole - 9, whole - 1] {
        cases.push(bytes_case(format!("a stated file, a buffer of {buffer}"), x.bytes(), Vec::new(), buffer));
    }
    let stated_no_rows = no_rows.stating(x.terms()).bytes();
    for buffer in [STATEMENT_HEAD_PT - 1, STATEMENT_HEAD_PT, STATEMENT_HEAD_PT + 1] {
        cases.push(bytes_case(
            format!("stated, no rows in a buffer of {buffer}"),
            stated_no_rows.clone(),
            Vec::new(),
            buffer,
        ));
    }
    let good = x.correcting(&[0, 1, 2]);
    let mut corrected_wrong = |name: &str, buffer, change: &dyn Fn(&mut Correction)| {
        let mut correction = good.clone();
        change(&mut correction);
        cases.push(bytes_case(format!("stated, {name}"), x.bytes(), correction.bytes(), buffer));
    };
    corrected_wrong("correction mark PG", whole, &|k| k.mark = *b"PG");
    corrected_wrong("correction bid 301", whole, &|k| k.rows[0].bids[0] = 301);
    corrected_wrong("correction bid 451", whole, &|k| k.rows[0].bids[1] = 451);
    corrected_wrong("correction minimum above the baseline", whole, &|k| k.rows[0].minimum = 11_251);
    corrected_wrong("correction minimum at the baseline", whole, &|k| k.rows[0].minimum = 11_250);
    corrected_wrong("correction of the tier 1 bid", whole, &|k| k.rows[0].bids[0] = 150);
    corrected_wrong("correction of another quarter", whole, &|k| k.quarter = 1);
    corrected_wrong("correction of an unknown row", whole, &|k| k.rows[2].id = 4);
    corrected_wrong("10 before 11", whole - 1, &|k| k.rows[2].kind = 3);
    corrected_wrong("11 last", whole - 1, &|_| ());
    let mut wrong_terms = x.clone();
    wrong_terms.stated = Some(Terms { percent: 40, ..x.terms() });
    let other_mark = Correction { mark: *b"XX", ..good };
    cases.push(bytes_case("14 before 8", wrong_terms.bytes(), other_mark.bytes(), whole));
    cases
}
