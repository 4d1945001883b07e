//! Small intervals at the edges of the thermal average: where it rules and where it just does not (document 02, request 9).

use crate::small::{case, corrected};
use cases::Case;
use cases::file::{Interval, Row, Terms};

pub fn cases() -> Vec<Case> {
    [condition(), averages(), statuses(), money(), stated(), corrections()].concat()
}

/// Row 1 of interval X, a thermal row at so many kWh that offers nothing, and others behind them.
fn windless(second: u32, others: &[Row]) -> Interval {
    let x = Interval::x(1300);
    let rows = [&[x.rows[0], Row::thermal(2, 100, second)], others].concat();
    Interval { rows, ..x }
}

/// Farms at 0 and 1, rows at half load and a kWh above, need 0 and 1, no thermal row.
fn condition() -> Vec<Case> {
    let mut cases = vec![case("windless, no farm", &windless(12_000, &[]))];
    for metered in [0, 1] {
        for status in [0, 3] {
            let farms = [Row::wind(3, 100, metered), Row::solar(3, 100, metered)].map(|farm| farm.with_status(status));
            for (kind, farm) in ["wind", "solar"].into_iter().zip(farms) {
                let name = format!("windless, {kind} of status {status} at {metered}");
                cases.push(case(name, &windless(12_000, &[farm])));
            }
        }
        let last = [Row::wind(3, 100, 0), Row::solar(4, 100, 0), Row::wind(5, 100, metered)];
        cases.push(case(format!("windless, three farms, the last at {metered}"), &windless(12_000, &last)));
        let still = vec![Row::wind(1, 100, metered), Row::solar(2, 100, 0)];
        cases.push(case(format!("no thermal row, wind at {metered}"), &Interval::new(1300, 3_000, still)));
        let first = vec![Row::wind(1, 100, metered), Row::thermal(2, 100, 0)];
        cases.push(case(format!("wind at {metered} before a thermal row at 0"), &Interval::new(1300, 1, first)));
    }
    for second in [12_499, 12_500, 12_501] {
        cases.push(case(format!("windless, row 2 at {second}"), &windless(second, &[])));
        let mut both = windless(second, &[]);
        both.rows[0].metered = second;
        cases.push(case(format!("windless, both rows at {second}"), &both));
    }
    for need in [0, 1, 2_500, 2_501, 64_000_000] {
        cases.push(case(format!("windless, need {need}"), &Interval { need, ..windless(12_000, &[]) }));
    }
    let idle = vec![Row::thermal(1, 100, 9_000), Row::thermal(2, 100, 12_000)];
    cases.push(case("windless, nobody offers", &Interval::new(1300, 1, idle)));
    cases
}

/// Averages cut, in tier 2, at 40 percent and in tier 1; rows at their averages and a kWh beside.
fn averages() -> Vec<Case> {
    let mut cases = Vec::new();
    for second in [0, 8_000, 8_999, 9_000, 9_001, 9_002, 10_998, 11_000, 11_001, 11_002, 11_003] {
        cases.push(case(format!("windless, averaged with row 2 at {second}"), &windless(second, &[])));
    }
    for third in [9_998, 9_999, 10_000, 10_001] {
        let interval = windless(11_000, &[Row::thermal(3, 100, third)]);
        cases.push(case(format!("windless, row 3 near its average at {third}"), &interval));
    }
    // 10,100 kWh of 110 MW: nobody's average is whole.
    let mut uneven = windless(300, &[Row::thermal(3, 7, 800)]);
    uneven.rows[1].capacity = 3;
    for tariff in [1, 1300, 3545, 10_000] {
        cases.push(case(format!("windless, averages cut at tariff {tariff}"), &Interval { tariff, ..uneven.clone() }));
    }
    let lone = |row: Row| Interval::new(1300, 3_000, vec![row]);
    cases.push(case("windless, one row", &lone(windless(0, &[]).rows[0])));
    cases.push(case("windless, one row at 0", &lone(Row::thermal(1, 100, 0).offering(0, 200, 400))));
    let large = |metered| Row::thermal(2, 2_000, metered);
    let offer = Row::thermal(1, 2_000, 0).offering(0, 320, 750);
    let heavy = vec![offer, large(249_999), Row { id: 3, ..large(250_000) }, Row { id: 4, ..large(250_000) }];
    cases.push(case("windless, the largest units", &Interval::new(10_000, 64_000_000, heavy)));
    let small = vec![Row::thermal(1, 1, 99).offering(0, 100, 320), Row::thermal(2, 1, 101), Row::thermal(3, 2, 201)];
    cases.push(case("windless, the smallest units", &Interval::new(400, 1, small)));
    cases
}

/// Rows of every status count in the sums; which of them pay, and which are paid.
fn statuses() -> Vec<Case> {
    let mut cases = Vec::new();
    for status in 0..=3 {
        for (where_, third) in [("below", 6_000), ("at", 10_500), ("above", 12_000)] {
            let row = Row::thermal(3, 100, third).with_status(status);
            cases.push(case(format!("windless, status {status} {where_} its average"), &windless(12_000, &[row])));
        }
        let row = Row::thermal(3, 100, 12_501).with_status(status);
        cases.push(case(format!("windless but for status {status} above half load"), &windless(12_000, &[row])));
        let mut first = windless(12_000, &[]);
        first.rows[0].status = status;
        cases.push(case(format!("windless, the offer of status {status}"), &first));
    }
    cases
}

/// Prices, penalties, several payers and leftovers.
fn money() -> Vec<Case> {
    let dearer = |metered| Row::thermal(2, 100, metered).offering(8_000, 300, 500);
    let beside = |need, second: Row, others: &[Row]| {
        let mut interval = Interval { need, ..windless(0, others) };
        interval.rows[1] = second;
        interval
    };
    let mut cases = Vec::new();
    for metered in [8_000, 9_500, 11_000, 12_500] {
        cases.push(case(format!("windless, a dearer offer at {metered}"), &beside(9_000, dearer(metered), &[])));
        let reduced = beside(9_000, dearer(metered).with_status(2), &[Row::thermal(3, 100, 12_000)]);
        cases.push(case(format!("windless, reduced at {metered}"), &reduced));
    }
    let two = [Row::thermal(3, 100, 12_500), Row::thermal(4, 100, 12_500)];
    let more = beside(7_500, dearer(8_000).with_status(2), &two);
    cases.push(case("windless, reduced, more in tier 2 than was called", &more));
    let low = beside(9_000, dearer(8_500).with_status(2), &[Row::thermal(3, 100, 11_000)]);
    cases.push(case("windless, reduced, tier 1 without a price", &low));
    // Payers of unlike loads and capacities reach their caps in several rounds, or stay open.
    let payers = [Row::thermal(3, 300, 36_000), Row::thermal(4, 50, 5_300), Row::thermal(5, 10, 1_240)];
    for tariff in [1, 100, 300, 500, 700, 1_000, 10_000] {
        let interval = Interval { tariff, need: 4_500, ..windless(12_400, &payers) };
        cases.push(case(format!("windless, four payers at tariff {tariff}"), &interval));
    }
    for quarter in [0, 1, 2, 95] {
        let offer = Row::thermal(1, 100, 10_000).offering(10_000, 105, 320);
        let rows = vec![offer, Row::thermal(2, 100, 10_753), Row::thermal(3, 100, 10_753)];
        let tied = Interval { quarter, ..Interval::new(1300, 100, rows) };
        cases.push(case(format!("windless, payments tied at quarter {quarter}"), &tied));
    }
    cases
}

/// Under stated terms the condition reads with their baseline, and bands begin there.
fn stated() -> Vec<Case> {
    let at = |percent, interval: Interval| interval.stating(Terms { percent, ..Terms::OF_01 });
    let mut cases = Vec::new();
    for (percent, metered) in [(45, 337), (45, 338), (50, 338), (50, 375), (50, 376), (41, 307), (41, 308)] {
        let mut interval = windless(metered, &[]);
        interval.rows[1].capacity = 3;
        cases.push(case(format!("windless, 3 MW at {metered} and {percent} percent"), &at(percent, interval)));
    }
    for percent in [47, 48, 49] {
        cases.push(case(format!("windless at {percent} percent"), &at(percent, windless(12_000, &[]))));
    }
    let reduced = Row::thermal(3, 100, 8_500).offering(8_000, 300, 500).with_status(2);
    let interval = Interval { need: 9_000, ..windless(11_250, &[reduced, Row::wind(4, 100, 0)]) };
    cases.push(case("windless, reduced at 45 percent", &at(45, interval)));
    cases
}

/// Corrections that begin it and end it, by a farm's meter and by a thermal one.
fn corrections() -> Vec<Case> {
    let [still, blowing] = [0, 5_000].map(|metered| windless(12_000, &[Row::wind(3, 100, metered)]));
    let high = windless(12_501, &[Row::wind(3, 100, 0)]);
    let mut moved = still.correcting(&[0]);
    moved.rows[0].metered = 9_500;
    let mut accident = still.correcting(&[1]);
    accident.rows[0].status = 3;
    let at_45 = |interval: &Interval| interval.clone().stating(Terms { percent: 45, ..Terms::OF_01 });
    vec![
        corrected("windless by a correction of the wind", &blowing, &still.correcting(&[2])),
        corrected("wind by a correction", &still, &blowing.correcting(&[2])),
        corrected("windless by a correction of a thermal row", &high, &still.correcting(&[1])),
        corrected("above half load by a correction", &still, &high.correcting(&[1])),
        corrected("windless, a meter corrected", &still, &moved),
        corrected("windless, a payer in a grid accident by a correction", &still, &accident),
        corrected("windless by a correction at 45 percent", &at_45(&high), &windless(11_250, &[]).correcting(&[1])),
        corrected("above 45 percent by a correction", &at_45(&windless(11_250, &[])), &still.correcting(&[1])),
    ]
}
