//! The figures of document 01, P1 to P11 and those that are only run, and those worked out for the requests of document 02.

use reference::{
    Baselines, Calls, Desk, Interval, Row, Sharer, TELL_READS, Terms, Turns, call, counting_row, fen, lines_of_text,
    paid_energy, penalty, read_interval, rewrite, settle, share, tell, thermal_cap, thermal_weight, write_interval,
};

fn row(id: u16, kind: u8, metered: u32) -> Row {
    Row { id, kind, capacity: 100, metered, status: 0, offered: 0, minimum: 0, bids: [0, 0] }
}

fn offering(id: u16, metered: u32, minimum: u32, bids: [u16; 2]) -> Row {
    Row { offered: 1, minimum, bids, ..row(id, 1, metered) }
}

/// A row that pays nothing, and of which 1 kWh is enough for the thermal average not to rule (request 9).
fn sun_in_an_accident(id: u16) -> Row {
    Row { status: 3, ..row(id, 3, 1) }
}

fn x(tariff: u16) -> Interval {
    let rows = vec![offering(1, 9_000, 8_000, [200, 400]), row(2, 1, 20_000), row(3, 2, 5_000)];
    Interval { day: 0, quarter: 0, tariff, need: 3_000, stated: None, rows }
}

/// The bytes of an interval, without the checks of the writer.
fn bytes(interval: &Interval) -> Vec<u8> {
    let mut bytes = if interval.stated.is_some() { b"PG" } else { b"PH" }.to_vec();
    bytes.extend(interval.day.to_le_bytes());
    bytes.push(interval.quarter);
    bytes.extend(interval.tariff.to_le_bytes());
    bytes.extend(interval.need.to_le_bytes());
    bytes.extend((interval.rows.len() as u16).to_le_bytes());
    if let Some(Terms { percent, limits }) = interval.stated {
        bytes.push(percent);
        bytes.extend(limits.into_iter().flat_map(u16::to_le_bytes));
    }
    bytes.extend(interval.rows.iter().flat_map(row_bytes));
    bytes
}

fn row_bytes(row: &Row) -> Vec<u8> {
    let mut bytes = b"PR".to_vec();
    bytes.extend(row.id.to_le_bytes());
    bytes.push(row.kind);
    bytes.extend(row.capacity.to_le_bytes());
    bytes.extend(row.metered.to_le_bytes());
    bytes.extend([row.status, row.offered]);
    bytes.extend(row.minimum.to_le_bytes());
    bytes.extend(row.bids.into_iter().flat_map(u16::to_le_bytes));
    bytes
}

fn told(interval: &Interval) -> Vec<Vec<u64>> {
    let line = |line: &str| line.split(' ').map(|number| number.parse().unwrap()).collect();
    tell(&bytes(interval)).lines().map(line).collect()
}

#[test]
fn p1_to_p5_interval_x() {
    let figures = [
        (3545, 67_500, 22_500, 0, 0, 2),
        (1350, 67_500, 22_500, 1, 0, 3),
        (1300, 65_000, 25_000, 1, 0, 3),
        (1200, 60_000, 30_000, 2, 0, 3),
        (1000, 50_000, 25_000, 2, 15_000, 3),
    ];
    // Both are open in round 1. Where row 2 closes in it, the wind farm is looked at once more, and closes or ends the rounds.
    for (tariff, second, third, rounds, shortfall, visits) in figures {
        let told = told(&x(tariff));
        assert_eq!(told[0][4..], [90_000, shortfall, rounds, 0, 3, visits, 0], "tariff {tariff}");
        assert_eq!([told[2][7], told[3][7]], [second, third], "tariff {tariff}");
        assert_eq!(told[1][3..5], [90_000, shortfall], "tariff {tariff}");
    }
}

#[test]
fn p6_thermal_weights() {
    let weights = [12_500, 15_000, 15_001, 17_500, 17_501, 27_500].map(|kwh| thermal_weight(&row(1, 1, kwh), 12_500));
    assert_eq!(weights, [0, 2_500, 2_502, 7_500, 7_503, 37_500]);
}

/// An amount shared at a quarter over the weights of all rows of a file; those with a weight of 0 take no part.
fn shared(amount: u64, weights: &[u64], quarter: u8) -> Vec<u64> {
    let all = weights.iter().enumerate().map(|(position, &weight)| Sharer { position, weight });
    let sharers: Vec<Sharer> = all.filter(|sharer| sharer.weight > 0).collect();
    let mut shares = vec![0; weights.len()];
    for (sharer, part) in sharers.iter().zip(share(amount, &sharers, Turns::of(quarter, weights.len()))) {
        shares[sharer.position] = part;
    }
    shares
}

#[test]
fn p7_p8_sharing() {
    assert_eq!(shared(100, &[1, 1, 1], 0), [34, 33, 33]);
    assert_eq!(shared(10, &[3, 3, 1], 0), [4, 4, 2]);
    assert_eq!(shared(5, &[0, 0], 0), [0, 0]);
    assert_eq!(shared(0, &[1, 2], 0), [0, 0]);
}

#[test]
fn p9_a_shared_call() {
    let narrow = offering(1, 9_000, 10_000, [200, 320]);
    let wide = Row { capacity: 200, minimum: 20_000, ..offering(2, 9_000, 0, [200, 320]) };
    let calls = call(&[narrow, wide], Terms::OF_01, 100, Turns::of(0, 2));
    // Without wind the average is 60 kWh for each MW (request 9): nobody delivered in tier 1.
    assert_eq!(calls, Calls { called: vec![[33, 0], [67, 0]], prices: [0, 0], uncovered: 0 });
    let calls = call(&[narrow, wide, sun_in_an_accident(3)], Terms::OF_01, 100, Turns::of(0, 3));
    assert_eq!(calls, Calls { called: vec![[33, 0], [67, 0], [0, 0]], prices: [200, 0], uncovered: 0 });
}

#[test]
fn p10_thermal_caps() {
    assert_eq!([thermal_cap(1, 399), thermal_cap(1, 400)], [0, 1]);
}

#[test]
fn p11_li_to_fen() {
    assert_eq!([fen(315), fen(314)], [32, 31]);
}

#[test]
fn run_only_paid_energy() {
    let energies = [12_499, 10_000, 9_999, 12_500].map(|metered| paid_energy(&row(1, 1, metered), 12_500));
    assert_eq!(energies, [[1, 0], [2_500, 0], [2_500, 1], [0, 0]]);
}

#[test]
fn run_only_no_rows() {
    let empty = Interval { rows: Vec::new(), ..x(1300) };
    assert_eq!(tell(&bytes(&empty)), "0 0 0 0 0 0 0 3000 0 0 0\n");
}

#[test]
fn run_only_no_payers() {
    let text = "0 0 200 400 90000 90000 0 0 2 0 0\n1 2500 500 90000 90000 0 0 0 0 0 0\n2 0 0 0 0 0 0 0 0 0 0\n";
    assert_eq!(tell(&bytes(&Interval { rows: vec![x(1300).rows[0], sun_in_an_accident(2)], ..x(1300) })), text);
}

#[test]
fn run_only_capacity() {
    let with_capacity = |capacity| {
        let mut interval = x(1300);
        interval.rows[1].capacity = capacity;
        tell(&bytes(&interval))
    };
    assert!(with_capacity(2_000).starts_with("0 0 200 400"));
    assert_eq!(with_capacity(2_001), "refused 6 2\n");
}

#[test]
fn run_only_tier_1_bids() {
    for (bid, accepted) in [(99, false), (100, true), (320, true), (321, false)] {
        let mut interval = x(1300);
        interval.rows[0].bids[0] = bid;
        let text = tell(&bytes(&interval));
        assert_eq!(text == "refused 6 1\n", !accepted, "bid {bid}");
        assert_eq!(text.starts_with(&format!("0 0 {bid} 400 ")), accepted, "bid {bid}");
    }
}

#[test]
fn tell_prints_interval_x() {
    let text = "0 0 200 400 90000 0 1 0 3 3 0\n\
                1 2500 500 90000 0 0 0 0 0 0 0\n\
                2 0 0 0 0 15000 65000 65000 1 0 0\n\
                3 0 0 0 0 5000 32500 25000 0 0 0\n";
    assert_eq!(tell(&bytes(&x(1300))), text);
    assert_eq!(tell(b"PH"), "refused 1 0\n");
}

#[test]
fn a_refusal_leaves_the_buffer() {
    let mut statement = [7; 165];
    assert_eq!(settle(&bytes(&x(1300)), &[], &mut statement), Err((11, 0)));
    assert_eq!(statement, [7; 165]);
}

#[test]
fn a_desk_keeps_nothing_from_quarter_to_quarter() {
    // More rows, fewer, none, and a file refused at its last row: at one desk as each by itself.
    let mut refused = x(1300);
    refused.rows[2].capacity = 0;
    let empty = Interval { rows: Vec::new(), ..x(1300) };
    let at_45 = |interval: Interval| Interval { stated: Some(percent(45)), ..interval };
    let quarters = [
        tied_cuts(1),
        x(1000),
        at_45(x(1000)),
        refused,
        empty,
        tied_payments(2),
        at_45(reduced(1300, 9_000)),
        reduced(1300, 9_000),
        x(3545),
        tied_calls(1),
        windless(1300, 12_000, &[]),
        windless(1300, 12_501, &[]),
        at_45(beside_3_mw(337)),
    ];
    let mut desk = Desk::new();
    for interval in quarters.iter().chain(quarters.iter().rev()).map(bytes) {
        let [mut at_desk, mut alone] = [[7; 300]; 2];
        assert_eq!(desk.settle(&interval, &[], &mut at_desk), settle(&interval, &[], &mut alone));
        assert_eq!(at_desk, alone);
    }
}

/// Interval X at tariff 1300 with row 1 at another meter reading.
fn x_metered(metered: u32) -> Interval {
    let mut interval = x(1300);
    interval.rows[0].metered = metered;
    interval
}

/// Row 1 of interval X and a dearer offer beside it, both called in full, and X's wind farm.
fn x_beside(dearer: Row) -> Interval {
    let rows = x(1300).rows;
    Interval { need: 9_000, rows: vec![rows[0], dearer, rows[2]], ..x(1300) }
}

fn dearer(metered: u32) -> Row {
    offering(2, metered, 8_000, [300, 500])
}

#[test]
fn request_1_statements() {
    let statements = [
        // Half load exactly: row 1 is called as before, but it delivers nothing and pays with a weight of 0.
        (
            x_metered(12_500),
            [
                "0 0 0 0 0 0 0 0 3 2 0",
                "1 2500 500 0 0 0 40625 0 0 0 0",
                "2 0 0 0 0 15000 65000 0 0 0 0",
                "3 0 0 0 0 5000 32500 0 0 0 0",
            ],
        ),
        // 1 kWh at 200 li are 20 fen, of which rows 2 and 3 pay three parts and one.
        (
            x_metered(12_499),
            [
                "0 0 200 0 20 0 0 0 3 2 0",
                "1 2500 500 20 0 0 0 0 0 0 0",
                "2 0 0 0 0 15000 65000 15 0 0 0",
                "3 0 0 0 0 5000 32500 5 0 0 0",
            ],
        ),
        // Called in tier 2 too, but 12,500 less 11,000 is 1,500 kWh in tier 1 alone, at 200 li: 30,000 fen.
        (
            x_metered(11_000),
            [
                "0 0 200 0 30000 0 0 0 3 2 0",
                "1 2500 500 30000 0 0 0 0 0 0 0",
                "2 0 0 0 0 15000 65000 22500 0 0 0",
                "3 0 0 0 0 5000 32500 7500 0 0 0",
            ],
        ),
        // Row 2 is called in full at 300 and 500 li, but ran at 80 percent: prices stay those of row 1, and so does the rest.
        (
            x_beside(dearer(20_000)),
            [
                "0 0 200 400 90000 0 1 0 3 3 0",
                "1 2500 2000 90000 0 0 0 0 0 0 0",
                "2 2500 2000 0 0 15000 65000 65000 1 0 0",
                "3 0 0 0 0 5000 32500 25000 0 0 0",
            ],
        ),
    ];
    for (interval, lines) in statements {
        assert_eq!(tell(&bytes(&interval)).lines().collect::<Vec<_>>(), lines);
    }
}

#[test]
fn request_1_prices_and_totals() {
    let figures = [
        // 40 percent exactly delivers all of tier 1 and nothing of tier 2; a kWh less delivers there too.
        (x_metered(10_000), [200, 0, 50_000]),
        (x_metered(9_999), [200, 400, 50_040]),
        // The dearer row runs as low as row 1: 2,500 x 300 + 1,000 x 500 li for each of the two.
        (x_beside(dearer(9_000)), [300, 500, 250_000]),
    ];
    for (interval, due) in figures {
        assert_eq!(told(&interval)[0][2..5], due);
    }
}

#[test]
fn request_1_a_dearer_row_of_another_status() {
    // Row 2 runs as low as row 1, but is starting or in a grid accident: not paid, it sets no price, and it owes nothing for
    // the 1,000 kWh that it was called for and did not deliver. Status 2 is among the figures of request 4.
    let text = "0 0 200 400 90000 57500 1 0 3 1 0\n\
                1 2500 2000 90000 57500 0 0 0 0 0 0\n\
                2 2500 2000 0 0 0 0 0 0 0 0\n\
                3 0 0 0 0 5000 32500 32500 1 0 0\n";
    for status in [1, 3] {
        assert_eq!(tell(&bytes(&x_beside(Row { status, ..dearer(9_000) }))), text, "status {status}");
    }
}

#[test]
fn request_1_called_for_nothing_sets_no_price() {
    // A need of 1 kWh at one bid goes to the wider band. Its row stayed at half load; the row that ran low is called for 0.
    let idle = Row { capacity: 200, minimum: 20_000, ..offering(2, 25_000, 0, [200, 320]) };
    let rows = [offering(1, 9_000, 10_000, [200, 320]), idle];
    let calls = call(&rows, Terms::OF_01, 1, Turns::of(0, 2));
    assert_eq!(calls, Calls { called: vec![[0, 0], [1, 0]], prices: [0, 0], uncovered: 0 });
    // A need of 100 calls both, and one that delivers is enough: also below the average of 11,333 kWh, which rules here.
    let calls = call(&rows, Terms::OF_01, 100, Turns::of(0, 2));
    assert_eq!(calls, Calls { called: vec![[33, 0], [67, 0]], prices: [200, 0], uncovered: 0 });
}

#[test]
fn request_2_sharing() {
    let figures: [(u64, &[u64], u8, &[u64]); 18] = [
        // Three alike: 33 each, and one left over for the row whose turn it is; 95 modulo 3 is 2.
        (100, &[1, 1, 1], 0, &[34, 33, 33]),
        (100, &[1, 1, 1], 1, &[33, 34, 33]),
        (100, &[1, 1, 1], 2, &[33, 33, 34]),
        (100, &[1, 1, 1], 3, &[34, 33, 33]),
        (100, &[1, 1, 1], 95, &[33, 33, 34]),
        // Two left over: the last row, and round to the first.
        (101, &[1, 1, 1], 2, &[34, 33, 34]),
        // The row whose turn it is takes no part, so the next one that does goes first; past the end, round to the start.
        (100, &[1, 0, 1, 1], 1, &[33, 0, 34, 33]),
        (100, &[1, 0, 0, 1], 1, &[50, 0, 0, 50]),
        (101, &[1, 0, 0, 1], 1, &[50, 0, 0, 51]),
        (100, &[1, 1, 1, 0], 3, &[34, 33, 33, 0]),
        // Counted among all rows: 5 modulo 4 is position 1. Among the three that share it would be the last of them.
        (100, &[1, 0, 1, 1], 5, &[33, 0, 34, 33]),
        (100, &[0, 1, 1, 1], 5, &[0, 34, 33, 33]),
        (100, &[0, 1, 1, 1], 6, &[0, 33, 34, 33]),
        // A larger remainder goes before, whosever turn it is.
        (10, &[3, 3, 1], 1, &[4, 4, 2]),
        (100, &[2, 2, 3], 0, &[29, 28, 43]),
        (100, &[2, 2, 3], 1, &[28, 29, 43]),
        // One row, and none.
        (7, &[3], 95, &[7]),
        (7, &[], 95, &[]),
    ];
    for (amount, weights, quarter, due) in figures {
        assert_eq!(shared(amount, weights, quarter), due, "{amount} over {weights:?} at quarter {quarter}");
    }
}

#[test]
fn request_2_everybody_goes_first_once_in_as_many_quarters_as_rows() {
    // The rule is the same past a day's last quarter, which no file has.
    for rows in 1..=128 {
        for start in [0, 1, 50, 95] {
            let mut first = vec![0; rows];
            for quarter in (start..).take(rows) {
                let one = shared(1, &vec![1; rows], quarter);
                first.iter_mut().zip(one).for_each(|(times, part)| *times += part);
            }
            assert_eq!(first, vec![1; rows], "from quarter {start}");
        }
    }
}

/// Rows 1 and 2 offer 2,500 kWh in tier 1 at one bid, of which 101 kWh are needed; row 3 is a wind farm.
fn tied_calls(quarter: u8) -> Interval {
    let rows = vec![offering(1, 12_500, 10_000, [200, 320]), offering(2, 12_500, 10_000, [200, 320]), row(3, 2, 5_000)];
    Interval { quarter, need: 101, rows, ..x(1300) }
}

/// Row 1 delivers 5 kWh at 200 li, which are 100 fen; three wind farms alike pay them.
fn tied_payments(quarter: u8) -> Interval {
    let mut rows = vec![offering(1, 12_495, 10_000, [200, 320])];
    rows.extend([2, 3, 4].map(|id| row(id, 2, 5_000)));
    Interval { quarter, need: 2_500, rows, ..x(1300) }
}

/// Three rows deliver 5 kWh each at 200 li. The wind farm's 200 kWh at tariff 100 make a cap of 100 fen, so 200 of 300 are cut.
fn tied_cuts(quarter: u8) -> Interval {
    let mut rows = [1, 2, 3].map(|id| offering(id, 12_495, 10_000, [200, 320])).to_vec();
    rows.push(row(4, 2, 200));
    Interval { quarter, need: 7_500, rows, ..x(100) }
}

#[test]
fn request_2_calls() {
    // Position 2 is the wind farm, which offers nothing: row 1 goes first there, and not row 2.
    for (quarter, due) in [(0, [51, 50]), (1, [50, 51]), (2, [51, 50]), (3, [51, 50]), (4, [50, 51]), (95, [51, 50])] {
        let told = told(&tied_calls(quarter));
        assert_eq!([told[1][1], told[2][1]], due, "quarter {quarter}");
    }
}

#[test]
fn request_2_payments() {
    let figures = [
        (0, [34, 33, 33]),
        (1, [34, 33, 33]),
        (2, [33, 34, 33]),
        (3, [33, 33, 34]),
        (4, [34, 33, 33]),
        (95, [33, 33, 34]),
    ];
    for (quarter, due) in figures {
        let told = told(&tied_payments(quarter));
        assert_eq!([told[2][7], told[3][7], told[4][7]], due, "quarter {quarter}");
        assert_eq!(told[0][1], u64::from(quarter));
    }
}

#[test]
fn request_2_cuts() {
    // 66 each and two left over.
    for (quarter, due) in
        [(0, [67, 67, 66]), (1, [66, 67, 67]), (2, [67, 66, 67]), (3, [67, 67, 66]), (95, [67, 67, 66])]
    {
        let told = told(&tied_cuts(quarter));
        assert_eq!([told[1][4], told[2][4], told[3][4]], due, "quarter {quarter}");
        assert_eq!(told[0][4..7], [300, 200, 1], "quarter {quarter}");
    }
}

#[test]
fn request_2_one_row_and_no_rows() {
    let wind = Interval { quarter: 95, rows: vec![row(1, 2, 5_000)], ..x(1300) };
    assert_eq!(tell(&bytes(&wind)), "0 95 0 0 0 0 0 3000 1 1 0\n1 0 0 0 0 5000 32500 0 0 0 0\n");
    let empty = Interval { quarter: 95, rows: Vec::new(), ..x(1300) };
    assert_eq!(tell(&bytes(&empty)), "0 95 0 0 0 0 0 3000 0 0 0\n");
}

/// Row 1 of interval X is called in full and gets 90,000 fen at 200 and 400 li; row 2 beside it is reduced and called in full
/// too, for 2,500 and 2,000 kWh; the wind farm's cap is 25 fen for each hao of the tariff.
fn reduced(tariff: u16, metered: u32) -> Interval {
    Interval { tariff, ..x_beside(Row { status: 2, ..dearer(metered) }) }
}

#[test]
fn request_4_statements() {
    let statements = [
        // Delivered all that it was called for: the cut is that of before.
        (
            reduced(1300, 8_000),
            [
                "0 0 200 400 90000 57500 1 0 3 1 0",
                "1 2500 2000 90000 57500 0 0 0 0 0 0",
                "2 2500 2000 0 0 0 0 0 0 0 0",
                "3 0 0 0 0 5000 32500 32500 1 0 0",
            ],
        ),
        // Delivered part, 1,000 kWh short in tier 2: twice 400,000 li are 80,000 fen. 57,500 fill the shortfall, 22,500 go back.
        (
            reduced(1300, 9_000),
            [
                "0 0 200 400 90000 57500 1 0 3 1 0",
                "1 2500 2000 90000 0 0 0 0 0 0 0",
                "2 2500 2000 0 0 0 0 0 0 80000 22500",
                "3 0 0 0 0 5000 32500 32500 1 0 0",
            ],
        ),
        // 1,000 and 2,000 kWh short: 400,000 and 1,600,000 li.
        (
            reduced(1300, 11_000),
            [
                "0 0 200 400 90000 57500 1 0 3 1 0",
                "1 2500 2000 90000 0 0 0 0 0 0 0",
                "2 2500 2000 0 0 0 0 0 0 200000 142500",
                "3 0 0 0 0 5000 32500 32500 1 0 0",
            ],
        ),
        // Delivered nothing, at half load: 2,500 and 2,000 kWh short, and a payer of weight 0 too.
        (
            reduced(1300, 12_500),
            [
                "0 0 200 400 90000 57500 1 0 3 1 0",
                "1 2500 2000 90000 0 0 0 0 0 0 0",
                "2 2500 2000 0 0 0 40625 0 0 260000 202500",
                "3 0 0 0 0 5000 32500 32500 1 0 0",
            ],
        ),
        // Above half load it pays 65,000 as in interval X, and owes for all that it was called for. The wind farm stays open, so
        // there is no shortfall, and the penalty goes back whole.
        (
            reduced(1300, 20_000),
            [
                "0 0 200 400 90000 0 1 0 3 3 0",
                "1 2500 2000 90000 0 0 0 0 0 0 0",
                "2 2500 2000 0 0 15000 65000 65000 1 260000 260000",
                "3 0 0 0 0 5000 32500 25000 0 0 0",
            ],
        ),
        // The same at tariff 1000: of 90,000 at 4.5 fen a kWh row 2 owes 67,500 and closes at 50,000; then the wind farm owes 40,000 and
        // closes at 25,000. The penalty fills the 15,000 that are missing.
        (
            reduced(1000, 20_000),
            [
                "0 0 200 400 90000 15000 2 0 3 3 0",
                "1 2500 2000 90000 0 0 0 0 0 0 0",
                "2 2500 2000 0 0 15000 50000 50000 1 260000 245000",
                "3 0 0 0 0 5000 25000 25000 2 0 0",
            ],
        ),
    ];
    for (interval, lines) in statements {
        assert_eq!(tell(&bytes(&interval)).lines().collect::<Vec<_>>(), lines);
    }
}

#[test]
fn request_4_penalties_below_equal_to_and_above_the_shortfall() {
    // At tariff 1200 the wind farm pays 30,000 and 60,000 are missing. A kWh short in tier 2 costs 80 fen.
    for (metered, penalty, cut, returned) in [
        (8_000, 0, 60_000, 0),
        (8_001, 80, 59_920, 0),
        (8_749, 59_920, 80, 0),
        (8_750, 60_000, 0, 0),
        (8_751, 60_080, 0, 80),
    ] {
        let told = told(&reduced(1200, metered));
        assert_eq!(told[0][4..7], [90_000, 60_000, 1], "metered {metered}");
        assert_eq!([told[1][4], told[2][9], told[2][10]], [cut, penalty, returned], "metered {metered}");
        assert_eq!(told[3][7..9], [30_000, 1], "metered {metered}");
    }
}

#[test]
fn request_4_only_status_2_owes() {
    // 1,000 and 2,000 kWh short, whatever the status. In status 0 the row sets tier 1's price, 300 li, and gets 45,000 fen.
    for (status, compensation, penalty) in [(0, 45_000, 0), (1, 0, 0), (2, 0, 200_000), (3, 0, 0)] {
        let told = told(&x_beside(Row { status, ..dearer(11_000) }));
        assert_eq!([told[2][3], told[2][9]], [compensation, penalty], "status {status}");
    }
    // Not called, or not offering at all: nothing was asked, so nothing is owed.
    for row in [dearer(12_000), row(2, 1, 12_000)] {
        let interval = Interval { need: 2_500, ..x_beside(Row { status: 2, ..row }) };
        assert_eq!(told(&interval)[2], [2, 0, 0, 0, 0, 0, 0, 0, 0, 0, 0]);
    }
}

/// What row 2 owes at a meter reading, where it was called for so much at these prices.
fn owed(metered: u32, called: [u32; 2], prices: [u16; 2]) -> u64 {
    penalty(&Row { status: 2, ..dearer(metered) }, called, prices, 12_500)
}

#[test]
fn request_4_more_than_was_called() {
    // Called for 2,500 and 500 kWh after row 1's 4,500, delivered 2,500 and 1,000: nothing is short.
    assert_eq!(told(&Interval { need: 7_500, ..reduced(1300, 9_000) })[2], [2, 2500, 500, 0, 0, 0, 0, 0, 0, 0, 0]);
    // Called for 1,000 kWh in tier 1 after row 1's 2,500, delivered 1,500: nothing is short.
    assert_eq!(told(&Interval { need: 3_500, ..reduced(1300, 11_000) })[2], [2, 1000, 0, 0, 0, 0, 0, 0, 0, 0, 0]);
    // 1,000 kWh too much in tier 1 do not make up for 500 in tier 2. No file brings a row to this: all of tier 1 is called before any of
    // tier 2.
    assert_eq!(owed(8_000, [1_500, 2_500], [200, 400]), 40_000);
    // Nor do 500 kWh too much in tier 2 for 100 in tier 1, more than the band has.
    assert_eq!(owed(9_500, [2_600, 0], [200, 400]), 4_000);
}

#[test]
fn request_4_fen_are_made_once_of_both_tiers() {
    // 1 kWh short at 102 and 103 li: of 204 li 4 are dropped, of 206 li 6 make a fen.
    assert_eq!([owed(10_001, [2_500, 0], [102, 0]), owed(10_001, [2_500, 0], [103, 0])], [20, 21]);
    // 3 kWh at 105 li are 315 li, 31 fen and a half: 63 fen when doubled, and not 64. Twice a whole number of li is even, so what is
    // rounded is never half a fen itself.
    assert_eq!(owed(10_003, [2_500, 0], [105, 0]), 63);
    // 1 kWh short in each tier: 204 and 644 li are 20 and 64 fen apart and 85 together.
    assert_eq!(owed(10_001, [2_500, 0], [102, 322]), 20);
    assert_eq!(owed(10_001, [2_499, 1], [102, 322]), 64);
    assert_eq!(owed(10_001, [2_500, 1], [102, 322]), 85);
}

/// Row 1 delivers 5 kWh at 200 li and nobody pays, so 100 fen are missing. Rows 2 to 4 are each a kWh short: 40 fen from each,
/// of which 20 are over.
fn tied_returns(quarter: u8) -> Interval {
    let mut rows = vec![offering(1, 12_495, 10_000, [200, 320])];
    rows.extend([2, 3, 4].map(|id| Row { status: 2, ..offering(id, 10_001, 10_000, [200, 320]) }));
    rows.push(sun_in_an_accident(5));
    Interval { quarter, need: 10_000, rows, ..x(1300) }
}

#[test]
fn request_4_ties_in_what_is_returned() {
    // 6 each and two left over; rows 1 and 5, at positions 0 and 4, share nothing.
    for (quarter, due) in
        [(0, [7, 7, 6]), (1, [7, 7, 6]), (2, [6, 7, 7]), (3, [7, 6, 7]), (94, [7, 7, 6]), (93, [7, 6, 7])]
    {
        let told = told(&tied_returns(quarter));
        assert_eq!(told[0][4..7], [100, 100, 0], "quarter {quarter}");
        assert_eq!([told[1][4], told[1][9], told[1][10]], [0, 0, 0], "quarter {quarter}");
        assert_eq!([told[2][9], told[3][9], told[4][9]], [40, 40, 40], "quarter {quarter}");
        assert_eq!([told[2][10], told[3][10], told[4][10]], due, "quarter {quarter}");
    }
}

#[test]
fn request_4_nobody_delivered() {
    // Without a price a penalty is twice nothing.
    let rows = vec![Row { status: 2, ..offering(1, 12_499, 8_000, [200, 400]) }, row(2, 2, 5_000)];
    let interval = Interval { need: 4_500, rows, ..x(1300) };
    assert_eq!(
        tell(&bytes(&interval)),
        "0 0 0 0 0 0 0 0 2 1 0\n1 2500 2000 0 0 0 0 0 0 0 0\n2 0 0 0 0 5000 32500 0 0 0 0\n"
    );
}

/// Rows 1 and 2 deliver 40 kWh at 105 li, row 3 one: 420, 420 and 11 fen. The wind farm pays 3 of the 851. Row 5 is short of so
/// many kWh in tier 1, at 21 fen each.
fn one_fen_more(short: u32) -> Interval {
    let offer = |id, metered| offering(id, metered, 10_000, [105, 320]);
    let rows = vec![
        offer(1, 12_460),
        offer(2, 12_460),
        offer(3, 12_499),
        row(4, 2, 3),
        Row { status: 2, ..offer(5, 10_000 + short) },
    ];
    Interval { need: 10_000, rows, ..x(200) }
}

#[test]
fn request_4_a_larger_penalty_may_cut_somebody_a_fen_more() {
    // 798 fen leave 50 to cut: 24.68, 24.68 and 0.65, of which the first two are rounded up. 819 leave 29: 14.31, 14.31, 0.37.
    for (short, penalty, cuts) in [(38, 798, [25, 25, 0]), (39, 819, [14, 14, 1])] {
        let told = told(&one_fen_more(short));
        assert_eq!(told[0][4..7], [851, 848, 1]);
        assert_eq!(told[5][9..11], [penalty, 0]);
        assert_eq!([told[1][4], told[2][4], told[3][4]], cuts);
    }
}

/// Interval X with row 2 at 27,500 kWh and a thermal row 4 at 15,000: weights 37,500, 5,000 and 2,500, caps 68.75, 25 and 37.5 fen
/// for each hao of the tariff. In round 1 the 90,000 fen are 2 for each kWh: 75,000, 10,000 and 5,000.
fn three_payers(tariff: u16) -> Interval {
    let mut interval = x(tariff);
    interval.rows[1].metered = 27_500;
    interval.rows.push(row(4, 1, 15_000));
    interval
}

#[test]
fn request_8_three_payers() {
    let figures = [
        // Nobody closes: a cap of 75,006 is above row 2's 75,000.
        (1091, [0, 0, 0], 0, 3),
        // 75,000 reach 74,937. The 15,063 that are left are 10,042 and 5,021: nobody else closes.
        (1090, [1, 0, 0], 0, 3 + 2),
        // Of 41,875 row 3 owes 27,916 and has a cap of 17,500, row 4 owes 13,958 and has 26,250. It stays open at 24,375.
        (700, [1, 2, 0], 0, 3 + 2 + 1),
        // Each in a round of its own: of 48,750 row 3 owes 32,500, above 15,000, and row 4 16,250, below 22,500. Then it owes 33,750.
        (600, [1, 2, 3], 11_250, 3 + 2 + 1),
        // 10,000 do not reach 10,025. Of 62,432 rows 3 and 4 owe 41,621 and 20,810, above 10,025 and 15,037: both close.
        (401, [1, 2, 2], 37_370, 3 + 2),
        // 10,000 are row 3's cap, so it closes with row 2; row 4 owes the whole of 52,500 and has a cap of 15,000.
        (400, [1, 1, 2], 37_500, 3 + 1),
        // All at once: caps of 6,875, 2,500 and 3,750.
        (100, [1, 1, 1], 76_875, 3),
    ];
    for (tariff, closing, shortfall, visits) in figures {
        let told = told(&three_payers(tariff));
        assert_eq!([told[2][8], told[3][8], told[4][8]], closing, "tariff {tariff}");
        assert_eq!([told[0][5], told[0][9]], [shortfall, visits], "tariff {tariff}");
    }
}

#[test]
fn request_8_nobody_to_visit() {
    // A row at exactly half load is a payer, but weighs nothing and is never open.
    let half_load = |third| Interval { rows: vec![x(1300).rows[0], row(2, 1, 12_500), third], ..x(1300) };
    let told_of = told(&half_load(sun_in_an_accident(3)));
    assert_eq!(told_of[0], [0, 0, 200, 400, 90_000, 90_000, 0, 0, 3, 0, 0]);
    assert_eq!(told_of[2], [2, 0, 0, 0, 0, 0, 40_625, 0, 0, 0, 0]);
    // Beside a wind farm it adds nothing: that closes at 32,500 in round 1.
    assert_eq!(told(&half_load(row(3, 2, 5_000)))[0][5..], [57_500, 1, 0, 3, 1, 0]);
    // Nor does a wind farm at 0, nor any in a grid accident.
    let still = vec![row(1, 2, 0), Row { status: 3, ..row(2, 3, 5_000) }];
    assert_eq!(told(&Interval { rows: still, ..x(1300) })[0][4..], [0, 0, 0, 3_000, 2, 0, 0]);
}

#[test]
fn request_8_nothing_to_pay() {
    // At tariff 1 a farm of 199 kWh has a cap of 0 and closes, one of 200 has a cap of 1 and does not.
    let farms = |closing: u16, open: u16| {
        let metered = (0..closing + open).map(|place| if place < closing { 199 } else { 200 });
        let rows = (1..).zip(metered).map(|(id, metered)| row(id, 2, metered)).collect();
        let head = told(&Interval { rows, ..x(1) }).swap_remove(0);
        [head[4], head[6], head[9]]
    };
    assert_eq!(farms(1, 0), [0, 1, 1]);
    assert_eq!(farms(0, 1), [0, 0, 1]);
    assert_eq!(farms(1, 1), [0, 1, 2 + 1]);
    assert_eq!(farms(2, 1), [0, 1, 3 + 1]);
    // As many as a file holds; a number of two bytes.
    assert_eq!(farms(256, 0), [0, 1, 256]);
    assert_eq!(farms(255, 1), [0, 1, 256 + 1]);
    assert_eq!(farms(128, 128), [0, 1, 256 + 128]);
}

#[test]
fn request_8_payers_who_stay_open_are_visited_once() {
    // Three wind farms of 5,000 kWh and 100 fen: caps of 32,500 are out of reach, and the quiet round is the only one.
    assert_eq!(told(&tied_payments(0))[0][6..], [0, 0, 4, 3, 0]);
}

#[test]
fn request_8_visits_stand_before_the_flag() {
    // 6 visits, little-endian, then the flag of request 9, before the first line's mark.
    let mut statement = [7; 40 + 4 * 42];
    assert_eq!(settle(&bytes(&three_payers(600)), &[], &mut statement), Ok(208));
    assert_eq!(statement[33..42], [4, 0, 6, 0, 0, 0, 0, b'P', b'L']);
}

/// The terms of document 01 with another baseline.
fn percent(percent: u8) -> Terms {
    Terms { percent, ..Terms::OF_01 }
}

/// The terms of document 01 with other limits.
fn limits(limits: [u16; 4]) -> Terms {
    Terms { limits, ..Terms::OF_01 }
}

/// The same interval in a PG file.
fn stating(terms: Terms, interval: Interval) -> Interval {
    Interval { stated: Some(terms), ..interval }
}

#[test]
fn request_6_baselines_are_cut_to_whole_kwh() {
    let figures = [
        // 102.5, 307.5, 10,352.5 and 204,897.5 kWh; at an even capacity nothing is cut.
        (41, [102, 205, 307, 10_352, 204_897, 205_000]),
        (45, [112, 225, 337, 11_362, 224_887, 225_000]),
        (49, [122, 245, 367, 12_372, 244_877, 245_000]),
        // An even percentage cuts nothing at any capacity.
        (46, [115, 230, 345, 11_615, 229_885, 230_000]),
        (50, [125, 250, 375, 12_625, 249_875, 250_000]),
    ];
    for (of, due) in figures {
        assert_eq!([1, 2, 3, 101, 1_999, 2_000].map(|capacity| percent(of).baseline(capacity)), due, "{of} percent");
    }
}

#[test]
fn request_6_paid_energy_and_weights_from_the_stated_baseline() {
    let paid =
        |of, capacity, metered| paid_energy(&Row { capacity, ..row(1, 1, metered) }, percent(of).baseline(capacity));
    // 100 MW at 45 percent are 11,250 kWh.
    assert_eq!([11_250, 11_249, 10_000, 9_999].map(|kwh| paid(45, 100, kwh)), [[0, 0], [1, 0], [1_250, 0], [1_250, 1]]);
    // 101 MW: 11,362.5 cut to 11,362. 1 MW at 41 percent: 102.5 cut to 102.
    assert_eq!([11_362, 11_361].map(|kwh| paid(45, 101, kwh)), [[0, 0], [1, 0]]);
    assert_eq!([102, 101, 100, 99].map(|kwh| paid(41, 1, kwh)), [[0, 0], [1, 0], [2, 0], [2, 1]]);
    let weight =
        |of, capacity, metered| thermal_weight(&Row { capacity, ..row(1, 1, metered) }, percent(of).baseline(capacity));
    // From 11,250 to 15,000 once, to 17,500 twice, above three times.
    let weights = [11_250, 11_251, 12_500, 15_000, 15_001, 17_500, 17_501, 27_500].map(|kwh| weight(45, 100, kwh));
    assert_eq!(weights, [0, 1, 1_250, 3_750, 3_752, 8_750, 8_753, 38_750]);
    assert_eq!([102, 103, 150, 175, 275].map(|kwh| weight(41, 1, kwh)), [0, 1, 48, 98, 398]);
}

#[test]
fn request_6_statements() {
    let statements = [
        // Interval X at 45 percent. Row 1's bands are 1,250 and 2,000 kWh; it is paid 1,250 at 200 and 1,000 at 400 li, 65,000 fen. Row 2
        // weighs 3,750 + 2 x 2,500 + 3 x 2,500. Of 65,000 fen over 21,250 kWh it owes 49,705.88 and row 3 15,294.12.
        (
            stating(percent(45), x(1300)),
            [
                "0 0 200 400 65000 0 0 0 3 45 100 320 320 750 2 0",
                "1 1250 1750 65000 0 0 0 0 0 0 0",
                "2 0 0 0 0 16250 65000 49706 0 0 0",
                "3 0 0 0 0 5000 32500 15294 0 0 0",
            ],
        ),
        // At 41 percent tier 1 is 250 kWh wide: 250 x 200 + 1,000 x 400 li. All offered, 2,250 kWh, are called and 750 are uncovered.
        // Row 2 weighs 4,750 + 5,000 + 7,500; of 45,000 over 22,250 it owes 34,887.64 and row 3 10,112.36.
        (
            stating(percent(41), x(1300)),
            [
                "0 0 200 400 45000 0 0 750 3 41 100 320 320 750 2 0",
                "1 250 2000 45000 0 0 0 0 0 0 0",
                "2 0 0 0 0 17250 65000 34888 0 0 0",
                "3 0 0 0 0 5000 32500 10112 0 0 0",
            ],
        ),
        // Row 1 at 12,000 kWh is below half load: under 01's terms it delivers 500 kWh at 200 li and is paid for them.
        (
            stating(Terms::OF_01, x_metered(12_000)),
            [
                "0 0 200 0 10000 0 0 0 3 50 100 320 320 750 2 0",
                "1 2500 500 10000 0 0 0 0 0 0 0",
                "2 0 0 0 0 15000 65000 7500 0 0 0",
                "3 0 0 0 0 5000 32500 2500 0 0 0",
            ],
        ),
        // At 45 percent it is above its baseline: called, but it delivers nothing and is a payer, with a weight of 750.
        (
            stating(percent(45), x_metered(12_000)),
            [
                "0 0 0 0 0 0 0 0 3 45 100 320 320 750 3 0",
                "1 1250 1750 0 0 750 39000 0 0 0 0",
                "2 0 0 0 0 16250 65000 0 0 0 0",
                "3 0 0 0 0 5000 32500 0 0 0 0",
            ],
        ),
        // Limits that meet: at one bid all of tier 1, 2,500 kWh of both rows, goes before tier 2, of which row 1 gives 100.
        (
            Interval {
                need: 2_600,
                rows: vec![
                    offering(1, 8_000, 8_000, [300, 300]),
                    offering(2, 10_000, 10_000, [300, 400]),
                    sun_in_an_accident(3),
                ],
                ..stating(Terms { percent: 45, limits: [200, 300, 300, 400] }, x(1300))
            },
            [
                "0 0 300 300 135000 135000 0 0 3 45 200 300 300 400 0 0",
                "1 1250 100 97500 97500 0 0 0 0 0 0",
                "2 1250 0 37500 37500 0 0 0 0 0 0",
                "3 0 0 0 0 0 0 0 0 0 0",
            ],
        ),
        // A reduced unit at 11,000 kWh delivers 250 kWh below the baseline of 1,250 called, and none of 2,000: 2 x (1,000 x 200 + 2,000 x
        // 400) li. Both rows offer 6,500 kWh of the 9,000 needed. Of 65,000 fen the wind farm pays 32,500, penalty money the rest.
        (
            stating(percent(45), reduced(1300, 11_000)),
            [
                "0 0 200 400 65000 32500 1 2500 3 45 100 320 320 750 1 0",
                "1 1250 2000 65000 0 0 0 0 0 0 0",
                "2 1250 2000 0 0 0 0 0 0 200000 167500",
                "3 0 0 0 0 5000 32500 32500 1 0 0",
            ],
        ),
        // The same at its baseline exactly: nothing delivered, and a payer of weight 0 with a cap of 36,562.5, cut.
        (
            stating(percent(45), reduced(1300, 11_250)),
            [
                "0 0 200 400 65000 32500 1 2500 3 45 100 320 320 750 1 0",
                "1 1250 2000 65000 0 0 0 0 0 0 0",
                "2 1250 2000 0 0 0 36562 0 0 210000 177500",
                "3 0 0 0 0 5000 32500 32500 1 0 0",
            ],
        ),
    ];
    for (interval, lines) in statements {
        assert_eq!(tell(&bytes(&interval)).lines().collect::<Vec<_>>(), lines);
    }
}

#[test]
fn request_6_a_row_between_the_stated_baseline_and_half_load() {
    // Interval X with row 2 at 12,000 kWh, not offering. Under PH it is no payer, and of 90,000 fen the wind farm pays its cap.
    let mut interval = x(1300);
    interval.rows[1].metered = 12_000;
    let of_01 = told(&interval);
    assert_eq!(of_01[0][4..], [90_000, 57_500, 1, 0, 3, 1, 0]);
    assert_eq!(of_01[2], [2, 0, 0, 0, 0, 0, 0, 0, 0, 0, 0]);
    // At 45 percent it weighs 750. Of 65,000 the wind farm owes 56,521 and closes at 32,500; row 2 pays as much, below its cap.
    let at_45 = told(&stating(percent(45), interval));
    assert_eq!(at_45[0][4..], [65_000, 0, 1, 0, 3, 45, 100, 320, 320, 750, 3, 0]);
    assert_eq!(at_45[2], [2, 0, 0, 0, 0, 750, 39_000, 32_500, 0, 0, 0]);
    assert_eq!(at_45[3], [3, 0, 0, 0, 0, 5_000, 32_500, 32_500, 1, 0, 0]);
}

#[test]
fn request_6_the_terms_of_01_stated_give_the_lines_of_ph() {
    let mut intervals: Vec<Interval> = [3545, 1350, 1300, 1200, 1000].map(x).to_vec();
    intervals.extend([12_500, 12_499, 11_000, 10_000, 9_999].map(x_metered));
    intervals.extend([tied_calls(1), tied_payments(2), tied_cuts(1), tied_returns(3), one_fen_more(38)]);
    intervals.extend([8_000, 11_000, 20_000].map(|metered| reduced(1000, metered)));
    intervals.extend([1091, 600, 401, 100].map(three_payers));
    intervals.extend([9_000, 12_000, 12_500, 12_501].map(|metered| windless(1300, metered, &[])));
    intervals.push(windless_reduced(9_500, 9_000, &[row(3, 1, 12_000)]));
    intervals.push(Interval { rows: Vec::new(), ..x(1300) });
    for interval in intervals {
        let (stated, plain) = (told(&stating(Terms::OF_01, interval.clone())), told(&interval));
        assert_eq!(stated[1..], plain[1..]);
        // The terms stand before the visits and the flag.
        assert_eq!(stated[0], [&plain[0][..9], &[50, 100, 320, 320, 750], &plain[0][9..]].concat());
    }
}

#[test]
fn request_6_minimum_up_to_the_stated_baseline() {
    for (terms, capacity, highest) in [
        (None, 100, 12_500),
        (Some(percent(50)), 100, 12_500),
        (Some(percent(45)), 100, 11_250),
        (Some(percent(45)), 101, 11_362),
        (Some(percent(41)), 3, 307),
        (Some(percent(49)), 1, 122),
    ] {
        let with_minimum = |minimum| {
            let lone = Row { capacity, ..offering(1, 0, minimum, [200, 400]) };
            tell(&bytes(&Interval { stated: terms, rows: vec![lone], ..x(1300) }))
        };
        // At the baseline both bands are empty, so nobody is called.
        assert_eq!(with_minimum(highest).lines().last(), Some("1 0 0 0 0 0 0 0 0 0 0"), "{terms:?}");
        assert_eq!(with_minimum(highest + 1), "refused 6 1\n", "{terms:?}");
    }
}

#[test]
fn request_6_bids_within_the_stated_limits() {
    let bid = |limits: [u16; 4], tier: usize, bid| {
        // Tier 1's lowest and tier 2's lowest, but for the one bid.
        let mut interval = stating(Terms { percent: 45, limits }, x(1300));
        interval.rows[0].bids = [limits[0], limits[2]];
        interval.rows[0].bids[tier] = bid;
        let text = tell(&bytes(&interval));
        let price = if tier == 0 { bid } else { limits[0] };
        assert!(text == "refused 6 1\n" || text.starts_with(&format!("0 0 {price} ")), "{text}");
        text != "refused 6 1\n"
    };
    for limits in
        [[150, 200, 300, 301], [100, 320, 320, 750], [1, 2, 2, 3], [1, 500, 500, 1_000], [997, 998, 999, 1_000]]
    {
        for tier in [0, 1] {
            let (lowest, highest) = (limits[2 * tier], limits[2 * tier + 1]);
            let accepted = [lowest - 1, lowest, highest, highest + 1].map(|value| bid(limits, tier, value));
            assert_eq!(accepted, [false, true, true, false], "tier {} of {limits:?}", tier + 1);
        }
    }
}

#[test]
fn request_6_terms_out_of_range() {
    // No rows, so that nothing else can be at fault.
    let stated = |terms| tell(&bytes(&Interval { rows: Vec::new(), ..stating(terms, x(1300)) }));
    for of in [0, 40, 51, 255] {
        assert_eq!(stated(percent(of)), "refused 14 0\n", "{of} percent");
    }
    for of in 41..=50 {
        assert_eq!(stated(percent(of)), format!("0 0 0 0 0 0 0 3000 0 {of} 100 320 320 750 0 0\n"));
    }
    let wrong = [
        [0, 320, 320, 750],
        [320, 320, 320, 750],
        [321, 320, 320, 750],
        [100, 321, 320, 750],
        [100, 320, 750, 750],
        [100, 320, 751, 750],
        [100, 320, 320, 320],
        [100, 320, 320, 1_001],
        [100, 320, 320, 65_535],
        [0, 0, 0, 0],
        [750, 320, 320, 100],
    ];
    for four in wrong {
        assert_eq!(stated(limits(four)), "refused 14 0\n", "{four:?}");
    }
    for four @ [a, b, c, d] in
        [[1, 320, 320, 750], [319, 320, 320, 321], [100, 319, 320, 1_000], [1, 2, 2, 3], [997, 998, 998, 999]]
    {
        assert_eq!(stated(limits(four)), format!("0 0 0 0 0 0 0 3000 0 50 {a} {b} {c} {d} 0 0\n"));
    }
}

#[test]
fn request_6_checks_in_their_order() {
    let good = bytes(&stating(percent(45), x(1300)));
    const WHOLE: usize = 24 + 3 * 21;
    assert_eq!(good.len(), WHOLE);
    // The file with some bytes changed, cut or filled to a length.
    let told = |changes: &[(usize, u8)], length| {
        let mut file = good.clone();
        changes.iter().for_each(|&(at, byte)| file[at] = byte);
        file.resize(length, 0);
        tell(&file)
    };
    let no_tariff = [(7, 0), (8, 0)];
    // Shorter than any head, before its mark is looked at; then the mark; then shorter than the head of its own mark, before its fields.
    for length in 0..15 {
        assert_eq!(told(&[], length), "refused 1 0\n", "{length} bytes");
        assert_eq!(told(&[(1, b'X')], length), "refused 1 0\n", "{length} bytes");
    }
    for length in 15..24 {
        assert_eq!(told(&[(1, b'X')], length), "refused 2 0\n", "{length} bytes");
        assert_eq!(told(&[], length), "refused 1 0\n", "{length} bytes");
        assert_eq!(told(&no_tariff, length), "refused 1 0\n", "{length} bytes");
        // A PH file of that length is whole in its head, and lacks its rows.
        assert_eq!(told(&[(1, b'H')], length), "refused 4 0\n", "{length} bytes");
    }
    assert_eq!(told(&[], 24), "refused 4 0\n");
    // 3 before 14, 14 before 4 and 5, 4 before 5; rows begin at byte 24.
    assert_eq!(told(&[no_tariff[0], no_tariff[1], (15, 40)], WHOLE), "refused 3 0\n");
    assert_eq!(told(&[(15, 40)], WHOLE + 1), "refused 14 0\n");
    assert_eq!(told(&[(15, 51), (24, b'Q')], WHOLE), "refused 14 0\n");
    assert_eq!(told(&[(24, b'Q')], WHOLE + 1), "refused 4 0\n");
    assert_eq!(told(&[(24, b'Q')], WHOLE), "refused 5 1\n");
    assert_eq!(told(&[(24 + 42, b'Q')], WHOLE), "refused 5 3\n");
    // The other form's mark: terms read for a row do not fit the length, a row's mark read for a percentage is 80.
    assert_eq!(told(&[(1, b'H')], WHOLE), "refused 4 0\n");
    let mut plain = bytes(&x(1300));
    plain[1] = b'G';
    assert_eq!(tell(&plain), "refused 14 0\n");
}

#[test]
fn request_6_the_statement_of_a_pg_file() {
    let file = bytes(&stating(percent(45), x(1300)));
    let mut statement = [7; 49 + 3 * 42 + 5];
    assert_eq!(settle(&file, &[], &mut statement[..174]), Err((11, 0)));
    assert_eq!(statement, [7; 180]);
    assert_eq!(settle(&file, &[], &mut statement), Ok(175));
    assert_eq!(statement[175..], [7; 5]);
    assert_eq!(statement[..2], *b"PT");
    // 3 rows; 45 percent, 100, 320, 320, 750; 2 visits; the flag; the first line.
    assert_eq!(statement[33..51], [3, 0, 45, 100, 0, 64, 1, 64, 1, 238, 2, 2, 0, 0, 0, 0, b'P', b'L']);
}

/// A correction of day 0 and quarter 0.
fn correction(rows: &[Row]) -> Vec<u8> {
    let mut bytes = b"PK\0\0\0\0\0".to_vec();
    bytes.extend((rows.len() as u16).to_le_bytes());
    bytes.extend(rows.iter().flat_map(row_bytes));
    bytes
}

#[test]
fn request_6_a_correction_is_held_to_the_intervals_terms() {
    let settled = |interval: &Interval, row: Row| {
        let mut statement = [0; 49 + 3 * 42];
        settle(&bytes(interval), &correction(&[row]), &mut statement).map(|_| u64::from(statement[11]))
    };
    let plain = x(1300);
    let first = plain.rows[0];
    // A bid that 01 allows and the stated limits do not, and the other way round: 8 where it is out of range, else it differs, 10.
    let narrow = stating(limits([150, 200, 300, 400]), x(1300));
    let wide =
        stating(limits([1, 500, 500, 1_000]), Interval { rows: vec![Row { bids: [200, 500], ..first }], ..x(1300) });
    let bid = |bids| Row { bids, ..first };
    assert_eq!(settled(&narrow, bid([201, 400])), Err((8, 1)));
    assert_eq!(settled(&plain, bid([201, 400])), Err((10, 1)));
    assert_eq!(settled(&narrow, bid([200, 401])), Err((8, 1)));
    assert_eq!(settled(&wide, bid([99, 500])), Err((10, 1)));
    assert_eq!(settled(&plain, bid([99, 400])), Err((8, 1)));
    // A minimum between the stated baseline and half load.
    let at_45 = stating(percent(45), x(1300));
    let minimum = |minimum| Row { minimum, ..first };
    assert_eq!(settled(&at_45, minimum(11_250)), Err((10, 1)));
    assert_eq!(settled(&at_45, minimum(11_251)), Err((8, 1)));
    assert_eq!(settled(&plain, minimum(11_251)), Err((10, 1)));
    // A meter corrected to a kWh below the baseline: 200 li, of which the total's lowest byte shows 20 fen.
    assert_eq!(settled(&at_45, Row { metered: 11_249, ..first }), Ok(20));
    assert_eq!(settled(&at_45, Row { metered: 11_250, ..first }), Ok(0));
}

#[test]
fn request_6_the_bytes_that_count_for_a_row() {
    let file = bytes(&stating(percent(45), x(1300)));
    let rows = x(1300).rows;
    let new = Row { metered: 20_001, ..rows[1] };
    let corrected = correction(&[new]);
    assert_eq!(counting_row(&file, &[], 1), row_bytes(&rows[0]));
    assert_eq!(counting_row(&file, &[], 3), row_bytes(&rows[2]));
    assert_eq!(counting_row(&file, &corrected, 2), row_bytes(&new));
    assert_eq!(counting_row(&file, &corrected, 3), row_bytes(&rows[2]));
    assert!(counting_row(&file, &corrected, 4).is_empty());
    let mut refused = file;
    refused[15] = 40;
    assert!(counting_row(&refused, &corrected, 2).is_empty());
}

#[test]
fn request_6_a_pg_file_is_read_and_written() {
    let interval = stating(Terms { percent: 45, limits: [1, 200, 200, 1_000] }, x(1300));
    let file = bytes(&interval);
    assert_eq!(read_interval(&file), Ok(interval.clone()));
    let mut out = [7; 24 + 3 * 21 + 4];
    let write = |interval: &Interval, out: &mut [u8]| write_interval(interval, out);
    assert_eq!(rewrite(&file, &mut out[..86]), Err((11, 0)));
    assert_eq!(write(&interval, &mut out[..86]), Err((11, 0)));
    assert_eq!(out, [7; 91]);
    for again in [rewrite(&file, &mut out), write(&interval, &mut out)] {
        assert_eq!(again, Ok(87));
        assert_eq!(out[..87], file);
        assert_eq!(out[87..], [7; 4]);
    }
    // 3 before 14, 14 before 6 and 11.
    let wrong = Interval { stated: Some(Terms { percent: 40, ..percent(45) }), ..interval.clone() };
    assert_eq!(write(&Interval { tariff: 0, ..wrong.clone() }, &mut out), Err((3, 0)));
    assert_eq!(write(&wrong, &mut []), Err((14, 0)));
    let mut low = interval;
    low.rows[0].minimum = 11_251;
    assert_eq!(write(&low, &mut []), Err((6, 1)));
    low.stated = Some(Terms { percent: 46, ..low.stated.expect("stated") });
    assert_eq!(write(&low, &mut []), Err((11, 0)));
}

#[test]
fn request_6_a_price_of_which_no_fen_come() {
    // At 1 li a kWh, 4 kWh come to nothing and 5 to half a fen, rounded up; the price stands in both.
    for (metered, total) in [(11_249, 0), (11_246, 0), (11_245, 1)] {
        let rows = vec![offering(1, metered, 10_000, [1, 2]), row(2, 2, 5_000)];
        let interval = Interval { need: 1, rows, ..stating(Terms { percent: 45, limits: [1, 2, 2, 3] }, x(1300)) };
        let told = told(&interval);
        assert_eq!([told[0][2], told[0][4], told[1][3], told[2][7]], [1, total, total, total], "metered {metered}");
    }
}

#[test]
fn request_6_the_largest_amounts() {
    // 256 rows of 2,000 MW at 999 and 1,000 li. Row 1 at 0; the others, at half load, are reduced and deliver nothing of 50,000 and
    // 200,000 kWh, at twice the price. Without wind the average is 2,000 x 63,750,000 / 512,000 = 249,023.4, and row 1 delivers 49,023 and
    // 200,000 kWh: 24,897,397.7 fen. The others pay their caps of 625 fen, penalties the rest.
    let mut rows: Vec<Row> =
        (1..=256).map(|id| Row { capacity: 2_000, status: 2, ..offering(id, 250_000, 0, [999, 1_000]) }).collect();
    rows[0] = Row { metered: 0, status: 0, ..rows[0] };
    let interval = Interval { need: 64_000_000, rows, ..stating(limits([1, 999, 999, 1_000]), x(1)) };
    let told = told(&interval);
    assert_eq!(told[0], [0, 0, 999, 1_000, 24_897_398, 24_738_023, 1, 0, 256, 50, 1, 999, 999, 1_000, 255, 1]);
    assert_eq!(told[1], [1, 50_000, 200_000, 24_897_398, 0, 0, 0, 0, 0, 0, 0]);
    // 255 x 49,990,000 less 24,738,023 is 12,722,711,977: 49,892,988 each, and one more for the first 37.
    let returned: Vec<u64> = told[2..].iter().map(|line| line[10]).collect();
    assert!(told[2..].iter().all(|line| line[3..10] == [0, 0, 977, 625, 625, 1, 49_990_000]));
    assert_eq!(returned, [vec![49_892_989; 37], vec![49_892_988; 218]].concat());
}

#[test]
fn request_6_tell_reads_a_byte_past_the_longest_file() {
    assert_eq!(TELL_READS, 5_401);
    let rows = (1..=256).map(|id| row(id, 2, 5_000)).collect();
    let mut longest = bytes(&Interval { rows, ..stating(percent(45), x(1300)) });
    assert_eq!(longest.len(), 5_400);
    assert_eq!(tell(&longest).lines().count(), 257);
    longest.push(0);
    assert_eq!(tell(&longest), "refused 4 0\n");
}

/// Without wind or sun: row 1 of interval X, a thermal row at so many kWh that offers nothing, and others behind them.
/// At 12,000 kWh the average is 10,500: row 1 delivers 500 kWh at 200 li and 1,000 at 400, 50,000 fen, and row 2 weighs 1,500.
fn windless(tariff: u16, second: u32, others: &[Row]) -> Interval {
    let rows = [&[x(tariff).rows[0], row(2, 1, second)], others].concat();
    Interval { rows, ..x(tariff) }
}

/// What `tell` prints of an interval, line by line.
fn assert_told(interval: &Interval, lines: &[&str]) {
    assert_eq!(tell(&bytes(interval)).lines().collect::<Vec<_>>(), lines);
}

const NOTHING_IN_ROW_2: &str = "2 0 0 0 0 0 0 0 0 0 0";
const NOTHING_IN_ROW_3: &str = "3 0 0 0 0 0 0 0 0 0 0";

#[test]
fn request_9_no_wind_rows_at_all() {
    // Row 2's cap is 39,000 fen, so 11,000 are missing.
    assert_told(
        &windless(1300, 12_000, &[]),
        &[
            "0 0 200 400 50000 11000 1 0 2 1 1",
            "1 2500 500 50000 11000 0 0 0 0 0 0",
            "2 0 0 0 0 1500 39000 39000 1 0 0",
        ],
    );
    // At a tariff of 3545 it is 106,350, and row 2 pays all.
    assert_told(
        &windless(3545, 12_000, &[]),
        &["0 0 200 400 50000 0 0 0 2 1 1", "1 2500 500 50000 0 0 0 0 0 0 0", "2 0 0 0 0 1500 106350 50000 0 0 0"],
    );
}

#[test]
fn request_9_a_wind_or_solar_row_at_0_and_at_1() {
    // At 0 it changes nothing, in whatever status, and weighs nothing.
    for still in [row(3, 2, 0), row(3, 3, 0), Row { status: 3, ..row(3, 2, 0) }, Row { status: 3, ..row(3, 3, 0) }] {
        assert_told(
            &windless(1300, 12_000, &[still]),
            &[
                "0 0 200 400 50000 11000 1 0 3 1 1",
                "1 2500 500 50000 11000 0 0 0 0 0 0",
                "2 0 0 0 0 1500 39000 39000 1 0 0",
                NOTHING_IN_ROW_3,
            ],
        );
    }
    // At 1 the baseline is half load: row 1 gets 90,000 fen, row 2 is no payer, and the farm's cap is 6.5 fen, cut.
    for moving in [row(3, 2, 1), row(3, 3, 1)] {
        assert_told(
            &windless(1300, 12_000, &[moving]),
            &[
                "0 0 200 400 90000 89994 1 0 3 1 0",
                "1 2500 500 90000 89994 0 0 0 0 0 0",
                NOTHING_IN_ROW_2,
                "3 0 0 0 0 1 6 6 1 0 0",
            ],
        );
    }
    // In a grid accident its meter counts all the same, though it pays nothing.
    for moving in [Row { status: 3, ..row(3, 2, 1) }, Row { status: 3, ..row(3, 3, 5_000) }] {
        assert_told(
            &windless(1300, 12_000, &[moving]),
            &[
                "0 0 200 400 90000 90000 0 0 3 0 0",
                "1 2500 500 90000 90000 0 0 0 0 0 0",
                NOTHING_IN_ROW_2,
                NOTHING_IN_ROW_3,
            ],
        );
    }
    // One of several is enough, wherever it stands.
    for moving in 3..=5 {
        let farms = [3, 4, 5].map(|id| row(id, 2, u32::from(id == moving)));
        assert_eq!(told(&windless(1300, 12_000, &farms))[0][10], 0, "row {moving}");
    }
}

#[test]
fn request_9_half_load_exactly_and_a_kwh_above() {
    // All at half load: the average is half load. Everybody is a payer of weight 0, and nobody delivers.
    let mut all = windless(1300, 12_500, &[]);
    all.rows[0].metered = 12_500;
    assert_told(&all, &["0 0 0 0 0 0 0 0 2 0 1", "1 2500 500 0 0 0 40625 0 0 0 0", "2 0 0 0 0 0 40625 0 0 0 0"]);
    // The average of 9,000 and 12,500 is 10,750: 750 kWh at 200 li and 1,000 at 400 make 55,000 fen.
    assert_told(
        &windless(1300, 12_500, &[]),
        &[
            "0 0 200 400 55000 14375 1 0 2 1 1",
            "1 2500 500 55000 14375 0 0 0 0 0 0",
            "2 0 0 0 0 1750 40625 40625 1 0 0",
        ],
    );
    // A kWh above half load: 90,000 fen, and row 2 weighs 1, with a cap of 40,628.25 fen, cut.
    assert_told(
        &windless(1300, 12_501, &[]),
        &["0 0 200 400 90000 49372 1 0 2 1 0", "1 2500 500 90000 49372 0 0 0 0 0 0", "2 0 0 0 0 1 40628 40628 1 0 0"],
    );
    // Of whatever status, and wherever it stands.
    for status in 0..=3 {
        for (third, flag) in [(12_500, 1), (12_501, 0)] {
            let low = windless(1300, 12_000, &[Row { status, ..row(3, 1, third) }, row(4, 1, 0)]);
            assert_eq!(told(&low)[0][10], flag, "status {status} at {third}");
        }
    }
}

#[test]
fn request_9_averages_are_cut_once_they_are_worked_out() {
    // 10,100 kWh of 110 MW. 100 MW: 9,181.8, 3 MW: 275.5, 7 MW: 642.7. Cut for each MW first it would be 9,100, 273 and 637.
    let sized = |id, capacity, metered| Row { capacity, ..row(id, 1, metered) };
    let mut interval = windless(3545, 300, &[sized(3, 7, 800)]);
    interval.rows[1].capacity = 3;
    let baselines = Baselines::of_quarter(&interval.rows, Terms::OF_01, 1);
    assert!(baselines.averaged());
    assert_eq!([100, 3, 7].map(|capacity| baselines.of_energy(capacity)), [9_181, 275, 642]);
    // Row 1 delivers 181 kWh in tier 2 alone, at 400 li. Of 7,240 fen over 183 kWh row 2 owes 989.07 and row 3 6,250.93.
    assert_told(
        &interval,
        &[
            "0 0 0 400 7240 0 0 0 3 2 1",
            "1 2500 500 7240 0 0 0 0 0 0 0",
            "2 0 0 0 0 25 2658 989 0 0 0",
            "3 0 0 0 0 158 7090 6251 0 0 0",
        ],
    );
    // The product is above 32 bits: 2,000 x 63,999,999 / 512,000 is 249,999.996, and 1 MW of it 124.99.
    let mut rows: Vec<Row> = (1..=256).map(|id| sized(id, 2_000, 250_000)).collect();
    rows[255].metered -= 1;
    let baselines = Baselines::of_quarter(&rows, Terms::OF_01, 1);
    assert_eq!([1, 2_000].map(|capacity| baselines.of_energy(capacity)), [124, 249_999]);
}

#[test]
fn request_9_energy_paid_from_the_average_down() {
    // 100 MW at 9,000 kWh: an average in tier 2 pays nobody in tier 1; from 40 percent up both tiers pay.
    let averages = [0, 8_999, 9_000, 9_001, 9_999, 10_000, 10_001, 12_499, 12_500];
    let due = [[0, 0], [0, 0], [0, 0], [0, 1], [0, 999], [0, 1_000], [1, 1_000], [2_499, 1_000], [2_500, 1_000]];
    assert_eq!(averages.map(|average| paid_energy(&row(1, 1, 9_000), average)), due);
    // At 10,500 kWh, in tier 1 alone; at 0 kWh, all of it.
    assert_eq!([10_499, 10_500, 10_501].map(|t| paid_energy(&row(1, 1, 10_500), t)), [[0, 0], [0, 0], [1, 0]]);
    assert_eq!(
        [0, 1, 10_000, 12_500].map(|t| paid_energy(&row(1, 1, 0), t)),
        [[0, 0], [0, 1], [0, 10_000], [2_500, 10_000]]
    );
    // In files, with row 2 so that the average is 9,999, 10,000 and 10,001: fen are 39,960, 40,000 and 40,020.
    // Row 1 is at 9,000, called in both tiers, and the prices are 200 and 400 li where it delivers.
    for (second, [price_1, price_2, total, weight]) in [
        (10_998, [0, 400, 39_960, 999]),
        (11_000, [0, 400, 40_000, 1_000]),
        (11_002, [200, 400, 40_020, 1_001]),
        // One kWh more does not move the average, since it is cut, but weighs.
        (11_003, [200, 400, 40_020, 1_002]),
        // Everybody alike: nobody is below the average.
        (9_000, [0, 0, 0, 0]),
        // Row 1 is above the average, and nobody is called who delivered.
        (8_000, [0, 0, 0, 0]),
    ] {
        let told = told(&windless(1300, second, &[]));
        assert_eq!(
            [told[0][2], told[0][3], told[0][4], told[2][5]],
            [price_1, price_2, total, weight],
            "row 2 at {second}"
        );
        assert_eq!(told[1][1..4], [2_500, 500, total], "row 2 at {second}");
        assert_eq!(told[0][10], 1, "row 2 at {second}");
    }
}

#[test]
fn request_9_a_row_at_its_average() {
    // 10,000 is the average, and where row 3 is a kWh lower 9,999.7 is cut to where it stands. Either way it pays with a weight of 0.
    assert_told(
        &windless(1300, 11_000, &[row(3, 1, 10_000)]),
        &[
            "0 0 0 400 40000 4250 1 0 3 1 1",
            "1 2500 500 40000 4250 0 0 0 0 0 0",
            "2 0 0 0 0 1000 35750 35750 1 0 0",
            "3 0 0 0 0 0 32500 0 0 0 0",
        ],
    );
    for (third, line) in [(9_999, [3, 0, 0, 0, 0, 0, 32_496, 0, 0, 0, 0]), (9_998, [3, 0, 0, 0, 0, 0, 0, 0, 0, 0, 0])] {
        let told = told(&windless(1300, 11_000, &[row(3, 1, third)]));
        assert_eq!(told[0][2..5], [0, 400, 39_960], "row 3 at {third}");
        assert_eq!(told[2][5], 1_001, "row 3 at {third}");
        assert_eq!(told[3], line, "row 3 at {third}");
    }
    // A lone row is its own average: called for 3,000 kWh, it delivers nothing and weighs nothing.
    let lone = Interval { rows: x(1300).rows[..1].to_vec(), ..x(1300) };
    assert_told(&lone, &["0 0 0 0 0 0 0 0 1 0 1", "1 2500 500 0 0 0 29250 0 0 0 0"]);
    // So are rows that all stand still.
    let mut still = windless(1300, 0, &[]);
    still.rows[0].metered = 0;
    assert_told(&still, &["0 0 0 0 0 0 0 0 2 0 1", "1 2500 500 0 0 0 0 0 0 0 0", NOTHING_IN_ROW_2]);
}

#[test]
fn request_9_need_0_and_1() {
    let needing = |need| Interval { need, ..windless(1300, 12_000, &[]) };
    assert_told(&needing(0), &["0 0 0 0 0 0 0 0 2 0 0", "1 0 0 0 0 0 0 0 0 0 0", NOTHING_IN_ROW_2]);
    // Called for 1 kWh in tier 1, paid for 500.
    assert_told(
        &needing(1),
        &["0 0 200 0 10000 0 0 0 2 1 1", "1 1 0 10000 0 0 0 0 0 0 0", "2 0 0 0 0 1500 39000 10000 0 0 0"],
    );
    // Nobody offers, so that the need is uncovered: the average rules all the same, and row 2 weighs 1,500.
    let mut nobody = needing(1);
    nobody.rows[0] = row(1, 1, 9_000);
    assert_told(&nobody, &["0 0 0 0 0 0 0 1 2 1 1", "1 0 0 0 0 0 0 0 0 0 0", "2 0 0 0 0 1500 39000 0 0 0 0"]);
}

#[test]
fn request_9_no_thermal_row() {
    let told_of = |rows: Vec<Row>| told(&Interval { rows, ..x(1300) });
    assert_eq!(told_of(Vec::new())[0], [0, 0, 0, 0, 0, 0, 0, 3_000, 0, 0, 0]);
    assert_eq!(told_of(vec![row(1, 2, 0), row(2, 3, 0)])[0], [0, 0, 0, 0, 0, 0, 0, 3_000, 2, 0, 0]);
    // One is enough, of any status.
    for status in 0..=3 {
        let rows = vec![row(1, 2, 0), Row { status, ..row(2, 1, 0) }];
        assert_eq!(told_of(rows)[0], [0, 0, 0, 0, 0, 0, 0, 3_000, 2, 0, 1], "status {status}");
    }
}

#[test]
fn request_9_rows_of_every_status_count_in_the_sums() {
    // A third row at 6,000 kWh brings the average from 10,500 to 9,000 and row 1 to it; below the average it pays nothing.
    for status in 0..=3 {
        assert_told(
            &windless(1300, 12_000, &[Row { status, ..row(3, 1, 6_000) }]),
            &[
                "0 0 0 0 0 0 0 0 3 1 1",
                "1 2500 500 0 0 0 29250 0 0 0 0",
                "2 0 0 0 0 3000 39000 0 0 0 0",
                NOTHING_IN_ROW_3,
            ],
        );
    }
    // At 12,000 it brings the average to 11,000: row 1 gets 1,000 kWh at 200 li and 1,000 at 400, 60,000 fen. Row 3 pays as row 2 does,
    // 30,000, but not in a grid accident: then row 2 pays its cap of 39,000.
    for (status, [shortfall, rounds, visits], lines) in [
        (0, [0, 0, 2], [[1_000, 39_000, 30_000, 0]; 2]),
        (1, [0, 0, 2], [[1_000, 39_000, 30_000, 0]; 2]),
        (2, [0, 0, 2], [[1_000, 39_000, 30_000, 0]; 2]),
        (3, [21_000, 1, 1], [[1_000, 39_000, 39_000, 1], [0, 0, 0, 0]]),
    ] {
        let told = told(&windless(1300, 12_000, &[Row { status, ..row(3, 1, 12_000) }]));
        assert_eq!(told[0], [0, 0, 200, 400, 60_000, shortfall, rounds, 0, 3, visits, 1], "status {status}");
        assert_eq!([&told[2][5..9], &told[3][5..9]], lines, "status {status}");
    }
    // At its average exactly: a cap, but not in a grid accident.
    for (status, cap) in [(0, 34_125), (1, 34_125), (2, 34_125), (3, 0)] {
        let told = told(&windless(1300, 12_000, &[Row { status, ..row(3, 1, 10_500) }]));
        assert_eq!(told[3][5..9], [0, cap, 0, 0], "status {status}");
    }
}

#[test]
fn request_9_prices_by_energy_from_the_average() {
    // Row 2 bids 300 and 500 li and is called in full. At 11,000 kWh it is 1,500 below half load, but above the average of 10,000.
    let beside = |dearer: Row| Interval { need: 9_000, rows: vec![x(1300).rows[0], dearer], ..x(1300) };
    assert_told(
        &beside(dearer(11_000)),
        &[
            "0 0 0 400 40000 4250 1 0 2 1 1",
            "1 2500 2000 40000 4250 0 0 0 0 0 0",
            "2 2500 2000 0 0 1000 35750 35750 1 0 0",
        ],
    );
    // At 8,000 it is below the average of 8,500 and the only one that delivers: 500 kWh at its 500 li.
    assert_told(
        &beside(dearer(8_000)),
        &["0 0 0 500 25000 0 0 0 2 1 1", "1 2500 2000 0 0 500 29250 25000 0 0 0", "2 2500 2000 25000 0 0 0 0 0 0 0"],
    );
}

/// Row 1 of interval X, a reduced unit beside it that bids 300 and 500 li, and thermal rows that offer nothing.
fn windless_reduced(metered: u32, need: u32, others: &[Row]) -> Interval {
    let rows = [&[x(1300).rows[0], Row { status: 2, ..dearer(metered) }], others].concat();
    Interval { need, rows, ..x(1300) }
}

#[test]
fn request_9_penalties_measured_from_the_average() {
    // The average is 10,166.7, cut. Row 1 delivers 166 and 1,000 kWh: 43,320 fen. Row 2 delivers 166 of 2,500 and 500 of 2,000 kWh: twice
    // 2,334 x 200 and 1,500 x 400 li. From half load it would owe 120,000 fen. Row 3's cap leaves 4,320 open, which the penalty fills.
    assert_told(
        &windless_reduced(9_500, 9_000, &[row(3, 1, 12_000)]),
        &[
            "0 0 200 400 43320 4320 1 0 3 1 1",
            "1 2500 2000 43320 0 0 0 0 0 0 0",
            "2 2500 2000 0 0 0 0 0 0 213360 209040",
            "3 0 0 0 0 1834 39000 39000 1 0 0",
        ],
    );
    // Above the average, 10,666, it owes for all that it was called for, and pays. Of 53,320 fen row 3 owes 42,643 and closes at 39,000;
    // row 2 pays the 14,320 that are left, and its penalty goes back.
    assert_told(
        &windless_reduced(11_000, 9_000, &[row(3, 1, 12_000)]),
        &[
            "0 0 200 400 53320 0 1 0 3 3 1",
            "1 2500 2000 53320 0 0 0 0 0 0 0",
            "2 2500 2000 0 0 334 35750 14320 0 260000 260000",
            "3 0 0 0 0 1334 39000 39000 1 0 0",
        ],
    );
    // At 8,000 kWh, its minimum, under an average of 10,500: called for 2,500 and 500 kWh, it delivered 500 and 2,000. 1,500 too much in
    // tier 2 do not make up for 2,000 in tier 1: twice 2,000 x 200 li. Rows 3 and 4 pay 25,000 each of row 1's 50,000 fen.
    assert_told(
        &windless_reduced(8_000, 7_500, &[row(3, 1, 12_500), row(4, 1, 12_500)]),
        &[
            "0 0 200 400 50000 0 0 0 4 2 1",
            "1 2500 2000 50000 0 0 0 0 0 0 0",
            "2 2500 500 0 0 0 0 0 0 80000 80000",
            "3 0 0 0 0 2000 40625 25000 0 0 0",
            "4 0 0 0 0 2000 40625 25000 0 0 0",
        ],
    );
    // An average of 9,500 leaves tier 1 without a price, so what is short there costs nothing; 1,000 of 2,000 kWh in tier 2 cost 2 x 400 li
    // each.
    let told = told(&windless_reduced(8_500, 9_000, &[row(3, 1, 11_000)]));
    assert_eq!(told[0][2..5], [0, 400, 20_000]);
    assert_eq!(told[2], [2, 2_500, 2_000, 0, 0, 0, 0, 0, 0, 80_000, 80_000]);
}

#[test]
fn request_9_leftover_fen_go_round() {
    // The average is 10,502, and rows 2 and 3 are 251 kWh above it. Row 1 delivers 502 kWh at 105 li, 5,271 fen: one is left over. It goes
    // to row 2 but where row 3, at position 2, has its turn.
    let rows = vec![offering(1, 10_000, 10_000, [105, 320]), row(2, 1, 10_753), row(3, 1, 10_753)];
    for (quarter, due) in [(0, [2_636, 2_635]), (1, [2_636, 2_635]), (2, [2_635, 2_636]), (95, [2_635, 2_636])] {
        let told = told(&Interval { quarter, need: 100, rows: rows.clone(), ..x(1300) });
        assert_eq!([told[0][4], told[2][5], told[3][5], told[0][10]], [5_271, 251, 251, 1]);
        assert_eq!([told[2][7], told[3][7]], due, "quarter {quarter}");
    }
}

/// Row 1 of interval X and 3 MW at so many kWh. At 45 percent their baselines are 11,250 and 337.5, cut to 337.
fn beside_3_mw(metered: u32) -> Interval {
    Interval { rows: vec![x(1300).rows[0], Row { capacity: 3, ..row(2, 1, metered) }], ..x(1300) }
}

#[test]
fn request_9_a_pg_file_by_its_stated_baseline() {
    // 9,337 kWh of 103 MW: 9,065.05 and 271.95. Bands are called from 11,250 down. Row 1 delivers 65 kWh at 400 li, and 3 MW pay their cap
    // of 1,095.25 fen, cut.
    assert_told(
        &stating(percent(45), beside_3_mw(337)),
        &[
            "0 0 0 400 2600 1505 1 0 2 45 100 320 320 750 1 1",
            "1 1250 1750 2600 1505 0 0 0 0 0 0",
            "2 0 0 0 0 66 1095 1095 1 0 0",
        ],
    );
    // A kWh more is half a kWh above 337.5, and 1 above what rules: 1,250 kWh at 200 li and 1,000 at 400 are 65,000 fen.
    assert_told(
        &stating(percent(45), beside_3_mw(338)),
        &[
            "0 0 200 400 65000 63902 1 0 2 45 100 320 320 750 1 0",
            "1 1250 1750 65000 63902 0 0 0 0 0 0",
            "2 0 0 0 0 1 1098 1098 1 0 0",
        ],
    );
    // Under PH 338 kWh are below half load: 9,066.02 and 271.98.
    assert_told(
        &beside_3_mw(338),
        &["0 0 0 400 2640 1542 1 0 2 1 1", "1 2500 500 2640 1542 0 0 0 0 0 0", "2 0 0 0 0 67 1098 1098 1 0 0"],
    );
    // Between the stated baseline and half load: at 45 percent row 2 pays from 11,250 up, under 01's terms the average rules.
    for (terms, due) in [(percent(45), [65_000, 0]), (percent(48), [50_000, 1]), (Terms::OF_01, [50_000, 1])] {
        let told = told(&stating(terms, windless(3545, 12_000, &[])));
        assert_eq!([told[0][4], told[0][15]], due, "{} percent", terms.percent);
    }
}

/// What is printed of the statement of an interval and a correction of some of its rows.
fn told_corrected(interval: &Interval, rows: &[Row]) -> String {
    let mut statement = [0; 49 + 4 * 42];
    let length = settle(&bytes(interval), &correction(rows), &mut statement).expect("the pair is accepted");
    lines_of_text(&statement[..length])
}

#[test]
fn request_9_a_correction_begins_and_ends_it() {
    let [still, blowing] = [0, 5_000].map(|metered| windless(1300, 12_000, &[row(3, 2, metered)]));
    let [low, high] = [12_000, 12_501].map(|metered| windless(1300, metered, &[row(3, 2, 0)]));
    let averaged = "0 0 200 400 50000 11000 1 0 3 1 1\n\
                    1 2500 500 50000 11000 0 0 0 0 0 0\n\
                    2 0 0 0 0 1500 39000 39000 1 0 0\n\
                    3 0 0 0 0 0 0 0 0 0 0\n";
    // By the wind's meter: 0 where it was 5,000, and the other way round, where the farm pays its cap of 32,500 fen.
    assert_eq!(told_corrected(&blowing, &[still.rows[2]]), averaged);
    let windy = "0 0 200 400 90000 57500 1 0 3 1 0\n\
                 1 2500 500 90000 57500 0 0 0 0 0 0\n\
                 2 0 0 0 0 0 0 0 0 0 0\n\
                 3 0 0 0 0 5000 32500 32500 1 0 0\n";
    assert_eq!(told_corrected(&still, &[blowing.rows[2]]), windy);
    // By a thermal meter.
    assert_eq!(told_corrected(&high, &[low.rows[1]]), averaged);
    let above = "0 0 200 400 90000 49372 1 0 3 1 0\n\
                 1 2500 500 90000 49372 0 0 0 0 0 0\n\
                 2 0 0 0 0 1 40628 40628 1 0 0\n\
                 3 0 0 0 0 0 0 0 0 0 0\n";
    assert_eq!(told_corrected(&low, &[high.rows[1]]), above);
    // By both at once; and a status alone changes neither side.
    assert_eq!(told_corrected(&windless(1300, 20_000, &[row(3, 2, 5_000)]), &still.rows[1..]), averaged);
    assert_eq!(told_corrected(&still, &[Row { status: 3, ..still.rows[2] }]), averaged);
    // A corrected meter counts in the sums: row 1 at 9,500 brings the average to 10,750, of which it delivers 750 and 500 kWh.
    let total = "0 0 200 400 35000 0 0 0 3 1 1\n1 2500 500 35000 0 0 0 0 0 0 0\n2 0 0 0 0 1250 39000 35000 0 0 0\n";
    let lines = told_corrected(&still, &[Row { metered: 9_500, ..still.rows[0] }]);
    assert_eq!(lines, format!("{total}3 0 0 0 0 0 0 0 0 0 0\n"));
}

#[test]
fn request_9_the_flag_is_the_heads_last_byte() {
    // 2 rows; in PT 45 percent, 100, 320, 320, 750; 1 visit; the flag; the first line.
    let mut statement = [7; 49 + 2 * 42];
    assert_eq!(settle(&bytes(&windless(1300, 12_000, &[])), &[], &mut statement), Ok(40 + 2 * 42));
    assert_eq!(statement[33..42], [2, 0, 1, 0, 0, 0, 1, b'P', b'L']);
    assert_eq!(settle(&bytes(&stating(percent(45), beside_3_mw(337))), &[], &mut statement), Ok(49 + 2 * 42));
    assert_eq!(statement[33..51], [2, 0, 45, 100, 0, 64, 1, 64, 1, 238, 2, 1, 0, 0, 0, 1, b'P', b'L']);
    // A buffer of the length before this request is a byte too short.
    let mut short = [7; 39 + 2 * 42];
    assert_eq!(settle(&bytes(&windless(1300, 12_000, &[])), &[], &mut short), Err((11, 0)));
    assert_eq!(short, [7; 123]);
}
