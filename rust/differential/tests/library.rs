//! The proved library held to the reference.
//!
//! `SEED=n` repeats a run, `TRIALS=n` makes it longer; a failure prints its trial and its seed, and
//! `SEED=n TRIAL=m cargo test one_trial` repeats it alone.

use cases::file::{Interval, Row, STATEMENT_HEAD_PT, Terms, statement_head, statement_length};
use cases::ladder::{self, ladder};
use cases::random::Random;
use cases::{Case, accepted, demands, lengths_near, refused};
use differential::{Tally, rewrite, run, same, settle, trial};

fn asked(name: &str, otherwise: u64) -> u64 {
    std::env::var(name).map_or(otherwise, |text| text.parse().expect(name))
}

#[test]
fn the_engine_answers_as_the_reference() {
    let (seed, trials) = (asked("SEED", 1), asked("TRIALS", 20_000));
    let threads = std::thread::available_parallelism().map_or(1, |count| count.get().min(4)) as u64;
    let mut tally = Tally::default();
    std::thread::scope(|scope| {
        let share = |first| scope.spawn(move || run(seed, first, threads as usize, trials));
        let runs: Vec<_> = (0..threads).map(share).collect();
        for run in runs {
            let part = run.join().expect("a run ends").unwrap_or_else(|what| panic!("{what}"));
            tally.add(&part);
        }
    });
    println!("seed {seed}: {} files, {tally:?}", tally.trials());
    assert_eq!(tally.trials(), trials);
    if trials >= 20_000 {
        enough(&tally);
    }
}

/// A run that met too little of something would show nothing of it.
fn enough(tally: &Tally) {
    assert!(tally.settled > tally.trials() / 4 && (1..=11).chain([14]).all(|number| tally.refused[number] > 0));
    assert!(tally.stated > tally.settled / 3 && tally.stated < tally.settled * 2 / 3);
    assert!(tally.between > tally.stated / 4);
    assert!(tally.outbid > tally.settled / 5);
    assert!(tally.penalised > tally.settled / 8 && tally.filled > tally.settled / 10);
    assert!(tally.still_cut > tally.settled / 20 && tally.returned > tally.settled / 20);
    assert!(tally.revisited > tally.settled / 10 && tally.at_bound > 0);
    assert!(tally.turned.iter().all(|&count| count > tally.settled / 40));
    let averaged = tally.averaged;
    assert!(averaged.all > tally.settled / 5 && averaged.all < tally.settled / 2);
    assert!(averaged.stated > averaged.all / 4 && averaged.stated < averaged.all * 3 / 4);
    assert!(averaged.paid > averaged.all / 4 && averaged.penalised > averaged.all / 20);
    assert!(averaged.at_average > averaged.all / 20 && averaged.below_40_percent > averaged.all / 10);
    assert!(averaged.begun > averaged.all / 10 && averaged.ended > averaged.all / 40);
}

#[test]
fn one_trial() {
    if let Ok(number) = std::env::var("TRIAL") {
        let outcome = trial(asked("SEED", 1), number.parse().expect("TRIAL"), &mut Tally::default());
        assert_eq!(outcome, Ok(()));
    }
}

#[test]
fn every_fault_is_refused_with_its_number_and_place() {
    let seed = asked("SEED", 1);
    let mut random = Random::from_seed(seed);
    // Files of both forms in turn.
    for number in 0..20 {
        let stated = (number % 2 == 1).then(|| accepted::terms(&mut random));
        let base = refused::base_stating(&mut random, 12, stated);
        for fault in refused::faults(&base) {
            let (case, due) = refused::damaged(&base, &[fault]);
            let outcome = case.run(settle).unwrap_or_else(|what| panic!("{what}; {} of seed {seed}", case.name));
            assert_eq!(outcome.answer, Err(due), "{} of seed {seed}", case.name);
        }
        for _ in 0..500 {
            let (case, due) = refused::several(&mut random, &base);
            let outcome = case.run(settle).unwrap_or_else(|what| panic!("{what}; {} of seed {seed}", case.name));
            assert_eq!(outcome.answer, Err(due), "{} of seed {seed}", case.name);
        }
    }
}

#[test]
fn buffers_of_every_length_near_the_needed_one() {
    let seed = asked("SEED", 1);
    let mut random = Random::from_seed(seed);
    for _ in 0..40 {
        let mut case = accepted::case(&mut random);
        let needed = statement_length(&case.interval);
        for length in lengths_near(needed) {
            case.buffer = length;
            let outcome = same(&case, "settle", settle, reference::settle).unwrap_or_else(|what| panic!("{what}"));
            let due = if length < needed { Err((11, 0)) } else { Ok(needed) };
            assert_eq!(outcome.answer, due, "{} of seed {seed}", case.name);
        }
        for length in lengths_near(case.interval.len()) {
            case.buffer = length;
            let again = |interval: &[u8], _: &[u8], out: &mut [u8]| reference::rewrite(interval, out);
            let outcome = same(&case, "rewrite", rewrite, again).unwrap_or_else(|what| panic!("{what}"));
            let due = if length < case.interval.len() { Err((11, 0)) } else { Ok(case.interval.len()) };
            assert_eq!(outcome.answer, due, "{} of seed {seed}", case.name);
        }
    }
}

#[test]
fn ladders_close_one_group_in_each_round() {
    let seed = asked("SEED", 1);
    let mut random = Random::from_seed(seed);
    for rounds in ladder::FEWEST..=ladder::MOST {
        let due = ladder(&mut random, rounds);
        let name = format!("{rounds} rounds of seed {seed}");
        let (buffer, visits) = (due.interval.statement_length(), due.visits());
        let alone = Case { name: name.clone(), interval: due.interval.bytes(), correction: Vec::new(), buffer };
        let (spoilt, correction) = accepted::spoil(&mut random, due.interval);
        let pair = Case { name, interval: spoilt.bytes(), correction: correction.bytes(), buffer };
        for case in [alone, pair] {
            let outcome = same(&case, "settle", settle, reference::settle).unwrap_or_else(|what| panic!("{what}"));
            let told = (rounds as u16, visits, due.closing.clone());
            assert_eq!(ladder::told(&outcome.buffer), told, "{}", case.name);
            assert_eq!(demands::check(&outcome.buffer), Ok(()), "{}", case.name);
        }
    }
}

#[test]
fn the_terms_of_01_stated_give_the_lines_of_ph() {
    let (seed, trials) = (asked("SEED", 1), asked("TRIALS", 20_000) / 10);
    let mut random = Random::from_seed(seed);
    let statement = |interval: &[u8], correction: &[u8]| {
        let mut statement = vec![0; statement_length(interval)];
        let length = settle(interval, correction, &mut statement).expect("accepted");
        assert_eq!(length, statement.len());
        let lines = statement.split_off(statement_head(&statement).expect("a mark"));
        (statement, lines)
    };
    for number in 0..trials {
        let shape = random.one_of(&accepted::SHAPES);
        let count = random.within(0..=256);
        let plain = accepted::interval_of(&mut random, shape, count);
        let (plain, correction) = if count > 0 && random.once_in(2) {
            let (plain, correction) = accepted::spoil(&mut random, plain);
            (plain, correction.bytes())
        } else {
            (plain, Vec::new())
        };
        let of_ph = statement(&plain.bytes(), &correction);
        let of_pg = statement(&plain.stating(Terms::OF_01).bytes(), &correction);
        assert!(of_pg.1 == of_ph.1, "{shape:?}, file {number} of seed {seed}");
        // The heads are the same but for the mark and the terms.
        let terms = [50, 100, 0, 64, 1, 64, 1, 238, 2];
        let due = [b"PT", &of_ph.0[2..35], &terms, &of_ph.0[35..]].concat();
        assert_eq!(of_pg.0, due, "{shape:?}, file {number} of seed {seed}");
    }
}

#[test]
fn a_stated_baseline_stands_for_half_load() {
    // Interval X at 45 percent: bands of 1,250 and 2,000 kWh, 65,000 fen, and a thermal weight from 11,250 kWh on.
    let terms = Terms { percent: 45, limits: [100, 320, 320, 750] };
    let interval = Interval::x(1300).stating(terms);
    let mut statement = vec![0; interval.statement_length()];
    assert_eq!(wheatrudder::settle(&interval.bytes(), &[], &mut statement), Ok(175));
    let head = wheatrudder::head(&statement).expect("a head");
    assert_eq!((head.stated, head.terms.percent, head.terms.limits), (true, terms.percent, terms.limits));
    assert_eq!((head.prices, head.total, head.shortfall, head.rounds, head.visits), ([200, 400], 65_000, 0, 0, 2));
    let figures: Vec<([u32; 2], u32, u32)> =
        wheatrudder::lines(&statement).map(|line| (line.called, line.weight, line.paid)).collect();
    assert_eq!(figures, [([1_250, 1_750], 0, 0), ([0, 0], 16_250, 49_706), ([0, 0], 5_000, 15_294)]);
}

#[test]
fn a_row_between_the_stated_baseline_and_half_load_pays() {
    // Row 2 at 12,000 kWh: under PH below its baseline and no payer, at 45 percent above it with a weight of 750.
    let mut interval = Interval::x(1300);
    interval.rows[1].metered = 12_000;
    for (interval, due) in [
        (interval.clone(), [(0, 0, 0), (5_000, 32_500, 32_500)]),
        (interval.stating(Terms { percent: 45, ..Terms::OF_01 }), [(750, 39_000, 32_500), (5_000, 32_500, 32_500)]),
    ] {
        let mut statement = vec![0; interval.statement_length()];
        wheatrudder::settle(&interval.bytes(), &[], &mut statement).expect("accepted");
        let payers: Vec<(u32, u32, u32)> =
            wheatrudder::lines(&statement).skip(1).map(|line| (line.weight, line.cap, line.paid)).collect();
        assert_eq!(payers, due);
    }
}

/// Interval X with row 2 at 12,000 kWh, and its wind farm at so many or left out.
fn x_with_wind(metered: Option<u32>) -> Interval {
    let mut interval = Interval::x(1300);
    interval.rows[1].metered = 12_000;
    interval.rows.truncate(2);
    interval.rows.extend(metered.map(|metered| Row::wind(3, 100, metered)));
    interval
}

#[test]
fn the_thermal_average_rules_a_windless_quarter() {
    let at = |percent| x_with_wind(Some(0)).stating(Terms { percent, ..Terms::OF_01 });
    // Without wind the average is 10,500: row 1 delivers 500 and 1,000 kWh, 50,000 fen, and row 2 pays its cap for 1,500 kWh above it.
    let averaged = (true, 50_000, 11_000, [1_500, 39_000, 39_000]);
    for (interval, due) in [
        (x_with_wind(None), averaged),
        (x_with_wind(Some(0)), averaged),
        (at(48), averaged),
        // 1 kWh of wind, and a baseline below 12,000 kWh.
        (x_with_wind(Some(1)), (false, 90_000, 89_994, [0, 0, 0])),
        (at(45), (false, 65_000, 26_000, [750, 39_000, 39_000])),
    ] {
        let mut statement = vec![0; interval.statement_length()];
        wheatrudder::settle(&interval.bytes(), &[], &mut statement).expect("accepted");
        let head = wheatrudder::head(&statement).expect("a head");
        let payer =
            wheatrudder::lines(&statement).nth(1).map(|line| [line.weight, line.cap, line.paid]).expect("a line");
        assert_eq!((head.averaged, head.total, head.shortfall, payer), due);
    }
}

#[test]
fn a_correction_begins_and_ends_the_thermal_average() {
    let [still, blowing] = [0, 5_000].map(|metered| x_with_wind(Some(metered)));
    for (interval, corrected, averaged) in [(&blowing, &still, true), (&still, &blowing, false)] {
        let [mut pair, mut alone] = [(); 2].map(|()| vec![0; interval.statement_length()]);
        let correction = corrected.correcting(&[2]).bytes();
        wheatrudder::settle(&interval.bytes(), &correction, &mut pair).expect("accepted");
        wheatrudder::settle(&corrected.bytes(), &[], &mut alone).expect("accepted");
        assert_eq!(pair, alone);
        assert_eq!(wheatrudder::head(&pair).map(|head| head.averaged), Some(averaged));
    }
}

#[test]
fn terms_out_of_range_are_refused_with_14() {
    let answer = |percent, limits| {
        let interval = Interval::new(1300, 0, Vec::new()).stating(Terms { percent, limits });
        settle(&interval.bytes(), &[], &mut [0; STATEMENT_HEAD_PT])
    };
    let of_01 = Terms::OF_01.limits;
    for percent in 0..=255 {
        let due = if (41..=50).contains(&percent) { Ok(STATEMENT_HEAD_PT) } else { Err((14, 0)) };
        assert_eq!(answer(percent, of_01), due, "{percent} percent");
    }
    // Each limit at every value beside the others as they are.
    for place in 0..4 {
        for value in 0..=1_100 {
            let mut limits = of_01;
            limits[place] = value;
            let [first, second, third, fourth] = limits;
            let rising = 1 <= first && first < second && second <= third && third < fourth && fourth <= 1_000;
            assert_eq!(answer(50, limits), if rising { Ok(STATEMENT_HEAD_PT) } else { Err((14, 0)) }, "{limits:?}");
        }
    }
}

#[test]
fn empty_slices_are_answered() {
    assert_eq!(settle(&[], &[], &mut []), Err((1, 0)));
    assert_eq!(rewrite(&[], &[], &mut []), Err((1, 0)));
    assert_eq!(wheatrudder::row(&[], &[], 1, &mut []), Ok(0));
}

#[test]
fn figures_are_read_from_a_statement() {
    let interval = Interval::x(1300);
    let mut statement = vec![0; interval.statement_length()];
    let length = wheatrudder::settle(&interval.bytes(), &[], &mut statement).expect("accepted");
    let head = wheatrudder::head(&statement[..length]).expect("a head");
    assert_eq!((head.total, head.shortfall, head.rounds, head.rows, head.visits), (90_000, 0, 1, 3, 3));
    let paid: Vec<(u16, u32)> = wheatrudder::lines(&statement).map(|line| (line.id, line.paid)).collect();
    assert_eq!(paid, [(1, 0), (2, 65_000), (3, 25_000)]);
}

#[test]
fn a_penalty_fills_the_shortfall_and_the_rest_is_returned() {
    let mut interval = Interval::x(1300);
    interval.need = 9_000;
    interval.rows[1] = Row::thermal(2, 100, 9_000).offering(8_000, 300, 500).with_status(2);
    let mut statement = vec![0; interval.statement_length()];
    wheatrudder::settle(&interval.bytes(), &[], &mut statement).expect("accepted");
    assert_eq!(wheatrudder::head(&statement).expect("a head").shortfall, 57_500);
    let figures: Vec<[u32; 3]> =
        wheatrudder::lines(&statement).map(|line| [line.cut, line.penalty, line.returned]).collect();
    assert_eq!(figures, [[0, 0, 0], [0, 80_000, 22_500], [0, 0, 0]]);
}

#[test]
fn open_payers_are_visited_in_every_round() {
    // Three payers of whom none, one, two and three close; then two of them in round 2, two in round 1, and all at once.
    let figures = [(1091, 0, 3), (1090, 1, 5), (700, 2, 6), (600, 3, 6), (401, 2, 5), (400, 2, 4), (100, 1, 3)];
    for (tariff, rounds, visits) in figures {
        let mut interval = Interval::x(tariff);
        interval.rows[1].metered = 27_500;
        interval.rows.push(Row::thermal(4, 100, 15_000));
        let mut statement = vec![0; interval.statement_length()];
        wheatrudder::settle(&interval.bytes(), &[], &mut statement).expect("accepted");
        let head = wheatrudder::head(&statement).expect("a head");
        assert_eq!((head.rounds, head.visits), (rounds, visits), "tariff {tariff}");
    }
}

#[test]
fn rows_alike_are_called_alike_over_as_many_quarters_as_rows() {
    for rows in [1, 2, 3, 7, 32, 95, 96] {
        let offers: Vec<Row> = (1..=rows).map(|id| Row::thermal(id, 100, 9_000).offering(10_000, 200, 320)).collect();
        for need in [1, 100, 2_500 * u32::from(rows) - 1] {
            let mut called = vec![0; usize::from(rows)];
            for quarter in 0..rows as u8 {
                let interval = Interval { quarter, ..Interval::new(500, need, offers.clone()) };
                let mut statement = vec![0; interval.statement_length()];
                wheatrudder::settle(&interval.bytes(), &[], &mut statement).expect("accepted");
                called.iter_mut().zip(wheatrudder::lines(&statement)).for_each(|(sum, line)| *sum += line.called[0]);
            }
            assert_eq!(called, vec![need; usize::from(rows)], "{rows} rows");
        }
    }
}

#[test]
fn a_case_that_differs_is_found() {
    let case = Case { name: "no rows".into(), interval: Vec::new(), correction: Vec::new(), buffer: 40 };
    let wrong_answer = same(&case, "settle", settle, |_, _, _| Err((2, 0)));
    assert!(wrong_answer.is_err());
    let wrong_byte = |_: &[u8], _: &[u8], out: &mut [u8]| {
        out[39] ^= 1;
        Err((1, 0))
    };
    assert!(same(&case, "settle", settle, wrong_byte).is_err());
}
