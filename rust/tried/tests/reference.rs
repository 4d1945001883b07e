//! The reference on random and damaged files: it gives every refusal that is due, and every statement meets the demands.
//!
//! `SEED=n` repeats a run, `TRIALS=n` makes it longer.

use cases::file::{Interval, LINE, Terms, statement_head, statement_length};
use cases::ladder::{self, ladder};
use cases::random::Random;
use cases::refused::{self, Fault, HeadField, TermsFault};
use cases::windless::Average;
use cases::{Case, Outcome, accepted, demands, lengths_near};

fn seed_and_trials() -> (u64, u64) {
    let read = |name, otherwise| std::env::var(name).map_or(otherwise, |text| text.parse().expect(name));
    (read("SEED", 1), read("TRIALS", 2_000))
}

fn run(case: &Case, seed: u64) -> Outcome {
    case.run(reference::settle).unwrap_or_else(|what| panic!("{what}; {} of seed {seed}", case.name))
}

/// The thermal average that rules a case which was settled, if it does; the statement is held to it.
fn average(case: &Case, statement: &[u8], seed: u64) -> Option<Average> {
    let counting = Interval::read_pair(&case.interval, &case.correction).expect("a pair that was accepted is read");
    demands::check_average(&counting, statement).unwrap_or_else(|what| panic!("{what}: {} of seed {seed}", case.name))
}

#[test]
fn accepted_files_meet_the_demands() {
    let (seed, trials) = seed_and_trials();
    let mut random = Random::from_seed(seed);
    let mut averaged = 0;
    for _ in 0..trials {
        let case = accepted::case(&mut random);
        let outcome = run(&case, seed);
        let length = outcome.answer.unwrap_or_else(|refusal| panic!("{refusal:?}: {} of seed {seed}", case.name));
        let statement = &outcome.buffer[..length];
        assert_eq!(demands::check(statement), Ok(()), "{} of seed {seed}", case.name);
        averaged += u64::from(average(&case, statement, seed).is_some());
    }
    println!("the thermal average ruled {averaged} of {trials}");
    assert!(averaged > trials / 5, "seed {seed}");
}

#[test]
fn a_windless_quarter_is_averaged() {
    let (seed, trials) = seed_and_trials();
    let mut random = Random::from_seed(seed);
    for _ in 0..trials / 4 {
        let interval = accepted::interval(&mut random, accepted::Shape::Windless);
        let mut statement = vec![0; interval.statement_length()];
        reference::settle(&interval.bytes(), &[], &mut statement).expect("accepted");
        let thermal = interval.rows.iter().any(|row| row.kind == cases::file::THERMAL);
        assert_eq!(statement[statement_head(&statement).expect("a mark") - 1], u8::from(thermal), "seed {seed}");
    }
}

#[test]
fn a_correction_settles_as_the_corrected_interval() {
    let (seed, trials) = seed_and_trials();
    let mut random = Random::from_seed(seed);
    for _ in 0..trials / 4 {
        let shape = random.one_of(&accepted::SHAPES);
        let whole = accepted::interval(&mut random, shape);
        if whole.rows.is_empty() {
            continue;
        }
        let (spoilt, correction) = accepted::spoil(&mut random, whole.clone());
        let buffer = whole.statement_length();
        let name = format!("{shape:?}");
        let alone = Case { name: name.clone(), interval: whole.bytes(), correction: Vec::new(), buffer };
        let pair = Case { name, interval: spoilt.bytes(), correction: correction.bytes(), buffer };
        let outcome = run(&alone, seed);
        assert_eq!(outcome.answer, Ok(buffer), "{shape:?} of seed {seed}");
        assert_eq!(outcome, run(&pair, seed), "{shape:?} of seed {seed}");
        for row in &whole.rows {
            assert_eq!(reference::counting_row(&pair.interval, &pair.correction, row.id), row.bytes());
        }
        assert!(reference::counting_row(&pair.interval, &pair.correction, 0).is_empty());
    }
}

#[test]
fn the_terms_of_01_stated_give_the_lines_of_ph() {
    let (seed, trials) = seed_and_trials();
    let mut random = Random::from_seed(seed);
    for _ in 0..trials / 4 {
        let shape = random.one_of(&accepted::SHAPES);
        let count = random.within(0..=60);
        let plain = accepted::interval_of(&mut random, shape, count);
        let statement = |interval: cases::file::Interval| {
            let mut statement = vec![0; interval.statement_length()];
            reference::settle(&interval.bytes(), &[], &mut statement).expect("accepted");
            let lines = statement.split_off(statement_head(&statement).expect("a mark"));
            (statement, lines)
        };
        let (of_pg, of_ph) = (statement(plain.clone().stating(Terms::OF_01)), statement(plain));
        assert_eq!(of_pg.1, of_ph.1, "{shape:?} of seed {seed}");
        // Up to the rows, and from the visits on, the heads differ in their marks alone.
        assert_eq!((&of_pg.0[2..35], &of_pg.0[44..]), (&of_ph.0[2..35], &of_ph.0[35..]), "{shape:?} of seed {seed}");
    }
}

#[test]
fn many_rounds_are_reached() {
    let (seed, _) = seed_and_trials();
    let mut random = Random::from_seed(seed);
    let rounds: Vec<u16> = (0..100)
        .map(|_| {
            let interval = accepted::interval(&mut random, accepted::Shape::ManyRounds);
            let mut statement = vec![0; interval.statement_length()];
            reference::settle(&interval.bytes(), &[], &mut statement).expect("accepted");
            ladder::told(&statement).0
        })
        .collect();
    println!("rounds: {rounds:?}");
    assert!(rounds.iter().any(|&rounds| rounds >= 25), "seed {seed}");
    assert!(rounds.iter().filter(|&&rounds| rounds >= 10).count() >= 80, "seed {seed}");
}

#[test]
fn a_ladder_closes_one_group_in_each_round() {
    let (seed, _) = seed_and_trials();
    let mut random = Random::from_seed(seed);
    for rounds in ladder::FEWEST..=ladder::MOST {
        let due = ladder(&mut random, rounds);
        let mut statement = vec![0; due.interval.statement_length()];
        reference::settle(&due.interval.bytes(), &[], &mut statement).expect("accepted");
        assert_eq!(ladder::told(&statement), (rounds as u16, due.visits(), due.closing), "seed {seed}");
        assert_eq!(demands::check(&statement), Ok(()), "{rounds} rounds of seed {seed}");
    }
}

#[test]
fn the_longest_ladder_takes_1960_visits() {
    let due = ladder(&mut Random::from_seed(1), ladder::MOST);
    // Rows alike times the round in which they close, over the 27 groups.
    assert_eq!((due.closing.iter().filter(|&&round| round > 0).count(), due.visits()), (185, 1_960));
}

#[test]
fn every_fault_is_refused_with_its_number_and_place() {
    let (seed, trials) = seed_and_trials();
    let mut random = Random::from_seed(seed);
    // Files of both forms in turn.
    for number in 0..20 {
        let stated = (number % 2 == 1).then(|| accepted::terms(&mut random));
        let base = refused::base_stating(&mut random, 12, stated);
        for fault in refused::faults(&base) {
            let (case, due) = refused::damaged(&base, &[fault]);
            assert_eq!(run(&case, seed).answer, Err(due), "{} of seed {seed}", case.name);
        }
        for _ in 0..trials / 4 {
            let (case, due) = refused::several(&mut random, &base);
            assert_eq!(run(&case, seed).answer, Err(due), "{} of seed {seed}", case.name);
        }
    }
}

#[test]
fn scrambled_files_are_settled_or_refused_within_bounds() {
    let (seed, trials) = seed_and_trials();
    let mut random = Random::from_seed(seed);
    for _ in 0..trials * 4 {
        let whole = accepted::case(&mut random);
        let case = refused::scrambled(&mut random, whole);
        let outcome = run(&case, seed);
        match outcome.answer {
            Ok(length) => {
                let statement = &outcome.buffer[..length];
                assert_eq!(demands::check(statement), Ok(()), "{} of seed {seed}", case.name);
                average(&case, statement, seed);
            }
            Err((number, place)) => {
                assert!(matches!(number, 1..=11 | 14) && place <= 256, "{} of seed {seed}", case.name);
            }
        }
    }
}

#[test]
fn buffers_of_every_length_near_the_needed_one() {
    let (seed, _) = seed_and_trials();
    let mut random = Random::from_seed(seed);
    for _ in 0..40 {
        let mut case = accepted::case(&mut random);
        let needed = statement_length(&case.interval);
        for length in lengths_near(needed) {
            case.buffer = length;
            let due = if length < needed { Err((11, 0)) } else { Ok(needed) };
            assert_eq!(run(&case, seed).answer, due, "{} of seed {seed}", case.name);
        }
    }
}

#[test]
fn an_interval_is_written_as_it_was_read() {
    let (seed, trials) = seed_and_trials();
    let mut random = Random::from_seed(seed);
    for _ in 0..trials / 4 {
        let shape = random.one_of(&accepted::SHAPES);
        let file = accepted::interval(&mut random, shape).bytes();
        let case = |buffer| Case { name: format!("{shape:?}"), interval: file.clone(), correction: Vec::new(), buffer };
        let rewritten = |case: Case| {
            let rewrite = |interval: &[u8], _: &[u8], out: &mut [u8]| reference::rewrite(interval, out);
            case.run(rewrite).unwrap_or_else(|what| panic!("{what}; {shape:?} of seed {seed}"))
        };
        let outcome = rewritten(case(file.len() + 3));
        assert_eq!(outcome.answer, Ok(file.len()));
        assert_eq!(outcome.buffer[..file.len()], file);
        assert_eq!(rewritten(case(file.len() - 1)).answer, Err((11, 0)));
    }
}

#[test]
fn contents_are_checked_before_they_are_written() {
    for stated in [None, Some(Terms { percent: 45, limits: [100, 320, 320, 750] })] {
        let base = refused::base_stating(&mut Random::from_seed(7), 12, stated);
        let read = reference::read_interval(&base.interval.bytes()).expect("accepted");
        let mut out = vec![0; 6_000];
        let mut refused = |change: &dyn Fn(&mut reference::Interval)| {
            let mut contents = read.clone();
            change(&mut contents);
            reference::write_interval(&contents, &mut out)
        };
        assert_eq!(refused(&|contents| contents.tariff = 0), Err((3, 0)));
        assert_eq!(refused(&|contents| contents.rows = vec![contents.rows[0]; 257]), Err((3, 0)));
        assert_eq!(refused(&|contents| contents.rows[2].capacity = 0), Err((6, 3)));
        assert_eq!(refused(&|contents| contents.rows[1].id = contents.rows[0].id), Err((7, 2)));
        let wrong_terms = |contents: &mut reference::Interval| {
            contents.stated = Some(reference::Terms { percent: 51, ..reference::Terms::OF_01 });
        };
        assert_eq!(refused(&wrong_terms), Err((14, 0)));
        assert_eq!(refused(&|contents| (wrong_terms(contents), contents.tariff = 0).1), Err((3, 0)));
        assert_eq!(refused(&|contents| (wrong_terms(contents), contents.rows[2].capacity = 0).1), Err((14, 0)));
        let head = Fault::Head(HeadField::Tariff(0));
        let (case, due) = refused::damaged(&base, &[head]);
        assert_eq!(reference::rewrite(&case.interval, &mut []), Err(due));
    }
    let base = refused::base_stating(&mut Random::from_seed(7), 12, Some(Terms::OF_01));
    let (case, due) = refused::damaged(&base, &[Fault::Terms(TermsFault::Percent(40))]);
    assert_eq!(due, (14, 0));
    assert_eq!(reference::rewrite(&case.interval, &mut []), Err(due));
}

#[test]
fn a_changed_figure_fails_the_demands() {
    let (seed, trials) = seed_and_trials();
    let mut random = Random::from_seed(seed);
    for _ in 0..trials / 4 {
        let case = accepted::case(&mut random);
        let outcome = run(&case, seed);
        let statement = &outcome.buffer[..outcome.answer.expect("accepted")];
        // Total, shortfall, rounds and visits in the head; compensation, cut, paid, closing round, penalty and returned in a line.
        let before_lines = statement_head(statement).expect("a mark");
        let mut places = vec![11, 19, 27, before_lines - 5];
        let rows = (statement.len() - before_lines) / LINE;
        if rows > 0 {
            let line = before_lines + LINE * random.below(rows);
            places.extend([12, 16, 28, 32, 34, 38].map(|field| line + field));
        }
        for place in places {
            let mut changed = statement.to_vec();
            changed[place] ^= 1;
            assert!(demands::check(&changed).is_err(), "byte {place}: {} of seed {seed}", case.name);
        }
        // The flag is one of two, and only the rows that count say which.
        let counting = Interval::read_pair(&case.interval, &case.correction).expect("accepted");
        let mut changed = statement.to_vec();
        changed[before_lines - 1] ^= 1;
        assert!(demands::check_average(&counting, &changed).is_err(), "the flag: {} of seed {seed}", case.name);
        changed[before_lines - 1] = 2;
        assert!(demands::check(&changed).is_err(), "the flag: {} of seed {seed}", case.name);
    }
}
