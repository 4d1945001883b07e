//! One call of the engine for each quarter, and for each file that belongs to none.

use wheatrudder::Refusal;

use crate::calendar::Quarter;
use crate::pairing::{Held, Source};
use crate::terms::{INTERVAL_HEAD_PH, interval_head, said, stated};
use crate::words::{coming, refused};

const CORRECTION_HEAD: usize = 9;
const ROW: usize = 21;

/// An interval file without rows that is accepted: day 0, quarter 0, tariff 1, need 0.
const NO_ROWS: &[u8; INTERVAL_HEAD_PH] = b"PH\0\0\0\0\0\x01\0\0\0\0\0\0\0";

/// What comes of a quarter.
#[derive(Debug, PartialEq, Eq)]
pub enum Outcome {
    /// Its statement has so many bytes in the buffer.
    Settled { length: usize, corrected: bool },
    /// The engine's refusal, with the file at fault.
    Refused(String),
    /// It is not known which files to settle it from.
    Hindered(Vec<String>),
}

/// Settles a quarter from the bytes that were read.
pub fn settle(quarter: Quarter, held: &Held, statement: &mut [u8]) -> Outcome {
    let hindrances = held.hindrances(quarter);
    let (interval, correction) = match (&held.intervals[..], &held.corrections[..]) {
        ([interval], []) if hindrances.is_empty() => (interval, None),
        ([interval], [correction]) if hindrances.is_empty() => (interval, Some(correction)),
        _ => return Outcome::Hindered(hindrances),
    };
    let corrected = correction.map_or([].as_slice(), |correction| &correction.content.bytes);
    match wheatrudder::settle(&interval.content.bytes, corrected, statement) {
        Ok(length) => Outcome::Settled { length, corrected: correction.is_some() },
        Err(refusal) => Outcome::Refused(blame(quarter, refusal, interval, correction)),
    }
}

/// The line of a refusal: 8 to 10 are about the correction, every other number about the interval file. Where that states the terms by
/// which it was judged, they stand in the line: a bid that is in range in one month is not in another.
fn blame(quarter: Quarter, refusal: Refusal, interval: &Source, correction: Option<&Source>) -> String {
    let (file, head) = match correction {
        Some(correction) if (8..=10).contains(&refusal.number) => (correction, CORRECTION_HEAD),
        _ => (interval, interval_head(&interval.content.bytes)),
    };
    let id = id_at(&file.content.bytes, head, refusal.place);
    let terms = stated(&interval.content.bytes).filter(|_| is_by_terms(refusal));
    let terms = terms.map_or(String::new(), |terms| format!(" Terms of the interval file: {}.", said(terms)));
    format!("{}: {}{terms} [{quarter}]", file.name, refused(refusal, id))
}

/// Whether the terms may be why: they are not allowed, or a figure of a row is out of range.
fn is_by_terms(Refusal { number, place }: Refusal) -> bool {
    matches!((number, place), (6 | 14, _) | (8, 1..))
}

/// The id of the row at a place, counted from 1, where the bytes reach so far.
fn id_at(bytes: &[u8], head: usize, place: u32) -> Option<u16> {
    let row = bytes.get(head..)?.chunks_exact(ROW).nth(place.checked_sub(1)? as usize)?;
    Some(u16::from_le_bytes([row[2], row[3]]))
}

/// What the engine says of a file that belongs to no quarter. A correction is handed over beside an interval file without rows,
/// since alone it would be judged as an interval file.
pub fn alone(bytes: &[u8], statement: &mut [u8]) -> String {
    let answer = if bytes.starts_with(b"PK") {
        wheatrudder::settle(NO_ROWS, bytes, statement)
    } else {
        wheatrudder::settle(bytes, &[], statement)
    };
    match answer {
        Err(refusal) => refused(refusal, None) + coming(bytes),
        Ok(_) => "not used: the engine accepts it, but this program does not know this form".into(),
    }
}

#[cfg(test)]
mod tests {
    use super::{INTERVAL_HEAD_PH, NO_ROWS, Outcome, alone, id_at, settle};
    use crate::calendar::Quarter;
    use crate::folder::{Content, MOST};
    use crate::pairing::{Held, Source};
    use crate::terms::{INTERVAL_HEAD_PG, OTHER, are_allowed};
    use cases::file::{Correction, Interval, Terms};

    fn source(name: &str, bytes: Vec<u8>) -> Source {
        Source { name: name.into(), content: Content::whole(&bytes) }
    }

    fn held(interval: &Interval, correction: Option<Correction>) -> Held {
        let corrections = correction.into_iter().map(|correction| source("k", correction.bytes())).collect();
        Held { intervals: vec![source("h", interval.bytes())], corrections }
    }

    fn outcome(held: &Held) -> Outcome {
        settle(Quarter { day: 0, quarter: 0 }, held, &mut [0; MOST])
    }

    #[test]
    fn a_quarter_is_one_call() {
        for (interval, length) in [(Interval::x(1300), 166), (Interval::x(1300).stating(OTHER), 175)] {
            let mut buffer = [0; MOST];
            let at = Quarter { day: 0, quarter: 0 };
            let settled = settle(at, &held(&interval, None), &mut buffer);
            assert_eq!(settled, Outcome::Settled { length, corrected: false });
            let mut due = [0; MOST];
            assert_eq!(wheatrudder::settle(&interval.bytes(), &[], &mut due), Ok(length));
            assert_eq!(buffer, due);

            let mut correction = interval.correcting(&[2]);
            correction.rows[0].metered = 6_000;
            let settled = settle(at, &held(&interval, Some(correction.clone())), &mut buffer);
            assert_eq!(settled, Outcome::Settled { length, corrected: true });
            assert_eq!(wheatrudder::settle(&interval.bytes(), &correction.bytes(), &mut due), Ok(length));
            assert_eq!(buffer, due);
        }
    }

    /// The line of a quarter that is refused.
    fn refused(held: Held) -> String {
        match outcome(&held) {
            Outcome::Refused(line) => line,
            other => panic!("{other:?}"),
        }
    }

    #[test]
    fn the_file_at_fault_is_named() {
        let terms = " Terms of the interval file: baseline 45 percent, bids 150 to 250 and 350 to 450 li.";
        for (interval, terms) in [(Interval::x(1300), ""), (Interval::x(1300).stating(OTHER), terms)] {
            let mut damaged = interval.clone();
            damaged.rows[1].capacity = 2_001;
            let mut correction = interval.correcting(&[0, 2]);
            let due = format!("h: refused 6 2: A figure of entry 2 (id 2) is out of range.{terms} [2000-01-01-q00]");
            assert_eq!(refused(held(&damaged, None)), due);
            assert_eq!(refused(held(&damaged, Some(correction.clone()))), due);
            damaged = interval.clone();
            damaged.rows[2].id = 2;
            let due = "h: refused 7 3: The id of entry 3 (id 2) is not above the one before. [2000-01-01-q00]";
            assert_eq!(refused(held(&damaged, None)), due);
            damaged.rows[0].mark = *b"PL";
            let due = "h: refused 5 1: Entry 1 (id 1) does not begin with PR: damaged. [2000-01-01-q00]";
            assert_eq!(refused(held(&damaged, None)), due);
            damaged.count = Some(2);
            assert!(refused(held(&damaged, None)).starts_with("h: refused 4 0: The length does not fit"));
            damaged.tariff = 0;
            assert!(refused(held(&damaged, None)).starts_with("h: refused 3 0: Day, quarter, tariff, need or"));
            correction.rows[1].status = 9;
            let due =
                format!("k: refused 8 2: The correction itself is faulty, at entry 2 (id 3).{terms} [2000-01-01-q00]");
            assert_eq!(refused(held(&interval, Some(correction.clone()))), due);
            correction.rows[1].status = 0;
            correction.rows[1].id = 753;
            let due = "k: refused 10 2: Entry 2 (id 753) of the";
            assert!(refused(held(&interval, Some(correction.clone()))).starts_with(due));
            correction.count = Some(1);
            let due = "k: refused 8 0: The correction itself is faulty, at its head or length. [2000-01-01-q00]";
            assert_eq!(refused(held(&interval, Some(correction))), due);
        }
    }

    #[test]
    fn bids_and_minimums_are_judged_by_the_files_own_terms() {
        let terms = Terms { percent: 41, limits: [200, 201, 399, 400] };
        let line = |number: u32| {
            let what = if number == 6 {
                "A figure of entry 1 (id 1) is out of range"
            } else {
                "The correction itself is faulty, at entry 1 (id 1)"
            };
            let file = if number == 6 { "h" } else { "k" };
            format!(
                "{file}: refused {number} 1: {what}. Terms of the interval file: baseline 41 percent, bids 200 to 201 and 399 to 400 li. [2000-01-01-q00]"
            )
        };
        let interval = Interval::x(1300).stating(terms);
        assert!(matches!(outcome(&held(&interval, None)), Outcome::Settled { .. }));
        // The baseline of 100 MW at 41 percent is 10,250 kWh; every one of these is in range for a file without terms.
        for (minimum, bids) in
            [(10_251, [200, 400]), (8_000, [199, 400]), (8_000, [202, 400]), (8_000, [200, 398]), (8_000, [200, 401])]
        {
            let mut other = Interval::x(1300);
            other.rows[0] = other.rows[0].offering(minimum, bids[0], bids[1]);
            assert!(matches!(outcome(&held(&other, None)), Outcome::Settled { .. }), "{minimum} {bids:?}");
            let correction = other.correcting(&[0]);
            assert_eq!(refused(held(&other.stating(terms), None)), line(6), "{minimum} {bids:?}");
            assert_eq!(refused(held(&interval, Some(correction))), line(8), "{minimum} {bids:?}");
        }
    }

    #[test]
    fn terms_that_are_not_allowed_are_named() {
        let refused_14 = |terms: Terms| {
            let no_rows = Interval::new(1, 0, Vec::new()).stating(terms).bytes();
            let answer = wheatrudder::settle(&no_rows, &[], &mut [0; 49]);
            answer.is_err_and(|refusal| (refusal.number, refusal.place) == (14, 0))
        };
        let limits = [0, 1, 2, 499, 500, 501, 999, 1_000, 1_001, 65_535];
        for percent in [0, 40, 41, 45, 50, 51, 255] {
            for place in 0..limits.len().pow(4) {
                let limit = |unit: u32| limits[place / limits.len().pow(unit) % limits.len()];
                let terms = Terms { percent, limits: [limit(0), limit(1), limit(2), limit(3)] };
                let wrapped = wheatrudder::Terms { percent, limits: terms.limits };
                assert_eq!(refused_14(terms), !are_allowed(wrapped), "{terms:?}");
            }
        }
        let interval = Interval::x(1300).stating(Terms { percent: 51, ..OTHER });
        let due = "h: refused 14 0: The terms that the head states are out of range: the baseline, or the limits of bids, which have to \
                   rise from tier to tier. Terms of the interval file: baseline 51 percent, bids 150 to 250 and 350 to 450 li. \
                   [2000-01-01-q00]";
        assert_eq!(refused(held(&interval, None)), due);
        assert_eq!(refused(held(&interval, Some(interval.correcting(&[0])))), due);
    }

    #[test]
    fn a_file_cut_within_its_terms_is_shorter_than_its_head() {
        let bytes = Interval::x(1300).stating(OTHER).bytes();
        for length in 7..24 {
            let held = Held { intervals: vec![source("h", bytes[..length].to_vec())], corrections: Vec::new() };
            let due = "h: refused 1 0: The file is shorter than its head (15 bytes, or 24 if it begins with PG). [2000-01-01-q00]";
            assert_eq!(refused(held), due);
        }
    }

    #[test]
    fn a_hindered_quarter_is_not_settled() {
        let mut two = held(&Interval::x(1300), None);
        two.intervals.push(source("i", Interval::x(1200).bytes()));
        assert_eq!(
            outcome(&two),
            Outcome::Hindered(vec!["2000-01-01-q00: not settled, 2 interval files: h, i".into()])
        );
        let mut moving = held(&Interval::x(1300), None);
        moving.intervals[0].content.steady = false;
        assert!(matches!(outcome(&moving), Outcome::Hindered(lines) if lines.len() == 1));
        assert_eq!(outcome(&Held::default()), Outcome::Hindered(Vec::new()));
    }

    #[test]
    fn reading_further_than_one_byte_too_much_changes_no_answer() {
        let answer = |interval: &[u8], correction: &[u8]| wheatrudder::settle(interval, correction, &mut [0; MOST]);
        let forms = [Interval::x(1300), Interval::x(1300).stating(OTHER)];
        for (interval, rows) in forms.iter().flat_map(|interval| [0, 3, 256, 257, 65_535].map(|rows| (interval, rows)))
        {
            let mut counted = interval.clone();
            counted.count = Some(rows);
            let mut correction = interval.correcting(&[0]);
            correction.count = Some(rows);
            let (mut long, mut corrected) = (counted.bytes(), correction.bytes());
            long.resize(40 * MOST, b'P');
            corrected.resize(40 * MOST, b'P');
            assert!(answer(&long, &[]).is_err());
            assert_eq!(answer(&long[..MOST], &[]), answer(&long, &[]));
            assert_eq!(answer(&interval.bytes(), &corrected[..MOST]), answer(&interval.bytes(), &corrected));
            assert!(
                answer(&interval.bytes(), &corrected).is_err_and(|refusal| (refusal.number, refusal.place) == (8, 0))
            );
        }
    }

    #[test]
    fn files_of_no_quarter_get_the_number_that_is_theirs() {
        let said = |bytes: &[u8]| alone(bytes, &mut [0; MOST]);
        assert!(said(b"").starts_with("refused 1 0: "));
        assert!(said(b"PH\0\0\0\0").starts_with("refused 1 0: "));
        assert!(said(b"a text that is long enough").starts_with("refused 2 0: "));
        assert!(said(b"PG\0\0\0\0").starts_with("refused 1 0: "));
        assert!(said(b"PW and as much as a head has").ends_with(" This version does not know this form."));
        let far = Interval { day: 36_525, ..Interval::x(1300) };
        assert!(said(&far.bytes()).starts_with("refused 3 0: "));
        assert!(said(&far.correcting(&[0]).bytes()).starts_with("refused 8 0: "));
        let stating = far.stating(Terms { percent: 51, ..OTHER }).bytes();
        assert!(said(&stating).starts_with("refused 3 0: "));
        assert!(said(&stating[..23]).starts_with("refused 1 0: "));
        assert!(said(b"PK").starts_with("refused 8 0: "));
        assert!(said(NO_ROWS).starts_with("not used: "));
    }

    #[test]
    fn ids_are_read_where_the_bytes_reach() {
        let forms = [(Interval::x(1300), INTERVAL_HEAD_PH), (Interval::x(1300).stating(OTHER), INTERVAL_HEAD_PG)];
        for (bytes, head) in forms.map(|(interval, head)| (interval.bytes(), head)) {
            let ids = [0, 1, 3, 4, u32::MAX].map(|place| id_at(&bytes, head, place));
            assert_eq!(ids, [None, Some(1), Some(3), None, None]);
            assert_eq!(id_at(&bytes[..head + 20], head, 1), None);
            assert_eq!(id_at(&bytes[..2], head, 1), None);
        }
    }
}
