//! The terms under which a quarter is settled: the baseline in percent of full load, and the limits of the bids in either tier. A file
//! that begins with `PG` states them in its head; every other is under those of document 01. Where there is no wind and everybody is
//! low, the thermal average rules in the baseline's place.

use wheatrudder::{Head, Terms};

use crate::calendar::Quarter;
use crate::span::Span;

pub const INTERVAL_HEAD_PH: usize = 15;
pub const INTERVAL_HEAD_PG: usize = 24;

/// How many bytes stand before the rows of an interval file, by its mark.
pub fn interval_head(interval: &[u8]) -> usize {
    if interval.starts_with(b"PG") { INTERVAL_HEAD_PG } else { INTERVAL_HEAD_PH }
}

/// The terms that an interval file states, allowed or not; nothing where it states none, or is cut within them.
pub fn stated(interval: &[u8]) -> Option<Terms> {
    let head = interval.first_chunk::<INTERVAL_HEAD_PG>().filter(|head| head.starts_with(b"PG"))?;
    let limit = |at: usize| u16::from_le_bytes([head[at], head[at + 1]]);
    Some(Terms { percent: head[15], limits: [16, 18, 20, 22].map(limit) })
}

/// Whether check 14 lets terms pass. The highest bid of tier 1 may be the lowest of tier 2.
pub fn are_allowed(Terms { percent, limits: [low, high, low_2, high_2] }: Terms) -> bool {
    let rise = 1 <= low && low < high && high <= low_2 && low_2 < high_2 && high_2 <= 1_000;
    (41..=50).contains(&percent) && rise
}

/// Terms in words.
pub fn said(Terms { percent, limits: [low, high, low_2, high_2] }: Terms) -> String {
    format!("baseline {percent} percent, bids {low} to {high} and {low_2} to {high_2} li")
}

/// Which terms ruled which of the settled quarters, and where the thermal average did.
#[derive(Default)]
pub struct Ruled {
    /// In the order of the first quarter of each.
    by_terms: Vec<(Terms, Span)>,
    /// Whether a file stated its terms.
    stated: bool,
    averaged: Option<Span>,
}

impl Ruled {
    /// Counts a settled quarter by the head of its statement. Quarters come in their order.
    pub fn add(&mut self, quarter: Quarter, head: &Head) {
        self.stated |= head.stated;
        match self.by_terms.iter_mut().find(|(terms, _)| *terms == head.terms) {
            Some((_, span)) => span.add(quarter),
            None => self.by_terms.push((head.terms, Span::of(quarter))),
        }
        if head.averaged {
            match &mut self.averaged {
                Some(span) => span.add(quarter),
                none => *none = Some(Span::of(quarter)),
            }
        }
    }

    /// A line for each set of terms, none where no file stated any, since all quarters are then under those of document 01; then one for
    /// the thermal average, if it ruled.
    pub fn lines(&self) -> Vec<String> {
        let terms = self.by_terms.iter().filter(|_| self.stated);
        let terms = terms.map(|(terms, span)| format!("terms: {}: {span}", said(*terms)));
        let averaged = self.averaged.iter().map(|span| format!("thermal average in the baseline's place: {span}"));
        terms.chain(averaged).collect()
    }
}

/// Terms for tests: they let interval X pass, and are not those of document 01.
#[cfg(test)]
pub const OTHER: cases::file::Terms = cases::file::Terms { percent: 45, limits: [150, 250, 350, 450] };

#[cfg(test)]
mod tests {
    use cases::file::{Interval, Terms as Stated};
    use wheatrudder::{Head, Terms};

    use super::{Ruled, are_allowed, interval_head, said, stated};
    use crate::calendar::Quarter;

    const OTHER: Terms = Terms { percent: super::OTHER.percent, limits: super::OTHER.limits };

    #[test]
    fn terms_are_read_where_a_file_states_them() {
        let plain = Interval::x(1300);
        let stating = plain.clone().stating(Stated { percent: 0xb1, limits: [0xb2b3, 0xb4b5, 0xb6b7, 0xb8b9] });
        let due = Terms { percent: 0xb1, limits: [0xb2b3, 0xb4b5, 0xb6b7, 0xb8b9] };
        assert_eq!((stated(&stating.bytes()), interval_head(&stating.bytes())), (Some(due), 24));
        assert_eq!(stated(&stating.bytes()[..24]), Some(due));
        assert_eq!(stated(&stating.bytes()[..23]), None);
        assert_eq!((stated(&plain.bytes()), interval_head(&plain.bytes())), (None, 15));
        assert_eq!((stated(b""), stated(b"PG")), (None, None));
    }

    #[test]
    fn terms_are_allowed_as_far_as_the_rules_go() {
        let first = Terms { limits: [1, 2, 2, 3], ..OTHER };
        let last = Terms { limits: [997, 998, 999, 1_000], ..OTHER };
        for terms in [Terms::OF_01, OTHER, first, last, Terms { percent: 41, ..OTHER }, Terms { percent: 50, ..OTHER }]
        {
            assert!(are_allowed(terms), "{terms:?}");
        }
        let limits = [[0, 2, 2, 3], [2, 2, 2, 3], [1, 3, 2, 4], [1, 2, 3, 3], [998, 999, 1_000, 1_001]];
        let percents = [0, 40, 51, 255].map(|percent| Terms { percent, ..OTHER });
        for terms in limits.map(|limits| Terms { limits, ..OTHER }).into_iter().chain(percents) {
            assert!(!are_allowed(terms), "{terms:?}");
        }
    }

    #[test]
    fn terms_are_said_in_words() {
        assert_eq!(said(OTHER), "baseline 45 percent, bids 150 to 250 and 350 to 450 li");
    }

    fn at(day: u32, quarter: u8) -> Quarter {
        Quarter::new(day, quarter).expect("in range")
    }

    /// The head of some statement of these terms.
    fn head(terms: Terms, stated: bool, averaged: bool) -> Head {
        let some = Interval::x(1300).bytes();
        let mut statement = [0; wheatrudder::STATEMENT_ROOM];
        wheatrudder::settle(&some, &[], &mut statement).expect("accepted");
        Head { terms, stated, averaged, ..wheatrudder::head(&statement).expect("a statement") }
    }

    #[test]
    fn a_line_says_which_quarters_terms_ruled() {
        let mut ruled = Ruled::default();
        assert!(ruled.lines().is_empty());
        ruled.add(at(9_800, 94), &head(Terms::OF_01, false, false));
        ruled.add(at(9_800, 95), &head(Terms::OF_01, false, false));
        assert!(ruled.lines().is_empty(), "no file states its terms");
        ruled.add(at(9_801, 0), &head(OTHER, true, false));
        let first = "terms: baseline 50 percent, bids 100 to 320 and 320 to 750 li: ";
        let other = "terms: baseline 45 percent, bids 150 to 250 and 350 to 450 li: ";
        let due = [format!("{first}2 quarters, 2026-10-31-q94 to 2026-10-31-q95"), format!("{other}2026-11-01-q00")];
        assert_eq!(ruled.lines(), due);
        // The terms of document 01 are the same whether or not a file states them.
        ruled.add(at(9_801, 1), &head(Terms::OF_01, true, false));
        ruled.add(at(9_801, 2), &head(OTHER, true, false));
        ruled.add(at(9_801, 3), &head(Terms { percent: 41, ..OTHER }, true, false));
        let due = [
            format!("{first}3 quarters, 2026-10-31-q94 to 2026-11-01-q01"),
            format!("{other}2 quarters, 2026-11-01-q00 to 2026-11-01-q02"),
            "terms: baseline 41 percent, bids 150 to 250 and 350 to 450 li: 2026-11-01-q03".into(),
        ];
        assert_eq!(ruled.lines(), due);
    }

    #[test]
    fn a_line_says_which_quarters_the_thermal_average_ruled() {
        let mut ruled = Ruled::default();
        ruled.add(at(9_800, 8), &head(Terms::OF_01, false, false));
        assert!(ruled.lines().is_empty());
        ruled.add(at(9_800, 9), &head(Terms::OF_01, false, true));
        assert_eq!(ruled.lines(), ["thermal average in the baseline's place: 2026-10-31-q09"]);
        ruled.add(at(9_800, 10), &head(Terms::OF_01, false, false));
        // Under whichever terms, and below their lines.
        ruled.add(at(9_800, 11), &head(OTHER, true, true));
        ruled.add(at(9_800, 12), &head(OTHER, true, false));
        let due = [
            "terms: baseline 50 percent, bids 100 to 320 and 320 to 750 li: 3 quarters, 2026-10-31-q08 to 2026-10-31-q10",
            "terms: baseline 45 percent, bids 150 to 250 and 350 to 450 li: 2 quarters, 2026-10-31-q11 to 2026-10-31-q12",
            "thermal average in the baseline's place: 2 quarters, 2026-10-31-q09 to 2026-10-31-q11",
        ];
        assert_eq!(ruled.lines(), due);
    }
}
