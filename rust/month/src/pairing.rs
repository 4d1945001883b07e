//! Which files belong together, by their bytes alone: an interval file and a correction are of one quarter hour where their heads
//! name the same day and quarter.

use std::collections::BTreeMap;

use crate::calendar::Quarter;
use crate::folder::Content;
use crate::words::ANY;

/// A file that belongs to a quarter.
#[derive(Debug)]
pub struct Source {
    pub name: String,
    pub content: Content,
}

/// The different files of one quarter, in the order in which they were read.
#[derive(Debug, Default)]
pub struct Held {
    pub intervals: Vec<Source>,
    pub corrections: Vec<Source>,
}

/// All quarters that a file names.
#[derive(Default)]
pub struct Month {
    pub quarters: BTreeMap<Quarter, Held>,
}

impl Month {
    /// Puts a file where it belongs. The answer is the name of the file of which it is an equal copy; then it is not kept.
    pub fn add_interval(&mut self, quarter: Quarter, source: Source) -> Option<&str> {
        add(&mut self.quarters.entry(quarter).or_default().intervals, source)
    }

    pub fn add_correction(&mut self, quarter: Quarter, source: Source) -> Option<&str> {
        add(&mut self.quarters.entry(quarter).or_default().corrections, source)
    }
}

fn add(held: &mut Vec<Source>, source: Source) -> Option<&str> {
    match held.iter().position(|other| equal(&other.content, &source.content)) {
        Some(place) => Some(&held[place].name),
        None => {
            held.push(source);
            None
        }
    }
}

/// Whether two files are known to be equal: both were read to their ends, and stayed as they were meanwhile.
fn equal(one: &Content, other: &Content) -> bool {
    let whole = |content: &Content| content.steady && content.end.is_none();
    whole(one) && whole(other) && one.bytes == other.bytes
}

impl Held {
    /// Why there is no settling this quarter, a sentence for each reason; none where there is one interval file and at most one
    /// correction.
    pub fn hindrances(&self, quarter: Quarter) -> Vec<String> {
        let mut reasons = Vec::new();
        for (files, what) in [(&self.intervals, "interval files"), (&self.corrections, "corrections")] {
            if files.len() > 1 {
                let names: Vec<&str> = files.iter().map(|file| file.name.as_str()).collect();
                reasons.push(format!("{quarter}: not settled, {} {what}: {}", files.len(), names.join(", ")));
            }
        }
        if self.intervals.is_empty() {
            let stray = |file: &Source| {
                let missing = format!("{}: a correction for {quarter}, which has no interval file", file.name);
                format!("{missing}; if its head is damaged, it may be {ANY}")
            };
            reasons.extend(self.corrections.iter().map(stray));
        }
        let moving = self.intervals.iter().chain(&self.corrections).filter(|file| !file.content.steady);
        reasons
            .extend(moving.map(|file| format!("{}: changed while it was read; {quarter} is not settled", file.name)));
        reasons
    }
}

#[cfg(test)]
mod tests {
    use cases::file::{Interval, Terms};

    use super::{Held, Month, Source};
    use crate::calendar::Quarter;
    use crate::folder::{Content, END, MOST};

    fn quarter(day: u32, quarter: u8) -> Quarter {
        Quarter::new(day, quarter).expect("in range")
    }

    fn source(name: &str, bytes: &[u8]) -> Source {
        Source { name: name.into(), content: Content::whole(bytes) }
    }

    #[test]
    fn files_of_one_quarter_come_together() {
        let mut month = Month::default();
        let (first, second) = (quarter(5, 1), quarter(5, 2));
        assert_eq!(month.add_correction(second, source("k2", b"PKx")), None);
        assert_eq!(month.add_interval(second, source("h2", b"PHx")), None);
        assert_eq!(month.add_interval(first, source("h1", b"PHx")), None);
        let names: Vec<(Quarter, usize, usize)> =
            month.quarters.iter().map(|(at, held)| (*at, held.intervals.len(), held.corrections.len())).collect();
        assert_eq!(names, [(first, 1, 0), (second, 1, 1)]);
        assert!(month.quarters.values().all(|held| held.hindrances(first).is_empty()));
    }

    #[test]
    fn equal_copies_are_one_file() {
        let mut month = Month::default();
        let at = quarter(5, 1);
        assert_eq!(month.add_interval(at, source("a", b"PHx")), None);
        assert_eq!(month.add_interval(at, source("b", b"PHx")), Some("a"));
        // A correction of the same bytes is another thing.
        assert_eq!(month.add_correction(at, source("c", b"PHx")), None);
        assert!(month.quarters[&at].hindrances(at).is_empty());
    }

    #[test]
    fn different_files_are_never_chosen_from() {
        let mut month = Month::default();
        let at = quarter(9_800, 9);
        for name in ["a", "b", "c"] {
            assert_eq!(month.add_interval(at, source(name, name.as_bytes())), None);
        }
        assert_eq!(month.add_interval(at, source("copy", b"b")), Some("b"));
        assert_eq!(month.add_correction(at, source("k", b"k")), None);
        let due = "2026-10-31-q09: not settled, 3 interval files: a, b, c";
        assert_eq!(month.quarters[&at].hindrances(at), [due]);
    }

    #[test]
    fn a_file_with_terms_and_one_without_are_two() {
        let interval = Interval { day: 9_800, quarter: 9, ..Interval::x(1300) };
        let (plain, stating) = (interval.bytes(), interval.clone().stating(Terms::OF_01).bytes());
        let mut month = Month::default();
        let at = quarter(9_800, 9);
        // Both have the same terms and rows; still nobody chooses.
        assert_eq!(month.add_interval(at, source("h", &plain)), None);
        assert_eq!(month.add_interval(at, source("g", &stating)), None);
        assert_eq!(month.add_interval(at, source("copy", &stating)), Some("g"));
        assert_eq!(month.quarters[&at].hindrances(at), ["2026-10-31-q09: not settled, 2 interval files: h, g"]);
    }

    #[test]
    fn two_corrections_without_an_interval_are_both_named() {
        let mut held = Held::default();
        held.corrections.extend([source("k", b"k"), source("l", b"l")]);
        let due = [
            "2026-10-31-q09: not settled, 2 corrections: k, l",
            "k: a correction for 2026-10-31-q09, which has no interval file",
            "l: a correction for 2026-10-31-q09, which has no interval file",
        ];
        let said = held.hindrances(quarter(9_800, 9));
        assert!(said.len() == 3 && said.iter().zip(due).all(|(said, due)| said.starts_with(due)), "{said:?}");
        assert!(
            said[1].ends_with("; if its head is damaged, it may be a correction of any quarter, so no figure is final")
        );
    }

    #[test]
    fn a_file_that_changes_is_equal_to_none_and_hinders() {
        let at = quarter(9_800, 9);
        let mut month = Month::default();
        let moving = || Source { name: "m".into(), content: Content { steady: false, ..Content::whole(b"PH") } };
        assert_eq!(month.add_interval(at, moving()), None);
        assert_eq!(month.quarters[&at].hindrances(at), ["m: changed while it was read; 2026-10-31-q09 is not settled"]);
        assert_eq!(month.add_interval(at, source("h", b"PH")), None);
        assert_eq!(month.quarters[&at].hindrances(at).len(), 2);
    }

    #[test]
    fn files_that_were_cut_are_not_known_to_be_equal() {
        let mut month = Month::default();
        let at = quarter(5, 1);
        let cut = |name: &str| {
            let content = Content { end: Some(vec![7; END]), ..Content::whole(&[7; MOST]) };
            Source { name: name.into(), content }
        };
        assert_eq!(month.add_interval(at, cut("a")), None);
        assert_eq!(month.add_interval(at, cut("b")), None);
        assert_eq!(month.add_interval(at, source("c", &[7; MOST])), None);
        assert_eq!(month.add_interval(at, source("d", &[7; MOST])), Some("c"));
    }
}
