//! What is said at the end: the days, what ruled, and how many of everything.

use std::collections::BTreeMap;
use std::fmt;

use crate::calendar::{Date, QUARTERS};
use crate::terms::Ruled;

/// How many of everything there were.
#[derive(Default)]
pub struct Tally {
    /// Quarters settled, and how many of them with a correction.
    pub settled: usize,
    pub corrected: usize,
    /// Quarters that the engine refused.
    pub refused: usize,
    /// Quarters that were not handed to the engine.
    pub hindered: usize,
    /// Files that are of no quarter, and not known to be something else.
    pub nowhere: usize,
    /// What could not be read, or is no plain file.
    pub unread: usize,
    /// Files that are not what their names say, whether or not they are used.
    pub misnamed: usize,
    /// Whole statements from elsewhere, equal copies, and what is known to be something else.
    pub passed: usize,
    /// What was done in the folder of statements, if there is one.
    pub statements: Option<Kept>,
    /// Of each day that a file names.
    pub days: BTreeMap<u32, Day>,
    /// What ruled the quarters settled: terms, and the thermal average.
    pub ruled: Ruled,
}

/// What was done in the folder of statements.
#[derive(Default)]
pub struct Kept {
    pub written: usize,
    pub removed: usize,
    /// What could not be written, removed or counted.
    pub failed: usize,
}

/// The quarters of one day.
#[derive(Clone, Copy, Debug, Default, PartialEq, Eq)]
pub struct Day {
    pub settled: usize,
    /// Those of which there is an interval file, settled or not.
    pub arrived: usize,
}

impl Day {
    fn is_complete(&self) -> bool {
        self.settled == usize::from(QUARTERS)
    }
}

impl Tally {
    /// Whether it is ready to book: something was settled, every day that a file names is complete, and nothing was left over.
    pub fn is_ready(&self) -> bool {
        let failed = self.statements.as_ref().map_or(0, |kept| kept.failed);
        let left = self.refused + self.hindered + self.nowhere + self.unread + self.misnamed + failed;
        self.settled > 0 && self.days.values().all(Day::is_complete) && left == 0
    }

    /// The days that are named, and those of which not every quarter is settled.
    pub fn days(&self) -> String {
        if self.days.is_empty() {
            return "days: none".into();
        }
        let all = usize::from(QUARTERS);
        let short: Vec<String> = self
            .days
            .iter()
            .filter(|(_, day)| !day.is_complete())
            .map(|(&date, day)| {
                let (left, missing) = (day.arrived - day.settled, all - day.arrived);
                format!("{} ({} settled, {left} not, {missing} missing)", Date(date), day.settled)
            })
            .collect();
        let days = format!("days: {}, {}", self.days.len(), ranges(self.days.keys().copied()));
        if short.is_empty() {
            format!("{days}; all complete")
        } else {
            format!("{days}; not complete: {}", short.join(", "))
        }
    }
}

/// Days as spans of days that follow each other.
fn ranges(days: impl Iterator<Item = u32>) -> String {
    let mut spans: Vec<(u32, u32)> = Vec::new();
    for day in days {
        match spans.last_mut() {
            Some((_, last)) if *last + 1 == day => *last = day,
            _ => spans.push((day, day)),
        }
    }
    let span = |(first, last): (u32, u32)| {
        if first == last { Date(first).to_string() } else { format!("{} to {}", Date(first), Date(last)) }
    };
    spans.into_iter().map(span).collect::<Vec<String>>().join(", ")
}

impl fmt::Display for Tally {
    fn fmt(&self, out: &mut fmt::Formatter) -> fmt::Result {
        write!(
            out,
            "quarters: {} settled ({} corrected), {} refused, {} not settled; ",
            self.settled, self.corrected, self.refused, self.hindered
        )?;
        write!(
            out,
            "files: {} of no quarter, {} not read, {} named otherwise, {} passed over",
            self.nowhere, self.unread, self.misnamed, self.passed
        )?;
        if let Some(kept) = &self.statements {
            write!(out, "; statements: {} written, {} removed, {} failed", kept.written, kept.removed, kept.failed)?;
        }
        out.write_str(if self.is_ready() { "; ready to book" } else { "; not ready to book" })
    }
}

#[cfg(test)]
mod tests {
    use super::{Day, Kept, Tally};

    #[test]
    fn days_in_a_row_are_one_span() {
        let full = Day { settled: 96, arrived: 96 };
        let mut tally = Tally::default();
        assert_eq!(tally.days(), "days: none");
        tally.days.extend([(0, full), (1, full), (3, full), (30, full), (31, full), (32, full)]);
        let spans = "days: 6, 2000-01-01 to 2000-01-02, 2000-01-04, 2000-01-31 to 2000-02-02";
        assert_eq!(tally.days(), format!("{spans}; all complete"));
        tally.days.insert(3, Day { settled: 90, arrived: 94 });
        tally.days.insert(31, Day { settled: 0, arrived: 0 });
        let short = "2000-01-04 (90 settled, 4 not, 2 missing), 2000-02-01 (0 settled, 0 not, 96 missing)";
        assert_eq!(tally.days(), format!("{spans}; not complete: {short}"));
    }

    #[test]
    fn ready_is_every_day_complete_and_nothing_left() {
        let full = Day { settled: 96, arrived: 96 };
        let ready =
            || Tally { settled: 192, corrected: 3, passed: 2, days: [(3, full), (9, full)].into(), ..Tally::default() };
        assert!(ready().is_ready());
        assert!(!Tally::default().is_ready());
        assert!(!Tally { refused: 1, ..ready() }.is_ready());
        assert!(!Tally { hindered: 1, ..ready() }.is_ready());
        assert!(!Tally { nowhere: 1, ..ready() }.is_ready());
        assert!(!Tally { unread: 1, ..ready() }.is_ready());
        assert!(!Tally { misnamed: 1, ..ready() }.is_ready());
        for short in [Day { settled: 95, arrived: 95 }, Day { settled: 1, arrived: 1 }, Day { settled: 0, arrived: 0 }]
        {
            assert!(!Tally { days: [(3, full), (9, short)].into(), ..ready() }.is_ready());
        }
        let kept = |failed| Some(Kept { written: 1, removed: 1, failed });
        assert!(Tally { statements: kept(0), ..ready() }.is_ready());
        assert!(!Tally { statements: kept(1), ..ready() }.is_ready());
    }

    #[test]
    fn the_last_line_has_every_count_and_the_verdict() {
        let mut tally = Tally {
            settled: 1,
            corrected: 2,
            refused: 3,
            hindered: 4,
            nowhere: 5,
            unread: 6,
            misnamed: 7,
            passed: 8,
            ..Tally::default()
        };
        let due = "quarters: 1 settled (2 corrected), 3 refused, 4 not settled; \
                   files: 5 of no quarter, 6 not read, 7 named otherwise, 8 passed over";
        assert_eq!(tally.to_string(), format!("{due}; not ready to book"));
        tally.statements = Some(Kept { written: 9, removed: 10, failed: 11 });
        let kept = "statements: 9 written, 10 removed, 11 failed";
        assert_eq!(tally.to_string(), format!("{due}; {kept}; not ready to book"));
        let day = Day { settled: 96, arrived: 96 };
        let ready = Tally { settled: 96, days: [(0, day)].into(), ..Tally::default() };
        assert!(ready.to_string().ends_with(", 0 passed over; ready to book"));
    }
}
