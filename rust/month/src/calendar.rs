//! Quarter hours and their names, such as `2026-10-31-q09`.

use std::fmt;

/// Day 0 is 2000-01-01, and this one 2099-12-31.
pub const LAST_DAY: u32 = 36_524;
pub const QUARTERS: u8 = 96;

/// A quarter hour: its day, counted from 2000-01-01, and its number in the day, 0 to 95.
#[derive(Clone, Copy, Debug, PartialEq, Eq, PartialOrd, Ord)]
pub struct Quarter {
    pub day: u32,
    pub quarter: u8,
}

/// A day of the calendar.
#[derive(Clone, Copy, Debug, PartialEq, Eq)]
pub struct Date(pub u32);

impl Quarter {
    /// The quarter of a day and a number, if both are in their ranges.
    pub fn new(day: u32, quarter: u8) -> Option<Quarter> {
        (day <= LAST_DAY && quarter < QUARTERS).then_some(Quarter { day, quarter })
    }

    /// All quarters of a day.
    pub fn all(day: u32) -> impl Iterator<Item = Quarter> {
        (0..QUARTERS).map(move |quarter| Quarter { day, quarter })
    }
}

fn is_leap(year: u32) -> bool {
    year.is_multiple_of(4) && (!year.is_multiple_of(100) || year.is_multiple_of(400))
}

fn days_of_year(year: u32) -> u32 {
    if is_leap(year) { 366 } else { 365 }
}

fn days_of_month(year: u32, month: u32) -> u32 {
    match month {
        2 if is_leap(year) => 29,
        2 => 28,
        4 | 6 | 9 | 11 => 30,
        _ => 31,
    }
}

/// Whether there is such a day in the calendar.
pub fn is_date(year: u32, month: u32, day: u32) -> bool {
    (1..=12).contains(&month) && (1..=days_of_month(year, month)).contains(&day)
}

/// Year, month and day of the month, these two counted from 1.
fn date(mut left: u32) -> (u32, u32, u32) {
    let (mut year, mut month) = (2000, 1);
    while left >= days_of_year(year) {
        left -= days_of_year(year);
        year += 1;
    }
    while left >= days_of_month(year, month) {
        left -= days_of_month(year, month);
        month += 1;
    }
    (year, month, left + 1)
}

impl fmt::Display for Date {
    fn fmt(&self, out: &mut fmt::Formatter) -> fmt::Result {
        let (year, month, day) = date(self.0);
        write!(out, "{year:04}-{month:02}-{day:02}")
    }
}

impl fmt::Display for Quarter {
    fn fmt(&self, out: &mut fmt::Formatter) -> fmt::Result {
        write!(out, "{}-q{:02}", Date(self.day), self.quarter)
    }
}

#[cfg(test)]
mod tests {
    use super::{Date, LAST_DAY, QUARTERS, Quarter, date, is_date};

    #[test]
    fn days_have_their_dates() {
        let dates = [
            (0, "2000-01-01"),
            (30, "2000-01-31"),
            (31, "2000-02-01"),
            (58, "2000-02-28"),
            (59, "2000-02-29"),
            (60, "2000-03-01"),
            (365, "2000-12-31"),
            (366, "2001-01-01"),
            (366 + 58, "2001-02-28"),
            (366 + 59, "2001-03-01"),
            (9_800, "2026-10-31"),
            (10_286, "2028-02-29"),
            (LAST_DAY, "2099-12-31"),
            // Past the files' range: 2100 is no leap year.
            (LAST_DAY + 1, "2100-01-01"),
            (LAST_DAY + 59, "2100-02-28"),
            (LAST_DAY + 60, "2100-03-01"),
        ];
        for (day, due) in dates {
            assert_eq!(Date(day).to_string(), due);
        }
    }

    #[test]
    fn a_day_follows_the_day_before() {
        for day in 1..=LAST_DAY {
            let ((year, month, before), after) = (date(day - 1), date(day));
            let next = [(year, month, before + 1), (year, month + 1, 1), (year + 1, 1, 1)];
            assert!(next.contains(&after), "{before:?} before {after:?}");
            assert!(is_date(after.0, after.1, after.2), "{after:?}");
        }
    }

    #[test]
    fn days_that_are_not_in_the_calendar() {
        for (year, month, day) in
            [(2026, 0, 1), (2026, 13, 1), (2026, 1, 0), (2026, 4, 31), (2026, 2, 29), (2100, 2, 29)]
        {
            assert!(!is_date(year, month, day), "{year} {month} {day}");
        }
        assert!(is_date(2028, 2, 29) && is_date(0, 2, 29) && is_date(9_999, 12, 31));
    }

    #[test]
    fn a_quarter_has_two_digits() {
        assert_eq!(Quarter::new(9_800, 9).expect("in range").to_string(), "2026-10-31-q09");
        assert_eq!(Quarter::new(LAST_DAY, 95).expect("in range").to_string(), "2099-12-31-q95");
    }

    #[test]
    fn ranges_end_where_the_files_do() {
        assert_eq!(Quarter::new(LAST_DAY + 1, 0), None);
        assert_eq!(Quarter::new(u32::MAX, 0), None);
        assert_eq!(Quarter::new(0, QUARTERS), None);
        assert_eq!(Quarter::all(3).count(), 96);
        assert!(Quarter::all(3).all(|quarter| Quarter::new(3, quarter.quarter) == Some(quarter)));
    }
}
