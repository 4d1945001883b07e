//! How many quarters something is true of, and where they lie.

use std::fmt;

use crate::calendar::Quarter;

/// Quarters of one sort, not always all from the first to the last.
pub struct Span {
    quarters: usize,
    first: Quarter,
    last: Quarter,
}

impl Span {
    /// One quarter.
    pub fn of(quarter: Quarter) -> Span {
        Span { quarters: 1, first: quarter, last: quarter }
    }

    /// Counts one more. Quarters come in their order.
    pub fn add(&mut self, quarter: Quarter) {
        (self.quarters, self.last) = (self.quarters + 1, quarter);
    }
}

impl fmt::Display for Span {
    fn fmt(&self, out: &mut fmt::Formatter) -> fmt::Result {
        let Span { quarters, first, last } = self;
        if quarters > &1 { write!(out, "{quarters} quarters, {first} to {last}") } else { write!(out, "{first}") }
    }
}

#[cfg(test)]
mod tests {
    use super::Span;
    use crate::calendar::Quarter;

    #[test]
    fn a_span_is_said_by_its_count_its_first_and_its_last() {
        let at = |day, quarter| Quarter::new(day, quarter).expect("in range");
        let mut span = Span::of(at(9_800, 95));
        assert_eq!(span.to_string(), "2026-10-31-q95");
        span.add(at(9_801, 0));
        assert_eq!(span.to_string(), "2 quarters, 2026-10-31-q95 to 2026-11-01-q00");
        span.add(at(9_802, 7));
        assert_eq!(span.to_string(), "3 quarters, 2026-10-31-q95 to 2026-11-02-q07");
    }
}
