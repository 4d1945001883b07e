//! What a file's name says. Names decide nothing: they only show that a file is not what somebody took it for.

use crate::calendar::{Quarter, is_date};
use crate::known::What;

/// The kinds of file that a name can say, by its end.
const KINDS: [(&[u8], &str); 3] =
    [(b".interval", "an interval file"), (b".correction", "a correction"), (b".statement", "a statement")];

/// How long a quarter's name is: `2026-10-31-q09`.
const LENGTH: usize = 14;

/// Where a name says something else than the bytes: what it says and what they are. The name is without folders.
pub fn otherwise(name: &[u8], what: What) -> Option<String> {
    let name = name.to_ascii_lowercase();
    let (kind, at) = of_bytes(what);
    let quarters = quarters(&name);
    match KINDS.iter().find(|(end, _)| name.ends_with(end)) {
        Some(&(_, said)) if kind != Some(said) => {
            let quarter = quarters.first().map_or(String::new(), |quarter| format!(" for {quarter}"));
            Some(format!("named as {said}{quarter}, but it is {what}"))
        }
        _ if kind.is_none() => None,
        _ => {
            let at = at.map(|at| at.to_string());
            let other = quarters.into_iter().find(|said| Some(*said) != at.as_deref())?;
            Some(format!("named for {other}, but it is {what}"))
        }
    }
}

/// Kind and quarter by the bytes; no kind where they have no quarter to name.
fn of_bytes(what: What) -> (Option<&'static str>, Option<Quarter>) {
    match what {
        What::Interval(at) => (Some(KINDS[0].1), at),
        What::Correction(at) => (Some(KINDS[1].1), at),
        What::Statement { at, .. } => (Some(KINDS[2].1), at),
        What::Else(_) | What::Coming | What::Unknown => (None, None),
    }
}

/// Every quarter that stands in a name of small letters, as it stands there.
fn quarters(name: &[u8]) -> Vec<&str> {
    let is_digit = |at: Option<usize>| at.and_then(|at| name.get(at)).is_some_and(u8::is_ascii_digit);
    let free = |start: usize| !is_digit(start.checked_sub(1)) && !is_digit(Some(start + LENGTH));
    let windows = name.windows(LENGTH).enumerate().filter(|(start, _)| free(*start));
    windows.filter_map(|(_, window)| str::from_utf8(window).ok().filter(|text| is_quarter(text))).collect()
}

/// Whether it is a quarter as `Quarter` writes it, of a day of any year.
fn is_quarter(text: &str) -> bool {
    let fits = |(letter, form): (u8, u8)| if form == b'0' { letter.is_ascii_digit() } else { letter == form };
    let number = |from: usize, to: usize| text[from..to].parse::<u32>().unwrap_or(u32::MAX);
    text.bytes().zip(*b"0000-00-00-q00").all(fits)
        && is_date(number(0, 4), number(5, 7), number(8, 10))
        && number(12, 14) < 96
}

#[cfg(test)]
mod tests {
    use super::{otherwise, quarters};
    use crate::calendar::Quarter;
    use crate::known::What;

    const AT: Option<Quarter> = Some(Quarter { day: 9_800, quarter: 9 });

    fn said(name: &str, what: What) -> String {
        otherwise(name.as_bytes(), what).unwrap_or_default()
    }

    #[test]
    fn quarters_are_found_anywhere_in_a_name() {
        for name in ["2026-10-31-q09", "a2026-10-31-q09.interval", "a-2026-10-31-q09-2", "\u{e9}2026-10-31-q09b"] {
            assert_eq!(quarters(name.as_bytes()), ["2026-10-31-q09"], "{name}");
        }
        assert_eq!(quarters(b"2024-02-29-q00 2099-12-31-q95"), ["2024-02-29-q00", "2099-12-31-q95"]);
        assert_eq!(quarters(b"\xff2026-10-31-q09\xff"), ["2026-10-31-q09"]);
        assert_eq!(quarters(b"1999-10-31-q09"), ["1999-10-31-q09"], "no file is of that day, so none is what it says");
        let none = [
            "",
            "2026-10-31",
            "2026-10-31-q96",
            "2026-10-31-q099",
            "12026-10-31-q09",
            "2026-10-32-q09",
            "2026-13-01-q09",
            "2026-00-01-q09",
            "2026-01-00-q09",
            "2026-02-29-q09",
            "2100-02-29-q09",
            "2026_10_31_q09",
            "2026-10-31-09",
            "2026-10-31-q+9",
            "+026-10-31-q09",
            "\u{663}026-10-31-q09",
        ];
        for name in none {
            assert_eq!(quarters(name.as_bytes()), [""; 0], "{name}");
        }
    }

    #[test]
    fn a_name_that_says_what_it_is_says_nothing_new() {
        let right = [
            ("2026-10-31-q09.interval", What::Interval(AT)),
            ("2026-10-31-Q09.INTERVAL", What::Interval(AT)),
            ("x.interval", What::Interval(AT)),
            ("x.interval", What::Interval(None)),
            ("late 2026-10-31-q09", What::Correction(AT)),
            ("2026-10-31-q09.correction", What::Correction(AT)),
            ("2026-10-31-q09.statement", What::Statement { at: AT, whole: true }),
            ("2026-10-31-q09.statement", What::Statement { at: AT, whole: false }),
            ("9800-09.correction", What::Correction(AT)),
            ("plants.csv", What::Correction(AT)),
            ("x.interval.txt", What::Else("text")),
            ("2026-10-31-q09.pdf", What::Else("a PDF file")),
            ("2026-10-31-q09", What::Unknown),
            ("", What::Unknown),
        ];
        for (name, what) in right {
            assert_eq!(otherwise(name.as_bytes(), what), None, "{name}");
        }
    }

    #[test]
    fn another_kind_is_said() {
        assert_eq!(said("x.interval", What::Else("text")), "named as an interval file, but it is text");
        assert_eq!(said(".Correction", What::Unknown), "named as a correction, but it is unknown");
        assert_eq!(
            said("2026-10-31-q09.INTERVAL", What::Correction(AT)),
            "named as an interval file for 2026-10-31-q09, but it is a correction for 2026-10-31-q09"
        );
        assert_eq!(
            said("x.statement", What::Interval(None)),
            "named as a statement, but it is an interval file for no quarter"
        );
        assert_eq!(
            said("x.interval", What::Coming),
            "named as an interval file, but it is of a form that this version does not know"
        );
    }

    #[test]
    fn another_quarter_is_said() {
        assert_eq!(
            said("2026-10-31-q12.correction", What::Correction(AT)),
            "named for 2026-10-31-q12, but it is a correction for 2026-10-31-q09"
        );
        assert_eq!(
            said("2026-10-30-Q09", What::Interval(AT)),
            "named for 2026-10-30-q09, but it is an interval file for 2026-10-31-q09"
        );
        assert_eq!(
            said("2026-10-31-q09.interval", What::Interval(None)),
            "named for 2026-10-31-q09, but it is an interval file for no quarter"
        );
        assert_eq!(
            said("2026-10-31-q09.statement", What::Statement { at: None, whole: false }),
            "named for 2026-10-31-q09, but it is a statement for no quarter, not whole"
        );
        // Two quarters in one name: the file can be of one only.
        assert!(
            said("2026-10-31-q09 2026-10-31-q10.interval", What::Interval(AT)).starts_with("named for 2026-10-31-q10,")
        );
    }
}
