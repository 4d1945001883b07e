//! What is printed for people: a refusal in words, and file names of any bytes.

use std::ffi::OsStr;

use wheatrudder::Refusal;

/// The forms of file that are announced and that this engine does not know.
const COMING: [&[u8]; 2] = [b"PU", b"PW"];

/// A refusal as `tell` prints it, and in words. The id is the one that stands at its place, if there is one.
pub fn refused(refusal: Refusal, id: Option<u16>) -> String {
    format!("refused {} {}: {}", refusal.number, refusal.place, words(refusal, id))
}

fn words(refusal: Refusal, id: Option<u16>) -> String {
    let entry = match id {
        Some(id) => format!("{} (id {id})", refusal.place),
        None => refusal.place.to_string(),
    };
    match (refusal.number, refusal.place) {
        (1, _) => "The file is shorter than its head (15 bytes, or 24 if it begins with PG).".into(),
        (2, _) => "It begins with neither PH nor PG: no interval file.".into(),
        (3, _) => "Day, quarter, tariff, need or number of rows is out of range.".into(),
        (4, _) => "The length does not fit the number of rows: bytes were lost or added.".into(),
        (5, _) => format!("Entry {entry} does not begin with PR: damaged."),
        (6, _) => format!("A figure of entry {entry} is out of range."),
        (7, _) => format!("The id of entry {entry} is not above the one before."),
        (8, 0) => "The correction itself is faulty, at its head or length.".into(),
        (8, _) => format!("The correction itself is faulty, at entry {entry}."),
        (9, _) => "The correction is for another day or quarter: a fault of this program, report it.".into(),
        (10, _) => {
            format!("Entry {entry} of the correction names no row, or changes more than meter reading and status.")
        }
        (11, _) => "The buffer lent for the statement is too short: a fault of this program, report it.".into(),
        (14, _) => {
            "The terms that the head states are out of range: the baseline, or the limits of bids, which have to rise from tier to tier.".into()
        }
        (number, place) => {
            format!("Refused by check {number}, entry {place}; this version has no words for it.")
        }
    }
}

/// Whether a file is of a form that is announced.
pub fn is_coming(bytes: &[u8]) -> bool {
    bytes.get(..2).is_some_and(|mark| COMING.contains(&mark))
}

/// What to add where a file is of a form that is announced.
pub fn coming(bytes: &[u8]) -> &'static str {
    if is_coming(bytes) { " This version does not know this form." } else { "" }
}

/// Why one file is trouble for every quarter: it may be, or hold, this.
pub const ANY: &str = "a correction of any quarter, so no figure is final";

/// What is said of a file that is not accounted for, whatever it is.
pub fn unaccounted(what: &str) -> String {
    format!("not accounted for: {}; it may be {ANY}", what.trim_end_matches('.'))
}

/// A file name that can be printed on one line: what is no UTF-8, no letter that shows, or a backslash is escaped, so that two
/// names never look the same.
pub fn shown(name: &OsStr) -> String {
    let mut text = String::new();
    for chunk in name.as_encoded_bytes().utf8_chunks() {
        for letter in chunk.valid().chars() {
            if letter == '\\' || is_hidden(letter) {
                text.extend(letter.escape_default());
            } else {
                text.push(letter);
            }
        }
        text.extend(chunk.invalid().iter().map(|byte| format!("\\x{byte:02x}")));
    }
    text
}

/// Control characters, line ends and marks without width, among them those that turn the direction of writing.
fn is_hidden(letter: char) -> bool {
    let without_width =
        ['\u{ad}', '\u{61c}', '\u{feff}'].contains(&letter) || ('\u{200b}'..='\u{200f}').contains(&letter);
    let turning = ('\u{2028}'..='\u{202e}').contains(&letter) || ('\u{2060}'..='\u{206f}').contains(&letter);
    letter.is_control() || without_width || turning
}

#[cfg(test)]
mod tests {
    use std::ffi::OsStr;
    use std::os::unix::ffi::OsStrExt;

    use wheatrudder::Refusal;

    use super::{coming, is_coming, refused, shown, unaccounted};

    #[test]
    fn every_number_has_words_of_its_own() {
        let numbers = || (1..=11).chain([14]);
        let said: Vec<String> = numbers().map(|number| refused(Refusal { number, place: 3 }, None)).collect();
        for (number, text) in numbers().zip(&said) {
            let start = format!("refused {number} 3: ");
            assert!(text.starts_with(&start) && text.len() > start.len() + 20, "{text}");
            assert!(!text.contains("no words"), "{text}");
            let words = |text: &String| text.split_once(": ").map(|parts| parts.1.to_owned());
            assert_eq!(said.iter().filter(|other| words(other) == words(text)).count(), 1, "{text}");
        }
    }

    #[test]
    fn words_name_the_place_where_there_is_one() {
        for number in [5, 6, 7, 8, 10] {
            let text = refused(Refusal { number, place: 256 }, Some(753));
            assert!(text.starts_with(&format!("refused {number} 256: ")), "{text}");
            assert!(text.contains("ntry 256 (id 753)"), "{text}");
            assert!(refused(Refusal { number, place: 256 }, None).contains("ntry 256"), "{text}");
        }
        assert_eq!(
            refused(Refusal { number: 8, place: 0 }, None),
            "refused 8 0: The correction itself is faulty, at its head or length."
        );
        assert_eq!(
            refused(Refusal { number: 6, place: 3 }, Some(9)),
            "refused 6 3: A figure of entry 3 (id 9) is out of range."
        );
    }

    #[test]
    fn a_later_number_is_said_too() {
        let text = refused(Refusal { number: 17, place: 2 }, None);
        assert_eq!(text, "refused 17 2: Refused by check 17, entry 2; this version has no words for it.");
    }

    #[test]
    fn announced_forms_are_told_from_others() {
        assert!(coming(b"PW1234").contains("does not know"));
        assert!(coming(b"PU").contains("does not know"));
        for other in [b"PH".as_slice(), b"PG", b"PT", b"P", b"", b"xPW"] {
            assert_eq!(coming(other), "");
            assert!(!is_coming(other));
        }
    }

    #[test]
    fn what_is_not_accounted_for_is_one_sentence() {
        let due = "not accounted for: It is odd; it may be a correction of any quarter, so no figure is final";
        assert_eq!(unaccounted("It is odd."), due);
        assert_eq!(unaccounted("It is odd"), due);
    }

    #[test]
    fn plain_names_are_left_alone() {
        for name in ["2026-10-31-q09.interval", "with space, comma", "第一天 ü", ".hidden", ""] {
            assert_eq!(shown(OsStr::new(name)), name);
        }
    }

    #[test]
    fn names_of_any_bytes_stay_on_one_line() {
        assert_eq!(shown(OsStr::from_bytes(b"a\xff\xfeb\nc\x1b[31m")), "a\\xff\\xfeb\\nc\\u{1b}[31m");
        assert_eq!(shown(OsStr::from_bytes(b"\xe7\xac")), "\\xe7\\xac");
        assert_eq!(shown(OsStr::new("a\\xff")), "a\\\\xff");
        assert_eq!(shown(OsStr::new("x\u{202e}lavretni.y\u{200b}\u{2028}")), "x\\u{202e}lavretni.y\\u{200b}\\u{2028}");
        let every: Vec<u8> = (1..=255).filter(|byte| *byte != b'/').collect();
        let text = shown(OsStr::from_bytes(&every));
        assert!(text.chars().all(|letter| !letter.is_control()), "{text}");
    }
}
