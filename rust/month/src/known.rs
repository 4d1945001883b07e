//! What a file is, by its bytes alone. A file counts only as an interval file or a correction; it is harmless only where it is known to
//! be a whole statement or something else altogether. What is not known may be a correction that was damaged.
//!
//! No signature here can be had from an interval file or a correction in which one byte was changed, lost or added. A zip is the only one
//! that begins as a file of ours: it has a byte other than 0 where every day in range has 0, and another file's end. Nor can a whole
//! statement be had so: no length of an interval file or a correction is within one byte of a statement's.

use std::fmt;

use wheatrudder::{LINE, STATEMENT_HEAD_PS, STATEMENT_HEAD_PT};

use crate::calendar::Quarter;
use crate::folder::{Content, END};
use crate::terms::are_allowed;
use crate::text::is_text;
use crate::words::is_coming;

/// What a file is. The quarter is the one that its head names, if that is in range.
#[derive(Clone, Copy, Debug, PartialEq, Eq)]
pub enum What {
    Interval(Option<Quarter>),
    Correction(Option<Quarter>),
    Statement {
        at: Option<Quarter>,
        whole: bool,
    },
    /// Something that is no concern of the settlement, in words.
    Else(&'static str),
    /// A form that is announced.
    Coming,
    Unknown,
}

/// What a file is: what is known to be none of ours first, since a zip begins with `PK` and a text may begin with anything, then what
/// begins as a file of ours.
pub fn what(content: &Content) -> What {
    let (bytes, at) = (&content.bytes[..], quarter(&content.bytes));
    match bytes {
        _ if is_zip(content) => What::Else("an archive or office file (zip)"),
        _ if is_text(bytes, content.end.is_some()) => What::Else("text"),
        [b'P', b'H' | b'G', ..] => What::Interval(at),
        [b'P', b'K', ..] => What::Correction(at),
        [b'P', b'S' | b'T', ..] => What::Statement { at, whole: is_whole_statement(content) },
        _ if is_coming(bytes) => What::Coming,
        _ => match signed(bytes) {
            Some(known) => What::Else(known),
            None => What::Unknown,
        },
    }
}

/// Day by the four bytes behind the mark, quarter by the seventh. Whether the rest is whole is for the engine to say: a file that is cut
/// behind its seventh byte is still a file of that quarter.
fn quarter(bytes: &[u8]) -> Option<Quarter> {
    match bytes {
        [_, _, a, b, c, d, quarter, ..] => Quarter::new(u32::from_le_bytes([*a, *b, *c, *d]), *quarter),
        _ => None,
    }
}

/// A zip begins with a file in it that says which version it needs, and ends with the record of its one and only part, without a comment.
fn is_zip(content: &Content) -> bool {
    let begins = matches!(content.bytes[..], [b'P', b'K', 3, 4, 1..=255, 0, ..]);
    let ends = |end: &[u8; END]| end.starts_with(b"PK\x05\x06\0\0\0\0") && end.ends_with(b"\0\0");
    begins && content.last().is_some_and(ends)
}

/// What bytes are that begin with a full signature.
fn signed(bytes: &[u8]) -> Option<&'static str> {
    Some(match bytes {
        [b'%', b'P', b'D', b'F', b'-', b'0'..=b'9', b'.', b'0'..=b'9', ..] => "a PDF file",
        [0x89, b'P', b'N', b'G', b'\r', b'\n', 0x1a, b'\n', ..] => "a picture (PNG)",
        [0xff, 0xd8, 0xff, 0xdb | 0xe0 | 0xe1 | 0xee, ..] => "a picture (JPEG)",
        [b'G', b'I', b'F', b'8', b'7' | b'9', b'a', ..] => "a picture (GIF)",
        [b'I', b'I', b'*', 0, ..] | [b'M', b'M', 0, b'*', ..] => "a picture (TIFF)",
        [0xd0, 0xcf, 0x11, 0xe0, 0xa1, 0xb1, 0x1a, 0xe1, ..] => "an office file (of the old form)",
        [b'7', b'z', 0xbc, 0xaf, 0x27, 0x1c, ..] => "an archive (7z)",
        [b'R', b'a', b'r', b'!', 0x1a, 7, ..] => "an archive (RAR)",
        [0x1f, 0x8b, 8, ..] => "an archive (gzip)",
        [0xfd, b'7', b'z', b'X', b'Z', 0, ..] => "an archive (xz)",
        _ => return None,
    })
}

/// Whether the bytes are a whole statement as it is written now: read to its end, of a quarter in range, as long as its mark and its
/// number of rows say, under terms that are allowed, averaged or not, its ids rising, and every sum in it the one that is due. One of an
/// earlier version has a shorter head, and is none.
fn is_whole_statement(content: &Content) -> bool {
    let bytes = &content.bytes;
    let Some(head) = wheatrudder::head(bytes) else { return false };
    let before_lines = if head.stated { STATEMENT_HEAD_PT } else { STATEMENT_HEAD_PS };
    let fits = content.end.is_none() && bytes.len() == before_lines + LINE * usize::from(head.rows);
    fits && quarter(bytes).is_some()
        && are_allowed(head.terms)
        && wheatrudder::lines(bytes).is_sorted_by(|one, next| one.id < next.id)
        && sums_agree(bytes)
}

fn sums_agree(bytes: &[u8]) -> bool {
    let Some(head) = wheatrudder::head(bytes) else { return false };
    let sum = |figure: fn(&wheatrudder::Line) -> u32| {
        wheatrudder::lines(bytes).map(|line| u64::from(figure(&line))).sum::<u64>()
    };
    let penalties = sum(|line| line.penalty);
    let used = head.shortfall.min(penalties);
    sum(|line| line.compensation) == head.total
        && sum(|line| line.paid).checked_add(head.shortfall) == Some(head.total)
        && sum(|line| line.cut) == head.shortfall - used
        && sum(|line| line.returned) == penalties - used
}

impl fmt::Display for What {
    fn fmt(&self, out: &mut fmt::Formatter) -> fmt::Result {
        let (kind, at, more) = match self {
            What::Interval(at) => ("an interval file", at, ""),
            What::Correction(at) => ("a correction", at, ""),
            What::Statement { at, whole: true } => ("a statement", at, ""),
            What::Statement { at, whole: false } => ("a statement", at, ", not whole"),
            What::Else(known) => return out.write_str(known),
            What::Coming => return out.write_str("of a form that this version does not know"),
            What::Unknown => return out.write_str("unknown"),
        };
        match at {
            Some(at) => write!(out, "{kind} for {at}{more}"),
            None => write!(out, "{kind} for no quarter{more}"),
        }
    }
}

#[cfg(test)]
mod tests {
    use cases::accepted::{SHAPES, Shape, interval_of_either, interval_stating};
    use cases::file::{Correction, INTERVAL_HEAD_PG, INTERVAL_HEAD_PH, Interval, ROW, Terms};
    use cases::random::Random;
    use wheatrudder::{LINE, STATEMENT_HEAD_PS, STATEMENT_HEAD_PT};

    use super::{What, what};
    use crate::calendar::Quarter;
    use crate::folder::{Content, END, MOST};
    use crate::terms::OTHER;

    /// The day whose number has the bytes 3 and 4: a correction of it begins as a zip does.
    const ZIP_DAY: u32 = 0x0403;

    fn of(bytes: &[u8]) -> What {
        what(&Content::whole(bytes))
    }

    fn is_else(bytes: &[u8]) -> bool {
        matches!(of(bytes), What::Else(_))
    }

    fn head(mark: &[u8; 2], day: u32, quarter: u8) -> Vec<u8> {
        [mark.as_slice(), &day.to_le_bytes(), &[quarter]].concat()
    }

    fn at(day: u32, quarter: u8) -> Option<Quarter> {
        Some(Quarter::new(day, quarter).expect("in range"))
    }

    /// Every change of one byte, every lost byte, every byte added anywhere, every cut.
    fn damaged(bytes: &[u8]) -> impl Iterator<Item = Vec<u8>> {
        let changed = (0..bytes.len())
            .flat_map(move |at| (1..=255).map(move |by| [&bytes[..at], &[bytes[at] ^ by], &bytes[at + 1..]].concat()));
        let lost = (0..bytes.len()).map(move |at| [&bytes[..at], &bytes[at + 1..]].concat());
        let added = (0..=bytes.len())
            .flat_map(move |at| (0..=255).map(move |byte| [&bytes[..at], &[byte], &bytes[at..]].concat()));
        let cut = (0..bytes.len()).map(move |length| bytes[..length].to_vec());
        changed.chain(lost).chain(added).chain(cut)
    }

    #[test]
    fn kinds_and_quarters_are_read_from_seven_bytes() {
        for mark in [b"PH", b"PG"] {
            let (long, last) = (vec![0; 400], head(mark, 36_524, 95));
            assert_eq!(of(&last), What::Interval(at(36_524, 95)));
            assert_eq!(of(&[last, long].concat()), What::Interval(at(36_524, 95)));
            for nowhere in [head(mark, 36_525, 0), head(mark, 0, 96), head(mark, 0, 0)[..6].to_vec(), mark.to_vec()] {
                assert_eq!(of(&nowhere), What::Interval(None), "{nowhere:?}");
            }
        }
        for mark in [b"PS", b"PT"] {
            assert_eq!(of(&head(mark, 0x0102, 7)), What::Statement { at: at(258, 7), whole: false });
            assert_eq!(of(&head(mark, 36_525, 0)), What::Statement { at: None, whole: false });
            assert_eq!(of(mark), What::Statement { at: None, whole: false });
        }
        assert_eq!(of(&head(b"PK", 0x0102, 7)), What::Correction(at(258, 7)));
        let nowhere = [
            (head(b"PK", u32::MAX, 0), What::Correction(None)),
            (head(b"PK", 0, 255), What::Correction(None)),
            (head(b"PK", 0, 0)[..2].to_vec(), What::Correction(None)),
            (b"PHONE LIST of everybody in the office".to_vec(), What::Else("text")),
            (b"PGs for the winter, two of them new".to_vec(), What::Else("text")),
            (b"PS: please see the other file too".to_vec(), What::Else("text")),
            (b"PTO: please turn over, there is more".to_vec(), What::Else("text")),
        ];
        for (bytes, due) in nowhere {
            assert_eq!(of(&bytes), due, "{bytes:?}");
        }
    }

    #[test]
    fn what_is_not_known_is_unknown() {
        for mark in [b"pH", b"HP", b"Ph", b"pG", b"GP", b"Pg", b"PF", b"PI", b"PR"] {
            assert_eq!(of(&head(mark, 0, 0)), What::Unknown, "{mark:?}");
        }
        for bytes in [b"P".as_slice(), b"", b"a short text"] {
            assert_eq!(of(bytes), What::Unknown, "{bytes:?}");
        }
        for mark in [b"PU", b"PW"] {
            assert_eq!(of(mark), What::Coming);
            assert_eq!(of(&head(mark, 0x0102, 7)), What::Coming);
            assert_eq!(of(&[mark.as_slice(), b" and a text that is long enough"].concat()), What::Else("text"));
        }
    }

    #[test]
    fn each_signature_is_known_only_when_it_is_full() {
        let signatures: [(&[u8], &str); 19] = [
            (b"%PDF-1.4", "PDF"),
            (b"%PDF-2.0", "PDF"),
            (b"\x89PNG\r\n\x1a\n", "PNG"),
            (b"\xff\xd8\xff\xdb", "JPEG"),
            (b"\xff\xd8\xff\xe0", "JPEG"),
            (b"\xff\xd8\xff\xe1", "JPEG"),
            (b"\xff\xd8\xff\xee", "JPEG"),
            (b"GIF87a", "GIF"),
            (b"GIF89a", "GIF"),
            (b"II*\0", "TIFF"),
            (b"MM\0*", "TIFF"),
            (b"\xd0\xcf\x11\xe0\xa1\xb1\x1a\xe1", "old"),
            (b"7z\xbc\xaf\x27\x1c", "7z"),
            (b"Rar!\x1a\x07", "RAR"),
            (b"\x1f\x8b\x08", "gzip"),
            (b"\xfd7zXZ\0", "xz"),
            // As they go on in files of today.
            (b"%PDF-1.7\n%\xe2\xe3\xcf\xd3\n1 0 obj", "PDF"),
            (b"Rar!\x1a\x07\x01\0", "RAR"),
            (b"\xff\xd8\xff\xe0\0\x10JFIF", "JPEG"),
        ];
        for (signature, due) in signatures {
            let bytes = [signature, &[0; 40]].concat();
            assert!(matches!(of(&bytes), What::Else(said) if said.contains(due)), "{signature:x?}");
        }
        for (signature, _) in &signatures[..16] {
            for length in 0..signature.len() {
                assert_eq!(
                    of(&[&signature[..length], &[0x80; 40]].concat()),
                    What::Unknown,
                    "{signature:x?} to {length}"
                );
            }
            for place in 0..signature.len() {
                let mut bytes = [*signature, &[0; 40]].concat();
                bytes[place] = 0x80;
                assert_eq!(of(&bytes), What::Unknown, "{signature:x?} at {place}");
            }
        }
    }

    #[test]
    fn text_is_known() {
        assert_eq!(of(b"1,Unit 1 of two\n"), What::Else("text"));
        assert_eq!(of("1,一号机,Unit 1".as_bytes()), What::Else("text"));
        let cut = [vec![b'a'; MOST - 1], vec![0xe4]].concat();
        assert_eq!(of(&cut), What::Unknown);
        assert_eq!(what(&Content { end: Some(vec![b'a'; END]), ..Content::whole(&cut) }), What::Else("text"));
    }

    /// A local file, its entry and the end, as `zip -0` writes them.
    fn zip(data: &[u8]) -> Vec<u8> {
        let about =
            [b"\x14\0\0\0\0\0\0\0\x21\0".as_slice(), &[7; 4], &[data.len() as u8, 0, 0, 0].repeat(2), b"\x01\0\0\0"]
                .concat();
        let local = [b"PK\x03\x04", &about[..], b"a", data].concat();
        let entry = [b"PK\x01\x02\x14\0", &about[..], &[0; 14], b"a"].concat();
        let sizes = [entry.len() as u32, local.len() as u32].map(u32::to_le_bytes).concat();
        [&local[..], &entry, b"PK\x05\x06\0\0\0\0\x01\0\x01\0", &sizes, b"\0\0"].concat()
    }

    #[test]
    fn a_zip_is_known_by_both_its_ends() {
        let whole = zip(b"some data");
        assert!(is_else(&whole));
        assert!(is_else(include_bytes!("../tests/files/book.xlsx")));
        let end = whole.len() - END;
        for place in
            [0, 1, 2, 3, 5, end, end + 1, end + 2, end + 3, end + 4, end + 5, end + 6, end + 7, end + 20, end + 21]
        {
            let mut bytes = whole.clone();
            bytes[place] ^= 0x40;
            assert!(!is_else(&bytes), "{place}");
        }
        let mut bytes = whole.clone();
        bytes[4] = 0;
        assert!(matches!(of(&bytes), What::Correction(_)));
        for length in 0..whole.len() {
            assert!(!is_else(&whole[..length]), "{length}");
        }
        assert!(!is_else(&[whole.as_slice(), b"\0"].concat()));
        // A long one, of which only both ends are read.
        let long = [&whole[..], &[0; MOST]].concat()[..MOST].to_vec();
        assert_eq!(of(&long), What::Correction(None));
        let ended = |end: &[u8]| what(&Content { end: Some(end.to_vec()), ..Content::whole(&long) });
        assert!(matches!(ended(&whole[end..]), What::Else(_)));
        assert_eq!(ended(&whole[end - 1..whole.len() - 1]), What::Correction(None));
        assert_eq!(ended(&whole[end + 1..]), What::Correction(None));
    }

    #[test]
    fn no_file_of_ours_becomes_something_else_by_one_damage() {
        for day in [ZIP_DAY, 0, 36_524, 9_800, 0x0a0d, 0x2020] {
            for quarter in [0, 4, 32, 95] {
                let interval = Interval { day, quarter, ..Interval::x(1300) };
                let empty = Correction { rows: Vec::new(), ..interval.correcting(&[]) };
                for bytes in [
                    interval.bytes(),
                    interval.clone().stating(OTHER).bytes(),
                    interval.correcting(&[1]).bytes(),
                    interval.correcting(&[0, 2]).bytes(),
                    empty.bytes(),
                ] {
                    assert!(!is_else(&bytes));
                    for damaged in damaged(&bytes) {
                        let known = of(&damaged);
                        let ours = matches!(known, What::Statement { whole: true, .. });
                        assert!(!ours && !matches!(known, What::Else(_)), "{known:?}: {damaged:x?}");
                    }
                }
            }
        }
    }

    /// What is left of an interval file, of either form, is one wherever the damage spared its mark.
    #[test]
    fn a_damaged_interval_file_is_one_as_long_as_its_mark_stands() {
        for interval in [Interval::x(1300), Interval::x(1300).stating(OTHER), Interval::x(1300).stating(Terms::OF_01)] {
            let bytes = Interval { day: 9_800, quarter: 9, ..interval }.bytes();
            let marked = damaged(&bytes).filter(|damaged| damaged.starts_with(&bytes[..2]));
            for damaged in marked {
                assert!(matches!(of(&damaged), What::Interval(_)), "{damaged:x?}");
            }
        }
    }

    #[test]
    fn no_length_of_a_file_is_within_one_byte_of_a_statements() {
        let lengths = |head: usize, record: usize| (0..=256).map(move |count| head + record * count);
        let statements: Vec<usize> =
            [STATEMENT_HEAD_PS, STATEMENT_HEAD_PT].into_iter().flat_map(|head| lengths(head, LINE)).collect();
        for length in [INTERVAL_HEAD_PH, INTERVAL_HEAD_PG, 9].into_iter().flat_map(|head| lengths(head, ROW)) {
            assert!(statements.iter().all(|statement| statement.abs_diff(length) > 1), "{length}");
        }
    }

    #[test]
    fn a_correction_of_the_zips_day_is_no_zip() {
        let correction = Interval { day: ZIP_DAY, ..Interval::x(1300) }.correcting(&[0]).bytes();
        assert!(correction.starts_with(b"PK\x03\x04\0\0"));
        assert_eq!(of(&correction), What::Correction(at(ZIP_DAY, 0)));
        let mut changed = correction.clone();
        changed[4] = 20;
        assert_eq!(of(&changed), What::Correction(None));
        let mut longer = correction;
        longer.insert(4, 20);
        assert!(longer.starts_with(b"PK\x03\x04\x14\0"));
        assert_eq!(of(&longer), What::Correction(None));
    }

    fn statement(interval: Interval) -> Vec<u8> {
        let mut statement = [0; MOST];
        let interval = Interval { day: 9_800, quarter: 9, ..interval };
        let length = wheatrudder::settle(&interval.bytes(), &[], &mut statement).expect("accepted");
        statement[..length].to_vec()
    }

    #[test]
    fn a_statement_is_whole_when_its_length_ids_and_sums_agree() {
        let (kept, half) =
            (What::Statement { at: at(9_800, 9), whole: true }, What::Statement { at: at(9_800, 9), whole: false });
        for tariff in [1, 100, 1300] {
            for interval in [Interval::x(tariff), Interval::x(tariff).stating(OTHER)] {
                assert_eq!(of(&statement(interval)), kept);
            }
        }
        for (interval, before_lines, mark, other) in
            [(Interval::x(1300), 40, b"PS", b"PT"), (Interval::x(1300).stating(OTHER), 49, b"PT", b"PS")]
        {
            let bytes = statement(interval);
            assert_eq!((bytes.len(), &bytes[..2]), (before_lines + 3 * 42, mark.as_slice()));
            for length in 7..bytes.len() {
                assert_eq!(of(&bytes[..length]), half, "{length}");
            }
            assert_eq!(of(&[bytes.as_slice(), b"x"].concat()), half);
            assert_eq!(of(&[other.as_slice(), &bytes[2..]].concat()), half, "the other form's mark");
            assert_eq!(what(&Content { end: Some(vec![0; END]), ..Content::whole(&bytes) }), half);
            // Total, shortfall, the number of rows, whether it is averaged; id, compensation, cut, payment, penalty and what is
            // returned of the second line.
            let (flag, line) = (before_lines - 1, before_lines + 42);
            for place in [11, 18, 19, 26, 33, flag, line + 3, line + 12, line + 16, line + 28, line + 34, line + 38] {
                let mut bytes = bytes.clone();
                bytes[place] ^= 0x80;
                assert_eq!(of(&bytes), half, "{place}");
            }
            // The ids 1, 2, 3 as 1, 3, 3 and as 1, 1, 3.
            for id in [3, 1] {
                let mut bytes = bytes.clone();
                bytes[line + 2] = id;
                assert_eq!(of(&bytes), half, "{id}");
            }
            for averaged in 0..=255 {
                let mut bytes = bytes.clone();
                bytes[flag] = averaged;
                assert_eq!(of(&bytes), if averaged < 2 { kept } else { half }, "{averaged}");
            }
            let mut far = bytes.clone();
            far[6] = 96;
            assert_eq!(of(&far), What::Statement { at: None, whole: false });
        }
    }

    #[test]
    fn a_statement_of_no_rows_is_whole_when_its_sums_are_0() {
        let stated =
            [head(b"PT", 0, 0), vec![0; 28], b"\x2d\x96\0\xfa\0\x5e\x01\xc2\x01".to_vec(), vec![0; 5]].concat();
        for empty in [[head(b"PS", 0, 0), vec![0; 33]].concat(), stated] {
            assert_eq!(of(&empty), What::Statement { at: at(0, 0), whole: true });
            let mut most = empty;
            most[11..27].fill(0xff);
            assert_eq!(of(&most), What::Statement { at: at(0, 0), whole: false });
        }
    }

    #[test]
    fn a_statement_states_terms_that_are_allowed() {
        let bytes = statement(Interval::x(1300).stating(OTHER));
        let stating = |place: usize, value: u16| {
            let mut bytes = bytes.clone();
            bytes[place..place + 2].copy_from_slice(&value.to_le_bytes());
            of(&bytes)
        };
        let at = at(9_800, 9);
        // The percentage and the lower half of the first limit, then the limits, which stand from byte 36 on.
        for (place, value) in
            [(35, 0x9628), (35, 0x9633), (36, 0), (36, 250), (38, 351), (40, 450), (42, 350), (42, 1_001)]
        {
            assert_eq!(stating(place, value), What::Statement { at, whole: false }, "{place} {value}");
        }
        for (place, value) in
            [(35, 0x9629), (35, 0x9632), (36, 1), (36, 249), (38, 350), (40, 449), (42, 351), (42, 1_000)]
        {
            assert_eq!(stating(place, value), What::Statement { at, whole: true }, "{place} {value}");
        }
    }

    #[test]
    fn the_longest_statements_are_whole() {
        for (stated, due) in [(None, 10_792), (Some(OTHER), 10_801)] {
            let bytes = statement(interval_stating(&mut Random::from_seed(17), Shape::Full, 256, stated));
            assert_eq!((bytes.len(), of(&bytes)), (due, What::Statement { at: at(9_800, 9), whole: true }));
        }
    }

    /// Heads of 39 and 48 bytes, which ended with the visits.
    #[test]
    fn a_statement_of_an_earlier_version_is_not_whole() {
        for (stated, flag) in [(None, STATEMENT_HEAD_PS - 1), (Some(OTHER), STATEMENT_HEAD_PT - 1)] {
            for rows in [0, 1, 2, 12, 256] {
                let mut bytes = statement(interval_stating(&mut Random::from_seed(17), Shape::Mixed, rows, stated));
                assert_eq!(of(&bytes), What::Statement { at: at(9_800, 9), whole: true }, "{rows}");
                bytes.remove(flag);
                assert_eq!(of(&bytes), What::Statement { at: at(9_800, 9), whole: false }, "{rows}");
            }
        }
    }

    #[test]
    fn a_statement_may_have_penalties_and_cuts_and_be_averaged() {
        let mut random = Random::from_seed(17);
        let (mut cuts, mut returned, mut averaged) = ([0; 2], [0; 2], [0; 2]);
        for shape in SHAPES.into_iter().cycle().take(2_100) {
            let mut statement = [0; MOST];
            let interval = interval_of_either(&mut random, shape, 12);
            let length = wheatrudder::settle(&interval.bytes(), &[], &mut statement).expect("accepted");
            assert!(matches!(of(&statement[..length]), What::Statement { at: Some(_), whole: true }), "{shape:?}");
            let form = usize::from(interval.stated.is_some());
            cuts[form] += usize::from(wheatrudder::lines(&statement[..length]).any(|line| line.cut > 0));
            returned[form] += usize::from(wheatrudder::lines(&statement[..length]).any(|line| line.returned > 0));
            averaged[form] += usize::from(wheatrudder::head(&statement[..length]).is_some_and(|head| head.averaged));
        }
        let counts = [cuts, returned, averaged];
        assert!(counts.iter().flatten().all(|count| *count > 50), "{counts:?}");
    }
}
