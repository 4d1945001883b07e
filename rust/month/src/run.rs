//! A whole run: every file is read once, then every quarter settled from those bytes.

use std::io::{self, Write};

use crate::calendar::Quarter;
use crate::folder::{self, Content, Found, Listing, MOST, Unread};
use crate::known::{What, what};
use crate::names::otherwise;
use crate::pairing::{Month, Source};
use crate::progress::Bar;
use crate::settling::{Outcome, alone, settle};
use crate::statements::Statements;
use crate::tally::{Kept, Tally};
use crate::words::{ANY, unaccounted};

pub struct Run<W> {
    out: W,
    bar: Bar,
    tally: Tally,
    statements: Option<Statements>,
    /// Where the engine writes; the only statement held.
    buffer: [u8; MOST],
}

impl<W: Write> Run<W> {
    pub fn new(out: W, bar: Bar, statements: Option<Statements>) -> Run<W> {
        let tally = Tally { statements: statements.as_ref().map(|_| Kept::default()), ..Tally::default() };
        Run { out, bar, tally, statements, buffer: [0; MOST] }
    }

    /// Reads and settles what was listed, and prints what is to be said. It fails only where printing does.
    pub fn all(mut self, listing: Listing) -> io::Result<Tally> {
        let month = self.read_all(listing)?;
        self.settle_all(&month)?;
        self.withdraw_missing(&month)?;
        self.count_others()?;
        self.say(&self.tally.days())?;
        for line in self.tally.ruled.lines() {
            self.say(&line)?;
        }
        self.say(&self.tally.to_string())?;
        self.out.flush()?;
        Ok(self.tally)
    }

    fn say(&mut self, line: &str) -> io::Result<()> {
        self.bar.hide();
        writeln!(self.out, "{line}")
    }

    fn read_all(&mut self, listing: Listing) -> io::Result<Month> {
        for Unread { name, reason, is_folder } in listing.unread {
            self.not_read(&name, &reason, is_folder)?;
        }
        let (mut month, all) = (Month::default(), listing.files.len());
        for (done, file) in listing.files.into_iter().enumerate() {
            self.bar.show("reading", done, all);
            self.read(&mut month, file)?;
        }
        Ok(month)
    }

    fn not_read(&mut self, name: &str, reason: &str, is_folder: bool) -> io::Result<()> {
        self.tally.unread += 1;
        let may = if is_folder { "hold" } else { "be" };
        self.say(&format!("{name}: not read: {reason}; it may {may} {ANY}"))
    }

    fn read(&mut self, month: &mut Month, Found { name, path }: Found) -> io::Result<()> {
        let leaf = path.file_name().unwrap_or_default().as_encoded_bytes();
        match folder::read(&path) {
            Ok(content) => self.place(month, name, leaf, content),
            Err(reason) => self.not_read(&name, &reason.to_string(), false),
        }
    }

    /// Puts a file where it belongs, by its bytes, or says why it belongs nowhere. The leaf is its name as the system has it.
    fn place(&mut self, month: &mut Month, name: String, leaf: &[u8], content: Content) -> io::Result<()> {
        let what = what(&content);
        if let Some(said) = otherwise(leaf, what) {
            self.tally.misnamed += 1;
            self.say(&format!("{name}: {said}"))?;
        }
        let copy = match what {
            What::Interval(Some(quarter)) => month.add_interval(quarter, Source { name: name.clone(), content }),
            What::Correction(Some(quarter)) => month.add_correction(quarter, Source { name: name.clone(), content }),
            _ if !content.steady => return self.leave(&name, "it changed while it was read"),
            What::Statement { whole: true, .. } | What::Else(_) => {
                self.tally.passed += 1;
                return Ok(());
            }
            What::Statement { whole: false, .. } => {
                return self.leave(&name, "a statement that is not whole, or of an earlier version");
            }
            What::Interval(None) | What::Correction(None) | What::Coming | What::Unknown => {
                let said = alone(&content.bytes, &mut self.buffer);
                return self.leave(&name, &said);
            }
        };
        match copy {
            Some(first) => {
                self.tally.passed += 1;
                self.say(&format!("{name}: the same bytes as {first}, counted once"))
            }
            None => Ok(()),
        }
    }

    /// Says of a file that it is of no quarter and not accounted for.
    fn leave(&mut self, name: &str, what: &str) -> io::Result<()> {
        self.tally.nowhere += 1;
        self.say(&format!("{name}: {}", unaccounted(what)))
    }

    fn settle_all(&mut self, month: &Month) -> io::Result<()> {
        for (done, (&quarter, held)) in month.quarters.iter().enumerate() {
            self.bar.show("settling", done, month.quarters.len());
            let outcome = settle(quarter, held, &mut self.buffer);
            let day = self.tally.days.entry(quarter.day).or_default();
            day.arrived += usize::from(!held.intervals.is_empty());
            day.settled += usize::from(matches!(outcome, Outcome::Settled { .. }));
            self.conclude(quarter, outcome)?;
        }
        Ok(())
    }

    fn conclude(&mut self, quarter: Quarter, outcome: Outcome) -> io::Result<()> {
        match outcome {
            Outcome::Settled { length, corrected } => {
                self.tally.settled += 1;
                self.tally.corrected += usize::from(corrected);
                if let Some(head) = wheatrudder::head(&self.buffer[..length]) {
                    self.tally.ruled.add(quarter, &head);
                }
                return self.write(quarter, length);
            }
            Outcome::Refused(line) => {
                self.tally.refused += 1;
                self.say(&line)?;
            }
            Outcome::Hindered(lines) => {
                self.tally.hindered += 1;
                for line in lines {
                    self.say(&line)?;
                }
            }
        }
        self.withdraw(quarter, "not settled now")
    }

    /// Writes the statement in the buffer. Where that fails, an older one may not stay in its place.
    fn write(&mut self, quarter: Quarter, length: usize) -> io::Result<()> {
        let (Some(statements), Some(kept)) = (&self.statements, &mut self.tally.statements) else { return Ok(()) };
        match statements.write(quarter, &self.buffer[..length]) {
            Ok(()) => {
                kept.written += 1;
                Ok(())
            }
            Err(reason) => {
                kept.failed += 1;
                self.say(&format!("{quarter}: settled, but its statement could not be written: {reason}"))?;
                self.withdraw(quarter, "not written now")
            }
        }
    }

    /// Removes a statement of an earlier run, so that nobody takes it for one of now.
    fn withdraw(&mut self, quarter: Quarter, why: &str) -> io::Result<()> {
        let (Some(statements), Some(kept)) = (&self.statements, &mut self.tally.statements) else { return Ok(()) };
        match statements.remove(quarter) {
            Ok(false) => Ok(()),
            Ok(true) => {
                kept.removed += 1;
                self.say(&format!("{quarter}: {why}: the statement of an earlier run was removed"))
            }
            Err(reason) => {
                kept.failed += 1;
                self.say(&format!("{quarter}: {why}: the statement of an earlier run could not be removed: {reason}"))
            }
        }
    }

    /// Withdraws the statements of quarters that no file names any more, on days of which another quarter was settled. Other days
    /// may be another month's, or named by one damaged head: they are left alone.
    fn withdraw_missing(&mut self, month: &Month) -> io::Result<()> {
        let days: Vec<u32> = self.tally.days.iter().filter(|(_, day)| day.settled > 0).map(|(&day, _)| day).collect();
        for quarter in days.into_iter().flat_map(Quarter::all) {
            if !month.quarters.contains_key(&quarter) {
                self.withdraw(quarter, "no file now")?;
            }
        }
        Ok(())
    }

    /// Says how many statements lie beside those of this run.
    fn count_others(&mut self) -> io::Result<()> {
        let (Some(statements), Some(kept)) = (&self.statements, &mut self.tally.statements) else { return Ok(()) };
        match statements.count() {
            Ok(count) if count > kept.written => {
                let others = count - kept.written;
                self.say(&format!("other statements in the folder, left as they are: {others}"))
            }
            Ok(_) => Ok(()),
            Err(reason) => {
                kept.failed += 1;
                self.say(&format!("the folder of statements could not be read: {reason}"))
            }
        }
    }
}

#[cfg(test)]
mod tests {
    use super::Run;
    use crate::folder::Content;
    use crate::pairing::Month;
    use crate::progress::Bar;
    use crate::tally::Tally;

    /// What is counted and printed of one file.
    fn placed(name: &str, content: Content) -> (Tally, String) {
        let mut run = Run::new(Vec::new(), Bar::none(), None);
        run.place(&mut Month::default(), name.into(), name.as_bytes(), content).expect("printed");
        (run.tally, String::from_utf8(run.out).expect("text"))
    }

    #[test]
    fn what_changes_is_not_accounted_for_whatever_it_is() {
        let no_rows = [b"PS".as_slice(), &[0; 38]].concat();
        let stated = [b"PT".as_slice(), &[0; 33], b"\x2d\x01\0\x02\0\x02\0\x03\0", &[0; 5]].concat();
        let known = [b"a text that is long enough".as_slice(), b"%PDF-1.4 and so on", &no_rows, &stated];
        for bytes in known.into_iter().chain([b"PK".as_slice(), b"PG", b"?", b""]) {
            let (tally, said) = placed("x", Content { steady: false, ..Content::whole(bytes) });
            assert_eq!((tally.nowhere, tally.passed), (1, 0), "{bytes:?}");
            assert!(said.starts_with("x: not accounted for: it changed while it was read; it may be "), "{said}");
        }
        for bytes in known {
            let (tally, said) = placed("x", Content::whole(bytes));
            assert_eq!((tally.nowhere, tally.passed, said.as_str()), (0, 1, ""), "{bytes:?}");
        }
    }

    #[test]
    fn a_list_of_plants_is_text_or_not_accounted_for() {
        let (tally, _) = placed("plants.csv", Content::whole("1,一号机,Unit 1\n".as_bytes()));
        assert_eq!((tally.nowhere, tally.passed), (0, 1));
        for bytes in [b"".as_slice(), b"1,a\n", b"1,a list with a byte\0 in it\n", b"PU\0\0\0\0, a form to come\n"] {
            let (tally, said) = placed("plants.csv", Content::whole(bytes));
            assert_eq!((tally.nowhere, tally.passed), (1, 0), "{bytes:?}");
            assert!(said.starts_with("plants.csv: not accounted for: "), "{said}");
        }
        let (tally, said) = placed("plants.csv", Content::whole(b"PK\x48\x26\0\0\x09\0\0"));
        assert_eq!((tally.nowhere, tally.passed, said.as_str()), (0, 0, ""), "a correction, whatever it is called");
    }

    #[test]
    fn a_wrong_name_is_said_of_a_file_that_counts_or_is_known() {
        let correction = Content::whole(b"PK\x48\x26\0\0\x09\0\0");
        let (tally, said) = placed("2026-10-31-q12.correction", correction);
        assert_eq!((tally.misnamed, tally.nowhere), (1, 0));
        let due = "named for 2026-10-31-q12, but it is a correction for 2026-10-31-q09\n";
        assert_eq!(said, format!("2026-10-31-q12.correction: {due}"));
        for mark in [b"PH", b"PG"] {
            let interval = [mark.as_slice(), b"\x48\x26\0\0\x09"].concat();
            let (tally, said) = placed("2026-10-31-q12", Content::whole(&interval));
            assert_eq!((tally.misnamed, tally.nowhere), (1, 0));
            assert_eq!(
                said,
                "2026-10-31-q12: named for 2026-10-31-q12, but it is an interval file for 2026-10-31-q09\n"
            );
            let (tally, said) = placed("2026-10-31-q09.interval", Content::whole(&interval));
            assert_eq!((tally.misnamed, tally.nowhere, said.as_str()), (0, 0, ""));
        }
        let (tally, said) = placed("x.Interval", Content::whole(b"a text that is long enough"));
        assert_eq!((tally.misnamed, tally.passed), (1, 1));
        assert_eq!(said, "x.Interval: named as an interval file, but it is text\n");
    }
}
