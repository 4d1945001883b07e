//! The folder of statements: one file for each settled quarter, none for any other that was looked at.

use std::fs::{self, File};
use std::io::{self, ErrorKind, Write};
use std::path::{Path, PathBuf};
use std::time::{SystemTime, UNIX_EPOCH};

use crate::calendar::Quarter;
use crate::words::shown;

const ENDING: &str = ".statement";

pub struct Statements {
    folder: PathBuf,
    /// The name under which a statement is written before it is renamed. No other run has it.
    part: PathBuf,
}

impl Statements {
    /// Makes the folder if it is not there, and sees that a file can be written in it. It may not lie within the folder that is
    /// settled, where names mean nothing and a statement could take an interval file's place.
    pub fn open(folder: &Path, settled: &Path) -> Result<Statements, String> {
        let trouble = |reason: io::Error| format!("cannot write statements to {}: {reason}", shown(folder.as_os_str()));
        if real(folder).map_err(trouble)?.starts_with(settled.canonicalize().map_err(trouble)?) {
            return Err(format!(
                "{} lies within the folder that is settled: name another for the statements",
                shown(folder.as_os_str())
            ));
        }
        match fs::create_dir(folder) {
            Err(reason) if reason.kind() != ErrorKind::AlreadyExists => return Err(trouble(reason)),
            _ => {}
        }
        let statements = Statements { folder: folder.to_owned(), part: folder.join(part_name()) };
        statements.put(&[]).and_then(|()| fs::remove_file(&statements.part)).map_err(trouble)?;
        Ok(statements)
    }

    /// Writes a statement under another name and renames it, so that no half file ever has its name.
    pub fn write(&self, quarter: Quarter, statement: &[u8]) -> io::Result<()> {
        let written = self.put(statement).and_then(|()| fs::rename(&self.part, self.path(quarter)));
        if written.is_err() {
            // Nothing may be there to remove; the reason that counts is the first.
            let _ = fs::remove_file(&self.part);
        }
        written
    }

    fn put(&self, statement: &[u8]) -> io::Result<()> {
        File::create_new(&self.part)?.write_all(statement)
    }

    /// Removes the statement of a quarter; the answer is whether there was one.
    pub fn remove(&self, quarter: Quarter) -> io::Result<bool> {
        match fs::remove_file(self.path(quarter)) {
            Ok(()) => Ok(true),
            Err(reason) if reason.kind() == ErrorKind::NotFound => Ok(false),
            Err(reason) => Err(reason),
        }
    }

    /// How many statements the folder holds: plain files, by the ends of their names.
    pub fn count(&self) -> io::Result<usize> {
        let mut count = 0;
        for entry in fs::read_dir(&self.folder)? {
            let entry = entry?;
            let named = entry.file_name().as_encoded_bytes().ends_with(ENDING.as_bytes());
            count += usize::from(named && entry.file_type()?.is_file());
        }
        Ok(count)
    }

    fn path(&self, quarter: Quarter) -> PathBuf {
        self.folder.join(format!("{quarter}{ENDING}"))
    }
}

/// Where a folder is, links followed, or would be if it were made.
fn real(folder: &Path) -> io::Result<PathBuf> {
    match (folder.canonicalize(), folder.parent(), folder.file_name()) {
        (Err(reason), Some(parent), Some(name)) if reason.kind() == ErrorKind::NotFound => {
            let parent = if parent.as_os_str().is_empty() { Path::new(".") } else { parent };
            Ok(parent.canonicalize()?.join(name))
        }
        (found, ..) => found,
    }
}

/// A name that no other run takes, nor one that was ended before it could rename.
fn part_name() -> String {
    let now = SystemTime::now().duration_since(UNIX_EPOCH).map_or(0, |since| since.as_nanos());
    format!(".settle-month-{}-{now}.part", std::process::id())
}

#[cfg(test)]
mod tests {
    use std::fs;
    use std::path::PathBuf;

    use super::{Statements, part_name};
    use crate::calendar::Quarter;

    /// An empty folder of this test's own.
    fn scratch(name: &str) -> PathBuf {
        let path = std::env::temp_dir().join(format!("{}{name}", part_name()));
        fs::create_dir(&path).expect("a new folder");
        path
    }

    fn names(folder: &PathBuf) -> Vec<String> {
        let entries = fs::read_dir(folder).expect("a folder");
        let mut names: Vec<String> =
            entries.map(|entry| entry.expect("an entry").file_name().into_string().expect("plain")).collect();
        names.sort();
        names
    }

    #[test]
    fn a_statement_is_written_replaced_and_removed() {
        let work = scratch("written");
        let (folder, settled) = (work.join("new"), scratch("settled"));
        let at = Quarter::new(9_800, 9).expect("in range");
        let statements = Statements::open(&folder, &settled).expect("can be written");
        assert_eq!(names(&folder), [""; 0]);
        fs::write(folder.join("notes.txt"), "kept").expect("written");
        for statement in [b"PS1".as_slice(), b"PT234", b"PS23", b""] {
            statements.write(at, statement).expect("written");
            assert_eq!(fs::read(folder.join("2026-10-31-q09.statement")).expect("there"), statement);
            assert_eq!(names(&folder), ["2026-10-31-q09.statement", "notes.txt"]);
            assert_eq!(statements.count().expect("counted"), 1);
        }
        assert!(statements.remove(at).expect("removed"));
        assert!(!statements.remove(at).expect("nothing there"));
        assert_eq!(names(&folder), ["notes.txt"]);
        fs::remove_dir_all(work).and_then(|()| fs::remove_dir(settled)).expect("removed");
    }

    #[test]
    fn a_failed_write_leaves_nothing() {
        let (folder, settled) = (scratch("taken"), scratch("settled-too"));
        let at = Quarter::new(0, 0).expect("in range");
        fs::create_dir(folder.join("2000-01-01-q00.statement")).expect("a folder in its place");
        let statements = Statements::open(&folder, &settled).expect("can be written");
        statements.write(at, b"PS").expect_err("a folder has its name");
        statements.remove(at).expect_err("a folder is no statement");
        assert_eq!(names(&folder), ["2000-01-01-q00.statement"]);
        assert_eq!(statements.count().expect("counted"), 0);
        fs::remove_dir_all(folder).and_then(|()| fs::remove_dir(settled)).expect("removed");
    }

    #[test]
    fn statements_never_go_into_the_folder_that_is_settled() {
        let settled = scratch("both");
        let inside = settled.join("inside");
        for folder in [&settled, &inside, &settled.join("inside/../inside")] {
            assert!(Statements::open(folder, &settled).is_err_and(|reason| !reason.is_empty()));
        }
        assert!(!inside.exists());
        let beside = settled.with_extension("beside");
        assert!(Statements::open(&beside, &settled).is_ok());
        assert!(Statements::open(&settled.join("no/such"), &settled).is_err());
        fs::remove_dir(settled).and_then(|()| fs::remove_dir(beside)).expect("removed");
    }
}
