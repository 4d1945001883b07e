//! What lies in a folder and its direct subfolders, and the bytes of a file.

use std::fs::{self, DirEntry, File, FileType, Metadata};
use std::io::{self, Read, Seek, SeekFrom};
use std::os::unix::fs::FileTypeExt;
use std::path::{Path, PathBuf};
use std::time::SystemTime;

use wheatrudder::STATEMENT_ROOM;

use crate::words::shown;

/// So many bytes of a file are read: one more than the longest form has, a statement of 256 rows with its terms. An interval file or a
/// correction has at most 5,400, so one that is cut here is still too long, and is refused as the whole file would be.
pub const MOST: usize = STATEMENT_ROOM + 1;

/// So many bytes are read from the end of a longer file: what an archive of the usual kind (zip) ends with.
pub const END: usize = 22;

/// How often a file that changes while it is read is read anew.
const TRIES: usize = 3;

/// A plain file that is to be read.
pub struct Found {
    /// Its name within the folder, as it is printed.
    pub name: String,
    pub path: PathBuf,
}

/// What is not read, and why.
pub struct Unread {
    pub name: String,
    pub reason: String,
    pub is_folder: bool,
}

/// What a folder holds: files in the order of their names, and what is not read.
#[derive(Default)]
pub struct Listing {
    pub files: Vec<Found>,
    pub unread: Vec<Unread>,
}

/// The bytes of a file as they were read, in one go.
#[derive(Debug, PartialEq, Eq)]
pub struct Content {
    /// At most `MOST`, from the front.
    pub bytes: Vec<u8>,
    /// The last bytes of a file that is longer than that; nothing where it was read to its end.
    pub end: Option<Vec<u8>>,
    /// Whether the file stayed as it was from before the first byte until after the last.
    pub steady: bool,
}

impl Content {
    /// A file that was read to its end and did not change.
    #[cfg(test)]
    pub fn whole(bytes: &[u8]) -> Content {
        Content { bytes: bytes.to_vec(), end: None, steady: true }
    }

    /// The last `END` bytes of the file, if it has as many.
    pub fn last(&self) -> Option<&[u8; END]> {
        self.end.as_ref().unwrap_or(&self.bytes).last_chunk()
    }
}

/// Lists a folder and its direct subfolders. Only where the folder itself cannot be listed is there no answer.
pub fn list(folder: &Path) -> io::Result<Listing> {
    let mut listing = Listing::default();
    for entry in entries(folder)? {
        let name = shown(&entry.file_name());
        if entry.file_type().is_ok_and(|kind| kind.is_dir()) {
            listing.add_subfolder(&entry.path(), &name);
        } else {
            listing.add(&entry, name);
        }
    }
    Ok(listing)
}

impl Listing {
    fn add_subfolder(&mut self, path: &Path, name: &str) {
        match entries(path) {
            Ok(entries) => {
                for entry in entries {
                    self.add(&entry, format!("{name}/{}", shown(&entry.file_name())));
                }
            }
            Err(reason) => self.pass(name.to_owned(), reason.to_string(), true),
        }
    }

    fn add(&mut self, entry: &DirEntry, name: String) {
        match entry.file_type() {
            Ok(kind) if kind.is_file() => self.files.push(Found { name, path: entry.path() }),
            Ok(kind) => self.pass(name, no_file(kind).to_owned(), kind.is_dir()),
            Err(reason) => self.pass(name, reason.to_string(), false),
        }
    }

    fn pass(&mut self, name: String, reason: String, is_folder: bool) {
        self.unread.push(Unread { name, reason, is_folder });
    }
}

/// The entries of one folder by their names.
fn entries(folder: &Path) -> io::Result<Vec<DirEntry>> {
    let mut entries = fs::read_dir(folder)?.collect::<io::Result<Vec<DirEntry>>>()?;
    entries.sort_by_cached_key(DirEntry::file_name);
    Ok(entries)
}

/// What an entry is that is no plain file.
fn no_file(kind: FileType) -> &'static str {
    if kind.is_symlink() {
        "a link"
    } else if kind.is_dir() {
        "a folder in a subfolder"
    } else if kind.is_fifo() {
        "a pipe"
    } else if kind.is_socket() {
        "a socket"
    } else {
        "a device"
    }
}

/// Reads a file up to `MOST` bytes, and anew if it changed meanwhile.
pub fn read(path: &Path) -> io::Result<Content> {
    steadily(|| {
        let mut file = File::open(path)?;
        let before = file.metadata()?;
        let (bytes, end) = front_and_end(&mut file, before.len())?;
        Ok(Content { bytes, end, steady: stamp(&before) == stamp(&file.metadata()?) })
    })
}

/// The first `MOST` bytes, and the last ones where there are more. The length is only a guess of how much room they need.
fn front_and_end(file: &mut (impl Read + Seek), length: u64) -> io::Result<(Vec<u8>, Option<Vec<u8>>)> {
    let mut bytes = Vec::with_capacity((MOST + 1).min(length as usize + 1));
    file.take(MOST as u64 + 1).read_to_end(&mut bytes)?;
    if bytes.len() <= MOST {
        return Ok((bytes, None));
    }
    bytes.truncate(MOST);
    let mut end = Vec::with_capacity(END);
    file.seek(SeekFrom::End(-(END as i64)))?;
    file.take(END as u64).read_to_end(&mut end)?;
    Ok((bytes, Some(end)))
}

fn stamp(about: &Metadata) -> (u64, Option<SystemTime>) {
    (about.len(), about.modified().ok())
}

/// The first reading during which nothing changed, or the last of a few.
fn steadily(mut read: impl FnMut() -> io::Result<Content>) -> io::Result<Content> {
    let mut content = read()?;
    for _ in 1..TRIES {
        if !content.steady {
            content = read()?;
        }
    }
    Ok(content)
}

#[cfg(test)]
mod tests {
    use std::io::{self, Cursor};

    use super::{Content, END, MOST, TRIES, front_and_end, steadily};

    #[test]
    fn one_byte_more_than_the_longest_form() {
        assert_eq!(MOST, 10_802);
    }

    #[test]
    fn of_a_long_file_front_and_end_are_read() {
        let bytes: Vec<u8> = (0..40_000_u32).map(|at| (at % 251) as u8).collect();
        for length in [0, 1, END, MOST - 1, MOST] {
            let read = front_and_end(&mut Cursor::new(&bytes[..length]), 0).expect("read");
            assert_eq!(read, (bytes[..length].to_vec(), None));
        }
        for length in [MOST + 1, MOST + END, 40_000] {
            let read = front_and_end(&mut Cursor::new(&bytes[..length]), length as u64).expect("read");
            assert_eq!(read, (bytes[..MOST].to_vec(), Some(bytes[length - END..length].to_vec())));
        }
    }

    #[test]
    fn the_last_bytes_are_those_of_the_file() {
        let whole: Vec<u8> = (0..30).collect();
        assert_eq!(Content::whole(&whole).last().map(|end| end[0]), Some(8));
        assert_eq!(Content::whole(&whole[..END]).last().map(|end| end[0]), Some(0));
        assert_eq!(Content::whole(&whole[..END - 1]).last(), None);
        let long = Content { bytes: vec![1; MOST], end: Some(vec![2; END]), steady: true };
        assert_eq!(long.last(), Some(&[2; END]));
        // It became shorter between two glances.
        let short = Content { bytes: vec![1; MOST], end: Some(vec![2; END - 1]), steady: false };
        assert_eq!(short.last(), None);
    }

    /// Readings one after the other, the number of each as its byte; steady from the given one on.
    fn readings(first_steady: usize) -> (io::Result<Content>, usize) {
        let mut made = 0;
        let content = steadily(|| {
            made += 1;
            Ok(Content { steady: made >= first_steady, ..Content::whole(&[made as u8]) })
        });
        (content, made)
    }

    #[test]
    fn a_file_that_changes_is_read_anew() {
        for steady_at in 1..=TRIES {
            let (content, made) = readings(steady_at);
            assert_eq!(content.expect("read"), Content::whole(&[steady_at as u8]));
            assert_eq!(made, steady_at);
        }
        let (content, made) = readings(TRIES + 1);
        assert_eq!(content.expect("read"), Content { steady: false, ..Content::whole(&[TRIES as u8]) });
        assert_eq!(made, TRIES);
    }

    #[test]
    fn a_file_that_cannot_be_read_is_no_file() {
        let mut made = 0;
        let content = steadily(|| {
            made += 1;
            if made == 1 {
                Ok(Content { steady: false, ..Content::whole(&[1]) })
            } else {
                Err(io::Error::other("gone"))
            }
        });
        assert_eq!(content.expect_err("the second reading failed").to_string(), "gone");
    }
}
