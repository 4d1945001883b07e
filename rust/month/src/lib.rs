//! Settles every quarter hour of which a folder or its direct subfolders hold files, and accounts for every file: docs/MONTH.md says what
//! it prints. Every figure is the engine's; nothing is kept from one run to the next.

mod calendar;
mod folder;
mod known;
mod names;
mod pairing;
mod progress;
mod run;
mod settling;
mod span;
mod statements;
mod tally;
mod terms;
mod text;
mod words;

use std::io::Write;
use std::path::Path;

pub use calendar::Quarter;
pub use progress::Bar;

use run::Run;
use statements::Statements;
use words::shown;

/// Settles a folder, prints what is to be said, and writes the statements if a folder is named for them. The answer is whether the folder
/// is ready to book: every day that it has a file of is complete, and every file is accounted for.
pub fn settle_folder(folder: &Path, statements: Option<&Path>, out: impl Write, bar: Bar) -> Result<bool, String> {
    let listing =
        folder::list(folder).map_err(|reason| format!("cannot read {}: {reason}", shown(folder.as_os_str())))?;
    let statements = statements.map(|statements| Statements::open(statements, folder)).transpose()?;
    let tally = Run::new(out, bar, statements)
        .all(listing)
        .map_err(|reason| format!("cannot print what was found: {reason}"))?;
    Ok(tally.is_ready())
}
