//! `settle-month FOLDER [STATEMENTS]`: docs/MONTH.md.
//!
//! Exit status: 0 if the folder is ready to book, 1 if it is not, 2 if it could not run.

use std::env;
use std::ffi::OsString;
use std::io::{self, Write};
use std::path::Path;
use std::process::ExitCode;

use month::{Bar, settle_folder};

const USAGE: &str = "usage: settle-month FOLDER [STATEMENTS]";

fn main() -> ExitCode {
    let words: Vec<OsString> = env::args_os().skip(1).collect();
    let settle = |folder: &OsString, statements: Option<&OsString>| {
        settle_folder(Path::new(folder), statements.map(Path::new), io::stdout().lock(), Bar::on_terminal())
    };
    let ready = match &words[..] {
        [folder] => settle(folder, None),
        [folder, statements] => settle(folder, Some(statements)),
        _ => Err(USAGE.into()),
    };
    match ready {
        Ok(true) => ExitCode::SUCCESS,
        Ok(false) => ExitCode::from(1),
        Err(reason) => {
            // Where standard error is closed, the status alone tells.
            let _ = writeln!(io::stderr(), "settle-month: {reason}");
            ExitCode::from(2)
        }
    }
}
