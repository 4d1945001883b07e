//! Draws a month of files that are all accepted: `draw-month FOLDER STATEMENTS FIRST DAYS ROWS SEED [SHAPE]`.
//!
//! Each of the 96 quarters of each day, from day FIRST on, gets an interval file of so many rows, and one in three a correction. Half of
//! the interval files state no terms (`PH`); the others (`PG`) state those of document 01, or one of two that are drawn for the month.
//! One quarter in eight at least is windless once it is corrected, of either form, so that the thermal average rules it.
//! The first day's files lie in FOLDER, those of every other day in a subfolder. STATEMENTS gets the statement that is due for each
//! quarter by the reference. Files are named by the numbers of day and quarter: `9800-09.interval`, `9800-09.correction`,
//! `9800-09.statement`. Rows are of any shape of `cases::accepted`, or of the one named, such as `Mixed`.

use std::error::Error;
use std::fs;
use std::iter;
use std::path::Path;

use cases::accepted::{SHAPES, interval_stating, spoil, terms};
use cases::file::{Interval, STATEMENT_ROOM, Terms};
use cases::random::Random;
use cases::windless;

const USAGE: &str = "draw-month FOLDER STATEMENTS FIRST DAYS ROWS SEED [SHAPE], at most 256 rows";

/// What the interval files of a month state: nothing in half of them.
fn forms(random: &mut Random) -> [Option<Terms>; 6] {
    let mut other = || iter::repeat_with(|| terms(random)).find(|terms| *terms != Terms::OF_01);
    [None, None, None, Some(Terms::OF_01), other(), other()]
}

/// An interval file and its correction, which is empty where there is none.
fn pair(random: &mut Random, interval: Interval) -> (Vec<u8>, Vec<u8>) {
    if !interval.rows.is_empty() && random.once_in(3) {
        let (interval, correction) = spoil(random, interval);
        (interval.bytes(), correction.bytes())
    } else {
        (interval.bytes(), Vec::new())
    }
}

/// Writes the files of one quarter and the statement due.
fn put(folder: &Path, statements: &Path, name: &str, pair: (Vec<u8>, Vec<u8>)) -> Result<(), Box<dyn Error>> {
    let (interval, correction) = pair;
    let mut statement = [0; STATEMENT_ROOM];
    let length = reference::settle(&interval, &correction, &mut statement)
        .map_err(|refusal| format!("{name} is refused: {refusal:?}"))?;
    fs::write(folder.join(format!("{name}.interval")), interval)?;
    if !correction.is_empty() {
        fs::write(folder.join(format!("{name}.correction")), correction)?;
    }
    fs::write(statements.join(format!("{name}.statement")), &statement[..length])?;
    Ok(())
}

fn main() -> Result<(), Box<dyn Error>> {
    let words: Vec<String> = std::env::args().skip(1).collect();
    let ([folder, statements, first, days, rows, seed], rest) = words.split_first_chunk().ok_or(USAGE)?;
    let shape = match rest {
        [] => None,
        [name] => Some(SHAPES.into_iter().find(|shape| format!("{shape:?}") == *name).ok_or(USAGE)?),
        _ => return Err(USAGE.into()),
    };
    let (first, days): (u32, u32) = (first.parse()?, days.parse()?);
    let rows = Some(rows.parse()?).filter(|rows| *rows <= 256).ok_or(USAGE)?;
    let mut random = Random::from_seed(seed.parse()?);
    let forms = forms(&mut random);
    fs::create_dir_all(statements)?;
    for day in first..first + days {
        let folder = if day == first { folder.into() } else { Path::new(folder).join(format!("day {day}")) };
        fs::create_dir_all(&folder)?;
        for quarter in 0..96 {
            let shape = shape.unwrap_or_else(|| random.one_of(&SHAPES));
            let stated = random.one_of(&forms);
            let draw = if random.once_in(8) { windless::lowered } else { interval_stating };
            let interval = Interval { day, quarter, ..draw(&mut random, shape, rows, stated) };
            let pair = pair(&mut random, interval);
            put(&folder, Path::new(statements), &format!("{day}-{quarter:02}"), pair)?;
        }
    }
    Ok(())
}
