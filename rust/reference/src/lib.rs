//! The settlement of one quarter hour, written from document 01 and the requests of document 02
//! that have landed, without a look at the definitions or the engine.
//!
//! It is what both are compared with: byte for byte in the differential tests, and in speed in the benchmark.
//! For the benchmark it is written as an ordinary program is for speed: a `Desk` holds all lists and takes memory once.
//! Products stay in `u64`: with every field in its range the largest, that of the penalties together and one of
//! them, is below 2^60.

mod accounts;
mod baseline;
mod calls;
mod desk;
mod files;
mod money;
mod rounds;
mod share;
mod statement;
mod terms;

pub use baseline::Baselines;
pub use calls::{Calls, call};
pub use desk::Desk;
pub use files::{
    CORRECTION_HEAD, INTERVAL_HEAD_PG, INTERVAL_HEAD_PH, Interval, MAX_ROWS, ROW, Refusal, Row, read_interval, rewrite,
    write_interval,
};
pub use money::{compensation, fen, paid_energy, penalty, solar_or_wind_cap, thermal_cap, thermal_weight};
pub use share::{Sharer, Turns, share};
pub use statement::{LINE, STATEMENT_HEAD_PS, STATEMENT_HEAD_PT, lines_of_text};
pub use terms::Terms;

/// One byte more than the longest interval file of either form: reading further cannot change what `tell` prints.
pub const TELL_READS: usize = INTERVAL_HEAD_PG + ROW * MAX_ROWS + 1;

/// Settles one quarter at a desk of its own; see `Desk::settle`.
pub fn settle(interval: &[u8], correction: &[u8], statement: &mut [u8]) -> Result<usize, Refusal> {
    Desk::new().settle(interval, correction, statement)
}

/// The 21 bytes that count for a row: the correction's where it names the row, else the interval's.
/// Empty if neither names it, or if the pair of files is refused by one of the checks 1 to 10, or 14.
pub fn counting_row<'a>(interval: &'a [u8], correction: &'a [u8], id: u16) -> &'a [u8] {
    let Ok(head) = files::read_pair(interval, correction, &mut Vec::new(), &mut Vec::new()) else {
        return &[];
    };
    let corrected = correction.get(CORRECTION_HEAD..).unwrap_or_default();
    files::row_bytes(corrected, id).or_else(|| files::row_bytes(&interval[head.length()..], id)).unwrap_or_default()
}

/// What the program `tell` prints for an interval file without correction.
pub fn tell(interval: &[u8]) -> String {
    let mut statement = vec![0; STATEMENT_HEAD_PT + LINE * MAX_ROWS];
    match settle(interval, &[], &mut statement) {
        Ok(length) => lines_of_text(&statement[..length]),
        Err((number, place)) => format!("refused {number} {place}\n"),
    }
}
