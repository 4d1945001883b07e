//! The proved engine behind safe functions, and its statements as figures.
//!
//! ```
//! let interval = include_bytes!(concat!(env!("CARGO_MANIFEST_DIR"), "/../../examples/x.interval"));
//! let mut statement = [0; wheatrudder::STATEMENT_ROOM];
//! let length = wheatrudder::settle(interval, &[], &mut statement).expect("accepted");
//! let head = wheatrudder::head(&statement[..length]).expect("a statement");
//! assert_eq!((head.total, head.shortfall), (90_000, 0));
//! assert_eq!((head.terms, head.stated), (wheatrudder::Terms::OF_01, false)); // a PH file states no terms
//! assert!(!head.averaged); // there is wind, so the thermal average does not rule
//! let paid: Vec<u32> = wheatrudder::lines(&statement[..length]).map(|line| line.paid).collect();
//! assert_eq!(paid, [0, 65_000, 25_000]);
//! ```
//!
//! Every function is thread-safe. All unsafe code of the workspace is in `call`, which hands slices to the library as
//! pointers and lengths.

mod call;
mod statement;

pub use call::{rewrite, row, settle};
pub use statement::{Head, LINE, Line, STATEMENT_HEAD_PS, STATEMENT_HEAD_PT, STATEMENT_ROOM, Terms, head, lines};

/// A refusal: its number, 1 to 11 or 14, and its place, a row counted from 1, or 0.
#[derive(Clone, Copy, Debug, PartialEq, Eq, Hash)]
pub struct Refusal {
    pub number: u32,
    pub place: u32,
}

/// How many bytes were written from the front of the buffer, or a refusal, which changed none.
pub type Answer = Result<usize, Refusal>;
