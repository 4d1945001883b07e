//! What an engine is tried with: files of many shapes, damaged ones with the refusal that is due, and a check of what
//! every statement owes its readers. Nothing here knows the reference or the engine.
//!
//! Every draw comes from a seed; a failing trial prints the seed it ran with.

pub mod accepted;
pub mod demands;
pub mod file;
pub mod ladder;
mod many_rounds;
pub mod random;
pub mod refused;
pub mod windless;

use file::{LINE, STATEMENT_HEAD_PS, STATEMENT_HEAD_PT};

/// The answer of an engine: bytes written, or a refusal's number and place.
pub type Answer = Result<usize, (u8, u16)>;

/// One trial: two files and the length of the buffer lent for the statement.
#[derive(Clone, Debug)]
pub struct Case {
    pub name: String,
    pub interval: Vec<u8>,
    pub correction: Vec<u8>,
    pub buffer: usize,
}

/// What a trial ended with: the answer and the whole buffer afterwards.
#[derive(Clone, Debug, PartialEq, Eq)]
pub struct Outcome {
    pub answer: Answer,
    pub buffer: Vec<u8>,
}

impl Case {
    /// Runs an engine on a buffer filled with a pattern, and checks that it left alone what it had to.
    pub fn run(&self, settle: impl FnOnce(&[u8], &[u8], &mut [u8]) -> Answer) -> Result<Outcome, String> {
        let before = pattern(self.buffer);
        let mut buffer = before.clone();
        let answer = settle(&self.interval, &self.correction, &mut buffer);
        let written = answer.unwrap_or(0);
        if written > buffer.len() {
            return Err(format!("{written} bytes in a buffer of {}", buffer.len()));
        }
        if buffer[written..] != before[written..] {
            return Err(format!("touched the buffer past its {written} bytes"));
        }
        Ok(Outcome { answer, buffer })
    }
}

/// What buffers hold before an engine sees them; no two neighbours are alike, and none is 0.
pub fn pattern(length: usize) -> Vec<u8> {
    (0..length).map(|place| (place * 37 % 251) as u8 + 1).collect()
}

/// How far from the needed length every length is tried: a line and a little.
const NEAR: usize = LINE + 2;

/// Lengths of buffer worth trying where a number of bytes is needed: none, few, and all near the edge.
pub fn lengths_near(needed: usize) -> impl Iterator<Item = usize> {
    let near = needed.saturating_sub(NEAR)..=needed + NEAR;
    let few = [STATEMENT_HEAD_PS, STATEMENT_HEAD_PT].into_iter().flat_map(|head| [head - 1, head, head + 1]);
    [0, 1].into_iter().chain(few).filter(move |length| *length + NEAR < needed).chain(near)
}
