//! The three functions of the library (include/wheatrudder.h).

use crate::{Answer, Refusal};

// Lengths stand where `size_t` does.
unsafe extern "C" {
    fn wheatrudder_settle(
        interval: *const u8,
        interval_length: usize,
        correction: *const u8,
        correction_length: usize,
        statement: *mut u8,
        statement_length: usize,
    ) -> u64;

    fn wheatrudder_row(
        interval: *const u8,
        interval_length: usize,
        correction: *const u8,
        correction_length: usize,
        id: u16,
        out: *mut u8,
        out_length: usize,
    ) -> u64;

    fn wheatrudder_rewrite(interval: *const u8, interval_length: usize, out: *mut u8, out_length: usize) -> u64;
}

/// Settles an interval file of either form with its correction (empty: none) into a statement.
pub fn settle(interval: &[u8], correction: &[u8], statement: &mut [u8]) -> Answer {
    // SAFETY: each pointer is that of a live slice of the length beside it, and the buffer is borrowed alone. The library
    // reads and writes within them and keeps none of them.
    answer(unsafe {
        wheatrudder_settle(
            interval.as_ptr(),
            interval.len(),
            correction.as_ptr(),
            correction.len(),
            statement.as_mut_ptr(),
            statement.len(),
        )
    })
}

/// Copies the 21 bytes that count for a row; none where nobody names it or the files are refused.
pub fn row(interval: &[u8], correction: &[u8], id: u16, out: &mut [u8]) -> Answer {
    // SAFETY: as in `settle`.
    answer(unsafe {
        wheatrudder_row(
            interval.as_ptr(),
            interval.len(),
            correction.as_ptr(),
            correction.len(),
            id,
            out.as_mut_ptr(),
            out.len(),
        )
    })
}

/// Reads an interval file of either form and writes its contents out again.
pub fn rewrite(interval: &[u8], out: &mut [u8]) -> Answer {
    // SAFETY: as in `settle`.
    answer(unsafe { wheatrudder_rewrite(interval.as_ptr(), interval.len(), out.as_mut_ptr(), out.len()) })
}

/// The number is in the upper 32 bits of the word, the value in the lower.
fn answer(word: u64) -> Answer {
    let (number, value) = ((word >> 32) as u32, word as u32);
    if number == 0 { Ok(value as usize) } else { Err(Refusal { number, place: value }) }
}

#[cfg(test)]
mod tests {
    use super::{Refusal, answer};

    #[test]
    fn a_word_is_number_and_value() {
        assert_eq!(answer(0), Ok(0));
        assert_eq!(answer(10_801), Ok(10_801));
        assert_eq!(answer(7 << 32 | 256), Err(Refusal { number: 7, place: 256 }));
        assert_eq!(answer(14 << 32), Err(Refusal { number: 14, place: 0 }));
    }
}
