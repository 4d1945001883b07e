//! The one rule by which a whole amount is divided, and whose turn it is among equal remainders.

use crate::files::MAX_ROWS;

/// The turns of all rows of a file, sharers or not. They begin at the position that is the quarter modulo the number of
/// rows, go on in the file's order, and after the last row comes the first (document 02, request 2).
#[derive(Clone, Copy, Debug, PartialEq, Eq)]
pub struct Turns {
    rows: usize,
    first: usize,
}

impl Turns {
    /// A file without rows has no turns, and nothing is divided by 0.
    pub fn of(quarter: u8, rows: usize) -> Turns {
        Turns { rows, first: usize::from(quarter).checked_rem(rows).unwrap_or(0) }
    }

    /// How many rows have their turn before the row at this position.
    fn before(self, position: usize) -> usize {
        position.checked_sub(self.first).unwrap_or(position + self.rows - self.first)
    }
}

/// One who takes part in a sharing, by its position in the file.
#[derive(Clone, Copy, Debug, PartialEq, Eq)]
pub struct Sharer {
    pub position: usize,
    pub weight: u64,
}

/// A remainder, the turn and the position of its sharer in one number, from the highest bits down: the greater number is
/// the first to get one more. Turns and positions are below 256, remainders far below 2^48.
#[derive(Clone, Copy, PartialEq, Eq, PartialOrd, Ord)]
struct Claim(u64);

impl Claim {
    fn of(remainder: u64, position: usize, turns: Turns) -> Claim {
        let rows_after = MAX_ROWS - 1 - turns.before(position);
        Claim(remainder << 16 | (rows_after as u64) << 8 | position as u64)
    }

    fn position(self) -> usize {
        usize::from(self.0 as u8)
    }
}

/// The rule with the list that it needs, used again from one sharing to the next.
pub(crate) struct Sharing {
    claims: Vec<Claim>,
}

impl Sharing {
    pub fn new() -> Sharing {
        Sharing { claims: Vec::with_capacity(MAX_ROWS) }
    }

    /// Shares an amount in proportion to weights, of which the sum is given too: each gets its quota cut to a whole number,
    /// and what is left goes out one by one to the largest remainders, equal ones by their turns. Without weights nobody
    /// gets anything. A sharer is given its quota first, and the one that it may get of what is left after that.
    pub fn share(
        &mut self,
        amount: u64,
        sum: u64,
        sharers: impl Iterator<Item = Sharer>,
        turns: Turns,
        mut give: impl FnMut(usize, u32),
    ) {
        if sum == 0 || amount == 0 {
            return;
        }
        let mut left = amount;
        self.claims.clear();
        self.claims.extend(sharers.map(|Sharer { position, weight }| {
            let product = amount * weight;
            let quota = product / sum;
            left -= quota;
            give(position, quota as u32);
            Claim::of(product % sum, position, turns)
        }));
        if left > 0 {
            // What is left is fewer than the remainders above 0, so the greatest claims are enough, in any order.
            let first = self.claims.len() - left as usize;
            self.claims.select_nth_unstable(first);
            self.claims[first..].iter().for_each(|claim| give(claim.position(), 1));
        }
    }
}

/// One sharing by itself: what each of the sharers gets.
pub fn share(amount: u64, sharers: &[Sharer], turns: Turns) -> Vec<u64> {
    let sum = sharers.iter().map(|sharer| sharer.weight).sum();
    let mut shares = vec![0; turns.rows];
    Sharing::new().share(amount, sum, sharers.iter().copied(), turns, |position, part| {
        shares[position] += u64::from(part);
    });
    sharers.iter().map(|sharer| shares[sharer.position]).collect()
}
