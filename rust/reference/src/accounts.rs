//! What the called rows receive and owe: compensations and cuts, penalties and what is returned of them.

use crate::baseline::Baselines;
use crate::calls::Calls;
use crate::files::{MAX_ROWS, Row};
use crate::money::{compensation, penalty};
use crate::share::{Sharer, Sharing, Turns};

/// The fen of one row; with every field in range each amount is below 2^32.
#[derive(Clone, Copy, Debug, Default, PartialEq, Eq)]
pub(crate) struct Account {
    pub compensation: u32,
    pub cut: u32,
    pub penalty: u32,
    pub returned: u32,
}

/// The accounts of all rows, in lists that are used again from quarter to quarter.
pub(crate) struct Accounts {
    pub of_rows: Vec<Account>,
    /// The rows that receive something, with their compensations.
    receivers: Vec<Sharer>,
    /// The rows that owe something, with their penalties.
    owing: Vec<Sharer>,
    /// Total compensation.
    pub total: u64,
    penalty_money: u64,
}

impl Accounts {
    pub fn new() -> Accounts {
        Accounts {
            of_rows: Vec::with_capacity(MAX_ROWS),
            receivers: Vec::with_capacity(MAX_ROWS),
            owing: Vec::with_capacity(MAX_ROWS),
            total: 0,
            penalty_money: 0,
        }
    }

    /// Enters compensations and penalties.
    pub fn enter(&mut self, rows: &[Row], baselines: &Baselines, calls: &Calls) {
        self.of_rows.clear();
        self.of_rows.resize(rows.len(), Account::default());
        self.receivers.clear();
        self.owing.clear();
        (self.total, self.penalty_money) = (0, 0);
        for (position, (row, &called)) in rows.iter().zip(&calls.called).enumerate() {
            // Who was not called neither receives nor owes anything.
            if called == [0, 0] {
                continue;
            }
            let baseline = baselines.of_energy(row.capacity);
            let account = &mut self.of_rows[position];
            let compensation = compensation(row, called, calls.prices, baseline);
            if compensation > 0 {
                account.compensation = compensation as u32;
                self.total += compensation;
                self.receivers.push(Sharer { position, weight: compensation });
            }
            let penalty = penalty(row, called, calls.prices, baseline);
            if penalty > 0 {
                account.penalty = penalty as u32;
                self.penalty_money += penalty;
                self.owing.push(Sharer { position, weight: penalty });
            }
        }
    }

    /// Penalty money fills the shortfall first; receivers are cut by what it leaves open, and what it has over goes back.
    pub fn cut_and_return(&mut self, shortfall: u64, turns: Turns, sharing: &mut Sharing) {
        let Accounts { of_rows, receivers, owing, total, penalty_money } = self;
        let filled = shortfall.min(*penalty_money);
        sharing.share(shortfall - filled, *total, receivers.iter().copied(), turns, |position, part| {
            of_rows[position].cut += part;
        });
        sharing.share(*penalty_money - filled, *penalty_money, owing.iter().copied(), turns, |position, part| {
            of_rows[position].returned += part;
        });
    }
}
