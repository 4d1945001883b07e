//! Sharing under caps, round by round.

use crate::baseline::Baselines;
use crate::files::{MAX_ROWS, Row};
use crate::money::{pays, solar_or_wind_cap, thermal_cap, thermal_weight};
use crate::share::{Sharer, Sharing, Turns};

/// One row among those who pay. A row that is no payer has weight 0 and cap 0. With every field in range each amount is
/// below 2^32.
#[derive(Clone, Copy, Debug, Default, PartialEq, Eq)]
pub(crate) struct Payer {
    pub weight: u32,
    pub cap: u32,
    pub paid: u32,
    /// The round in which the payer closed at its cap, or 0.
    pub closing: u16,
}

impl Payer {
    fn of(row: &Row, baseline: u32, tariff: u16) -> Payer {
        if !pays(row, baseline) {
            return Payer::default();
        }
        let (weight, cap) = if row.is_thermal() {
            (thermal_weight(row, baseline), thermal_cap(row.metered, tariff))
        } else {
            (row.metered, solar_or_wind_cap(row.metered, tariff))
        };
        Payer { weight, cap: cap as u32, ..Payer::default() }
    }
}

#[derive(Clone, Copy, Debug, PartialEq, Eq)]
pub(crate) struct Rounds {
    /// Rounds in which a payer reached its cap.
    pub count: u16,
    /// Payer visits: the open payers at the start of each round, added up, also of the round in which nobody closes
    /// (document 02, request 8).
    pub visits: u32,
    /// What the caps fail to cover once everybody has closed.
    pub shortfall: u64,
}

/// A payer of weight above 0 that has not closed.
#[derive(Clone, Copy)]
struct Open {
    position: u16,
    weight: u32,
    cap: u32,
}

impl Open {
    fn sharer(&self) -> Sharer {
        Sharer { position: self.position.into(), weight: self.weight.into() }
    }
}

/// The payers of a quarter, in lists that are used again from quarter to quarter.
pub(crate) struct Payers {
    pub of_rows: Vec<Payer>,
    open: Vec<Open>,
    /// The sum of the open weights.
    open_weight: u64,
}

impl Payers {
    pub fn new() -> Payers {
        Payers { of_rows: Vec::with_capacity(MAX_ROWS), open: Vec::with_capacity(MAX_ROWS), open_weight: 0 }
    }

    /// Enters weights and caps; payers with weight above 0 are open.
    pub fn enter(&mut self, rows: &[Row], baselines: &Baselines, tariff: u16) {
        self.of_rows.clear();
        self.open.clear();
        self.open_weight = 0;
        for (position, row) in (0..).zip(rows) {
            let payer = Payer::of(row, baselines.of_energy(row.capacity), tariff);
            self.of_rows.push(payer);
            if payer.weight > 0 {
                self.open.push(Open { position, weight: payer.weight, cap: payer.cap });
                self.open_weight += u64::from(payer.weight);
            }
        }
    }

    /// Has the payers pay the total, in rounds; what is then left is shared among those still open.
    pub fn pay(&mut self, total: u64, turns: Turns, sharing: &mut Sharing) -> Rounds {
        let mut rest = total;
        let (mut count, mut visits) = (0, 0);
        loop {
            let were_open = self.open.len();
            visits += were_open as u32;
            rest -= self.round(rest, count + 1);
            if self.open.len() == were_open {
                break;
            }
            count += 1;
        }
        if self.open.is_empty() {
            return Rounds { count, visits, shortfall: rest };
        }
        let Payers { of_rows, open, open_weight } = self;
        sharing.share(rest, *open_weight, open.iter().map(Open::sharer), turns, |position, part| {
            of_rows[position].paid += part;
        });
        Rounds { count, visits, shortfall: 0 }
    }

    /// One round: every open payer whose part at the round's rate reaches its cap closes. The rate is the same for all, so it
    /// is fixed before anybody closes. The answer is what those who closed pay.
    fn round(&mut self, rest: u64, round: u16) -> u64 {
        let Payers { of_rows, open, open_weight } = self;
        let weight = *open_weight;
        let mut paid = 0;
        open.retain(|payer| {
            let closes = rest * u64::from(payer.weight) >= u64::from(payer.cap) * weight;
            if closes {
                let closed = &mut of_rows[usize::from(payer.position)];
                (closed.paid, closed.closing) = (payer.cap, round);
                paid += u64::from(payer.cap);
                *open_weight -= u64::from(payer.weight);
            }
            !closes
        });
        paid
    }
}
