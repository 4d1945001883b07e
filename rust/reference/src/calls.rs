//! Merit order: which bands are called, for how much, and each tier's clearing price.

use crate::baseline::Baselines;
use crate::files::{AT_40, MAX_ROWS, Row};
use crate::money::paid_energy;
use crate::share::{Sharer, Sharing, Turns};
use crate::terms::Terms;

#[derive(Clone, Debug, PartialEq, Eq)]
pub struct Calls {
    /// kWh called of each row, by tier.
    pub called: Vec<[u32; 2]>,
    /// Clearing price of each tier in li.
    pub prices: [u16; 2],
    pub uncovered: u32,
}

impl Calls {
    pub(crate) fn new() -> Calls {
        Calls { called: Vec::with_capacity(MAX_ROWS), prices: [0; 2], uncovered: 0 }
    }
}

/// Bid, position of the row and width of a band in one number, from the highest bits down: bands of one tier rise by bid, and
/// by id within a bid.
#[derive(Clone, Copy, PartialEq, Eq, PartialOrd, Ord)]
struct Band(u64);

impl Band {
    fn new(bid: u16, row: u16, width: u32) -> Band {
        Band(u64::from(bid) << 48 | u64::from(row) << 32 | u64::from(width))
    }

    fn bid(self) -> u16 {
        (self.0 >> 48) as u16
    }

    fn row(self) -> usize {
        usize::from((self.0 >> 32) as u16)
    }

    fn width(self) -> u32 {
        self.0 as u32
    }

    fn sharer(self) -> Sharer {
        Sharer { position: self.row(), weight: self.width().into() }
    }
}

/// The bands of each tier, in lists that are used again from quarter to quarter.
///
/// Under any terms tier 1's highest bid is at most tier 2's lowest, and at equal bids tier 1 goes before tier 2.
/// So by rising bid all of tier 1 comes before all of tier 2, and the tiers are called one after the other.
pub(crate) struct MeritOrder {
    tiers: [Vec<Band>; 2],
}

impl MeritOrder {
    pub fn new() -> MeritOrder {
        MeritOrder { tiers: [Vec::with_capacity(MAX_ROWS), Vec::with_capacity(MAX_ROWS)] }
    }

    /// Calls the bands of all offering rows by rising bid, tier 1 before tier 2, until the need is met.
    pub fn call(
        &mut self,
        rows: &[Row],
        baselines: &Baselines,
        need: u32,
        turns: Turns,
        sharing: &mut Sharing,
        calls: &mut Calls,
    ) {
        let Calls { called, prices, uncovered } = calls;
        called.clear();
        called.resize(rows.len(), [0; 2]);
        (*prices, *uncovered) = ([0; 2], need);
        self.list(rows, baselines);
        for (tier, bands) in self.tiers.iter_mut().enumerate() {
            if *uncovered == 0 {
                break;
            }
            let width = width(bands);
            let mut reached = bands.len();
            if width <= *uncovered {
                // The need takes in the whole tier, in whatever order.
                bands.iter().for_each(|band| called[band.row()][tier] = band.width());
                *uncovered -= width;
            } else {
                bands.sort_unstable();
                reached = call_until_met(bands, *uncovered, turns, sharing, |row, kwh| called[row][tier] += kwh);
                *uncovered = 0;
            }
            prices[tier] = clearing_price(&bands[..reached], tier, rows, baselines, called);
        }
    }

    /// Lists all bands that are not empty.
    fn list(&mut self, rows: &[Row], baselines: &Baselines) {
        self.tiers.iter_mut().for_each(Vec::clear);
        for (place, row) in (0..).zip(rows).filter(|(_, row)| row.offered == 1) {
            let (baseline, two_fifths) = (baselines.of_bands(row.capacity), row.at_load(AT_40));
            let widths = [baseline - row.minimum.max(two_fifths), two_fifths.saturating_sub(row.minimum)];
            for (tier, bands) in self.tiers.iter_mut().enumerate() {
                if widths[tier] > 0 {
                    bands.push(Band::new(row.bids[tier], place, widths[tier]));
                }
            }
        }
    }
}

/// Calls the sorted bands of a tier that is wider than the need. Bands of the bid at which the need is met share what is left.
/// The answer is the number of bands up to the last of that bid.
fn call_until_met(
    bands: &[Band],
    mut need: u32,
    turns: Turns,
    sharing: &mut Sharing,
    mut call: impl FnMut(usize, u32),
) -> usize {
    let mut reached = 0;
    for group in bands.chunk_by(|a, b| a.bid() == b.bid()) {
        reached += group.len();
        let width = width(group);
        if width >= need {
            match group {
                [only] => call(only.row(), need),
                _ => sharing.share(need.into(), width.into(), group.iter().map(|band| band.sharer()), turns, call),
            }
            break;
        }
        group.iter().for_each(|band| call(band.row(), band.width()));
        need -= width;
    }
    reached
}

fn width(bands: &[Band]) -> u32 {
    bands.iter().map(|band| band.width()).sum()
}

/// The last unit that delivered sets a tier's price: of the rows of status 0 called there, those with paid energy there
/// count, and the highest of their bids is the price. Nobody delivered: 0 (document 02, request 1).
fn clearing_price(bands: &[Band], tier: usize, rows: &[Row], baselines: &Baselines, called: &[[u32; 2]]) -> u16 {
    let delivers = |row: &Row| paid_energy(row, baselines.of_energy(row.capacity))[tier] > 0;
    let counts = |row: &Row, kwh: u32| row.status == 0 && kwh > 0 && delivers(row);
    let mut price = 0;
    // In sorted bands the last that counts is the highest, so few have to be looked at.
    for band in bands.iter().rev() {
        if band.bid() > price && counts(&rows[band.row()], called[band.row()][tier]) {
            price = band.bid();
        }
    }
    price
}

/// The calls of one quarter by themselves.
pub fn call(rows: &[Row], terms: Terms, need: u32, turns: Turns) -> Calls {
    let baselines = Baselines::of_quarter(rows, terms, need);
    let mut calls = Calls::new();
    MeritOrder::new().call(rows, &baselines, need, turns, &mut Sharing::new(), &mut calls);
    calls
}
