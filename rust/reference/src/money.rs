//! What one row is paid for, what it weighs among the payers, and the most it pays. Its energy is measured from a baseline,
//! which is that of the terms or the thermal average.

use crate::files::{AT_40, AT_60, AT_70, Row};

/// Li brought to fen, half a fen upward.
pub fn fen(li: u64) -> u64 {
    (li + 5) / 10
}

/// The energy below the baseline that is paid for in each tier. An average may lie in tier 2, which then begins there.
pub fn paid_energy(row: &Row, baseline: u32) -> [u32; 2] {
    let two_fifths = row.at_load(AT_40);
    [baseline.saturating_sub(row.metered.max(two_fifths)), baseline.min(two_fifths).saturating_sub(row.metered)]
}

/// What a row receives in fen before any cut, given its calls and the clearing prices in li.
pub fn compensation(row: &Row, called: [u32; 2], prices: [u16; 2], baseline: u32) -> u64 {
    if !row.is_thermal() || row.status != 0 {
        return 0;
    }
    let energy = paid_energy(row, baseline);
    let li = |tier: usize| if called[tier] > 0 { u64::from(energy[tier]) * u64::from(prices[tier]) } else { 0 };
    fen(li(0) + li(1))
}

/// What a thermal row of status 2 owes in fen for the energy that it was called for and did not deliver, tier by tier at
/// twice the price (document 02, request 4). More than was called in one tier does not make up for less in the other.
pub fn penalty(row: &Row, called: [u32; 2], prices: [u16; 2], baseline: u32) -> u64 {
    if !row.is_thermal() || row.status != 2 {
        return 0;
    }
    let delivered = paid_energy(row, baseline);
    let li = |tier: usize| 2 * u64::from(called[tier].saturating_sub(delivered[tier])) * u64::from(prices[tier]);
    fen(li(0) + li(1))
}

/// Whether a row shares in the payment, perhaps with a weight of 0.
pub(crate) fn pays(row: &Row, baseline: u32) -> bool {
    if row.is_thermal() { row.status != 3 && row.metered >= baseline } else { row.status == 0 }
}

/// Corrected energy of a thermal row: single from the baseline, double from 60 percent, threefold from 70.
/// Each further step adds the energy above it once more.
pub fn thermal_weight(row: &Row, baseline: u32) -> u32 {
    let steps = [baseline, row.at_load(AT_60), row.at_load(AT_70)];
    steps.into_iter().map(|step| row.metered.saturating_sub(step)).sum()
}

pub fn thermal_cap(kwh: u32, tariff: u16) -> u64 {
    u64::from(kwh) * u64::from(tariff) / 400
}

pub fn solar_or_wind_cap(kwh: u32, tariff: u16) -> u64 {
    u64::from(kwh) * u64::from(tariff) / 200
}
