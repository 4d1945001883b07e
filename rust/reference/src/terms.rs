//! The terms of an interval: its baseline and the limits of its bids (document 02, request 6).

use crate::files::u16_at;

/// A percentage in one byte and four limits in two each.
pub(crate) const TERMS: usize = 9;

#[derive(Clone, Copy, Debug, PartialEq, Eq)]
pub struct Terms {
    /// The baseline in percent of full load.
    pub percent: u8,
    /// Tier 1's lowest and highest bid, then tier 2's, in li.
    pub limits: [u16; 4],
}

impl Terms {
    /// The terms of a file that states none.
    pub const OF_01: Terms = Terms { percent: 50, limits: [100, 320, 320, 750] };

    pub(crate) fn read(bytes: &[u8; TERMS]) -> Terms {
        Terms { percent: bytes[0], limits: [1, 3, 5, 7].map(|at| u16_at(bytes, at)) }
    }

    pub(crate) fn bytes(&self) -> [u8; TERMS] {
        let mut bytes = [self.percent; TERMS];
        for (limit, place) in self.limits.iter().zip(bytes[1..].chunks_exact_mut(2)) {
            place.copy_from_slice(&limit.to_le_bytes());
        }
        bytes
    }

    /// Check 14. Only tier 1's highest bid and tier 2's lowest may be the same.
    pub(crate) fn in_range(&self) -> bool {
        let [lowest_1, highest_1, lowest_2, highest_2] = self.limits;
        let rising = lowest_1 < highest_1 && highest_1 <= lowest_2 && lowest_2 < highest_2;
        (41..=50).contains(&self.percent) && lowest_1 >= 1 && rising && highest_2 <= 1_000
    }

    /// The baseline of so many MW, cut to whole kWh. Full load is 250 kWh for each MW, so one percent of it is 5 kWh for every two.
    pub fn baseline(&self, capacity: u16) -> u32 {
        u32::from(capacity) * u32::from(self.percent) * 5 / 2
    }
}
