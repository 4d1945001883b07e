//! The baselines of a quarter: where bands begin, and what energies are measured from (document 02, request 9).

use crate::files::Row;
use crate::terms::Terms;

/// Bands always begin at the baseline of the terms. Energies are measured from it too, unless the thermal average rules.
#[derive(Clone, Copy, Debug, PartialEq, Eq)]
pub struct Baselines {
    terms: Terms,
    average: Option<Average>,
}

/// The metered energy and the capacity of all thermal rows together.
#[derive(Clone, Copy, Debug, PartialEq, Eq)]
struct Average {
    energy: u32,
    capacity: u32,
}

impl Baselines {
    /// Those of the terms, whatever the rows.
    pub fn of_terms(terms: Terms) -> Baselines {
        Baselines { terms, average: None }
    }

    /// Those of a quarter: the thermal average rules where energy is needed, there is neither wind nor sun, and no thermal
    /// row, of which there is one, is above the baseline of the terms. All rows count, whatever their status.
    pub fn of_quarter(rows: &[Row], terms: Terms, need: u32) -> Baselines {
        let average = if need > 0 { Average::of_low(rows, terms) } else { None };
        Baselines { terms, average }
    }

    /// Whether the thermal average rules.
    pub fn averaged(&self) -> bool {
        self.average.is_some()
    }

    /// Where the bands of so many MW begin.
    pub(crate) fn of_bands(&self, capacity: u16) -> u32 {
        self.terms.baseline(capacity)
    }

    /// What the energy of so many MW is measured from.
    pub fn of_energy(&self, capacity: u16) -> u32 {
        match self.average {
            None => self.terms.baseline(capacity),
            Some(average) => average.of(capacity),
        }
    }
}

impl Average {
    /// The average of rows of which none is above its limit, if one of them is thermal. The first that is ends the search.
    fn of_low(rows: &[Row], terms: Terms) -> Option<Average> {
        let (mut energy, mut capacity) = (0, 0);
        for row in rows {
            let (highest, thermal_capacity) =
                if row.is_thermal() { (terms.baseline(row.capacity), row.capacity.into()) } else { (0, 0) };
            if row.metered > highest {
                return None;
            }
            energy += row.metered;
            capacity += thermal_capacity;
        }
        (capacity > 0).then_some(Average { energy, capacity })
    }

    /// The average energy of so many MW, cut to whole kWh once it is worked out.
    fn of(self, capacity: u16) -> u32 {
        let product = u64::from(capacity) * u64::from(self.energy);
        (product / u64::from(self.capacity)) as u32
    }
}
