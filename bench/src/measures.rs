//! The measures of a table's keys.

use btreap::Measure;

/// The lists of a build beside its keys.
pub struct Measures {
    pub lengths: Vec<u64>,
    pub corrections: Vec<i32>,
}

impl Measures {
    /// Measures of so many keys, of which each so many-th is measured. Lengths and
    /// corrections go to and fro between the ends of the rules.
    pub fn of(number: usize, each: usize) -> Measures {
        let measure = |place: usize| match place % each {
            0 => Measure::new(10_000 + spread(place, 30_001), correction(place)),
            _ => Measure::NONE,
        };
        let measures = (1..=number).map(measure);
        Measures {
            lengths: measures.clone().map(|measure| measure.length).collect(),
            corrections: measures.map(|measure| measure.correction).collect(),
        }
    }

    /// That of the key at a place.
    pub fn at(&self, place: usize) -> Measure {
        Measure::new(self.lengths[place], self.corrections[place])
    }

    /// All of them.
    pub fn iter(&self) -> impl Iterator<Item = Measure> + '_ {
        (0..self.lengths.len()).map(|place| self.at(place))
    }
}

/// A number below a bound.
fn spread(place: usize, bound: u64) -> u64 {
    place as u64 * 7_919 % bound
}

fn correction(place: usize) -> i32 {
    spread(place, 10_001) as i32 - 5_000
}
