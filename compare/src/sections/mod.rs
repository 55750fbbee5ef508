//! The sections of the comparison.

use crate::case::Tally;

mod batches;
mod ceilings;
mod chains;
mod damaged_images;
mod damaged_measures;
mod damaged_tables;
mod examples;
mod exercise;
mod extremes;
mod forged;
mod full;
mod histories;
mod homes;
mod lengths;
mod listings;
mod loads;
mod long;
mod measures;
mod points;
mod printed;
mod refusals;
mod salts;
mod sets;
mod shapes;
mod sizes;
mod sorts;
mod ties;
mod universes;

/// The numbers of slots at which random sets and histories are tried.
const SLOTS: [usize; 7] = [1, 2, 3, 7, 64, 1000, 4096];

pub struct Section {
    pub name: &'static str,
    pub run: fn(&mut Tally),
}

/// All sections; the longest first, so that threads finish together.
pub const SECTIONS: [Section; 27] = [
    loads::SECTION,
    batches::SECTION,
    histories::SECTION,
    sets::SECTION,
    chains::SECTION,
    ceilings::SECTION,
    homes::SECTION,
    full::SECTION,
    sizes::SECTION,
    sorts::SECTION,
    shapes::SECTION,
    universes::SECTION,
    damaged_tables::SECTION,
    damaged_images::SECTION,
    forged::SECTION,
    salts::SECTION,
    points::SECTION,
    measures::SECTION,
    damaged_measures::SECTION,
    printed::SECTION,
    listings::SECTION,
    refusals::SECTION,
    lengths::SECTION,
    long::SECTION,
    extremes::SECTION,
    ties::SECTION,
    examples::SECTION,
];

/// The sections that go on for ever with new seeds.
pub const RANDOM_SECTIONS: [Section; 2] = [histories::SECTION, sets::SECTION];
