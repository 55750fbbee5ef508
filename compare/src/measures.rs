//! Measures of keys: within the rules, and outside them in every way.

use crate::list::List;
use crate::random::Random;
use reference::measure::Measure;
use reference::Set;

/// Measures at the ends of the rules and next to them, and that of a key which is
/// not measured.
pub const CORNERS: [Measure; 12] = [
    Measure::NONE,
    Measure::new(10_000, -5_000),
    Measure::new(10_000, 0),
    Measure::new(10_000, 5_000),
    Measure::new(10_001, -4_999),
    Measure::new(26_500, -1),
    Measure::new(26_500, 0),
    Measure::new(32_768, 1),
    Measure::new(39_999, 4_999),
    Measure::new(40_000, -5_000),
    Measure::new(40_000, 0),
    Measure::new(40_000, 5_000),
];

/// Measures outside the rules. Some would be within them if a number were cut to
/// fewer bits, taken for a signed one or for an unsigned one; the last two if both
/// were packed in one before they are judged.
pub const WRONG: [Measure; 29] = [
    Measure::new(9_999, 0),
    Measure::new(40_001, 0),
    Measure::new(1, 0),
    Measure::new(1, 1),
    Measure::new(5_000, 0),
    Measure::new(65_535, 0),
    Measure::new(65_536, 0),
    Measure::new(65_536 + 10_000, 0),
    Measure::new((1 << 32) + 26_500, 0),
    Measure::new(1 << 32, 0),
    Measure::new(1 << 63, 0),
    Measure::new((1 << 63) + 26_500, 0),
    Measure::new(u64::MAX - 26_500, 0),
    Measure::new(u64::MAX, 0),
    Measure::new(10_000, -5_001),
    Measure::new(10_000, 5_001),
    Measure::new(40_000, -5_001),
    Measure::new(40_000, 5_001),
    Measure::new(26_500, 65_536),
    Measure::new(26_500, -65_536),
    Measure::new(26_500, i32::MIN),
    Measure::new(26_500, i32::MAX),
    Measure::new(0, 1),
    Measure::new(0, -1),
    Measure::new(0, -5_000),
    Measure::new(0, i32::MIN),
    Measure::new(0, i32::MAX),
    Measure::new(9_999, 65_536 - 5_000),
    Measure::new(40_001, -65_536 - 5_000),
];

/// The measure of a measured key.
pub fn measured(random: &mut Random) -> Measure {
    if random.once_in(4) {
        return random.pick(&CORNERS[1..]);
    }
    let (length, correction) = (random.below(30_001), random.below(10_001));
    Measure::new(10_000 + length as u64, correction as i32 - 5_000)
}

/// A right measure: of every second key it is that of one which is not measured.
pub fn right(random: &mut Random) -> Measure {
    match random.once_in(2) {
        true => Measure::NONE,
        false => measured(random),
    }
}

/// A measure, outside the rules once in so many times.
pub fn any(times: usize, random: &mut Random) -> Measure {
    match random.once_in(times) {
        true => random.pick(&WRONG),
        false => right(random),
    }
}

/// The keys with right measures: none of them measured, all, or some.
pub fn random_set(keys: &[u64], random: &mut Random) -> Set {
    let kind = random.below(3);
    let mut measure = || match kind {
        0 => Measure::NONE,
        1 => measured(random),
        _ => right(random),
    };
    keys.iter().map(|&key| (key, measure())).collect()
}

/// Makes the lists such that a measure is outside the rules, missing or left over.
pub fn spoil_measures(list: &mut List, random: &mut Random) {
    let number = list.keys.len();
    match random.below(6) {
        0 if number > 0 => list.lengths.truncate(random.below(number)),
        1 if number > 0 => list.corrections.truncate(random.below(number)),
        2 => list.lengths.push(random.pick(&[0, 10_000])),
        3 => list.corrections.push(0),
        _ if number == 0 => list.lengths.push(0),
        _ => {
            let (place, wrong) = (random.below(number), random.pick(&WRONG));
            list.lengths[place] = wrong.length;
            list.corrections[place] = wrong.correction;
        }
    }
}

#[cfg(test)]
mod tests {
    use super::*;
    use reference::Contents;

    fn is_right(list: &List) -> bool {
        let as_many = [list.lengths.len(), list.corrections.len()] == [list.keys.len(); 2];
        let mut pairs = list.lengths.iter().zip(&list.corrections);
        as_many && pairs.all(|(&length, &correction)| Measure::new(length, correction).is_right())
    }

    #[test]
    fn the_constants_are_what_they_say() {
        assert!(CORNERS.iter().all(|measure| measure.is_right()));
        assert!(WRONG.iter().all(|measure| !measure.is_right()));
    }

    #[test]
    fn sets_are_right_until_they_are_spoilt() {
        let mut random = Random::new(7);
        let mut kinds = [0; 3];
        for _ in 0..1_000 {
            let number = random.below(5);
            let keys = random.keys(number);
            let set = random_set(&keys, &mut random);
            let measured = set.values().filter(|measure| measure.is_measured());
            kinds[match measured.count() {
                0 => 0,
                all if all == number => 1,
                _ => 2,
            }] += 1;
            let (order, salt) = (3, 0);
            let mut list = List::of(&Contents { order, salt, set });
            assert!(is_right(&list));
            spoil_measures(&mut list, &mut random);
            assert!(!is_right(&list));
        }
        assert!(kinds.iter().all(|&number| number > 100), "{kinds:?}");
    }
}
