//! Homes, without a division for each.

/// For a number of slots M, gives "floor(P(k) / 65,536) mod M".
///
/// The remainder of a 48-bit number by a 12-bit one follows from the fraction
/// of their quotient in 64 bits, rounded up (Lemire, Kaser, Kurz: Faster
/// remainder by direct computation, 2019).
#[derive(Clone, Copy)]
pub struct Homes {
    slots: u64,
    /// 2^64 / M rounded up, modulo 2^64.
    inverse: u64,
}

impl Homes {
    pub fn new(slots: usize) -> Homes {
        let slots = slots as u64;
        let inverse = (u64::MAX / slots).wrapping_add(1);
        Homes { slots, inverse }
    }

    #[inline(always)]
    pub fn home(self, priority: u64) -> usize {
        let fraction = self.inverse.wrapping_mul(priority >> 16);
        ((u128::from(fraction) * u128::from(self.slots)) >> 64) as usize
    }

    /// How many slots above its home a key of that priority stands.
    #[inline(always)]
    pub fn driven(self, priority: u64, slot: usize) -> usize {
        let home = self.home(priority);
        if slot >= home {
            slot - home
        } else {
            slot + self.slots as usize - home
        }
    }
}

#[cfg(test)]
mod tests {
    use super::Homes;
    use crate::priority::{priority, Entry};

    #[test]
    fn homes_are_those_of_the_definition() {
        for slots in 1..=4096 {
            let homes = Homes::new(slots);
            let edges = [0, 65_535, 65_536, u64::MAX, u64::MAX - 65_536];
            let multiples = [1, 2, 3, 1 << 30].map(|i| i * slots as u64 * 65_536);
            let near = multiples.map(|number| number - 1);
            let drawn = (1..50).map(|key| priority(key * slots as u64));
            for number in edges.into_iter().chain(multiples).chain(near).chain(drawn) {
                let entry = Entry {
                    key: 1,
                    priority: number,
                };
                assert_eq!(
                    homes.home(number),
                    entry.home(slots),
                    "{number} mod {slots}"
                );
            }
        }
    }
}
