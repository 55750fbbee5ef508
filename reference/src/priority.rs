//! Document 01, section "Priority", with the salt of document 02.

/// "E[0] = 1442695040888963407, and each next is 6364136223846793005 times the
/// one before, plus 1442695040888963407, modulo 2^64."
pub static E: [u64; 2048] = constants();

const fn constants() -> [u64; 2048] {
    let mut all = [1442695040888963407u64; 2048];
    let mut i = 1;
    while i < 2048 {
        all[i] = next(all[i - 1]);
        i += 1;
    }
    all
}

/// The number after a number by the rule of the constants, which is the rule of
/// a load's numbers too (document 02, N1).
pub const fn next(number: u64) -> u64 {
    number
        .wrapping_mul(6364136223846793005)
        .wrapping_add(1442695040888963407)
}

/// "The priority P(k) is the exclusive or of E[256·j + byte j of k] for j = 0
/// to 7, byte 0 the lowest."
pub fn priority(key: u64) -> u64 {
    let bytes = key.to_le_bytes();
    (0..8).fold(0, |acc, j| acc ^ E[256 * j + bytes[j] as usize])
}

/// What is asked of a priority function, real or written by an example.
pub type Priority<'a> = &'a (dyn Fn(u64) -> u64 + Sync);

/// Document 02, N9: "The priority of k, in its home too, becomes P of the exclusive or
/// of k and the salt." Which key is the lesser of two is no matter of the salt.
pub fn salted(priority: Priority<'_>, salt: u64) -> impl Fn(u64) -> u64 + Sync + '_ {
    move |key| priority(key ^ salt)
}

/// A key with its priority.
#[derive(Clone, Copy, Debug, PartialEq, Eq)]
pub struct Entry {
    pub key: u64,
    pub priority: u64,
}

impl Entry {
    /// "Key a outranks b when P(a) > P(b), or when these are equal and a < b."
    pub fn outranks(self, other: Entry) -> bool {
        self.priority > other.priority || (self.priority == other.priority && self.key < other.key)
    }

    /// "home(k) = floor(P(k) / 65,536) mod M"
    pub fn home(self, slots: usize) -> usize {
        ((self.priority / 65_536) % slots as u64) as usize
    }
}

/// The keys with their priorities, in the order given.
pub fn entries(priority: Priority, keys: &[u64]) -> Vec<Entry> {
    keys.iter()
        .map(|&key| Entry {
            key,
            priority: priority(key),
        })
        .collect()
}

/// Some pairs of keys of equal priority, the lesser first, for tests of the tie
/// rule; found by `examples/find_ties.rs`. Exchanging the two keys' bytes at
/// any one place makes another such pair. Under a salt it is their exclusive or with
/// the salt that have equal priorities.
pub const TIES: [(u64, u64); 8] = [
    (0x055A050E17548921, 0x08DFDFD4FFCCD72F),
    (0x45A9723C5530099B, 0xF8CCF9C7B9749DE7),
    (0x7F566D443AA84F08, 0xF899F55CEBC994D3),
    (0x3375A15370031548, 0x3E78C58FBE3DEBA6),
    (0x1F19207256A04AB1, 0x835DC0D2EBDD98F3),
    (0x721130532343EF76, 0x91F23F8C44A4F8A9),
    (0x3BA528060D173806, 0x48A66AFCCBB9830D),
    (0x3B203E490824830B, 0xC88370EFFE7ABEE6),
];
