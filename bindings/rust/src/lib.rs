//! A safe wrapper of `libbtreap.a`: a set of 64-bit keys, each with its measure, kept in words that the caller lends, whose every word
//! depends only on the order, the salt, the number of slots and the set. Each call takes any words, numbers and bytes; one that refuses
//! changes none of the lent memory.
//!
//! A table's salt is any 64-bit number, chosen at [`set_up`] or [`build`]; 0 is none. How keys rank and in which slots they stand goes by
//! their exclusive or with it, so that a maker with a salt of its own has priorities that no neighbour's library shares. What the calls
//! answer of a table's keys goes by the table's own salt. It is no secret: table and image show it.
//!
//! ```
//! use btreap::Measure;
//! let mut table = vec![0; btreap::table_words(64)];
//! let (order, salt) = (8, 0x5EED);
//! btreap::set_up(&mut table, order, salt)?;
//! btreap::insert(&mut table, 42)?;
//! assert!(btreap::look_up(&table, 42)?.is_held());
//! let measure = Measure::new(26_500, -120);
//! btreap::insert_measured(&mut table, 43, measure)?;
//! assert_eq!(btreap::look_up(&table, 43)?.measure(), Some(measure));
//! # Ok::<(), btreap::Refusal>(())
//! ```

use std::fmt;

mod measure;
mod pages;
mod size;
pub mod sys;

pub use measure::Measure;
pub use pages::{pages, pages_bytes, LONGEST_PAGES};
pub use size::Size;
pub use sys::Question;

/// The most slots that a table has.
pub const MOST_SLOTS: usize = 4096;

/// No image has more bytes.
pub const LONGEST_IMAGE: usize = 23 + 50 * MOST_SLOTS;

/// The words of a table of so many slots.
pub const fn table_words(slots: usize) -> usize {
    4 + 8 * slots
}

/// Why a call was turned down. Of several refusals the one is given that the call names first; each call names its refusals by rising
/// number, but 12 before 7, 8 and 10.
#[derive(Clone, Copy, Debug, PartialEq, Eq)]
pub enum Refusal {
    WrongLength,
    WrongOrder,
    ZeroKey,
    LowAboveHigh,
    NotRising,
    NotAnImage,
    NotSound,
    KeyHeld,
    KeyAbsent,
    TooManyKeys,
    OutputTooShort,
    WrongMeasure,
}

const REFUSALS: [(Refusal, &str); 12] = [
    (Refusal::WrongLength, "the number of words is not 4 + 8·M for 1 to 4,096 slots"),
    (Refusal::WrongOrder, "the order is outside 3 to 255"),
    (Refusal::ZeroKey, "the key is zero"),
    (Refusal::LowAboveHigh, "low is above high"),
    (Refusal::NotRising, "the keys do not rise strictly, or one is zero"),
    (Refusal::NotAnImage, "the bytes are no image"),
    (Refusal::NotSound, "the table is not sound"),
    (Refusal::KeyHeld, "the key is held"),
    (Refusal::KeyAbsent, "the key is absent"),
    (Refusal::TooManyKeys, "there would be more keys than slots"),
    (Refusal::OutputTooShort, "the output is too short"),
    (Refusal::WrongMeasure, "a measure is outside the rules, missing or left over"),
];

impl Refusal {
    /// Its number, 1 to 12.
    pub fn number(self) -> u64 {
        self as u64 + 1
    }
}

impl fmt::Display for Refusal {
    fn fmt(&self, out: &mut fmt::Formatter) -> fmt::Result {
        out.write_str(REFUSALS[*self as usize].1)
    }
}

impl std::error::Error for Refusal {}

/// What a call replied: its result where the number of the refusal is zero.
fn unless_refused<T>(number: u64, result: T) -> Result<T, Refusal> {
    match number {
        0 => Ok(result),
        _ => Err(REFUSALS[number as usize - 1].0),
    }
}

/// What a lookup finds. `blocks` is how many different blocks hold the keys that it compared on its way down: in a table of order α with n
/// keys at most (n − 1)/(α − 1), rounded up; one when n is 1, none when n is 0.
#[derive(Clone, Copy, Debug, PartialEq, Eq)]
pub enum Found {
    Held { rank: u64, count: u64, leader: u64, blocks: u64, measure: Measure },
    Absent { blocks: u64 },
}

impl Found {
    pub fn is_held(self) -> bool {
        matches!(self, Found::Held { .. })
    }

    /// The measure of a held key that is measured.
    pub fn measure(self) -> Option<Measure> {
        match self {
            Found::Held { measure, .. } if measure.is_measured() => Some(measure),
            _ => None,
        }
    }
}

impl Question {
    /// The question for a key, to be answered by [`look_up_batch`].
    pub const fn new(key: u64) -> Question {
        Question { key, held: 0, rank: 0 }
    }

    /// Whether the answer is that the key is held.
    pub fn is_held(self) -> bool {
        self.held != 0
    }
}

/// Where a step goes on: the least key that it may yield and the greatest, and whether there is nothing more to yield.
#[derive(Clone, Copy, Debug, PartialEq, Eq)]
pub struct Place {
    pub next: u64,
    pub high: u64,
    pub done: bool,
}

impl Place {
    /// The place for the whole set.
    pub const ALL: Place = Place { next: 0, high: u64::MAX, done: false };

    /// The spent place.
    pub const SPENT: Place = Place { next: 0, high: 0, done: true };

    /// The place for the keys from `low` to `high`, both included.
    pub const fn new(low: u64, high: u64) -> Place {
        Place { next: low, high, done: false }
    }
}

/// Make of any words the blank table of an order and a salt. Refusals: 1, 2.
pub fn set_up(table: &mut [u64], order: u64, salt: u64) -> Result<(), Refusal> {
    // SAFETY: the pointer and the length are one live slice's, which nothing else uses during the call.
    let refusal = unsafe { sys::btreap_set_up(table.as_mut_ptr(), table.len(), order, salt) };
    unless_refused(refusal, ())
}

/// The lengths and the corrections of as many unmeasured keys as a table can have.
static NO_LENGTHS: [u64; MOST_SLOTS] = [0; MOST_SLOTS];
static NO_CORRECTIONS: [i32; MOST_SLOTS] = [0; MOST_SLOTS];

/// Make of any words the table of an order, a salt and a strictly rising list of keys, of which none is measured. It allocates nothing, but
/// where there are more than [`MOST_SLOTS`] keys, which is refused: then two lists of as many zeros. Refusals: 1, 2, 5, 10.
pub fn build(table: &mut [u64], order: u64, salt: u64, keys: &[u64]) -> Result<(), Refusal> {
    let number = keys.len();
    match (NO_LENGTHS.get(..number), NO_CORRECTIONS.get(..number)) {
        (Some(lengths), Some(corrections)) => build_measured(table, order, salt, keys, lengths, corrections),
        // Too many keys for any table. Shorter lists would be refused with 12 where 10 is due.
        _ => build_measured(table, order, salt, keys, &vec![0; number], &vec![0; number]),
    }
}

/// Make of any words the table of an order, a salt and a strictly rising list of keys, each with the length and the correction at its place
/// of the other two lists; these are as long as the first. Refusals: 1, 2, 5, 12, 10.
///
/// ```
/// use btreap::{Measure, Refusal};
/// let mut table = vec![0; btreap::table_words(64)];
/// btreap::build_measured(&mut table, 8, 0, &[7, 42], &[0, 26_500], &[0, -120])?;
/// assert_eq!(btreap::look_up(&table, 7)?.measure(), None);
/// assert_eq!(btreap::look_up(&table, 42)?.measure(), Some(Measure::new(26_500, -120)));
/// assert_eq!(btreap::build_measured(&mut table, 8, 0, &[7, 42], &[26_500], &[0]), Err(Refusal::WrongMeasure));
/// # Ok::<(), Refusal>(())
/// ```
pub fn build_measured(
    table: &mut [u64],
    order: u64,
    salt: u64,
    keys: &[u64],
    lengths: &[u64],
    corrections: &[i32],
) -> Result<(), Refusal> {
    // SAFETY: as in `set_up`; a mutable and a shared slice do not overlap.
    let refusal = unsafe {
        sys::btreap_build(
            table.as_mut_ptr(),
            table.len(),
            order,
            salt,
            keys.as_ptr(),
            keys.len(),
            lengths.as_ptr(),
            lengths.len(),
            corrections.as_ptr(),
            corrections.len(),
        )
    };
    unless_refused(refusal, ())
}

/// Make of any words the blank table of an order and the salt 0, and do on it `count` operations that the seed alone determines: a load that
/// anyone can run again. Each operation first sets `seed` to 6364136223846793005·seed + 1442695040888963407, modulo 2^64. Its key is then
/// `(seed >> 32) % 512 + 1`, and `seed >> 62` chooses: 0 or 1 insert, 2 delete, 3 lookup. No key is measured. An operation that is turned
/// down counts as done. Refusals: 1, 2.
pub fn load(table: &mut [u64], order: u64, seed: u64, count: u16) -> Result<(), Refusal> {
    // SAFETY: as in `set_up`.
    let refusal = unsafe { sys::btreap_load(table.as_mut_ptr(), table.len(), order, seed, count) };
    unless_refused(refusal, ())
}

/// Insert a key that is not measured; the rank that it then has. Refusals: 1, 3, 7, 8, 10.
pub fn insert(table: &mut [u64], key: u64) -> Result<u64, Refusal> {
    insert_measured(table, key, Measure::NONE)
}

/// Insert a key with its measure; the rank that it then has. A held key is refused also with another measure;
/// to change a key's measure, delete the key and insert it again. Refusals: 1, 3, 12, 7, 8, 10.
pub fn insert_measured(table: &mut [u64], key: u64, measure: Measure) -> Result<u64, Refusal> {
    let Measure { length, correction } = measure;
    // SAFETY: as in `set_up`.
    let reply = unsafe { sys::btreap_insert(table.as_mut_ptr(), table.len(), key, length, correction) };
    unless_refused(reply.refusal, reply.rank)
}

/// Delete a key; the rank that it had. Refusals: 1, 3, 7, 9.
pub fn delete(table: &mut [u64], key: u64) -> Result<u64, Refusal> {
    // SAFETY: as in `set_up`.
    let reply = unsafe { sys::btreap_delete(table.as_mut_ptr(), table.len(), key) };
    unless_refused(reply.refusal, reply.rank)
}

/// Look a key up. Refusals: 1, 3, 7.
pub fn look_up(table: &[u64], key: u64) -> Result<Found, Refusal> {
    // SAFETY: as in `set_up`; the table is only read.
    let reply = unsafe { sys::btreap_lookup(table.as_ptr(), table.len(), key) };
    let sys::FoundReply { rank, count, leader, blocks, length, correction, .. } = reply;
    let found = match reply.held {
        0 => Found::Absent { blocks },
        // A correction is −5,000 to 5,000.
        _ => Found::Held { rank, count, leader, blocks, measure: Measure::new(length, correction as i32) },
    };
    unless_refused(reply.refusal, found)
}

/// Look the keys of a batch up together, such as those of one order sheet; how many different blocks hold the keys that were compared on
/// all the ways down, each block counted once. The keys rise strictly, and none is zero. Each question then has `held` and `rank` as
/// [`look_up`] says them of its key. Refusals: 1, 5, 7; every question is then as it was.
///
/// ```
/// use btreap::Question;
/// let mut table = vec![0; btreap::table_words(64)];
/// btreap::build(&mut table, 8, 0, &[7, 42])?;
/// let mut batch = [7, 8, 42].map(Question::new);
/// assert_eq!(btreap::look_up_batch(&table, &mut batch), Ok(1));
/// assert_eq!(batch.map(Question::is_held), [true, false, true]);
/// # Ok::<(), btreap::Refusal>(())
/// ```
pub fn look_up_batch(table: &[u64], questions: &mut [Question]) -> Result<u64, Refusal> {
    // SAFETY: as in `build_measured`; a question is laid out as the header declares it.
    let reply = unsafe { sys::btreap_lookup_batch(table.as_ptr(), table.len(), questions.as_mut_ptr(), questions.len()) };
    unless_refused(reply.refusal, reply.size)
}

/// Write at the start of `out` the held keys from `low` to `high`, both included, rising; how many. Refusals: 1, 4, 7, 11.
pub fn range(table: &[u64], low: u64, high: u64, out: &mut [u64]) -> Result<usize, Refusal> {
    // SAFETY: as in `build_measured`.
    let reply = unsafe { sys::btreap_range(table.as_ptr(), table.len(), low, high, out.as_mut_ptr(), out.len()) };
    unless_refused(reply.refusal, reply.size as usize)
}

/// The next key from a place, which moves on; `None` at the end. Refusals: 1, 7; the place is then as it was.
pub fn step(table: &[u64], place: &mut Place) -> Result<Option<u64>, Refusal> {
    // SAFETY: as in `set_up`; the table is only read.
    let reply = unsafe { sys::btreap_step(table.as_ptr(), table.len(), place.next, place.high, place.done.into()) };
    *place = Place { next: reply.next, high: reply.high, done: reply.done != 0 };
    unless_refused(reply.refusal, (reply.found != 0).then_some(reply.key))
}

/// Write the table's image at the start of `out`; how many bytes it has. Refusals: 1, 7, 11.
pub fn write(table: &[u64], out: &mut [u8]) -> Result<usize, Refusal> {
    // SAFETY: as in `build_measured`.
    let reply = unsafe { sys::btreap_write(table.as_ptr(), table.len(), out.as_mut_ptr(), out.len()) };
    unless_refused(reply.refusal, reply.size as usize)
}

/// Make of any words the table whose image the bytes are: of its order, salt and set, whatever the table's salt was. Refusals: 1, 6, 10.
pub fn read(table: &mut [u64], image: &[u8]) -> Result<(), Refusal> {
    // SAFETY: as in `build_measured`.
    let refusal = unsafe { sys::btreap_read(table.as_mut_ptr(), table.len(), image.as_ptr(), image.len()) };
    unless_refused(refusal, ())
}

/// Write the text of an image at the start of `out`; how many bytes it has. Neither links nor measures nor the salt are shown.
/// Refusals: 6, 11.
///
/// The `fill` in its first line is how full the blocks are, in percent: of order a, n keys in b blocks,
/// 100·n / ((2a − 1) + (b − 1)·(2a − 2)) rounded down, 0 without keys, since the root block, which is the first,
/// can hold 2a − 1 keys and any other 2a − 2.
pub fn list(image: &[u8], out: &mut [u8]) -> Result<usize, Refusal> {
    // SAFETY: as in `build_measured`.
    let reply = unsafe { sys::btreap_list(image.as_ptr(), image.len(), out.as_mut_ptr(), out.len()) };
    unless_refused(reply.refusal, reply.size as usize)
}

/// The size of a last with this measure; `None` when it is not measured. Refusals: 12.
///
/// ```
/// use btreap::{Measure, Refusal, Size};
/// assert_eq!(btreap::points(Measure::new(26_500, 0)), Ok(Some(Size { half_points: 80, rest: -500 })));
/// assert_eq!(btreap::points(Measure::NONE), Ok(None));
/// assert_eq!(btreap::points(Measure::new(9_999, 0)), Err(Refusal::WrongMeasure));
/// ```
pub fn points(measure: Measure) -> Result<Option<Size>, Refusal> {
    // SAFETY: it is handed two numbers, and no memory.
    let reply = unsafe { sys::btreap_points(measure.length, measure.correction) };
    let sys::PointedReply { half_points, rest, .. } = reply;
    unless_refused(reply.refusal, (reply.measured != 0).then_some(Size { half_points, rest }))
}
