//! Every call with every set of the faults that it can be turned down for: the
//! first in the order in which the call checks is given, and 0 where there is no
//! fault.

use super::damaged_measures::measured_records;
use super::Section;
use crate::call::{Call, Place};
use crate::case::{Case, Tally};
use crate::generator::{spoil_list, BAD_ORDERS};
use crate::keys::parts;
use crate::list::List;
use crate::measures::{spoil_measures, CORNERS, WRONG};
use crate::random::Random;
use crate::tables::{
    image_of, length_word, listing_length, make_unsound, pages_length, slot_start, sound_table,
    HEADER, NODE,
};
use reference::measure::Measure;
use reference::Contents;

pub const SECTION: Section = Section {
    name: "refusals",
    run,
};

/// Each set of faults is arranged in so many ways.
const WAYS: usize = WRONG.len();

const SLOTS: usize = 3;
const ORDER: u64 = 3;
const FEW: [u64; 2] = [10, 20];
const FULL: [u64; 3] = [10, 20, 30];
const TOO_MANY: [u64; 4] = [10, 20, 30, 40];
const SETS: [&[u64]; 3] = [&[], &FEW, &FULL];
const HELD: u64 = 20;
const ABSENT: u64 = 25;

/// Salts, none of which is a fault.
const SALTS: [u64; 7] = [0, 1, 1 << 63, u64::MAX, HELD, ABSENT, 0x5EED_5EED_5EED];

/// Faults by the numbers of their refusals, in the order in which the call checks,
/// and which of the ways to arrange them.
struct Faults {
    numbers: Vec<u64>,
    way: usize,
}

impl Faults {
    fn has(&self, number: u64) -> bool {
        self.numbers.contains(&number)
    }

    /// The number that is checked before the others.
    fn first(&self) -> u64 {
        self.numbers.first().copied().unwrap_or(0)
    }

    fn pick<T: Copy>(&self, from: &[T]) -> T {
        from[self.way % from.len()]
    }

    fn salt(&self) -> u64 {
        self.pick(&SALTS)
    }

    /// The keys under a salt with right measures, not the same in every way; in the first
    /// way there is no salt, and none is measured.
    fn contents(&self, keys: &[u64]) -> Contents {
        let mut contents = Contents::unmeasured(ORDER, keys).salted(self.salt());
        for (i, measure) in (1..).zip(contents.set.values_mut()) {
            *measure = CORNERS[self.way * i % CORNERS.len()];
        }
        contents
    }

    /// The first if there is the fault, else the second.
    fn choose<T>(&self, number: u64, with: T, without: T) -> T {
        if self.has(number) {
            with
        } else {
            without
        }
    }
}

/// The refusals of a call in the order in which it checks, and the call with some of
/// them.
struct Kind {
    refusals: &'static [u64],
    call: fn(&Faults) -> Call,
}

const KINDS: [Kind; 14] = [
    Kind {
        refusals: &[1, 2],
        call: set_up,
    },
    Kind {
        refusals: &[1, 3, 12, 7, 8, 10],
        call: insert,
    },
    Kind {
        refusals: &[1, 3, 7, 9],
        call: delete,
    },
    Kind {
        refusals: &[1, 3, 7],
        call: look_up,
    },
    Kind {
        refusals: &[1, 5, 7],
        call: look_up_batch,
    },
    Kind {
        refusals: &[1, 4, 7, 11],
        call: range,
    },
    Kind {
        refusals: &[1, 7],
        call: step,
    },
    Kind {
        refusals: &[1, 2, 5, 12, 10],
        call: build,
    },
    Kind {
        refusals: &[1, 2],
        call: load,
    },
    Kind {
        refusals: &[1, 7, 11],
        call: write,
    },
    Kind {
        refusals: &[1, 6, 10],
        call: read,
    },
    Kind {
        refusals: &[6, 11],
        call: list,
    },
    Kind {
        refusals: &[1, 7, 11],
        call: pages,
    },
    Kind {
        refusals: &[12],
        call: points,
    },
];

fn run(tally: &mut Tally) {
    for kind in KINDS {
        for numbers in parts(kind.refusals) {
            tally.case(|case| {
                for way in 0..WAYS {
                    let numbers = numbers.clone();
                    try_faults(case, &kind, &Faults { numbers, way });
                }
            });
        }
    }
    tally.case(marks_of_done);
}

fn try_faults(case: &mut Case, kind: &Kind, faults: &Faults) {
    // A table with no free slot is a fault of an insert alone.
    let full = faults.has(10) && kind.refusals.contains(&8);
    case.table = table(faults, full);
    case.refused((kind.call)(faults), faults.first());
}

fn table(faults: &Faults, full: bool) -> Vec<u64> {
    let keys = if full { &FULL[..] } else { &FEW };
    let mut table = sound_table(SLOTS, &faults.contents(keys));
    if faults.has(7) {
        damage(faults, &mut table);
    }
    if faults.has(1) {
        let length = table.len();
        let lengths = [length + 1, length - 1, 0, 1, 4, 11, 13, 32_780, 32_771];
        table.resize(faults.pick(&lengths), 0);
    }
    table
}

fn damage(faults: &Faults, table: &mut [u64]) {
    let last = table.len() - 1;
    match faults.way % 8 {
        0 => make_unsound(table),
        1 => table[0] = 2,
        2 => table[0] = 256,
        3 => table[last] = 10_001,
        4 => table[slot_start(0)] ^= HELD,
        5 => table[length_word(0)] = 9_999,
        6 => table[length_word(1)] = 40_001,
        _ => table.fill(0),
    }
}

fn order(faults: &Faults) -> u64 {
    let good = [3, 255, 4, 128];
    faults.choose(2, faults.pick(&BAD_ORDERS), faults.pick(&good))
}

fn set_up(faults: &Faults) -> Call {
    let (order, salt) = (order(faults), faults.salt());
    Call::SetUp { order, salt }
}

fn build(faults: &Faults) -> Call {
    let keys = faults.choose(10, &TOO_MANY[..], faults.pick(&SETS));
    let mut list = List::of(&faults.contents(keys));
    let mut random = Random::new(faults.way as u64);
    if faults.has(12) {
        spoil_measures(&mut list, &mut random);
    }
    if faults.has(5) {
        spoil_list(&mut list.keys, &mut random);
        keep_to(&mut list, faults);
    }
    let (order, salt) = (order(faults), faults.salt());
    Call::Build { order, salt, list }
}

/// Spoiling may have made one key of none, for which there is no measure; that is no
/// fault unless it is to be one.
fn keep_to(list: &mut List, faults: &Faults) {
    if !faults.has(12) {
        list.lengths.resize(list.keys.len(), 0);
        list.corrections.resize(list.keys.len(), 0);
    }
}

fn load(faults: &Faults) -> Call {
    let (order, seed) = (order(faults), faults.pick(&[0, u64::MAX, 7, 1 << 63, 2]));
    let count = faults.pick(&[0, 1, 2, 5, 100, 999]);
    Call::Load { order, seed, count }
}

fn insert(faults: &Faults) -> Call {
    let key = faults.choose(8, HELD, ABSENT);
    let key = faults.choose(3, 0, key);
    let measure = measure(faults);
    Call::Insert { key, measure }
}

fn measure(faults: &Faults) -> Measure {
    faults.choose(12, faults.pick(&WRONG), faults.pick(&CORNERS))
}

fn delete(faults: &Faults) -> Call {
    let key = faults.choose(9, ABSENT, HELD);
    let key = faults.choose(3, 0, key);
    Call::Delete { key }
}

fn look_up(faults: &Faults) -> Call {
    let key = faults.choose(3, 0, faults.pick(&[HELD, ABSENT]));
    Call::LookUp { key }
}

fn look_up_batch(faults: &Faults) -> Call {
    let rising = [&[][..], &[HELD], &FULL, &TOO_MANY, &[1, ABSENT, u64::MAX]];
    let mut keys = faults.pick(&rising).to_vec();
    if faults.has(5) {
        spoil_list(&mut keys, &mut Random::new(faults.way as u64));
    }
    Call::LookUpBatch { keys }
}

fn range(faults: &Faults) -> Call {
    let rising = [(0, u64::MAX), (10, 20), (1, 20), (10, 29)];
    let falling = [(1, 0), (20, 10), (u64::MAX, 0), (11, 10)];
    let (low, high) = faults.choose(4, faults.pick(&falling), faults.pick(&rising));
    let room = faults.choose(11, faults.pick(&[0, 1]), faults.pick(&[2, 3, 9]));
    Call::Range { low, high, room }
}

fn step(faults: &Faults) -> Call {
    let places = [
        Place::WHOLE,
        Place::SPENT,
        Place::new(20, 5),
        Place::new(20, 20),
        Place::new(21, u64::MAX),
    ];
    let place = faults.pick(&places);
    Call::Step { place }
}

fn write(faults: &Faults) -> Call {
    let length = image_of(&faults.contents(&FEW)).len();
    let short = faults.pick(&[length - 1, 0, HEADER, length - 8]);
    let room = faults.choose(11, short, length + faults.way % 3);
    Call::Write { room }
}

fn image(faults: &Faults) -> Vec<u8> {
    let keys = faults.choose(10, &TOO_MANY[..], faults.pick(&SETS));
    let mut image = image_of(&faults.contents(keys));
    if faults.has(6) {
        let part = faults.way * 7 % image.len();
        match faults.way % 8 {
            0 => image.truncate(part),
            1 | 5 => image = image_with_wrong_header(faults, keys),
            2 => image.push(b'L'),
            4 => image[2] = faults.pick(&[2, 0, 1]),
            6 => image[0] = 0,
            _ => image = image_with_wrong_measure(faults, keys),
        }
    }
    image
}

/// An image but for its mark or its salt: `LS` with zero, without a salt or with half of
/// it, and `LH` with one.
fn image_with_wrong_header(faults: &Faults, keys: &[u64]) -> Vec<u8> {
    let plain = image_of(&faults.contents(keys).salted(0));
    let (fields, records) = plain[2..].split_at(HEADER - 2);
    let salt = 0x5EEDu64.to_le_bytes();
    match faults.way / 4 % 4 {
        0 => [b"LS", fields, &[0; 8], records].concat(),
        1 => [b"LS", fields, records].concat(),
        2 => [b"LS", fields, &salt[..4], records].concat(),
        _ => [b"LH", fields, &salt, records].concat(),
    }
}

/// Lengths and stored corrections that a record of a measured key never has.
const WRONG_NUMBERS: [(u32, u16); 11] = [
    (0, 0),
    (0, 5_000),
    (1, 5_000),
    (9_999, 5_000),
    (40_001, 5_000),
    (65_536 + 26_500, 0),
    (u32::MAX, 10_000),
    (10_000, 10_001),
    (26_500, 10_001),
    (26_500, 65_535),
    (40_000, 65_535),
];

/// An image but for the measure of one key; for no keys that of a few.
fn image_with_wrong_measure(faults: &Faults, keys: &[u64]) -> Vec<u8> {
    let keys = if keys.is_empty() { &FEW[..] } else { keys };
    let mut contents = faults.contents(keys);
    let measure = Measure::new(26_500, 0);
    contents.set.insert(faults.pick(keys), measure);
    let mut image = image_of(&contents);
    let (length, correction) = faults.pick(&WRONG_NUMBERS);
    let at = faults.pick(&measured_records(&image)) + NODE;
    image[at..at + 4].copy_from_slice(&length.to_le_bytes());
    image[at + 4..at + 6].copy_from_slice(&correction.to_le_bytes());
    image
}

fn read(faults: &Faults) -> Call {
    let image = image(faults);
    Call::Read { image }
}

fn list(faults: &Faults) -> Call {
    let image = image(faults);
    let length = listing_length(&faults.contents(faults.pick(&SETS)));
    let short = faults.pick(&[length - 1, 0, 20]);
    let room = faults.choose(11, short, length + faults.way % 3);
    Call::List { image, room }
}

fn pages(faults: &Faults) -> Call {
    let length = pages_length(FEW.len());
    let short = faults.pick(&[length - 1, 0, 9, 10, 59]);
    let room = faults.choose(11, short, length + faults.way % 3);
    Call::Pages { room }
}

fn points(faults: &Faults) -> Call {
    let measure = measure(faults);
    Call::Points { measure }
}

/// Every number but zero is a mark that is set. Such a place is handed back as
/// it was, by an end and by a refusal.
fn marks_of_done(case: &mut Case) {
    for done in [0, 1, 2, 256, 1 << 32, 1 << 63, u64::MAX] {
        let place = Place {
            done,
            ..Place::WHOLE
        };
        case.lend(SLOTS, &Contents::unmeasured(ORDER, &FEW).salted(done));
        case.refused(Call::Step { place }, 0);
        make_unsound(&mut case.table);
        case.refused(Call::Step { place }, 7);
        case.table.pop();
        case.refused(Call::Step { place }, 1);
    }
}
