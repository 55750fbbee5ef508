//! Random calls for histories: mostly sensible ones, with a share of bad
//! inputs of every kind.

use crate::batches::random_batch;
use crate::call::{Call, Place};
use crate::list::List;
use crate::measures::{self, spoil_measures};
use crate::outcome::Outcome;
use crate::random::Random;
use crate::salts;
use crate::tables::{contents_in, image_length, image_of, keys_in, listing_length, pages_length};
use reference::Contents;

/// How many of a hundred calls are of each kind.
const SHARES: [(usize, Kind); 14] = [
    (18, Kind::Insert),
    (15, Kind::Delete),
    (9, Kind::Step),
    (10, Kind::LookUp),
    (7, Kind::Range),
    (6, Kind::LookUpBatch),
    (7, Kind::Write),
    (7, Kind::Read),
    (6, Kind::Build),
    (5, Kind::List),
    (4, Kind::Pages),
    (2, Kind::SetUp),
    (2, Kind::Load),
    (2, Kind::Points),
];

#[derive(Clone, Copy)]
enum Kind {
    SetUp,
    Build,
    Load,
    Insert,
    Delete,
    LookUp,
    LookUpBatch,
    Range,
    Step,
    Write,
    Read,
    List,
    Pages,
    Points,
}

/// Orders that are none. Some would be one if they were cut to fewer bits.
pub const BAD_ORDERS: [u64; 12] = [
    2,
    256,
    0,
    1,
    256 + 3,
    65_536 + 3,
    (1 << 32) + 3,
    (1 << 32) + 255,
    (1 << 63) + 3,
    257,
    u64::MAX - 252,
    u64::MAX,
];

/// The generator for a table of so many slots, and the place that its steps
/// move on.
pub struct Generator {
    slots: usize,
    place: Place,
}

impl Generator {
    pub fn new(slots: usize) -> Generator {
        let place = Place::WHOLE;
        Generator { slots, place }
    }

    /// A call for the table as it is now, which must be sound.
    pub fn next_call(&mut self, table: &[u64], random: &mut Random) -> Call {
        let held = keys_in(table);
        match kind(random) {
            Kind::SetUp => Call::SetUp {
                order: order(random),
                salt: salts::for_keys(&held, random),
            },
            Kind::Build => self.build(random),
            Kind::Load => load(order(random), random),
            Kind::Insert => Call::Insert {
                key: self.key(&held, 4, random),
                measure: measures::any(10, random),
            },
            Kind::Delete => Call::Delete {
                key: self.key(&held, 1, random),
            },
            Kind::LookUp => Call::LookUp {
                key: self.key(&held, 1, random),
            },
            Kind::LookUpBatch => look_up_batch(&held, random),
            Kind::Range => self.range(&held, random),
            Kind::Step => self.step(&held, random),
            Kind::Write => Call::Write {
                room: room(image_length(table), random),
            },
            Kind::Read => Call::Read {
                image: self.image(table, random),
            },
            Kind::List => self.list_image(random),
            Kind::Pages => Call::Pages {
                room: room(pages_length(held.len()), random),
            },
            Kind::Points => Call::Points {
                measure: measures::any(4, random),
            },
        }
    }

    /// Tells the generator how its call came out.
    pub fn take_note(&mut self, outcome: &Outcome) {
        self.place = outcome.place.unwrap_or(self.place);
    }

    /// Zero now and then; else a held key once in so many times + 1, or any.
    fn key(&self, held: &[u64], fresh: usize, random: &mut Random) -> u64 {
        if random.once_in(15) {
            0
        } else if !held.is_empty() && random.once_in(fresh + 1) {
            random.pick(held)
        } else {
            random.key(2 * self.slots + 3)
        }
    }

    /// A build: now and then of too many keys, or with a fault of the keys or of the
    /// measures, or both.
    fn build(&self, random: &mut Random) -> Call {
        let number = match random.below(8) {
            0 => self.slots + 1,
            _ => random.fill(self.slots),
        };
        let contents = some_contents(order(random), number, random);
        let mut list = List::of(&contents);
        if random.once_in(6) {
            spoil_measures(&mut list, random);
        }
        if random.once_in(6) {
            spoil_list(&mut list.keys, random);
        }
        let (order, salt) = (contents.order, contents.salt);
        Call::Build { order, salt, list }
    }

    fn range(&self, held: &[u64], random: &mut Random) -> Call {
        let ends = [bound(held, random), bound(held, random)];
        let (mut low, mut high) = (ends[0].min(ends[1]), ends[0].max(ends[1]));
        if random.once_in(8) {
            (low, high) = (high, low);
        }
        let within = held.iter().filter(|key| (low..=high).contains(key));
        let room = room(within.count(), random);
        Call::Range { low, high, room }
    }

    /// Mostly the step after the last one; else from a new place, whose low may
    /// be above its high.
    fn step(&mut self, held: &[u64], random: &mut Random) -> Call {
        let place = match random.below(16) {
            0 => Place::WHOLE,
            1 => Place::SPENT,
            2 | 3 => Place::new(bound(held, random), bound(held, random)),
            4 => Place::new(bound(held, random), u64::MAX),
            _ => self.place,
        };
        Call::Step { place }
    }

    /// An image to read: the table's own, or another's, which may have more
    /// keys than slots or have a fault.
    fn image(&self, table: &[u64], random: &mut Random) -> Vec<u8> {
        if random.once_in(6) {
            return image_of(&contents_in(table));
        }
        let number = match random.below(6) {
            0 => self.slots + 1 + random.below(3),
            _ => random.fill(self.slots),
        };
        let mut image = image_of(&some_contents(random.order(), number, random));
        if random.once_in(5) {
            spoil_image(&mut image, random);
        }
        image
    }

    fn list_image(&self, random: &mut Random) -> Call {
        let number = random.fill(self.slots);
        let contents = some_contents(random.order(), number, random);
        let mut image = image_of(&contents);
        let room = room(listing_length(&contents), random);
        if random.once_in(5) {
            spoil_image(&mut image, random);
        }
        Call::List { image, room }
    }
}

fn kind(random: &mut Random) -> Kind {
    let mut rest = random.below(100);
    for (share, kind) in SHARES {
        if rest < share {
            return kind;
        }
        rest -= share;
    }
    unreachable!("the shares come to a hundred")
}

/// An order and so many keys.
fn some_contents(order: u64, number: usize, random: &mut Random) -> Contents {
    let keys = random.keys(number);
    salts::contents(order, &keys, random)
}

fn order(random: &mut Random) -> u64 {
    match random.below(8) {
        0 => random.pick(&BAD_ORDERS),
        _ => random.order(),
    }
}

/// A load of that order, mostly a short one; its seed is any, or one of the ends.
pub fn load(order: u64, random: &mut Random) -> Call {
    let seed = match random.below(10) {
        0 => 0,
        1 => u64::MAX,
        _ => random.number(),
    };
    let most = random.pick(&[1, 3, 20, 20, 100, 100, 500, 2_000]);
    let count = random.below(most + 1) as u16;
    Call::Load { order, seed, count }
}

/// A batch, now and then with a fault.
fn look_up_batch(held: &[u64], random: &mut Random) -> Call {
    let mut keys = random_batch(held, random);
    if random.once_in(6) {
        spoil_list(&mut keys, random);
    }
    Call::LookUpBatch { keys }
}

/// An end of a range: a held key or a neighbour of one, or any number.
fn bound(held: &[u64], random: &mut Random) -> u64 {
    match random.below(8) {
        0 => 0,
        1 => u64::MAX,
        2 => random.number(),
        _ if held.is_empty() => random.key(20),
        3 => random.pick(held).wrapping_add(1),
        4 => random.pick(held) - 1,
        _ => random.pick(held),
    }
}

/// The length of an output: mostly just enough, else less or more.
pub fn room(needed: usize, random: &mut Random) -> usize {
    match random.below(10) {
        0 | 1 => needed.saturating_sub(1),
        2 => random.below(needed + 1),
        3 | 4 => needed + 1 + random.below(9),
        _ => needed,
    }
}

/// Makes the list one that does not rise strictly or has a zero; a list of one
/// key or none gets a zero.
pub fn spoil_list(list: &mut Vec<u64>, random: &mut Random) {
    let number = list.len();
    match random.below(4) {
        _ if number < 2 => list.insert(0, 0),
        0 => list[0] = 0,
        1 => *list.last_mut().expect("two at least") = 0,
        2 => list.swap(random.below(number - 1), number - 1),
        _ => {
            let place = random.below(number - 1);
            list[place] = list[place + 1];
        }
    }
}

/// Changes an image in some way.
pub fn spoil_image(image: &mut Vec<u8>, random: &mut Random) {
    let place = random.below(image.len());
    match random.below(5) {
        0 => image.truncate(place),
        1 => image.push(random.number() as u8),
        2 => image[place] = random.number() as u8,
        _ => image[place] ^= 1 << random.below(8),
    }
}
