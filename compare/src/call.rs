//! The fourteen calls, each with all that it is given but the table.

use crate::list::List;
use crate::pages::Access;
use btreap::Question;
use reference::calls;
use reference::measure::Measure;
use reference::Contents;
use std::fmt;

/// The three numbers of a place as they are handed to a step. A mark that is
/// not zero is set.
#[derive(Clone, Copy, Debug, PartialEq, Eq)]
pub struct Place {
    pub next: u64,
    pub high: u64,
    pub done: u64,
}

impl Place {
    pub const WHOLE: Place = Place::of(calls::Place::WHOLE);
    pub const SPENT: Place = Place::of(calls::Place::SPENT);

    pub const fn new(low: u64, high: u64) -> Place {
        Place::of(calls::Place::new(low, high))
    }

    pub const fn of(place: calls::Place) -> Place {
        Place {
            next: place.next,
            high: place.high,
            done: place.done as u64,
        }
    }
}

/// A call. `room` is the length of the output that it is lent.
#[derive(Clone, PartialEq, Eq)]
pub enum Call {
    SetUp { order: u64, salt: u64 },
    Build { order: u64, salt: u64, list: List },
    Load { order: u64, seed: u64, count: u16 },
    Insert { key: u64, measure: Measure },
    Delete { key: u64 },
    LookUp { key: u64 },
    LookUpBatch { keys: Vec<u64> },
    Range { low: u64, high: u64, room: usize },
    Step { place: Place },
    Write { room: usize },
    Read { image: Vec<u8> },
    List { image: Vec<u8>, room: usize },
    Pages { room: usize },
    Points { measure: Measure },
}

impl Call {
    /// The insert of a key that is not measured.
    pub const fn insert(key: u64) -> Call {
        let measure = Measure::NONE;
        Call::Insert { key, measure }
    }

    /// The build of an order, a salt and a set.
    pub fn build(contents: &Contents) -> Call {
        Call::Build {
            order: contents.order,
            salt: contents.salt,
            list: List::of(contents),
        }
    }

    /// What the call is lent the table for.
    pub fn table_access(&self) -> Access {
        match self {
            Call::SetUp { .. } | Call::Build { .. } | Call::Read { .. } => Access::Write,
            Call::Load { .. } | Call::Insert { .. } | Call::Delete { .. } => Access::Write,
            Call::LookUp { .. } | Call::LookUpBatch { .. } => Access::Read,
            Call::Range { .. } | Call::Step { .. } => Access::Read,
            Call::Write { .. } | Call::List { .. } | Call::Pages { .. } => Access::Read,
            Call::Points { .. } => Access::Read,
        }
    }

    /// The keys, lengths and corrections that the call is lent to read.
    pub fn list(&self) -> List {
        match self {
            Call::Build { list, .. } => list.clone(),
            _ => List::default(),
        }
    }

    /// The bytes that the call is lent to read.
    pub fn image(&self) -> &[u8] {
        match self {
            Call::Read { image } | Call::List { image, .. } => image,
            _ => &[],
        }
    }

    /// The questions as they are lent, what is to be filled in like output words.
    pub fn questions(&self) -> Vec<Question> {
        let keys: &[u64] = match self {
            Call::LookUpBatch { keys } => keys,
            _ => &[],
        };
        let question = |(i, &key): (usize, &u64)| Question {
            key,
            held: painted_word(2 * i),
            rank: painted_word(2 * i + 1),
        };
        keys.iter().enumerate().map(question).collect()
    }

    /// The output words as they are lent.
    pub fn output_words(&self) -> Vec<u64> {
        let room = match self {
            Call::Range { room, .. } => *room,
            _ => 0,
        };
        (0..room).map(painted_word).collect()
    }

    /// The output bytes as they are lent; neighbours differ.
    pub fn output_bytes(&self) -> Vec<u8> {
        let room = match self {
            Call::Write { room } | Call::List { room, .. } | Call::Pages { room } => *room,
            _ => 0,
        };
        (0..room).map(|i| (i * 101 + 0xA5) as u8).collect()
    }

    /// The place that the call is lent.
    pub fn place(&self) -> Option<Place> {
        match self {
            Call::Step { place } => Some(*place),
            _ => None,
        }
    }
}

/// The call in one line, long lists cut short.
impl fmt::Debug for Call {
    fn fmt(&self, out: &mut fmt::Formatter) -> fmt::Result {
        match self {
            Call::SetUp { order, salt } => write!(out, "set-up, order {order}, salt {salt}"),
            Call::Build { order, salt, list } => {
                write!(out, "build, order {order}, salt {salt}, {list:?}")
            }
            Call::Load { order, seed, count } => {
                write!(out, "load, order {order}, {count} operations from {seed}")
            }
            Call::Insert { key, measure } => write!(out, "insert {key}, {}", in_words(*measure)),
            Call::Delete { key } => write!(out, "delete {key}"),
            Call::LookUp { key } => write!(out, "look-up {key}"),
            Call::LookUpBatch { keys } => write!(out, "look-up of a batch, {}", short(keys)),
            Call::Range { low, high, room } => {
                write!(out, "range {low} to {high} into {room} words")
            }
            Call::Step { place } => write!(out, "step, {place:?}"),
            Call::Write { room } => write!(out, "write into {room} bytes"),
            Call::Read { image } => write!(out, "read {}", short_bytes(image)),
            Call::List { image, room } => {
                write!(out, "list {} into {room} bytes", short_bytes(image))
            }
            Call::Pages { room } => write!(out, "pages into {room} bytes"),
            Call::Points { measure } => write!(out, "points, {}", in_words(*measure)),
        }
    }
}

fn in_words(measure: Measure) -> String {
    let Measure { length, correction } = measure;
    format!("length {length}, correction {correction}")
}

/// What an output word holds before the call: no two are alike, so that a word
/// written past the end or in the wrong place shows.
fn painted_word(place: usize) -> u64 {
    0xA5C3_96F0_0F69_3C5A ^ (place as u64).wrapping_mul(0x9E37_79B9)
}

/// Numbers up to some length, then how many there are.
pub fn short<T: fmt::Debug>(numbers: &[T]) -> String {
    const SHOWN: usize = 40;
    match numbers.get(..SHOWN) {
        None => format!("{numbers:?}"),
        Some(first) => format!("{first:?} .. {} in all", numbers.len()),
    }
}

fn short_bytes(bytes: &[u8]) -> String {
    const SHOWN: usize = 400;
    let hex = |part: &[u8]| part.iter().map(|b| format!("{b:02X}")).collect::<String>();
    match bytes.get(..SHOWN) {
        None => format!("<{}>", hex(bytes)),
        Some(first) => format!("<{} .. {} bytes in all>", hex(first), bytes.len()),
    }
}
