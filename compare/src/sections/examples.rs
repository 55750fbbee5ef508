//! Document 01's examples, with document 02's fill. A and B are as written there. The
//! priorities of C to H are written in the document, and the archive has only the real
//! one; so real keys are taken that outrank each other, or have the homes, as there,
//! without a salt and under each of some.

use super::{exercise, Section};
use crate::call::Call;
use crate::case::{Case, Tally};
use crate::fill::missed_fill;
use crate::keys::{keys_at, outranks, Home};
use crate::outcome::Outcome;
use crate::salts;
use crate::tables::{header_length, image_of, listing_length, slot_start, BLOCK, NODE};
use reference::Contents;

pub const SECTION: Section = Section {
    name: "examples",
    run,
};

const ORDER: u64 = 3;

/// A block as the document writes it: leader, level, keys.
type Block<'a> = (u64, u64, &'a [u64]);

/// An example in the document's keys; what it does not tell is left empty.
#[derive(Clone, Copy)]
struct Example {
    /// Each outranks the keys after it.
    falling: &'static [u64],
    ranks: &'static [u64],
    counts: &'static [u64],
    leaders: &'static [u64],
    blocks: &'static [Block<'static>],
    fill: u64,
    /// Look-ups with the blocks that they meet.
    met: &'static [(u64, u64)],
}

const NONE: Example = Example {
    falling: &[],
    ranks: &[],
    counts: &[],
    leaders: &[],
    blocks: &[],
    fill: 0,
    met: &[],
};

const EXAMPLES: [Example; 7] = [
    // A
    NONE,
    // B
    Example {
        falling: &[5],
        ranks: &[0],
        counts: &[1],
        blocks: &[(5, 0, &[5])],
        fill: 20,
        ..NONE
    },
    // C
    Example {
        falling: &[9, 5],
        ranks: &[0, 1],
        blocks: &[(9, 1, &[5, 9])],
        fill: 40,
        ..NONE
    },
    // D
    Example {
        falling: &[1, 2, 3, 4],
        ranks: &[2, 1, 0, 0],
        counts: &[1, 1, 2, 1],
        leaders: &[0, 1, 2, 2],
        blocks: &[(1, 2, &[1, 2]), (2, 1, &[3, 4])],
        fill: 44,
        ..NONE
    },
    // E
    Example {
        falling: &[2, 3, 4, 5, 6, 7, 1],
        ranks: &[0, 3, 2, 1, 1, 0, 0],
        blocks: &[
            (2, 3, &[2, 3]),
            (3, 2, &[4, 5]),
            (2, 1, &[1]),
            (5, 1, &[6, 7]),
        ],
        fill: 41,
        met: &[(7, 3), (8, 3), (1, 2)],
        ..NONE
    },
    // F
    Example {
        falling: &[3, 2, 4, 1, 5],
        blocks: &[(3, 1, &[1, 2, 3, 4, 5])],
        fill: 100,
        ..NONE
    },
    // G
    Example {
        falling: &[3, 2, 4, 1, 5, 6],
        blocks: &[(3, 2, &[3, 4]), (3, 1, &[1, 2]), (4, 1, &[5, 6])],
        fill: 46,
        ..NONE
    },
];

/// B's image and its listing, as document 01 writes them.
const IMAGE_OF_B: &[u8] = b"LH\x03\x01\0\x01\0\x05\0\0\0\0\0\0\0\
    LB\x05\0\0\0\0\0\0\0\0\0\x01\0\
    LN\x05\0\0\0\0\0\0\0\0\0\0\0\0\0\0\0\0\0\0\0\0\0\0\0\0\0\x01\0";
pub const LISTING_OF_B: &str = "order 3 keys 1 blocks 1 fill 20 root 0000000000000005\n\
    block 0000000000000005 level 0 keys 1\n\
    key 0000000000000005 rank 0 count 1\n";

fn run(tally: &mut Tally) {
    for salt in salts::ENDS {
        for example in EXAMPLES {
            tally.case(|case| try_example(case, salt, &example));
        }
        tally.case(|case| example_h(case, salt));
    }
    tally.case(written_bytes);
    tally.case(lengths_and_orders);
}

/// The document's keys and the real ones in their places, both rising.
struct Names {
    document: Vec<u64>,
    real: Vec<u64>,
}

impl Names {
    fn new(salt: u64, falling: &[u64]) -> Names {
        let mut document = falling.to_vec();
        document.sort_unstable();
        let place = |key| falling.iter().position(|k| k == key).expect("one of them");
        let places: Vec<usize> = document.iter().map(place).collect();
        // B is told with its own key.
        let real = match falling {
            [key] => vec![*key],
            _ => keys_at(salt, &places),
        };
        Names { document, real }
    }

    /// The real key for one of the document's: for a key above all of them, one
    /// above all real ones; for zero, zero.
    fn real(&self, key: u64) -> u64 {
        match self.document.iter().position(|&k| k == key) {
            Some(place) => self.real[place],
            None if key == 0 => 0,
            None => self.real.last().expect("a key at least") + 1,
        }
    }

    fn real_list(&self, keys: &[u64]) -> Vec<u64> {
        keys.iter().map(|&key| self.real(key)).collect()
    }
}

fn try_example(case: &mut Case, salt: u64, example: &Example) {
    let names = Names::new(salt, example.falling);
    let slots = names.real.len() + 2;
    let measured = case.contents_under(salt, ORDER, &names.real);
    exercise::everything(case, slots, &measured);
    let contents = Contents::unmeasured(ORDER, &names.real).salted(salt);
    case.lend(slots, &contents);
    told(case, "rank", &names.real, example.ranks);
    told(case, "count", &names.real, example.counts);
    told(
        case,
        "leader",
        &names.real,
        &names.real_list(example.leaders),
    );
    for &(key, blocks) in example.met {
        told(case, "blocks", &[names.real(key)], &[blocks]);
    }
    blocks_told(case, &names, &contents, example.blocks);
    fill_told(case, &contents, example.fill);
}

/// Each look-up gives the number that is told of its key, if one is.
fn told(case: &mut Case, field: &str, keys: &[u64], numbers: &[u64]) {
    for (&key, &number) in keys.iter().zip(numbers) {
        case.call_and_check(Call::LookUp { key }, |outcome| {
            let given = number_of(outcome, field);
            (given != number).then(|| format!("{field} of {key} is {given}, not {number}"))
        });
    }
}

fn number_of(outcome: &Outcome, field: &str) -> u64 {
    let mut numbers = outcome.reply.numbers.iter();
    numbers.find(|(name, _)| *name == field).expect("a field").1
}

/// The written image has just the blocks that are told.
fn blocks_told(case: &mut Case, names: &Names, contents: &Contents, blocks: &[Block]) {
    let block = |&(leader, level, keys): &Block| {
        let keys = names.real_list(keys);
        (names.real(leader), level, keys)
    };
    let due: Vec<_> = blocks.iter().map(block).collect();
    let room = image_of(contents).len();
    case.call_and_check(Call::Write { room }, |outcome| {
        let given = blocks_in(&outcome.bytes);
        (given.as_ref() != Some(&due)).then(|| format!("blocks {given:?}, not {due:?}"))
    });
}

/// The blocks of an image, none of whose keys is measured: leader, level, keys. None where
/// the bytes are not cut so.
fn blocks_in(image: &[u8]) -> Option<Vec<(u64, u64, Vec<u64>)>> {
    let eight = |bytes: &[u8]| u64::from_le_bytes(bytes[..8].try_into().expect("eight"));
    let two = |bytes: &[u8]| u16::from_le_bytes(bytes[..2].try_into().expect("two"));
    let mut blocks = vec![];
    let mut rest = image.get(header_length(image)..)?;
    while !rest.is_empty() {
        let block = rest.get(..BLOCK)?;
        let end = BLOCK + NODE * usize::from(two(&block[12..]));
        let nodes = rest.get(BLOCK..end)?.chunks(NODE);
        let keys = nodes.map(|node| eight(&node[2..])).collect();
        blocks.push((eight(&block[2..]), two(&block[10..]).into(), keys));
        rest = &rest[end..];
    }
    Some(blocks)
}

/// The listing shows the fill.
fn fill_told(case: &mut Case, contents: &Contents, fill: u64) {
    let (image, room) = (image_of(contents), listing_length(contents));
    case.call_and_check(Call::List { image, room }, |outcome| {
        missed_fill(outcome, fill)
    });
}

/// "M = 3, two keys with home 2: slots 2 and 0, the outranking one in 2; delete
/// that one and the other moves to slot 2."
fn example_h(case: &mut Case, salt: u64) {
    let mut pair = Home::new(3, 2).keys(salt, 0, 2);
    let both = Contents::unmeasured(ORDER, &pair).salted(salt);
    if !outranks(salt, pair[0], pair[1]) {
        pair.reverse();
    }
    let (upper, lower) = (pair[0], pair[1]);
    case.lend(3, &Contents::unmeasured(ORDER, &[]).salted(salt));
    slots_after(case, Call::insert(lower), [0, 0, lower]);
    slots_after(case, Call::insert(upper), [lower, 0, upper]);
    fill_told(case, &both, 40);
    slots_after(case, Call::Delete { key: upper }, [0, 0, lower]);
}

/// The call leaves these keys in the three slots.
fn slots_after(case: &mut Case, call: Call, due: [u64; 3]) {
    case.call_and_check(call, |outcome| {
        let given = [0, 1, 2].map(|slot| outcome.table[slot_start(slot)]);
        (given != due).then(|| format!("slots {given:?}, not {due:?}"))
    });
}

/// The bytes of A's and B's images, and B's listing.
fn written_bytes(case: &mut Case) {
    case.lend(1, &Contents::unmeasured(ORDER, &[]));
    bytes_are(
        case,
        Call::Write { room: 15 },
        b"LH\x03\0\0\0\0\0\0\0\0\0\0\0\0",
    );
    case.lend(1, &Contents::unmeasured(ORDER, &[5]));
    bytes_are(case, Call::Write { room: 59 }, IMAGE_OF_B);
    let image = IMAGE_OF_B.to_vec();
    let room = LISTING_OF_B.len();
    bytes_are(case, Call::List { image, room }, LISTING_OF_B.as_bytes());
}

/// The call leaves these output bytes.
pub fn bytes_are(case: &mut Case, call: Call, due: &[u8]) {
    case.call_and_check(call, |outcome| {
        let given = &outcome.bytes;
        (given != due).then(|| format!("bytes {given:?}, not {due:?}"))
    });
}

/// "the run takes 12 and 32,772 words, not 4, 11, 13 or 32,780" (document 02); "orders 3
/// and 255 accepted, 2 and 256 refused."
fn lengths_and_orders(case: &mut Case) {
    let lengths = [(12, 0), (32_772, 0), (4, 1), (11, 1), (13, 1), (32_780, 1)];
    for salt in salts::ENDS {
        for (length, refusal) in lengths {
            let order = ORDER;
            case.table = vec![7; length];
            case.refused(Call::SetUp { order, salt }, refusal);
        }
        case.table = vec![7; 12];
        for (order, refusal) in [(3, 0), (255, 0), (2, 2), (256, 2)] {
            case.refused(Call::SetUp { order, salt }, refusal);
        }
    }
}
