//! The fast form agrees with the literal calls: in every reply, in every word of
//! the table, in every output word and in the place; on random histories, on
//! damaged tables and images, and under every refusal.

mod common;

use common::{measure_bytes, Random, WRONG};
use reference::batch::Question;
use reference::calls::{Place, REAL};
use reference::depths::keys_at;
use reference::fast;
use reference::image::image;
use reference::measure::Measure;
use reference::priority::{entries, priority, TIES};
use reference::shape::shape;
use reference::table::{length_of_slots, slots, slots_of_length, HEADER_WORDS, SLOT_WORDS};
use reference::Contents;

/// The bytes of a header with a salt.
const LONGEST_HEADER: usize = 23;

/// The word in which a slot begins with its key.
fn slot_start(slot: usize) -> usize {
    HEADER_WORDS + SLOT_WORDS * slot
}

/// What a call leaves behind: its reply, and the memory that it was lent.
type Left<R, T> = (R, Vec<T>);

/// The reply of a call, and the words or bytes after it.
fn after<R, T: Clone>(before: &[T], call: impl FnOnce(&mut [T]) -> R) -> Left<R, T> {
    let mut memory = before.to_vec();
    let reply = call(&mut memory);
    (reply, memory)
}

// ---------------------------------------------------------------------------
// Each call by both programs

fn set_up(table: &mut Vec<u64>, order: u64, salt: u64) -> u64 {
    let (reply, words) = after(table, |t| REAL.set_up(t, order, salt));
    assert_eq!(
        after(table, |t| fast::set_up(t, order, salt)),
        (reply, words.clone())
    );
    *table = words;
    reply.refusal
}

fn build_lists(
    table: &mut Vec<u64>,
    (order, salt): (u64, u64),
    keys: &[u64],
    lengths: &[u64],
    corrections: &[i32],
) -> u64 {
    let (reply, words) = after(table, |t| {
        REAL.build(t, order, salt, keys, lengths, corrections)
    });
    assert_eq!(
        after(table, |t| fast::build(
            t,
            order,
            salt,
            keys,
            lengths,
            corrections
        )),
        (reply, words.clone())
    );
    *table = words;
    reply.refusal
}

/// The build of an order, a salt and a set.
fn build_set(table: &mut Vec<u64>, contents: &Contents) -> u64 {
    let (lengths, corrections) = (contents.lengths(), contents.corrections());
    build_lists(
        table,
        (contents.order, contents.salt),
        &contents.keys(),
        &lengths,
        &corrections,
    )
}

/// The build of keys, rising or not, of which none is measured.
fn build(table: &mut Vec<u64>, order: u64, salt: u64, keys: &[u64]) -> u64 {
    let (lengths, corrections) = (vec![0; keys.len()], vec![0; keys.len()]);
    build_lists(table, (order, salt), keys, &lengths, &corrections)
}

fn load(table: &mut Vec<u64>, order: u64, seed: u64, count: u16) -> u64 {
    let (reply, words) = after(table, |t| REAL.load(t, order, seed, count));
    assert_eq!(
        after(table, |t| fast::load(t, order, seed, count)),
        (reply, words.clone()),
        "load of {count} from {seed}"
    );
    *table = words;
    reply.refusal
}

fn insert_measured(table: &mut Vec<u64>, key: u64, measure: Measure) -> u64 {
    let (reply, words) = after(table, |t| REAL.insert(t, key, measure));
    assert_eq!(
        after(table, |t| fast::insert(t, key, measure)),
        (reply, words.clone()),
        "insert {key}, {measure:?}"
    );
    *table = words;
    reply.refusal
}

fn insert(table: &mut Vec<u64>, key: u64) -> u64 {
    insert_measured(table, key, Measure::NONE)
}

fn delete(table: &mut Vec<u64>, key: u64) -> u64 {
    let (reply, words) = after(table, |t| REAL.delete(t, key));
    assert_eq!(
        after(table, |t| fast::delete(t, key)),
        (reply, words.clone()),
        "delete {key}"
    );
    *table = words;
    reply.refusal
}

fn look_up(table: &[u64], key: u64) -> u64 {
    let reply = REAL.look_up(table, key);
    assert_eq!(fast::look_up(table, key), reply, "look up {key}");
    reply.refusal
}

fn look_up_batch(table: &[u64], keys: &[u64]) -> u64 {
    let question = |&key: &u64| Question {
        key,
        held: 0xEEEE,
        rank: !key,
    };
    let questions: Vec<Question> = keys.iter().map(question).collect();
    let (reply, filled) = after(&questions, |q| REAL.look_up_batch(table, q));
    assert_eq!(
        after(&questions, |q| fast::look_up_batch(table, q)),
        (reply, filled),
        "batch {keys:?}"
    );
    reply.refusal
}

fn range(table: &[u64], low: u64, high: u64, room: usize) -> u64 {
    let output = vec![0xEEEE; room];
    let (reply, words) = after(&output, |out| REAL.range(table, low, high, out));
    assert_eq!(
        after(&output, |out| fast::range(table, low, high, out)),
        (reply, words)
    );
    reply.refusal
}

fn step(table: &[u64], place: Place) -> (u64, bool, Place) {
    let (reply, next) = REAL.step(table, place);
    assert_eq!(fast::step(table, place), (reply, next));
    (reply.refusal, reply.yielded, next)
}

fn write(table: &[u64], room: usize) -> (u64, Vec<u8>) {
    let output = vec![0xEE; room];
    let (reply, bytes) = after(&output, |out| REAL.write_image(table, out));
    assert_eq!(
        after(&output, |out| fast::write_image(table, out)),
        (reply, bytes.clone())
    );
    (reply.refusal, bytes[..reply.length as usize].to_vec())
}

fn pages(table: &[u64], room: usize) -> u64 {
    let output = vec![0xEE; room];
    let (reply, text) = after(&output, |out| REAL.pages(table, out));
    assert_eq!(
        after(&output, |out| fast::pages(table, out)),
        (reply, text),
        "pages into {room}"
    );
    reply.refusal
}

fn read(table: &mut Vec<u64>, bytes: &[u8]) -> u64 {
    let (reply, words) = after(table, |t| REAL.read_image(t, bytes));
    assert_eq!(
        after(table, |t| fast::read_image(t, bytes)),
        (reply, words.clone())
    );
    *table = words;
    reply.refusal
}

fn list(bytes: &[u8], room: usize) -> u64 {
    let output = vec![0xEE; room];
    let (reply, text) = after(&output, |out| REAL.list(bytes, out));
    assert_eq!(after(&output, |out| fast::list(bytes, out)), (reply, text));
    reply.refusal
}

// ---------------------------------------------------------------------------
// Histories

/// All steps from a place to the end.
fn steps(table: &[u64], mut place: Place) {
    loop {
        let (_, yielded, next) = step(table, place);
        place = next;
        if !yielded {
            break;
        }
    }
    step(table, place);
}

/// A random call, now and then with a bad input.
fn play(random: &mut Random, table: &mut Vec<u64>, slots: u64) {
    let key = [0, random.key(2 * slots + 2), random.key(2 * slots + 2)][random.below(3) as usize];
    let other = random.key(2 * slots + 2);
    match random.below(25) {
        0..=5 => {
            let measure = random.any_measure();
            insert_measured(table, key, measure);
        }
        6..=9 => drop(delete(table, key)),
        10 | 11 => drop(look_up(table, key)),
        12 => drop(range(table, key, other, random.below(slots + 2) as usize)),
        13 => steps(table, Place::new(key, other)),
        14 => {
            let (_, bytes) = write(table, LONGEST_HEADER + 50 * slots as usize);
            list(&bytes, 100 + 80 * bytes.len());
            read(table, &bytes);
        }
        15 => drop(write(table, random.below(60 * slots) as usize)),
        16 | 17 => play_build(random, table, slots),
        18 => {
            let keys = random.keys(slots + 1);
            let order = 3 + random.below(253);
            let bytes = image(&priority, &random.contents(order, &keys));
            read(table, &bytes);
            list(&bytes, random.below(3_000) as usize);
        }
        19 => {
            let (order, salt) = (2 + random.below(255), random.salt(&[key]));
            set_up(table, order, salt);
        }
        20 => drop(look_up_batch(table, &random.keys(2 * slots))),
        21 => {
            let mut keys = random.keys(slots);
            random.shuffle(&mut keys);
            look_up_batch(table, &keys);
        }
        22 => drop(pages(table, 20 + 50 * slots as usize)),
        23 => drop(pages(table, random.below(60 * slots) as usize)),
        _ => {
            let (order, count) = (2 + random.below(5), random.below(8 * slots));
            load(table, order, random.next(), count as u16);
        }
    }
}

/// A build of a set, perhaps with a measure outside the rules; of keys that do not
/// rise; or with lists of measures of any length.
fn play_build(random: &mut Random, table: &mut Vec<u64>, slots: u64) {
    let mut keys = random.keys(slots + 1);
    let order = 2 + random.below(5);
    let mut contents = random.contents(order, &keys);
    match random.below(4) {
        0 => {
            random.shuffle(&mut keys);
            build(table, 255 + random.below(2), contents.salt, &keys);
            return;
        }
        1 => {
            let (mut lengths, mut corrections) = (contents.lengths(), contents.corrections());
            lengths.resize(random.below(slots + 2) as usize, 0);
            corrections.resize(random.below(slots + 2) as usize, 0);
            let order_and_salt = (contents.order, contents.salt);
            build_lists(table, order_and_salt, &keys, &lengths, &corrections);
            return;
        }
        2 if !keys.is_empty() => {
            let key = keys[random.below(keys.len() as u64) as usize];
            contents.set.insert(key, random.wrong_measure());
        }
        _ => (),
    }
    build_set(table, &contents);
}

fn histories(seed: u64, slots: u64, number: u64, calls: u64) {
    let mut random = Random(seed);
    for _ in 0..number {
        let mut table = vec![random.next(); length_of_slots(slots as usize)];
        set_up(&mut table, 3 + random.below(3), random.salt(&[]));
        for _ in 0..calls {
            play(&mut random, &mut table, slots);
        }
    }
}

#[test]
fn histories_of_small_tables() {
    for slots in 1..=12 {
        histories(100 + slots, slots, 30, 120);
    }
}

#[test]
fn histories_of_middling_tables() {
    histories(201, 64, 2, 120);
    histories(202, 100, 2, 120);
    histories(203, 150, 2, 120);
}

/// Every set over seven keys, reached by inserting in a random order and left by
/// deleting in another, at the smallest order.
#[test]
fn all_sets_over_a_small_universe() {
    let mut random = Random(300);
    for set in 0..128u64 {
        let mut keys: Vec<u64> = (1..=7).filter(|key| set >> (key - 1) & 1 == 1).collect();
        let mut table = vec![0; length_of_slots(7)];
        set_up(&mut table, 3, random.salt(&[1, 7]));
        random.shuffle(&mut keys);
        keys.iter()
            .for_each(|&key| assert_eq!(insert(&mut table, key), 0));
        (1..=8).for_each(|key| assert_eq!(look_up(&table, key), 0));
        (0..=8).for_each(|low| assert_eq!(range(&table, low, 8, 7), 0));
        for batch in 0..256u64 {
            let asked: Vec<u64> = (1..=8).filter(|key| batch >> (key - 1) & 1 == 1).collect();
            assert_eq!(look_up_batch(&table, &asked), 0);
        }
        random.shuffle(&mut keys);
        keys.iter()
            .for_each(|&key| assert_eq!(delete(&mut table, key), 0));
    }
}

// ---------------------------------------------------------------------------
// Loads

/// Every small count: each load has one operation more than the one before.
#[test]
fn loads_of_every_small_count() {
    for slots in [1, 2, 3, 7, 64] {
        let mut table = vec![5; length_of_slots(slots)];
        for seed in [0, u64::MAX, 12345] {
            (0..120).for_each(|count| assert_eq!(load(&mut table, 3, seed, count), 0));
        }
    }
}

/// Long loads where the table is full nearly always, about as often as not, and
/// never.
#[test]
fn long_loads() {
    let mut random = Random(350);
    for slots in [1, 3, 64, 100, 300, 340, 350, 512, 4096] {
        for order in [3, 16, 255] {
            let mut table = vec![random.next(); length_of_slots(slots)];
            let count = 3_000 + random.below(9_000) as u16;
            assert_eq!(load(&mut table, order, random.next(), count), 0);
        }
        let mut table = vec![0; length_of_slots(slots)];
        assert_eq!(load(&mut table, 5, random.next(), u16::MAX), 0);
    }
}

// ---------------------------------------------------------------------------
// Great, crowded and deep tables

/// A full table, and one with a little room.
#[test]
fn great_tables() {
    let mut random = Random(400);
    for (slots, number, order) in [(4096, 4096, 3), (4096, 4000, 16), (1000, 999, 255)] {
        let keys = distinct(number, || random.next().max(1));
        great_table(slots, order, random.salt(&keys), &keys);
    }
}

/// Every key of the greatest table measured: the longest images.
#[test]
fn great_tables_of_measured_keys() {
    let mut random = Random(401);
    for order in [3, 255] {
        let keys = distinct(4096, || random.next().max(1));
        let mut contents = Contents::unmeasured(order, &keys).salted(keys[77]);
        let measures = contents.set.values_mut();
        measures.for_each(|measure| *measure = random.measured());
        let mut table = vec![7; length_of_slots(4096)];
        assert_eq!(build_set(&mut table, &contents), 0);
        look_up(&table, keys[7]);
        delete(&mut table, keys[7]);
        insert_measured(&mut table, keys[7], contents.set[&keys[7]]);
        let (refusal, bytes) = write(&table, LONGEST_HEADER + 50 * 4096);
        assert_eq!((refusal, bytes == image(&priority, &contents)), (0, true));
        assert_eq!(list(&bytes, 1 << 20), 0);
        let before = table.clone();
        table.fill(1);
        assert_eq!(read(&mut table, &bytes), 0);
        assert_eq!(table, before);
    }
}

/// Keys whose homes are the same, so that they stand in one cluster.
#[test]
fn one_home() {
    for (slots, salt) in [(700, 0), (1024, 0x7000_0100)] {
        let mut key = 0x7000_0000;
        let keys = distinct(600, || loop {
            key += 1;
            if priority(key ^ salt) / 65_536 % slots as u64 == slots as u64 - 20 {
                return key;
            }
        });
        great_table(slots, 3, salt, &keys);
    }
}

/// Keys whose treap is a path down to the right.
#[test]
fn a_chain() {
    for (slots, order, salt) in [(512, 3, 0), (500, 7, 0), (512, 3, 1 << 63), (500, 7, 77)] {
        let keys = keys_at(salt, &Vec::from_iter(0..500));
        great_table(slots, order, salt, &keys);
    }
}

fn distinct(number: usize, mut draw: impl FnMut() -> u64) -> Vec<u64> {
    let mut keys = std::collections::BTreeSet::new();
    while keys.len() < number {
        keys.insert(draw());
    }
    keys.into_iter().collect()
}

fn great_table(slots: usize, order: u64, salt: u64, keys: &[u64]) {
    let mut table = vec![7; length_of_slots(slots)];
    assert_eq!(build(&mut table, order, salt, keys), 0);
    for &key in keys.iter().step_by(keys.len() / 3) {
        assert_eq!(look_up(&table, key), 0);
        assert_eq!(look_up(&table, key - 1), 0);
        assert_eq!(delete(&mut table, key), 0);
        assert_eq!(insert(&mut table, key), 0);
    }
    assert_eq!(look_up_batch(&table, keys), 0);
    let few: Vec<u64> = keys.iter().step_by(40).map(|key| key - 1).collect();
    assert_eq!(look_up_batch(&table, &few), 0);
    assert_eq!(range(&table, 0, u64::MAX, keys.len()), 0);
    assert_eq!(range(&table, keys[3], keys[9], 7), 0);
    step(&table, Place::new(keys[5] + 1, u64::MAX));
    assert_eq!(pages(&table, 10 + 50 * slots), 0);
    let (refusal, bytes) = write(&table, LONGEST_HEADER + 50 * slots);
    assert_eq!(refusal, 0);
    assert_eq!(list(&bytes, 100 * keys.len() + 100), 0);
    table.fill(1);
    assert_eq!(read(&mut table, &bytes), 0);
}

// ---------------------------------------------------------------------------
// Damage

/// One call of each kind that judges the table.
fn judged(table: &[u64]) -> u64 {
    let refusal = look_up(table, 5);
    look_up_batch(table, &[1, 5, 6, u64::MAX]);
    range(table, 0, u64::MAX, table.len());
    step(table, Place::WHOLE);
    step(table, Place::SPENT);
    write(table, 60 * table.len());
    pages(table, 60 * table.len());
    insert(&mut table.to_vec(), 6);
    insert_measured(&mut table.to_vec(), 6, Measure::new(26_500, -17));
    delete(&mut table.to_vec(), 6);
    refusal
}

fn random_table(random: &mut Random, most: u64) -> Vec<u64> {
    let slots = 1 + random.below(most);
    let mut table = vec![0; length_of_slots(slots as usize)];
    let (order, keys) = (3 + random.below(2), random.keys(slots));
    assert_eq!(build_set(&mut table, &random.contents(order, &keys)), 0);
    table
}

#[test]
fn each_word_changed() {
    let mut random = Random(500);
    for _ in 0..60 {
        let table = random_table(&mut random, 12);
        for i in 0..table.len() {
            let flipped = table[i] ^ 1 << random.below(64);
            for word in [
                0,
                1,
                u64::MAX,
                table[i].wrapping_add(1),
                table[i].wrapping_sub(1),
                flipped,
            ] {
                let mut damaged = table.clone();
                damaged[i] = word;
                judged(&damaged);
            }
        }
    }
}

/// The words of measures at every end of the rules, in held slots and in empty ones.
#[test]
fn each_measure_changed() {
    let mut random = Random(507);
    let mut refusals = [0, 0];
    for _ in 0..40 {
        let table = random_table(&mut random, 6);
        for slot in 0..slots_of_length(table.len()).unwrap() {
            for length in [0, 1, 9_999, 10_000, 40_000, 40_001, u64::MAX] {
                for correction in [0, 1, 5_000, 10_000, 10_001, u64::MAX] {
                    let mut damaged = table.clone();
                    damaged[slot_start(slot) + 6] = length;
                    damaged[slot_start(slot) + 7] = correction;
                    refusals[(judged(&damaged) == 7) as usize] += 1;
                }
            }
        }
    }
    assert!(refusals.iter().all(|&number| number > 500), "{refusals:?}");
}

/// Exchanged words make links that cross, keys in each other's slots, and cycles.
#[test]
fn each_two_words_exchanged() {
    let mut random = Random(501);
    let mut unsound = 0;
    for _ in 0..12 {
        let table = random_table(&mut random, 12);
        for i in 0..table.len() {
            for j in 0..i {
                let mut damaged = table.clone();
                damaged.swap(i, j);
                unsound += (judged(&damaged) == 7) as u64;
            }
        }
    }
    assert!(unsound > 1_000);
}

/// Whole slots exchanged, moved or doubled: every node is right, its slot not.
#[test]
fn each_two_slots_exchanged_or_doubled() {
    let mut random = Random(502);
    for _ in 0..40 {
        let table = random_table(&mut random, 14);
        let slots = slots_of_length(table.len()).unwrap();
        for a in 0..slots {
            for b in 0..slots {
                let mut damaged = table.clone();
                let [from, to] = [a, b].map(slot_start);
                (0..SLOT_WORDS).for_each(|word| damaged.swap(from + word, to + word));
                judged(&damaged);
                damaged = table.clone();
                damaged.copy_within(from..from + SLOT_WORDS, to);
                judged(&damaged);
                damaged[1] += 1;
                judged(&damaged);
            }
        }
    }
}

/// Subtrees in each other's places: no longer ordered by key.
#[test]
fn subtrees_exchanged_between_parents() {
    let mut random = Random(503);
    for _ in 0..30 {
        let table = random_table(&mut random, 40);
        let links: Vec<usize> = (HEADER_WORDS..table.len())
            .filter(|i| matches!((i - HEADER_WORDS) % SLOT_WORDS, 1 | 2))
            .collect();
        for _ in 0..200 {
            let mut damaged = table.clone();
            for _ in 0..1 + random.below(3) {
                let draw = |random: &mut Random| links[random.below(links.len() as u64) as usize];
                let (a, b) = (draw(&mut random), draw(&mut random));
                damaged.swap(a, b);
            }
            judged(&damaged);
        }
    }
}

/// The words for a set in its own slots but with the tree of other priorities:
/// all is right but that some child outranks its parent.
#[test]
fn trees_of_other_priorities() {
    let mut random = Random(506);
    let mut unsound = 0;
    for _ in 0..400 {
        let keys = random.keys(9);
        let seed = random.next();
        let other = move |key: u64| Random(key ^ seed).next();
        let tree = shape(3, &entries(&other, &keys));
        let mut table = vec![3, keys.len() as u64, tree.root, 0];
        for key in slots(&entries(&priority, &keys), 10) {
            table.extend(match tree.node(key) {
                None => [0; 8],
                Some(v) => [v.key, v.left, v.right, v.leader, v.rank, v.count, 0, 0],
            });
        }
        unsound += (judged(&table) == 7) as u64;
    }
    assert!(unsound > 200);
}

#[test]
fn words_without_meaning() {
    let mut random = Random(504);
    for _ in 0..3_000 {
        let slots = 1 + random.below(6) as usize;
        let mut table: Vec<u64> = (0..length_of_slots(slots))
            .map(|_| random.below(4))
            .collect();
        table[0] = 3;
        judged(&table);
    }
}

#[test]
fn damaged_images() {
    let mut random = Random(505);
    for _ in 0..25 {
        let mut table = random_table(&mut random, 12);
        let (_, bytes) = write(&table, 1_000);
        for i in 0..bytes.len() {
            for flip in [1, 1 << random.below(8), 0xFF] {
                let mut damaged = bytes.clone();
                damaged[i] ^= flip;
                read(&mut table, &damaged);
                list(&damaged, 2_000);
            }
            read(&mut table, &bytes[..i]);
            list(&bytes[..i], 2_000);
        }
        for more in [
            &[0][..],
            b"LB",
            b"LN",
            b"LM",
            &bytes,
            &[0; 14],
            &[0; 6],
            &[0; 8],
        ] {
            let longer = [&bytes, more].concat();
            assert_eq!(read(&mut table, &longer), 6);
            assert_eq!(list(&longer, 2_000), 6);
        }
    }
}

/// The bytes of measures at every end of the rules, and each mark for the other.
#[test]
fn damaged_measures_of_images() {
    let mut random = Random(508);
    for _ in 0..25 {
        let mut table = random_table(&mut random, 8);
        let (_, bytes) = write(&table, 1_000);
        for place in measure_bytes(&bytes).into_iter().step_by(6) {
            for length in [
                0u32,
                1,
                9_999,
                10_000,
                40_000,
                40_001,
                65_536 + 20_000,
                u32::MAX,
            ] {
                for correction in [0u16, 1, 5_000, 10_000, 10_001, u16::MAX] {
                    let mut damaged = bytes.clone();
                    damaged[place..place + 4].copy_from_slice(&length.to_le_bytes());
                    damaged[place + 4..place + 6].copy_from_slice(&correction.to_le_bytes());
                    read(&mut table, &damaged);
                    list(&damaged, 2_000);
                }
            }
            let mut damaged = bytes.clone();
            damaged[place - 29] = b'N';
            assert_eq!(read(&mut table, &damaged), 6);
            damaged.drain(place..place + 6);
            // Without its measure the key is an unmeasured one.
            assert_eq!(read(&mut table, &damaged), 0);
            damaged[place - 29] = b'M';
            assert_eq!(read(&mut table, &damaged), 6);
        }
    }
}

// ---------------------------------------------------------------------------
// Refusals

#[test]
fn wrong_lengths() {
    for length in [0, 1, 3, 4, 11, 13, 19, 32_771, 32_773, 32_780] {
        let mut wrong = vec![0; length];
        assert_eq!(set_up(&mut wrong, 2, 5), 1);
        assert_eq!(build(&mut wrong, 2, 5, &[0]), 1);
        assert_eq!(build_lists(&mut wrong, (2, 5), &[0], &[], &[]), 1);
        assert_eq!(insert_measured(&mut wrong, 0, WRONG[0]), 1);
        assert_eq!(load(&mut wrong, 2, 7, 3), 1);
        assert_eq!(insert(&mut wrong, 0), 1);
        assert_eq!(delete(&mut wrong, 0), 1);
        assert_eq!(look_up(&wrong, 0), 1);
        assert_eq!(look_up_batch(&wrong, &[0]), 1);
        assert_eq!(range(&wrong, 2, 1, 0), 1);
        assert_eq!(step(&wrong, Place::SPENT).0, 1);
        assert_eq!(write(&wrong, 0).0, 1);
        assert_eq!(pages(&wrong, 0), 1);
        assert_eq!(read(&mut wrong, &[]), 1);
    }
}

#[test]
fn every_other_refusal_by_the_input() {
    let mut table = vec![9; length_of_slots(2)];
    for order in [0, 1, 2, 256, u64::MAX] {
        assert_eq!(set_up(&mut table, order, 5), 2);
        assert_eq!(build(&mut table, order, 5, &[0, 0]), 2);
        assert_eq!(build_lists(&mut table, (order, 5), &[0], &[], &[]), 2);
        assert_eq!(load(&mut table, order, 7, 3), 2);
    }
    assert_eq!(insert(&mut table, 0), 3);
    for measure in WRONG {
        assert_eq!(insert_measured(&mut table, 0, measure), 3);
        assert_eq!(insert_measured(&mut table, 5, measure), 12);
    }
    assert_eq!(delete(&mut table, 0), 3);
    assert_eq!(look_up(&table, 0), 3);
    assert_eq!(range(&table, 2, 1, 0), 4);
    for list in [
        &[0][..],
        &[0, 1],
        &[1, 1],
        &[1, 2, 2],
        &[2, 1],
        &[1, 2, 3, 3],
    ] {
        assert_eq!(build(&mut table, 3, 5, list), 5);
        assert_eq!(build_lists(&mut table, (3, 5), list, &[1], &[]), 5);
        assert_eq!(look_up_batch(&table, list), 5);
    }
    assert_eq!(build(&mut table, 3, 5, &[1, 2, 3]), 10);
    refused_lists(&mut table);
    assert_eq!(read(&mut table, &[]), 6);
    assert_eq!(judged(&table), 7);
    assert_eq!(look_up_batch(&table, &[]), 7);
}

/// Lists of measures that are too short, too long or have a measure outside the
/// rules: 12 comes before 10.
fn refused_lists(table: &mut Vec<u64>) {
    let keys = [1, 2, 3, 4];
    let mut refused = |number: usize, lengths: &[u64], corrections: &[i32]| {
        let reply = build_lists(table, (3, 5), &keys[..number], lengths, corrections);
        assert_eq!(reply, 12);
    };
    for number in 0..=4 {
        for (lengths, corrections) in [(number + 1, number), (number, number + 1), (9, 9)] {
            refused(number, &vec![0; lengths], &vec![0; corrections]);
        }
    }
    for number in 1..=4 {
        for (lengths, corrections) in [(number - 1, number), (number, number - 1), (0, 0)] {
            refused(number, &vec![0; lengths], &vec![0; corrections]);
        }
        for measure in WRONG {
            for place in 0..number {
                let (mut lengths, mut corrections) = (vec![0; number], vec![0; number]);
                (lengths[place], corrections[place]) = (measure.length, measure.correction);
                refused(number, &lengths, &corrections);
            }
        }
    }
}

#[test]
fn refusals_by_the_state() {
    let mut table = vec![9; length_of_slots(2)];
    assert_eq!(build(&mut table, 3, 4, &[4, u64::MAX]), 0);
    assert_eq!(insert(&mut table, 4), 8);
    let measured = Measure::new(10_000, 1);
    assert_eq!(insert_measured(&mut table, 4, measured), 8);
    assert_eq!(insert_measured(&mut table, 5, measured), 10);
    assert_eq!(insert_measured(&mut table, 4, WRONG[0]), 12);
    assert_eq!(insert_measured(&mut table, 5, WRONG[0]), 12);
    assert_eq!(insert(&mut table, 5), 10);
    assert_eq!(delete(&mut table, 5), 9);
    assert_eq!(range(&table, 0, u64::MAX, 1), 11);
    steps(&table, Place::WHOLE);
    let three = Contents::unmeasured(3, &[1, 2, 3]);
    let bytes = image(&priority, &three);
    assert_eq!(read(&mut table, &bytes), 10);
    let (_, bytes) = write(&table, 1_000);
    assert_eq!(write(&table, bytes.len() - 1).0, 11);
    assert_eq!(write(&table, bytes.len()).0, 0);
    assert_eq!(pages(&table, 10 + 2 * 49 - 1), 11);
    assert_eq!(pages(&table, 10 + 2 * 49), 0);
    let length = REAL.list(&bytes, &mut [0; 1_000]).length as usize;
    assert_eq!(list(&bytes, length - 1), 11);
    assert_eq!(list(&bytes, length), 0);
}

/// Keys of equal priority: the lesser one outranks, in the treap and in slots.
#[test]
fn real_ties() {
    for slots in [2, 3, 16, 17] {
        for salt in [0, 1 << 63, u64::MAX, TIES[0].0 - 1] {
            let mut table = vec![0; length_of_slots(slots)];
            set_up(&mut table, 3, salt);
            for (a, b) in TIES {
                insert(&mut table, a ^ salt);
                insert(&mut table, b ^ salt);
                judged(&table);
                if slots < 16 {
                    delete(&mut table, b ^ salt);
                    delete(&mut table, a ^ salt);
                }
            }
        }
    }
}
