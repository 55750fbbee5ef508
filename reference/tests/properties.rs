//! Properties of the calls: restoring, independence of order, damage, refusals
//! in their order and without trace, and whole random histories by the book.

mod common;

use common::{measure_bytes, salt_bytes, Random};
use reference::batch::Question;
use reference::calls::{Index, LookUpReply, Place, REAL};
use reference::image::image;
use reference::load::end_set;
use reference::measure::Measure;
use reference::priority::priority;
use reference::table::{
    length_of_slots, slots_of_length, words, HEADER_WORDS, SALT_WORD, SLOT_WORDS,
};
use reference::{Contents, Set};
use std::collections::BTreeSet;

/// Few different priorities, so that the tie rule and full clusters matter.
fn coarse(key: u64) -> u64 {
    Random(key).next() % 6 * 65_536
}

const COARSE: Index = Index { priority: &coarse };

/// A table of M slots for a random set of at most M keys.
fn random_table(random: &mut Random, index: &Index) -> (Vec<u64>, Contents) {
    let m = 1 + random.below(12);
    let (order, keys) = (3 + random.below(3), random.keys(m));
    let contents = random.contents(order, &keys);
    let mut table = vec![random.next(); length_of_slots(m as usize)];
    assert_eq!(build(index, &mut table, &contents), 0);
    assert_eq!(table, words(index.priority, &contents, m as usize));
    (table, contents)
}

/// Builds from the lists of an order, a salt and a set; the refusal.
fn build(index: &Index, table: &mut [u64], contents: &Contents) -> u64 {
    let (lengths, corrections) = (contents.lengths(), contents.corrections());
    let (order, salt, keys) = (contents.order, contents.salt, contents.keys());
    let reply = index.build(table, order, salt, &keys, &lengths, &corrections);
    reply.refusal
}

fn image_of(index: &Index, table: &[u64]) -> Vec<u8> {
    let mut output = vec![0xEE; 1_000];
    let reply = index.write_image(table, &mut output);
    assert_eq!(reply.refusal, 0);
    assert!(output[reply.length as usize..].iter().all(|&b| b == 0xEE));
    output.truncate(reply.length as usize);
    output
}

#[test]
fn insert_then_delete_restores_every_word() {
    let mut random = Random(11);
    for index in [REAL, COARSE] {
        for _ in 0..500 {
            let (table, contents) = random_table(&mut random, &index);
            let key = random.key(30);
            let mut changed = table.clone();
            let measure = random.measure();
            let inserted = index.insert(&mut changed, key, measure);
            let full = slots_of_length(table.len()) == Some(contents.set.len());
            let expected = match (contents.set.contains_key(&key), full) {
                (true, _) => 8,
                (false, true) => 10,
                (false, false) => 0,
            };
            assert_eq!(inserted.refusal, expected);
            if expected == 0 {
                assert_ne!(changed, table);
                let found = index.look_up(&changed, key);
                assert_eq!((found.rank, found.measure), (inserted.rank, measure));
                assert_eq!(index.delete(&mut changed, key), inserted);
            }
            assert_eq!(changed, table);
        }
    }
}

#[test]
fn two_insertion_orders_give_equal_words() {
    let mut random = Random(12);
    for index in [REAL, COARSE] {
        for _ in 0..200 {
            let (table, contents) = random_table(&mut random, &index);
            for _ in 0..2 {
                let mut set: Vec<(u64, Measure)> = contents.set.clone().into_iter().collect();
                random.shuffle(&mut set);
                let mut other = vec![random.next(); table.len()];
                index.set_up(&mut other, contents.order, contents.salt);
                for (key, measure) in set {
                    assert_eq!(index.insert(&mut other, key, measure).refusal, 0);
                }
                assert_eq!(other, table);
            }
        }
    }
}

#[test]
fn reading_what_was_written_restores() {
    let mut random = Random(13);
    for index in [REAL, COARSE] {
        for _ in 0..300 {
            let (table, contents) = random_table(&mut random, &index);
            let bytes = image_of(&index, &table);
            assert_eq!(bytes, image(index.priority, &contents));
            let mut other = vec![random.next(); table.len()];
            assert_eq!(index.read_image(&mut other, &bytes).refusal, 0);
            assert_eq!(other, table);
        }
    }
}

#[test]
fn damaged_images_are_refused() {
    let mut random = Random(14);
    for _ in 0..25 {
        let (mut table, contents) = random_table(&mut random, &REAL);
        let before = table.clone();
        let bytes = image_of(&REAL, &table);
        for i in 0..bytes.len() {
            for flip in [1, 1 << random.below(8), 0xFF] {
                let mut damaged = bytes.clone();
                damaged[i] ^= flip;
                let reply = REAL.read_image(&mut table, &damaged);
                if reply.refusal == 0 {
                    // The order's byte or the salt's: the same records may be right for
                    // it. A measure's: it may be another right one.
                    let is_another = i == 2 || salt_bytes(&bytes).contains(&i);
                    assert!(is_another || measure_bytes(&bytes).contains(&i), "byte {i}");
                    let read = REAL.sound(&table).expect("just read");
                    assert_eq!(read.keys(), contents.keys());
                    assert_eq!(image(&priority, &read), damaged);
                    table.copy_from_slice(&before);
                } else {
                    assert_eq!(reply.refusal, 6, "byte {i}");
                }
                assert_eq!(table, before);
            }
            assert_eq!(REAL.read_image(&mut table, &bytes[..i]).refusal, 6);
        }
        for more in [&[0][..], b"LB", b"LN", b"LM", &[0; 6], &bytes] {
            let longer = [&bytes, more].concat();
            assert_eq!(REAL.read_image(&mut table, &longer).refusal, 6);
        }
        assert_eq!(table, before);
    }
}

/// Any one changed word makes the table unsound, but for the order, the salt and a
/// measure that becomes another right one.
#[test]
fn damaged_tables_are_refused() {
    let mut random = Random(15);
    for _ in 0..40 {
        let (table, contents) = random_table(&mut random, &REAL);
        for i in 0..table.len() {
            let mut damaged = table.clone();
            damaged[i] ^= 1 << random.below(64);
            let before = damaged.clone();
            if let Some(read) = REAL.sound(&damaged) {
                let is_another = i == 0 || i == SALT_WORD;
                assert!(is_another || is_measure_word(i), "word {i}");
                assert_eq!(read.keys(), contents.keys());
                let m = slots_of_length(table.len()).unwrap();
                assert_eq!(words(&priority, &read, m), damaged);
                continue;
            }
            refused_as_unsound(&mut damaged);
            assert_eq!(damaged, before);
        }
    }
}

/// Whether a slot has a length or a stored correction in that word.
fn is_measure_word(word: usize) -> bool {
    word >= HEADER_WORDS && (word - HEADER_WORDS) % SLOT_WORDS >= 6
}

fn refused_as_unsound(table: &mut [u64]) {
    assert_eq!(REAL.insert_unmeasured(table, 5).refusal, 7);
    assert_eq!(REAL.delete(table, 5).refusal, 7);
    let refused = LookUpReply {
        refusal: 7,
        ..Default::default()
    };
    assert_eq!(REAL.look_up(table, 5), refused);
    assert_eq!(REAL.range(table, 0, 0, &mut []).refusal, 7);
    assert_eq!(REAL.write_image(table, &mut []).refusal, 7);
    assert_eq!(REAL.pages(table, &mut []).refusal, 7);
    assert_eq!(REAL.step(table, Place::WHOLE).0.refusal, 7);
}

#[test]
fn lowest_refusal_wins_and_leaves_no_trace() {
    let mut blank = vec![9; length_of_slots(2)];
    let junk = blank.clone();
    assert_eq!(REAL.insert_unmeasured(&mut blank[1..], 0).refusal, 1);
    assert_eq!(REAL.insert_unmeasured(&mut blank, 0).refusal, 3);
    assert_eq!(REAL.insert_unmeasured(&mut blank, 1).refusal, 7);
    assert_eq!(REAL.delete(&mut blank[1..], 0).refusal, 1);
    assert_eq!(REAL.delete(&mut blank, 0).refusal, 3);
    assert_eq!(REAL.look_up(&blank[1..], 0).refusal, 1);
    assert_eq!(REAL.look_up(&blank, 0).refusal, 3);
    assert_eq!(REAL.range(&blank[1..], 2, 1, &mut []).refusal, 1);
    assert_eq!(REAL.range(&blank, 2, 1, &mut []).refusal, 4);
    for (order, keys, refusal) in [
        (256, &[0][..], 2),
        (3, &[0, 1], 5),
        (3, &[1, 2, 2], 5),
        (3, &[1, 2, 3], 10),
    ] {
        let short = REAL.build_unmeasured(&mut blank[1..], order, keys);
        assert_eq!(short.refusal, 1);
        let reply = REAL.build_unmeasured(&mut blank, order, keys);
        assert_eq!(reply.refusal, refusal);
    }
    assert_eq!(REAL.read_image(&mut blank[1..], &[]).refusal, 1);
    assert_eq!(REAL.read_image(&mut blank, &[]).refusal, 6);
    assert_eq!(blank, junk);
}

#[test]
fn refusals_by_the_state_leave_no_trace() {
    let mut full = vec![9; length_of_slots(2)];
    assert_eq!(REAL.build_unmeasured(&mut full, 3, &[4, 7]).refusal, 0);
    let before = full.clone();
    assert_eq!(REAL.insert_unmeasured(&mut full, 7).refusal, 8);
    assert_eq!(REAL.insert_unmeasured(&mut full, 8).refusal, 10);
    assert_eq!(REAL.delete(&mut full, 8).refusal, 9);
    let mut wide = vec![0; length_of_slots(3)];
    REAL.build_unmeasured(&mut wide, 3, &[1, 2, 3]);
    assert_eq!(
        REAL.read_image(&mut full, &image_of(&REAL, &wide)).refusal,
        10
    );
    assert_eq!(full, before);

    let mut one = [77];
    assert_eq!(REAL.range(&full, 0, 9, &mut one).refusal, 11);
    assert_eq!(one, [77]);
    assert_eq!(REAL.range(&full, 0, 0, &mut one).length, 0);
    assert_eq!(REAL.range(&full, 5, u64::MAX, &mut one).length, 1);
    assert_eq!(one, [7]);
    let mut short = vec![0xEE; image_of(&REAL, &full).len() - 1];
    assert_eq!(REAL.write_image(&full, &mut short).refusal, 11);
    assert!(short.iter().all(|&byte| byte == 0xEE));
}

/// "The book is an order and a set of keys", "now one of keys with their measures", and
/// "also keeps the salt, as the calls give it": fed the calls with their inputs and no
/// word of the table.
struct Book {
    slots: usize,
    contents: Contents,
}

impl Book {
    fn set(&self) -> &Set {
        &self.contents.set
    }

    /// What it holds from now on, unless the call is refused.
    fn take(&mut self, refusal: u64, contents: Contents) {
        if refusal == 0 {
            self.contents = contents;
        }
    }
}

/// After every call the table is the one built afresh from the book, and every
/// reply agrees with the book.
#[test]
fn histories_go_by_the_book() {
    let mut random = Random(16);
    for index in [REAL, COARSE] {
        for _ in 0..30 {
            let (slots, order) = (1 + random.below(9) as usize, 3 + random.below(3));
            let mut table = vec![random.next(); length_of_slots(slots)];
            let salt = random.salt(&[]);
            let contents = Contents::unmeasured(order, &[]).salted(salt);
            let mut book = Book { slots, contents };
            assert_eq!(index.set_up(&mut table, order, salt).refusal, 0);
            for _ in 0..60 {
                play(&mut random, &index, &mut table, &mut book);
                let contents = &book.contents;
                assert_eq!(table, words(index.priority, contents, slots));
                assert_eq!(image_of(&index, &table), image(index.priority, contents));
            }
        }
    }
}

/// One random call, its reply checked against the book and the book kept.
fn play(random: &mut Random, index: &Index, table: &mut [u64], book: &mut Book) {
    let key = random.below(16);
    match random.below(15) {
        0..=4 => play_insert(random, index, table, book),
        5..=7 => {
            let expected = match () {
                _ if key == 0 => 3,
                _ if !book.set().contains_key(&key) => 9,
                _ => 0,
            };
            assert_eq!(index.delete(table, key).refusal, expected);
            book.contents.set.remove(&key);
        }
        8 => {
            let reply = index.look_up(table, key.max(1));
            let measure = book.set().get(&key.max(1));
            assert_eq!(reply.held, measure.is_some());
            assert_eq!(reply.measure, measure.copied().unwrap_or(Measure::NONE));
            assert_eq!(reply.blocks == 0, book.set().is_empty());
        }
        9 => play_range(random, index, table, book),
        10 => play_build(random, index, table, book),
        11 => play_load(random, index, table, book),
        12 => play_batch(random, index, table, &book.contents.keys()),
        13 => play_set_up(random, index, table, book),
        _ => {
            let keys = random.keys(10);
            let read = random.contents(4, &keys);
            let bytes = image(index.priority, &read);
            let expected = if keys.len() > book.slots { 10 } else { 0 };
            assert_eq!(index.read_image(table, &bytes).refusal, expected);
            book.take(expected, read);
        }
    }
}

/// A set-up, of an order that is none now and then.
fn play_set_up(random: &mut Random, index: &Index, table: &mut [u64], book: &mut Book) {
    let (order, salt) = (2 + random.below(3), random.salt(&book.contents.keys()));
    let expected = if order < 3 { 2 } else { 0 };
    assert_eq!(index.set_up(table, order, salt).refusal, expected);
    book.take(expected, Contents::unmeasured(order, &[]).salted(salt));
}

/// An insert, of a measure outside the rules now and then.
fn play_insert(random: &mut Random, index: &Index, table: &mut [u64], book: &mut Book) {
    let (key, is_wrong) = (random.below(16), random.below(5) == 0);
    let measure = match is_wrong {
        true => random.wrong_measure(),
        false => random.measure(),
    };
    let expected = match () {
        _ if key == 0 => 3,
        _ if is_wrong => 12,
        _ if book.set().contains_key(&key) => 8,
        _ if book.set().len() == book.slots => 10,
        _ => 0,
    };
    assert_eq!(index.insert(table, key, measure).refusal, expected);
    if expected == 0 {
        book.contents.set.insert(key, measure);
    }
}

fn play_range(random: &mut Random, index: &Index, table: &[u64], book: &Book) {
    let (low, high) = (random.below(16), random.below(16));
    let mut output = vec![0; book.slots];
    let reply = index.range(table, low, high, &mut output);
    if low > high {
        assert_eq!((reply.refusal, reply.length), (4, 0));
        return;
    }
    let expected: Vec<u64> = book.set().range(low..=high).map(|(&key, _)| key).collect();
    assert_eq!(output[..reply.length as usize], expected);
    assert_eq!(by_steps(index, table, low, high), expected);
}

/// A build, of an order that is none or with a measure outside the rules now and
/// then.
fn play_build(random: &mut Random, index: &Index, table: &mut [u64], book: &mut Book) {
    let keys = random.keys(10);
    let order = 1 + random.below(4);
    let mut built = random.contents(order, &keys);
    let is_wrong = !keys.is_empty() && random.below(4) == 0;
    if is_wrong {
        let key = keys[random.below(keys.len() as u64) as usize];
        built.set.insert(key, random.wrong_measure());
    }
    let expected = match () {
        _ if built.order < 3 => 2,
        _ if is_wrong => 12,
        _ if keys.len() > book.slots => 10,
        _ => 0,
    };
    assert_eq!(build(index, table, &built), expected);
    book.take(expected, built);
}

/// A load, of an order that is none now and then.
fn play_load(random: &mut Random, index: &Index, table: &mut [u64], book: &mut Book) {
    let (seed, count) = (random.next(), random.below(40) as u16);
    let order = 2 + random.below(3);
    let expected = if order < 3 { 2 } else { 0 };
    assert_eq!(index.load(table, order, seed, count).refusal, expected);
    let keys: Vec<u64> = end_set(book.slots, seed, count).into_iter().collect();
    book.take(expected, Contents::unmeasured(order, &keys));
}

/// A batch, which does not rise now and then.
fn play_batch(random: &mut Random, index: &Index, table: &[u64], held: &[u64]) {
    let question = |key| Question {
        key,
        held: 7,
        rank: 7,
    };
    let mut questions: Vec<Question> = random.keys(8).into_iter().map(question).collect();
    let before = questions.clone();
    assert_eq!(index.look_up_batch(table, &mut questions).refusal, 0);
    for question in &questions {
        assert_eq!(question.held == 1, held.contains(&question.key));
    }
    questions.extend(before.first());
    let twice = questions.clone();
    let refusal = if before.is_empty() { 0 } else { 5 };
    assert_eq!(index.look_up_batch(table, &mut questions).refusal, refusal);
    assert_eq!(questions, twice);
}

/// The range had key by key.
fn by_steps(index: &Index, table: &[u64], low: u64, high: u64) -> Vec<u64> {
    let mut place = Place::new(low, high);
    let mut keys = vec![];
    loop {
        let (reply, next) = index.step(table, place);
        assert_eq!(reply.refusal, 0);
        place = next;
        if !reply.yielded {
            return keys;
        }
        keys.push(reply.key);
    }
}

/// The greatest table, over the faster form, each key measured.
#[test]
fn a_full_table_of_4096_slots() {
    let mut random = Random(17);
    let mut keys = BTreeSet::new();
    while keys.len() < 4096 {
        keys.insert(random.next().max(1));
    }
    let keys: Vec<u64> = keys.into_iter().collect();
    let set: Set = keys.iter().map(|&key| (key, random.measured())).collect();
    let (order, salt) = (16, random.next());
    let contents = Contents { order, salt, set };
    let mut table = vec![1; length_of_slots(4096)];
    assert_eq!(build(&REAL, &mut table, &contents), 0);
    let (before, measure) = (table.clone(), contents.set[&keys[1234]]);
    let deleted = REAL.delete(&mut table, keys[1234]);
    assert_eq!(REAL.insert(&mut table, keys[1234], measure), deleted);
    assert_eq!(table, before);
    assert_eq!(REAL.insert_unmeasured(&mut table, 12345).refusal, 10);
    let mut output = vec![0; 4096];
    assert_eq!(REAL.range(&table, 0, u64::MAX, &mut output).length, 4096);
    assert_eq!(output, keys);
    let mut bytes = vec![0; 23 + 50 * 4096];
    let length = REAL.write_image(&table, &mut bytes).length as usize;
    table.fill(3);
    assert_eq!(REAL.read_image(&mut table, &bytes[..length]).refusal, 0);
    assert_eq!(table, before);
}
