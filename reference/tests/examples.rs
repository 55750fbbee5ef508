//! Document 01's examples A to H with the priorities written there and document 02's
//! fill, the lengths and orders under "Run", and the listing of B. The order is 3
//! throughout.

use reference::blocks::{blocks, blocks_met, fill, Block};
use reference::calls::{Index, Place, REAL};
use reference::image::image;
use reference::listing::{listing, program};
use reference::priority::{entries, priority, E, TIES};
use reference::shape::{shape, Shape};
use reference::table::{length_of_slots, slots, words};
use reference::Contents;

/// Priorities by which each listed key outranks the keys after it.
fn falling(list: &'static [u64]) -> impl Fn(u64) -> u64 + Sync {
    move |key| {
        let place = list.iter().position(|&k| k == key).unwrap();
        1_000 - place as u64
    }
}

fn shape_of(list: &'static [u64]) -> Shape {
    let mut keys = list.to_vec();
    keys.sort();
    shape(3, &entries(&falling(list), &keys))
}

fn ranks(shape: &Shape) -> Vec<u64> {
    shape.nodes.iter().map(|v| v.rank).collect()
}

fn counts(shape: &Shape) -> Vec<u64> {
    shape.nodes.iter().map(|v| v.count).collect()
}

fn leaders(shape: &Shape) -> Vec<u64> {
    shape.nodes.iter().map(|v| v.leader).collect()
}

fn links(shape: &Shape) -> Vec<(u64, u64)> {
    shape.nodes.iter().map(|v| (v.left, v.right)).collect()
}

fn block(leader: u64, level: u64, keys: &[u64]) -> Block {
    Block {
        leader,
        level,
        keys: keys.to_vec(),
    }
}

fn fill_of(shape: &Shape) -> u64 {
    fill(3, shape.nodes.len() as u64, blocks(shape).len() as u64)
}

fn contents(keys: &[u64]) -> Contents {
    Contents::unmeasured(3, keys)
}

/// B's image, as document 01 writes it.
fn image_of_b() -> Vec<u8> {
    let zeros = |number| vec![0u8; number];
    [
        vec![0x4C, 0x48, 0x03, 0x01, 0x00, 0x01, 0x00, 0x05],
        zeros(7),
        vec![0x4C, 0x42, 0x05],
        zeros(7),
        vec![0x00, 0x00, 0x01, 0x00],
        vec![0x4C, 0x4E, 0x05],
        zeros(7),
        zeros(8),
        zeros(8),
        vec![0x00, 0x00, 0x01, 0x00],
    ]
    .concat()
}

#[test]
fn constants_follow_their_rule() {
    assert_eq!(E[0], 1442695040888963407);
    for i in 1..2048 {
        let next = E[i - 1] as u128 * 6364136223846793005 + 1442695040888963407;
        assert_eq!(E[i] as u128, next % (1 << 64));
    }
}

#[test]
fn priority_takes_the_lowest_byte_first() {
    let rest = E[512] ^ E[768] ^ E[1024] ^ E[1280] ^ E[1536];
    assert_eq!(
        priority(0x0700_0000_0000_0102),
        E[2] ^ E[257] ^ rest ^ E[1799]
    );
}

#[test]
fn example_a() {
    let none = shape_of(&[]);
    assert_eq!(none.root, 0);
    assert_eq!(blocks(&none), []);
    assert_eq!(blocks_met(&none, 7), 0);
    assert_eq!(fill_of(&none), 0);
    let bytes = image(&priority, &contents(&[]));
    assert_eq!(bytes, [b"LH\x03".to_vec(), vec![0; 12]].concat());
}

#[test]
fn example_b() {
    let b = shape_of(&[5]);
    assert_eq!(
        (ranks(&b), counts(&b), leaders(&b)),
        (vec![0], vec![1], vec![0])
    );
    assert_eq!(blocks(&b), [block(5, 0, &[5])]);
    assert_eq!(fill_of(&b), 20);
    assert_eq!(image(&falling(&[5]), &contents(&[5])), image_of_b());
    assert_eq!(image(&priority, &contents(&[5])), image_of_b());
}

#[test]
fn example_c() {
    let c = shape_of(&[9, 5]);
    assert_eq!(ranks(&c), [0, 1]);
    assert_eq!(leaders(&c), [9, 0]);
    assert_eq!(blocks(&c), [block(9, 1, &[5, 9])]);
    assert_eq!(fill_of(&c), 40);
}

#[test]
fn example_d() {
    let d = shape_of(&[1, 2, 3, 4]);
    assert_eq!(ranks(&d), [2, 1, 0, 0]);
    assert_eq!(counts(&d), [1, 1, 2, 1]);
    assert_eq!(leaders(&d), [0, 1, 2, 2]);
    assert_eq!(links(&d), [(0, 2), (0, 3), (0, 4), (0, 0)]);
    assert_eq!(blocks(&d), [block(1, 2, &[1, 2]), block(2, 1, &[3, 4])]);
    assert_eq!(fill_of(&d), 44);
}

#[test]
fn example_e() {
    let e = shape_of(&[2, 3, 4, 5, 6, 7, 1]);
    assert_eq!(ranks(&e), [0, 3, 2, 1, 1, 0, 0]);
    let expected = [
        block(2, 3, &[2, 3]),
        block(3, 2, &[4, 5]),
        block(2, 1, &[1]),
        block(5, 1, &[6, 7]),
    ];
    assert_eq!(blocks(&e), expected);
    assert_eq!(fill_of(&e), 41);
    assert_eq!([7, 8, 1].map(|key| blocks_met(&e, key)), [3, 3, 2]);
}

#[test]
fn example_f() {
    let f = shape_of(&[3, 2, 4, 1, 5]);
    assert_eq!(links(&f), [(0, 0), (1, 0), (2, 4), (0, 5), (0, 0)]);
    assert_eq!(blocks(&f), [block(3, 1, &[1, 2, 3, 4, 5])]);
    assert_eq!(fill_of(&f), 100);
}

#[test]
fn example_g() {
    let g = shape_of(&[3, 2, 4, 1, 5, 6]);
    assert_eq!(links(&g), [(0, 0), (1, 0), (2, 4), (0, 5), (0, 6), (0, 0)]);
    let expected = [
        block(3, 2, &[3, 4]),
        block(3, 1, &[1, 2]),
        block(4, 1, &[5, 6]),
    ];
    assert_eq!(blocks(&g), expected);
    // Document 02: "Example G reads 46, and B keeps 20."
    assert_eq!(fill_of(&g), 46);
}

/// Both priorities make home 2 of 3 slots; key 8 outranks key 6.
fn homes_of_h(key: u64) -> u64 {
    match key {
        8 => 5 * 65_536,
        6 => 2 * 65_536 + 65_535,
        _ => panic!("H has keys 6 and 8"),
    }
}

#[test]
fn example_h() {
    assert_eq!(slots(&entries(&homes_of_h, &[6, 8]), 3), [6, 0, 8]);
    assert_eq!(slots(&entries(&homes_of_h, &[6]), 3), [0, 0, 6]);
    assert_eq!(fill_of(&shape(3, &entries(&homes_of_h, &[6, 8]))), 40);
    let index = Index {
        priority: &homes_of_h,
    };
    for insertions in [[6, 8], [8, 6]] {
        let mut table = vec![99; length_of_slots(3)];
        assert_eq!(index.set_up(&mut table, 3, 0).refusal, 0);
        for key in insertions {
            assert_eq!(index.insert_unmeasured(&mut table, key).refusal, 0);
        }
        let both = [[6, 0, 0, 8, 0, 1, 0, 0], [0; 8], [8, 6, 0, 0, 1, 1, 0, 0]];
        let both = [vec![3, 2, 8, 0], both.concat()].concat();
        assert_eq!(table, both);
        let deleted = index.delete(&mut table, 8);
        assert_eq!((deleted.refusal, deleted.rank), (0, 1));
        let one = [[0; 8], [0; 8], [6, 0, 0, 0, 0, 1, 0, 0]];
        let one = [vec![3, 1, 6, 0], one.concat()].concat();
        assert_eq!(table, one);
    }
}

#[test]
fn the_lesser_of_equal_priorities_outranks() {
    let same = |_| 7 * 65_536;
    let shape = shape(3, &entries(&same, &[4, 5]));
    assert_eq!(shape.root, 4);
    assert_eq!(slots(&entries(&same, &[4, 5]), 4), [5, 0, 0, 4]);
}

#[test]
fn the_lesser_of_a_real_tie_outranks() {
    for (lesser, greater) in TIES {
        assert!(0 < lesser && lesser < greater);
        assert_eq!(priority(lesser), priority(greater));
        let both = entries(&priority, &[lesser, greater]);
        assert_eq!(shape(3, &both).root, lesser);
        let placed = slots(&both, 100);
        let home = both[0].home(100);
        assert_eq!((placed[home], placed[(home + 1) % 100]), (lesser, greater));
    }
}

#[test]
fn lengths_and_orders() {
    let set_up = |length, order| REAL.set_up(&mut vec![1; length], order, 0).refusal;
    for length in [12, 32_772] {
        assert_eq!(set_up(length, 3), 0);
    }
    for length in [0, 4, 11, 13, 32_780] {
        assert_eq!(set_up(length, 3), 1);
    }
    let by_order = [3, 255, 2, 256].map(|order| set_up(12, order));
    assert_eq!(by_order, [0, 0, 2, 2]);
    assert_eq!(set_up(11, 2), 1);
    let mut table = vec![7; 20];
    REAL.set_up(&mut table, 255, 0);
    assert_eq!(table, [vec![255], vec![0; 19]].concat());
}

const LISTING_OF_B: &str = "\
order 3 keys 1 blocks 1 fill 20 root 0000000000000005
block 0000000000000005 level 0 keys 1
key 0000000000000005 rank 0 count 1
";

#[test]
fn listing_of_b() {
    assert_eq!(listing(&priority, &contents(&[5])), LISTING_OF_B);
    assert_eq!(program(&REAL, &image_of_b()), LISTING_OF_B);
    let mut output = vec![b'~'; LISTING_OF_B.len() + 2];
    let reply = REAL.list(&image_of_b(), &mut output);
    assert_eq!(
        (reply.refusal, reply.length),
        (0, LISTING_OF_B.len() as u64)
    );
    assert_eq!(output, format!("{LISTING_OF_B}~~").as_bytes());
}

#[test]
fn listing_refuses() {
    assert_eq!(program(&REAL, &[0; 50_024]), "too long\n");
    assert_eq!(program(&REAL, &[0; 50_023]), "refused 6\n");
    assert_eq!(program(&REAL, &[]), "refused 6\n");
    let mut output = vec![b'~'; LISTING_OF_B.len() - 1];
    let reply = REAL.list(&image_of_b(), &mut output);
    assert_eq!((reply.refusal, reply.length), (11, 0));
    assert!(output.iter().all(|&byte| byte == b'~'));
    assert_eq!(REAL.list(&[], &mut []).refusal, 6);
}

#[test]
fn listing_of_nothing_and_of_too_many_keys() {
    let empty = image(&priority, &contents(&[]));
    let line = "order 3 keys 0 blocks 0 fill 0 root 0000000000000000\n";
    assert_eq!(program(&REAL, &empty), line);
    let many = |number| Contents::unmeasured(255, &(1..=number).collect::<Vec<_>>());
    let listed = image(&priority, &many(1000));
    assert_eq!(
        program(&REAL, &listed).lines().next().unwrap()[..20],
        *"order 255 keys 1000 "
    );
    let unlisted = image(&priority, &many(1001));
    assert!(unlisted.len() <= 50_023);
    assert_eq!(program(&REAL, &unlisted), "refused 10\n");
}

#[test]
fn listed_keys_have_capital_letters() {
    let text = listing(&priority, &contents(&[0xABCDEF]));
    assert!(text.starts_with("order 3 keys 1 blocks 1 fill 20 root 0000000000ABCDEF\n"));
}

#[test]
fn steps() {
    let mut table = vec![0; length_of_slots(4)];
    let built = REAL.build_unmeasured(&mut table, 3, &[5, 9, u64::MAX]);
    assert_eq!(built.refusal, 0);
    let mut place = Place::WHOLE;
    let mut seen = vec![];
    for _ in 0..5 {
        let (reply, next) = REAL.step(&table, place);
        assert_eq!(reply.refusal, 0);
        seen.push((reply.yielded, reply.key, next.next, next.done));
        place = next;
    }
    let expected = [
        (true, 5, 6, false),
        (true, 9, 10, false),
        (true, u64::MAX, 10, true),
        (false, 0, 10, true),
        (false, 0, 10, true),
    ];
    assert_eq!(seen, expected);
    // A key equal to a smaller high does not set done.
    let (reply, next) = REAL.step(&table, Place::new(6, 9));
    assert_eq!((reply.key, next), (9, Place::new(10, 9)));
    let (reply, last) = REAL.step(&table, next);
    assert_eq!(
        (reply.yielded, last.next, last.high, last.done),
        (false, 10, 9, true)
    );
    let (reply, same) = REAL.step(&table, Place::SPENT);
    assert_eq!((reply.yielded, same), (false, Place::SPENT));
    // Refusals come first, and keep the place.
    assert_eq!(REAL.step(&table[1..], Place::SPENT).0.refusal, 1);
    table[1] += 1;
    let (reply, kept) = REAL.step(&table, Place::new(1, 9));
    assert_eq!((reply.refusal, reply.yielded, reply.key), (7, false, 0));
    assert_eq!(kept, Place::new(1, 9));
    assert_eq!(REAL.step(&table, Place::SPENT).0.refusal, 7);
}

#[test]
fn words_of_example_d_by_real_priorities_are_sound() {
    let table = words(&priority, &contents(&[1, 2, 3, 4]), 5);
    assert_eq!(REAL.sound(&table), Some(contents(&[1, 2, 3, 4])));
}
