//! The library on paper: pages and their lines, the fields of a key line, sizes, what
//! is turned down; by both forms. And what the program of the pages prints.

mod common;

use common::Random;
use reference::calls::{Index, LengthReply, REAL};
use reference::image::image;
use reference::measure::Measure;
use reference::pages::{pages, program};
use reference::points::points;
use reference::priority::priority;
use reference::table::words;
use reference::{fast, Contents};

/// The pages of the literal form and those of the fast form.
const FORMS: [fn(&[u64], &mut [u8]) -> LengthReply; 2] =
    [|table, output| REAL.pages(table, output), fast::pages];

/// What an output holds before the call.
const BEFORE: u8 = 0xEE;

/// The text that both forms write, with later bytes left as they were.
#[track_caller]
fn text_of(slots: usize, contents: &Contents) -> String {
    let table = words(&priority, contents, slots);
    let [one, other] = FORMS.map(|pages| {
        let mut output = vec![BEFORE; 60 * (slots + 1)];
        let reply = pages(&table, &mut output);
        assert_eq!(reply.refusal, 0);
        let later = output.split_off(reply.length as usize);
        assert!(later.iter().all(|&byte| byte == BEFORE));
        String::from_utf8(output).expect("text")
    });
    assert_eq!(one, other);
    one
}

/// So many keys, rising, none of them measured.
fn keys(number: u64) -> Contents {
    let keys: Vec<u64> = (1..=number).collect();
    Contents::unmeasured(3, &keys)
}

/// A lone key with this measure.
fn lone(key: u64, measure: Measure) -> Contents {
    let (order, salt, set) = (3, 0, [(key, measure)].into());
    Contents { order, salt, set }
}

#[test]
fn an_empty_library_is_one_page_with_no_key_lines() {
    assert_eq!(text_of(1, &keys(0)), "PAGE 0001\n");
    assert_eq!(text_of(64, &keys(0)), "PAGE 0001\n");
}

/// The root's leader is sixteen zeros.
#[test]
fn a_lone_key() {
    assert_eq!(
        text_of(1, &lone(5, Measure::NONE)),
        "PAGE 0001\n0000000000000005    0    1 0000000000000000    -\n"
    );
    assert_eq!(
        text_of(1, &lone(0xFEDC_BA98_7654_3210, Measure::new(26_500, 0))),
        "PAGE 0001\nFEDCBA9876543210    0    1 0000000000000000 40.0\n"
    );
    assert_eq!(
        text_of(1, &lone(u64::MAX, Measure::new(40_000, 5_000))),
        "PAGE 0001\nFFFFFFFFFFFFFFFF    0    1 0000000000000000 67.5\n"
    );
}

/// Document 01's example D, whose priorities are written there.
#[test]
fn ranks_counts_and_leaders() {
    let falling = |key: u64| 1_000 - key;
    let index = Index { priority: &falling };
    let mut contents = keys(4);
    contents.set.insert(3, Measure::new(10_000, -5_000));
    let due = "PAGE 0001\n\
        0000000000000001    2    1 0000000000000000    -\n\
        0000000000000002    1    1 0000000000000001    -\n\
        0000000000000003    0    2 0000000000000002  7.5\n\
        0000000000000004    0    1 0000000000000002    -\n";
    assert_eq!(pages(&falling, &contents), due);
    let table = words(&falling, &contents, 4);
    let mut output = vec![BEFORE; due.len() + 3];
    let reply = index.pages(&table, &mut output);
    assert_eq!((reply.refusal, reply.length), (0, due.len() as u64));
    assert_eq!(output, [due.as_bytes(), &[BEFORE; 3]].concat());
}

/// In a chain of order 3 every second key has the next rank: those of one digit to four.
#[test]
fn ranks_of_many_digits() {
    let falling = |key: u64| u64::MAX - key;
    let text = pages(&falling, &keys(4_096));
    let lines: Vec<&str> = text.lines().filter(|line| line.len() == 48).collect();
    assert_eq!(&lines[0][16..27], " 2048    1 ");
    assert_eq!(&lines[2_000][16..27], " 1047    2 ");
    assert_eq!(&lines[3_896][16..27], "   99    2 ");
    assert_eq!(&lines[4_095][16..27], "    0    1 ");
}

/// A chain in one block: counts of one digit to three.
#[test]
fn counts_of_many_digits() {
    let falling = |key: u64| 1_000 - key;
    let (order, salt, set) = (255, 0, keys(200).set);
    let text = pages(&falling, &Contents { order, salt, set });
    let counts: Vec<&str> = text
        .lines()
        .filter(|line| line.len() == 48)
        .map(|line| &line[21..26])
        .collect();
    let due = |i: usize| format!(" {:>4}", if i == 0 { 1 } else { 200 - i });
    assert_eq!(counts, (0..200).map(due).collect::<Vec<_>>());
}

/// "50 key lines, rising; the last page may have fewer, but has at least one"
#[test]
fn pages_of_fifty() {
    for (number, last) in [
        (0, 0),
        (1, 1),
        (2, 2),
        (49, 49),
        (50, 50),
        (51, 1),
        (99, 49),
        (100, 50),
        (101, 1),
        (150, 50),
    ] {
        let text = text_of(200, &keys(number));
        let lines: Vec<&str> = text.split_terminator('\n').collect();
        let pages: Vec<&[&str]> = lines.chunks(51).collect();
        assert_eq!(
            pages.len() as u64,
            number.max(1) / 50 + u64::from(number.max(1) % 50 > 0)
        );
        for (i, page) in pages.iter().enumerate() {
            assert_eq!(page[0], format!("PAGE {:04}", i + 1));
            let due = if i + 1 < pages.len() { 50 } else { last };
            assert_eq!(page.len(), due + 1, "{number} keys");
        }
        let shown = lines.iter().filter(|line| line.len() == 48);
        let shown: Vec<String> = shown.map(|line| line[..16].to_string()).collect();
        let due: Vec<String> = (1..=number).map(|key| format!("{key:016X}")).collect();
        assert_eq!(shown, due);
    }
}

/// 10 bytes a page and 49 a key.
#[test]
fn lengths() {
    for (number, length) in [
        (0, 10),
        (1, 59),
        (49, 2_411),
        (50, 2_460),
        (51, 2_519),
        (100, 4_920),
        (101, 4_979),
        (1_000, 49_200),
        (4_096, 201_524),
    ] {
        let text = text_of(4_096, &keys(number));
        assert_eq!(text.len(), length, "{number} keys");
    }
    assert!(text_of(4_096, &keys(4_096)).contains("\nPAGE 0082\n"));
}

/// Every size, from 15 half points to 135, and those on either side of each half.
#[test]
fn sizes() {
    for t in 5_000..=45_000u64 {
        let by_hand = (3 * t + 500) / 1_000;
        let length = t.clamp(10_000, 40_000);
        let measure = Measure::new(length, (t as i64 - length as i64) as i32);
        assert_eq!(points(measure).half_points, by_hand);
        let due = match by_hand % 2 {
            0 => format!("{:>2}.0", by_hand / 2),
            _ => format!("{:>2}.5", by_hand / 2),
        };
        let text = text_of(1, &lone(7, measure));
        assert_eq!(text[54..], format!("{due}\n"), "{t}");
    }
}

#[test]
fn known_sizes() {
    for (length, correction, due) in [
        (10_000, -5_000, " 7.5"),
        (10_000, -4_834, " 7.5"),
        (10_000, -4_833, " 8.0"),
        (10_000, -3_500, "10.0"),
        (10_000, -3_501, " 9.5"),
        (26_499, 0, "39.5"),
        (26_500, 0, "40.0"),
        (31_500, -5_000, "40.0"),
        (25_500, 0, "38.5"),
        (40_000, 5_000, "67.5"),
        (40_000, 4_833, "67.0"),
        (40_000, 4_834, "67.5"),
    ] {
        let text = text_of(1, &lone(7, Measure::new(length, correction)));
        assert_eq!(text[54..58], *due, "{length}, {correction}");
    }
}

/// Random sets, measured and not, in tables of any size: both forms agree.
#[test]
fn both_forms_agree() {
    let mut random = Random(61);
    for _ in 0..300 {
        let keys = random.keys(120);
        let order = 3 + random.below(253);
        let contents = random.contents(order, &keys);
        let slots = keys.len().max(1) + random.below(30) as usize;
        let text = text_of(slots, &contents);
        assert_eq!(text, pages(&priority, &contents));
    }
}

/// "the checks are 1, 7, 11", in this order; 11 compares with the whole text.
#[test]
fn what_is_turned_down() {
    let table = words(&priority, &keys(51), 64);
    let length = 2 * 10 + 51 * 49;
    let mut unsound = table.clone();
    unsound[1] = 50;
    for pages in FORMS {
        let refused = |table: &[u64], room: usize, refusal: u64| {
            let mut output = vec![BEFORE; room];
            let due = LengthReply { refusal, length: 0 };
            assert_eq!(pages(table, &mut output), due);
            assert!(output.iter().all(|&byte| byte == BEFORE));
        };
        for room in [0, 9, 10, 2_460, length - 1] {
            refused(&table[1..], room, 1);
            refused(&unsound[1..], room, 1);
            refused(&[], room, 1);
            refused(&unsound, room, 7);
            refused(&table, room, 11);
        }
        refused(&unsound, length, 7);
        refused(&words(&priority, &keys(0), 1), 9, 11);
        let mut output = vec![BEFORE; length];
        assert_eq!(pages(&table, &mut output).length, length as u64);
    }
}

#[test]
fn what_the_program_prints() {
    let mut contents = keys(1_000);
    let ends = [Measure::new(10_000, -5_000), Measure::new(40_000, 5_000)];
    contents.set.insert(1, ends[0]);
    contents.set.insert(1_000, ends[1]);
    let text = program(&REAL, &image(&priority, &contents));
    assert_eq!(text, pages(&priority, &contents));
    assert!(text.ends_with(" 67.5\n"));
    assert_eq!(
        program(&REAL, &image(&priority, &keys(1_001))),
        "refused 10\n"
    );
    assert_eq!(program(&REAL, &image(&priority, &keys(0))), "PAGE 0001\n");
    assert_eq!(program(&REAL, &[0; 50_023]), "refused 6\n");
    assert_eq!(program(&REAL, &[]), "refused 6\n");
    assert_eq!(program(&REAL, &[0; 50_024]), "too long\n");
}
