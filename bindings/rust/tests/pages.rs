//! The keys on pages: the text itself, how long it is, and what is turned down.

mod common;

use btreap::{Measure, Refusal};
use common::{table_of, unsound};

/// The text of a table's pages, written into an output of just its length.
fn text_of(table: &[u64], keys: usize) -> String {
    let mut out = vec![0; btreap::pages_bytes(keys)];
    assert_eq!(btreap::pages(table, &mut out), Ok(out.len()));
    String::from_utf8(out).expect("text")
}

/// The table of one key with this measure.
fn lone(key: u64, measure: Measure) -> Vec<u64> {
    let mut table = table_of(1, &[]);
    btreap::insert_measured(&mut table, key, measure).unwrap();
    table
}

#[test]
fn lengths() {
    let lengths = [(0, 10), (1, 59), (49, 2_411), (50, 2_460), (51, 2_519), (100, 4_920), (101, 4_979), (1_000, 49_200), (4_096, 201_524)];
    for (keys, bytes) in lengths {
        assert_eq!(btreap::pages_bytes(keys), bytes, "{keys} keys");
    }
    assert_eq!(btreap::LONGEST_PAGES, 201_524);
}

#[test]
fn an_empty_library_is_one_page_with_no_key_lines() {
    assert_eq!(text_of(&table_of(64, &[]), 0), "PAGE 0001\n");
}

/// Keys 41 and 512 are measured: t is 31,045 and 26,380, that is 93.135 and 79.14 half points.
#[test]
fn a_page() {
    let mut table = vec![0; btreap::table_words(64)];
    let (lengths, corrections) = ([0, 0, 31_000, 26_500, 0], [0, 0, 45, -120, 0]);
    btreap::build_measured(&mut table, 3, 0, &[7, 8, 41, 512, 3000], &lengths, &corrections).unwrap();
    let text = "PAGE 0001
0000000000000007    0    1 0000000000000029    -
0000000000000008    0    2 0000000000000029    -
0000000000000029    1    1 0000000000000BB8 46.5
0000000000000200    0    1 0000000000000029 39.5
0000000000000BB8    2    1 0000000000000000    -
";
    assert_eq!(text_of(&table, 5), text);
}

/// Each field of a line is what a lookup says of the key.
#[test]
fn lines_agree_with_lookups() {
    let keys: Vec<u64> = (1..=101).map(|key| key * 0x0123_4567_89AB_CDEF).collect();
    let table = table_of(128, &keys);
    let text = text_of(&table, 101);
    let mut lines = text.lines();
    for (i, &key) in keys.iter().enumerate() {
        if i % 50 == 0 {
            assert_eq!(lines.next(), Some(format!("PAGE {:04}", i / 50 + 1)).as_deref());
        }
        match btreap::look_up(&table, key) {
            Ok(btreap::Found::Held { rank, count, leader, .. }) => {
                assert_eq!(lines.next(), Some(format!("{key:016X} {rank:4} {count:4} {leader:016X}    -")).as_deref());
            }
            other => panic!("{key}: {other:?}"),
        }
    }
    assert_eq!(lines.next(), None);
}

#[test]
fn pages_of_fifty() {
    for (number, pages) in [(1, 1), (49, 1), (50, 1), (51, 2), (100, 2), (101, 3)] {
        let keys: Vec<u64> = (1..=number).collect();
        let text = text_of(&table_of(101, &keys), keys.len());
        assert_eq!(text.matches("PAGE ").count(), pages, "{number} keys");
        assert_eq!(text.lines().count(), keys.len() + pages);
        assert!(text.contains(&format!("PAGE {pages:04}\n")));
    }
}

/// The least size, the greatest, and those of half points that are even and odd.
#[test]
fn sizes() {
    for (length, correction, size) in [
        (10_000, -5_000, " 7.5"),
        (10_000, -3_500, "10.0"),
        (26_499, 0, "39.5"),
        (26_500, 0, "40.0"),
        (25_500, 0, "38.5"),
        (40_000, 5_000, "67.5"),
        (0, 0, "   -"),
    ] {
        let text = text_of(&lone(u64::MAX, Measure::new(length, correction)), 1);
        assert_eq!(text, format!("PAGE 0001\nFFFFFFFFFFFFFFFF    0    1 0000000000000000 {size}\n"));
    }
}

#[test]
fn later_bytes_are_as_they_were() {
    let (table, length) = (table_of(3, &[5, 7]), btreap::pages_bytes(2));
    let mut out = vec![0xEE; length + 20];
    assert_eq!(btreap::pages(&table, &mut out), Ok(length));
    assert_eq!(out[..length], *text_of(&table, 2).as_bytes());
    assert_eq!(out[length..], [0xEE; 20]);
}

#[test]
fn a_refusal_writes_nothing() {
    let (table, unsound) = (table_of(3, &[5, 7]), unsound(3));
    for room in [0, 9, 10, 59, btreap::pages_bytes(2) - 1] {
        let mut out = vec![0xEE; room];
        assert_eq!(btreap::pages(&unsound[1..], &mut out), Err(Refusal::WrongLength));
        assert_eq!(btreap::pages(&[], &mut out), Err(Refusal::WrongLength));
        assert_eq!(btreap::pages(&unsound, &mut out), Err(Refusal::NotSound));
        assert_eq!(btreap::pages(&table, &mut out), Err(Refusal::OutputTooShort));
        assert_eq!(out, vec![0xEE; room]);
    }
}
