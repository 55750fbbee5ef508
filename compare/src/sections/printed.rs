//! The keys on pages: as many as fill a page or leave one over, every size, ranks and
//! counts of every number of digits, outputs of every length that could be taken for
//! another, tables that are none or not sound.

use super::{exercise, Section};
use crate::call::Call;
use crate::case::{Case, Tally};
use crate::keys::Chain;
use crate::measures::{measured, right};
use crate::salts;
use crate::tables::{make_unsound, pages_length};
use reference::measure::{Measure, GREATEST_CORRECTION, LEAST_CORRECTION};
use reference::{Contents, MOST_SLOTS};

pub const SECTION: Section = Section {
    name: "printed",
    run,
};

/// How many keys there are: about one page, two pages, and many.
const NUMBERS: [usize; 12] = [0, 1, 2, 49, 50, 51, 99, 100, 101, 999, 1000, MOST_SLOTS];

const ORDERS: [u64; 3] = [3, 8, 255];

/// How a set's keys are measured.
const SHARES: [fn(&mut Case) -> Measure; 3] = [
    |_| Measure::NONE,
    |case| measured(&mut case.random),
    |case| right(&mut case.random),
];

fn run(tally: &mut Tally) {
    for number in NUMBERS {
        for order in ORDERS {
            for share in SHARES {
                tally.case(|case| each_output(case, number, order, share));
            }
        }
    }
    for order in ORDERS {
        tally.case(|case| every_size(case, order));
        tally.case(|case| ranks_and_counts(case, order));
    }
    for number in [0, 1, 50, 51, 101] {
        tally.case(|case| turned_down(case, number));
    }
    tally.case(known);
}

/// So many keys, in as many slots and in more.
fn each_output(case: &mut Case, number: usize, order: u64, share: fn(&mut Case) -> Measure) {
    let keys = case.random.keys(number);
    let mut contents = case.contents(order, &keys);
    let measures = contents.set.values_mut();
    measures.for_each(|measure| *measure = share(case));
    let more = (number + 1 + case.random.below(100)).min(MOST_SLOTS);
    for slots in [number.max(1), more] {
        case.lend(slots, &contents);
        laid_out(case, &keys);
        outputs(case, number);
    }
}

/// Into an output of just the length; the line of each page and each key stand where
/// there is one for every 50 keys, and a key every 49 bytes.
fn laid_out(case: &mut Case, keys: &[u64]) {
    let room = pages_length(keys.len());
    case.call_and_check(Call::Pages { room }, |outcome| {
        let has = |at: usize, text: String| outcome.bytes[at..].starts_with(text.as_bytes());
        let page = |i: usize| has(i * (10 + 50 * 49), format!("PAGE {:04}\n", i + 1));
        let key = |i: usize| has(10 * (i / 50 + 1) + 49 * i, format!("{:016X} ", keys[i]));
        let wrong = (0..keys.len()).find(|&i| !(page(i / 50) && key(i)));
        let wrong = wrong.or((!page(0)).then_some(0));
        wrong.map(|i| format!("the line of key {i} or of its page is elsewhere"))
    });
}

/// More than the length; less by a byte, by the line of a page and by that of a key; and
/// next to nothing.
fn outputs(case: &mut Case, number: usize) {
    let length = pages_length(number);
    for room in [length + 1, length + 10, length + 4_097] {
        case.refused(Call::Pages { room }, 0);
    }
    let fewer = [length - 1, length - 10, length.saturating_sub(49)];
    for room in fewer.into_iter().chain([0, 9]) {
        case.refused(Call::Pages { room }, 11);
    }
}

/// Lasts of every size, those next to where one size becomes the next, and those in
/// the middle. Of each t some are made of other lengths and corrections.
fn every_size(case: &mut Case, order: u64) {
    for (least, greatest) in [(15, 55), (56, 95), (96, 135)] {
        let sizes = least..=greatest;
        let lasts: Vec<Measure> = sizes.flat_map(|size| lasts_of(case, size)).collect();
        let (keys, salt) = (case.random.keys(lasts.len()), case.salt());
        let due: Vec<String> = lasts.iter().map(|&last| size_of(last)).collect();
        let set = keys.into_iter().zip(lasts).collect();
        case.lend(due.len(), &Contents { order, salt, set });
        let room = pages_length(due.len());
        case.call_and_check(Call::Pages { room }, |outcome| {
            let given = sizes_in(&outcome.bytes);
            (given != due).then(|| format!("sizes {given:?}, not {due:?}"))
        });
    }
}

/// Lasts of about so many half points: at t, where 3·t/1,000 is half a half point below
/// the size, and next to it; at the size itself.
fn lasts_of(case: &mut Case, half_points: i32) -> Vec<Measure> {
    let lower = (1_000 * half_points - 500) / 3;
    let ts = [
        lower - 1,
        lower,
        lower + 1,
        lower + 2,
        half_points * 1_000 / 3,
    ];
    let possible = ts.into_iter().filter(|t| (5_000..=45_000).contains(t));
    possible.flat_map(|t| made_of(case, t)).collect()
}

/// Two measures whose length and correction come to t.
fn made_of(case: &mut Case, t: i32) -> [Measure; 2] {
    let least = (t - 40_000).max(LEAST_CORRECTION);
    let greatest = (t - 10_000).min(GREATEST_CORRECTION);
    let any = least + case.random.below((greatest - least + 1) as usize) as i32;
    [any, least].map(|correction| Measure::new((t - correction) as u64, correction))
}

/// The field of a line, reckoned from t.
fn size_of(last: Measure) -> String {
    let half_points = (3 * (last.length as i64 + i64::from(last.correction)) + 500) / 1_000;
    format!("{:4.1}", half_points as f64 / 2.0)
}

/// The last field of each key line.
fn sizes_in(bytes: &[u8]) -> Vec<String> {
    let lines = bytes.split(|&byte| byte == b'\n');
    let fields = lines.filter_map(|line| line.get(44..));
    fields
        .map(|field| String::from_utf8_lossy(field).to_string())
        .collect()
}

/// A chain: of order 3 it has ranks of four digits, of order 255 counts of three.
fn ranks_and_counts(case: &mut Case, order: u64) {
    let salt = case.salt();
    let longest = Chain::Right.keys(salt, 2_010);
    for number in [
        9, 10, 11, 12, 19, 20, 21, 22, 199, 200, 201, 202, 1_999, 2_000, 2_010,
    ] {
        let contents = case.contents_under(salt, order, &longest[..number]);
        case.lend(number, &contents);
        let room = pages_length(number);
        case.refused(Call::Pages { room }, 0);
    }
}

/// Length before soundness, soundness before the output's length.
fn turned_down(case: &mut Case, number: usize) {
    let (order, keys) = (case.random.order(), case.random.keys(number));
    exercise::lend_keys(case, number + 3, order, &keys);
    let (sound, length) = (case.table.clone(), pages_length(number));
    for room in [length, length - 1, length + 5, 10, 9, 0] {
        let refusal = if room < length { 11 } else { 0 };
        case.table.clone_from(&sound);
        case.refused(Call::Pages { room }, refusal);
        make_unsound(&mut case.table);
        case.refused(Call::Pages { room }, 7);
        for length in [sound.len() - 1, sound.len() + 1, 4, 3, 1, 0] {
            case.table.resize(length, 0);
            case.refused(Call::Pages { room }, 1);
        }
    }
    damaged(case, &sound, length);
}

/// Each word of the first slots changed in turn: 7 whatever the output, unless it is a
/// measure, an order or a salt that could be right as well.
fn damaged(case: &mut Case, sound: &[u64], length: usize) {
    for word in 0..sound.len().min(60) {
        for room in [0, length - 1, length] {
            case.table = sound.to_vec();
            case.table[word] ^= 1 << case.random.below(64);
            case.call(Call::Pages { room });
        }
    }
}

/// Texts written by hand, which are the same under every salt.
fn known(case: &mut Case) {
    for salt in salts::ENDS {
        for (slots, order) in [(1, 3), (64, 255)] {
            case.lend(slots, &Contents::unmeasured(order, &[]).salted(salt));
            exactly(case, "PAGE 0001\n");
        }
    }
    for (key, measure, line) in [
        (
            5,
            Measure::NONE,
            "0000000000000005    0    1 0000000000000000    -",
        ),
        (
            0xABC,
            Measure::new(26_500, 0),
            "0000000000000ABC    0    1 0000000000000000 40.0",
        ),
        (
            1 << 60,
            Measure::new(10_000, -5_000),
            "1000000000000000    0    1 0000000000000000  7.5",
        ),
        (
            u64::MAX,
            Measure::new(40_000, 5_000),
            "FFFFFFFFFFFFFFFF    0    1 0000000000000000 67.5",
        ),
    ] {
        for salt in [0, key] {
            let (order, set) = (3, [(key, measure)].into());
            case.lend(1, &Contents { order, salt, set });
            exactly(case, &format!("PAGE 0001\n{line}\n"));
        }
    }
}

fn exactly(case: &mut Case, due: &str) {
    let room = due.len();
    case.call_and_check(Call::Pages { room }, |outcome| {
        let given = String::from_utf8_lossy(&outcome.bytes).to_string();
        (given != due).then(|| format!("{given:?}, not {due:?}"))
    });
}
