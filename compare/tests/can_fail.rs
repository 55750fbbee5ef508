//! The comparison can fail: true outcomes pass, and each is caught that is made
//! wrong in one place.

mod common;

use btreap::Question;
use common::{accepted_calls, contents, table, KEYS, SALT};
use compare::archive::{run_archive, Empty};
use compare::call::{Call, Place};
use compare::case::{Plan, Tally};
use compare::fill::listing_faults;
use compare::keys::{ties, Chain};
use compare::outcome::{differences, refusal_faults, Outcome};
use compare::run::{is_good, Total, FEWEST_CALLS};
use compare::second_program::run_second_program;
use compare::tables::{image_of, listing_length, pages_length, sound_table, HEADER};
use reference::depths::{full, keys_at};
use reference::measure::Measure;
use reference::priority::priority;
use reference::table::{words, SALT_WORD};
use reference::{image, Contents};

/// One of each kind that is refused, on a table that is not one.
fn refused_calls() -> [Call; 14] {
    let mut calls = accepted_calls();
    calls[9] = Call::List {
        image: vec![0; 20],
        room: 30,
    };
    calls[12] = Call::Points {
        measure: Measure::new(9_999, 0),
    };
    calls
}

/// What the tally says of the archive's outcomes after a change of both: calls
/// and failures.
fn judged(call: &Call, table: &[u64], change: impl Fn(&mut Outcome)) -> (u64, u64) {
    judged_pair(call, table, |archive| archive.iter_mut().for_each(&change))
}

/// The same after any change of the two.
fn judged_pair(call: &Call, table: &[u64], change: impl Fn(&mut [Outcome; 2])) -> (u64, u64) {
    let second = run_second_program(call, table);
    let mut archive = run_archive(call, table, Empty::Address);
    change(&mut archive);
    judged_outcomes(call, table, &archive, &second)
}

/// The same of any outcomes.
fn judged_outcomes(
    call: &Call,
    table: &[u64],
    archive: &[Outcome; 2],
    second: &Outcome,
) -> (u64, u64) {
    let mut tally = Tally::new("can-fail", Plan::default());
    tally.case(|case| {
        case.table = table.to_vec();
        case.judge(call, archive, second, vec![]);
    });
    (tally.calls, tally.failed)
}

#[track_caller]
fn caught(call: &Call, table: &[u64], change: impl Fn(&mut Outcome)) {
    assert_eq!(judged(call, table, change), (1, 1), "{call:?}");
}

#[test]
fn true_outcomes_pass() {
    let table = table();
    for call in accepted_calls() {
        let [outcome, _] = run_archive(&call, &table, Empty::Address);
        assert_eq!(outcome.reply.refusal, 0, "{call:?}");
        assert_eq!(judged(&call, &table, |_| ()), (1, 0), "{call:?}");
    }
    for call in refused_calls() {
        let [outcome, _] = run_archive(&call, &table[1..], Empty::Address);
        assert_ne!(outcome.reply.refusal, 0, "{call:?}");
        assert_eq!(judged(&call, &table[1..], |_| ()), (1, 0), "{call:?}");
    }
}

#[test]
fn a_wrong_refusal_is_caught() {
    let table = table();
    for call in accepted_calls() {
        caught(&call, &table, |outcome| outcome.reply.refusal = 7);
    }
    for call in refused_calls() {
        caught(&call, &table[1..], |outcome| outcome.reply.refusal += 1);
        caught(&call, &table[1..], |outcome| outcome.reply.refusal = 0);
    }
}

#[test]
fn each_wrong_number_of_a_reply_is_caught() {
    let numbers = |call: &Call, table: &[u64]| run_second_program(call, table).reply.numbers.len();
    let table = table();
    let mut fields = 0;
    for (call, lent) in accepted_calls()
        .iter()
        .map(|call| (call, &table[..]))
        .chain(refused_calls().iter().map(|call| (call, &table[1..])))
    {
        for i in 0..numbers(call, lent) {
            caught(call, lent, |outcome| outcome.reply.numbers[i].1 ^= 1);
            fields += 1;
        }
        caught(call, lent, |outcome| {
            outcome.reply.numbers.push(("more", 0))
        });
    }
    // Insert, delete, look-up, batch, range, step, writing, listing, pages, points, twice.
    assert_eq!(fields, 2 * (1 + 1 + 7 + 1 + 1 + 2 + 1 + 1 + 1 + 3));
}

/// A correction below zero is compared by all its bits.
#[test]
fn a_wrong_measure_of_a_lookup_is_caught() {
    let call = Call::LookUp { key: 21 };
    let [outcome, _] = run_archive(&call, &table(), Empty::Address);
    let numbers = outcome.reply.numbers[5..].to_vec();
    let correction = -120i64;
    assert_eq!(
        numbers,
        [("length", 26_500), ("correction", correction as u64)]
    );
    each_other_number_is_caught(&call, 6);
}

/// A rest below zero is compared so too.
#[test]
fn a_wrong_rest_is_caught() {
    let measure = Measure::new(26_500, 0);
    let call = Call::Points { measure };
    let [outcome, _] = run_archive(&call, &table(), Empty::Address);
    let rest = -500i64;
    let due = [("measured", 1), ("half points", 80), ("rest", rest as u64)];
    assert_eq!(outcome.reply.numbers, due);
    each_other_number_is_caught(&call, 2);
}

/// The number at that place of the reply, which is below zero: cut to 32 bits, without
/// its sign, and none.
fn each_other_number_is_caught(call: &Call, place: usize) {
    let changes: [fn(u64) -> u64; 3] = [|n| n as u32 as u64, |n| n.wrapping_neg(), |_| 0];
    for change in changes {
        caught(call, &table(), |outcome| {
            let given = &mut outcome.reply.numbers[place].1;
            *given = change(*given);
        });
    }
}

#[test]
fn each_wrong_table_word_is_caught() {
    let table = table();
    for call in accepted_calls() {
        for word in 0..table.len() {
            caught(&call, &table, |outcome| outcome.table[word] ^= 1 << 63);
        }
        caught(&call, &table, |outcome| outcome.table.truncate(9));
    }
    for call in refused_calls() {
        caught(&call, &table[1..], |outcome| outcome.table[30] += 1);
    }
}

#[test]
fn each_wrong_output_cell_is_caught_written_or_beyond() {
    let table = table();
    let mut cells = [0, 0];
    for call in accepted_calls() {
        for word in 0..call.output_words().len() {
            caught(&call, &table, |outcome| outcome.words[word] ^= 1);
            cells[0] += 1;
        }
        for byte in 0..call.output_bytes().len() {
            caught(&call, &table, |outcome| outcome.bytes[byte] ^= 0x80);
            cells[1] += 1;
        }
    }
    let (listing, pages) = (listing_length(&contents()), pages_length(KEYS.len()));
    assert_eq!(cells, [6, 400 + listing + 4 + pages + 6]);
    let last = |outcome: &mut Outcome| *outcome.bytes.last_mut().unwrap() ^= 1;
    caught(&Call::Write { room: 30 }, &table, last);
}

#[test]
fn each_wrong_word_of_a_question_is_caught_filled_in_or_not() {
    let table = table();
    let call = Call::LookUpBatch {
        keys: vec![3, 4, 21, u64::MAX],
    };
    let [outcome, _] = run_archive(&call, &table, Empty::Address);
    let held: Vec<u64> = outcome.questions.iter().map(|q| q.held).collect();
    assert_eq!(held, [1, 0, 1, 0]);
    let changes: [fn(&mut Question); 3] =
        [|q| q.key ^= 1 << 63, |q| q.held ^= 1, |q| q.rank ^= 1 << 40];
    for line in 0..4 {
        for change in changes {
            let change = |outcome: &mut Outcome| change(&mut outcome.questions[line]);
            caught(&call, &table, change);
            caught(&call, &table[1..], change);
        }
    }
    caught(&call, &table, |outcome| outcome.questions.truncate(3));
}

#[test]
fn a_refused_batch_that_fills_in_is_caught_though_both_agree() {
    let keys = vec![9, 8];
    let call = Call::LookUpBatch { keys };
    let before = Outcome::untouched(&call, &table());
    let [refused, _] = run_archive(&call, &table(), Empty::Address);
    assert_eq!(refused.reply.refusal, 5);
    assert_eq!(refusal_faults(&before, &refused), [""; 0]);
    let mut both = refused;
    both.questions[1].held = 0;
    assert_eq!(differences(&both, &both), [""; 0]);
    assert_eq!(refusal_faults(&before, &both).len(), 1);
}

#[test]
fn each_wrong_number_of_a_place_is_caught() {
    let table = table();
    let changes: [fn(&mut Place); 3] = [
        |place| place.next += 1,
        |place| place.high -= 1,
        |place| place.done ^= 1,
    ];
    for place in [Place::WHOLE, Place::new(41, u64::MAX)] {
        for change in changes {
            let change = |outcome: &mut Outcome| change(outcome.place.as_mut().unwrap());
            caught(&Call::Step { place }, &table, change);
            caught(&Call::Step { place }, &table[1..], change);
        }
    }
}

#[test]
fn memory_written_astray_is_caught() {
    let table = table();
    for call in accepted_calls() {
        caught(&call, &table, |outcome| {
            outcome.stray.push("beside the table")
        });
    }
}

#[test]
fn an_outcome_that_hangs_on_addresses_is_caught() {
    let call = Call::LookUp { key: 21 };
    for which in [0, 1] {
        let change = |archive: &mut [Outcome; 2]| archive[which].reply.numbers[0].1 ^= 1;
        assert_eq!(judged_pair(&call, &table(), change), (1, 1));
    }
}

/// Both programs in agreement about a refusal that changes something.
#[test]
fn a_refusal_that_changes_memory_is_caught_though_both_agree() {
    let call = Call::Write { room: 30 };
    let before = Outcome::untouched(&call, &table());
    let [refused, _] = run_archive(&call, &table(), Empty::Address);
    assert_eq!(refused.reply.refusal, 11);
    assert_eq!(refusal_faults(&before, &refused), [""; 0]);
    let changes: [fn(&mut Outcome); 3] = [
        |outcome| outcome.bytes[0] ^= 1,
        |outcome| outcome.table[0] ^= 1,
        |outcome| outcome.reply.numbers[0].1 = 15,
    ];
    for change in changes {
        let mut both = refused.clone();
        change(&mut both);
        assert_eq!(differences(&both, &both), [""; 0]);
        assert_eq!(refusal_faults(&before, &both).len(), 1);
    }
}

/// Both programs in agreement about a lookup of a chain's deepest key, which meets as
/// many blocks as document 02 promises at most, and about one block more.
#[test]
fn a_block_beyond_the_ceiling_is_caught_though_both_agree() {
    let few = [(3, 0, 0), (3, 1, 1), (3, 2, 1), (3, 3, 1), (3, 4, 2)];
    let more = [(8, 8, 1), (8, 9, 2), (255, 255, 1), (255, 256, 2)];
    for (order, number, most) in few.into_iter().chain(more) {
        let keys = Chain::Right.keys(SALT, number);
        let contents = Contents::unmeasured(order, &keys).salted(SALT);
        let table = sound_table(number + 1, &contents);
        let key = keys.last().copied().unwrap_or(9);
        let call = Call::LookUp { key };
        let mut both = run_archive(&call, &table, Empty::Address);
        assert_eq!(both[0].reply.number("blocks"), Some(most));
        let second = both[0].clone();
        assert_eq!(judged_outcomes(&call, &table, &both, &second), (1, 0));
        both.iter_mut()
            .for_each(|outcome| outcome.reply.numbers[4].1 += 1);
        let second = both[0].clone();
        assert_eq!(judged_outcomes(&call, &table, &both, &second), (1, 1));
    }
}

/// Thirteen keys of order 3, in full blocks of 5, 4 and 4.
fn full_blocks() -> Contents {
    Contents::unmeasured(3, &keys_at(SALT, &full(3, 1))).salted(SALT)
}

/// Their listing by both programs in agreement, with one part of its text put as another: what is wrong with it.
fn agreed_faults(part: &str, other: &str) -> Vec<String> {
    let contents = full_blocks();
    let (image, room) = (image_of(&contents), listing_length(&contents));
    let call = Call::List { image, room };
    let mut both = run_archive(&call, &table(), Empty::Address);
    for outcome in &mut both {
        let text = String::from_utf8(outcome.bytes.clone()).expect("a text");
        assert!(text.contains(part), "{part}");
        outcome.bytes = text.replacen(part, other, 1).into_bytes();
        outcome.reply.numbers[0].1 = outcome.bytes.len() as u64;
    }
    let (second, faults) = (both[0].clone(), listing_faults(&call, &both[0]));
    let failed = u64::from(!faults.is_empty());
    assert_eq!(
        judged_outcomes(&call, &table(), &both, &second),
        (1, failed)
    );
    faults
}

#[test]
fn a_true_listing_passes() {
    assert_eq!(agreed_faults("fill 100", "fill 100"), [""; 0]);
}

/// In the root block, and in each of the others, one of which has the tenth key as leader.
#[test]
fn a_listed_block_beyond_its_ceiling_is_caught_though_both_agree() {
    let faults = agreed_faults("level 2 keys 5", "level 2 keys 6");
    let beyond = |place, keys, most| {
        format!("the number of keys in block {place} is {keys}, and {most} is the ceiling")
    };
    assert_eq!(faults, [beyond(0, 6, 5)]);
    let faults = agreed_faults("level 1 keys 4", "level 1 keys 5");
    assert_eq!(faults, [beyond(1, 5, 4)]);
    let last = format!("{:016X} level 1 keys ", full_blocks().keys()[9]);
    let faults = agreed_faults(&format!("{last}4"), &format!("{last}5"));
    assert_eq!(faults, [beyond(2, 5, 4)]);
}

/// The fills by other rules, those of one key fewer and of other blocks, and none.
#[test]
fn a_fill_by_another_rule_is_caught_though_both_agree() {
    for other in [0, 13, 76, 86, 92, 99] {
        let told = format!("fill {other}");
        let faults = agreed_faults("fill 100", &told);
        assert_eq!(faults, [format!("{told} is not by the rule")]);
    }
    let not_by_the_rule = ["fill 100 is not by the rule"];
    for (part, other) in [
        ("keys 13", "keys 12"),
        ("order 3", "order 4"),
        ("keys 13", "keys 0"),
    ] {
        assert_eq!(agreed_faults(part, other), not_by_the_rule);
    }
}

/// It is by the rule for fourteen keys, which are more than the blocks can hold.
#[test]
fn a_fill_above_a_hundred_is_caught_though_both_agree() {
    let faults = agreed_faults("keys 13 blocks 3 fill 100", "keys 14 blocks 3 fill 107");
    assert_eq!(faults, ["fill is 107, and 100 is the ceiling"]);
}

/// It is by the rule for four blocks.
#[test]
fn block_lines_other_than_those_told_are_caught_though_both_agree() {
    let faults = agreed_faults("blocks 3 fill 100", "blocks 4 fill 76");
    assert_eq!(faults, ["3 block lines, and 4 blocks are told"]);
}

#[test]
fn a_listing_that_cannot_be_read_is_caught_though_both_agree() {
    for (part, other) in [
        ("order 3", "order 2"),
        ("order 3", "order 256"),
        ("order 3", "Order 3"),
        ("keys 13", "keys 65536"),
        ("fill 100", "fill -1"),
        ("level 2 keys 5", "level 2 keys"),
        (" root", ""),
    ] {
        assert_eq!(agreed_faults(part, other), ["the listing cannot be read"]);
    }
}

// ---------------------------------------------------------------------------
// Salts

/// The table is another than the archive's, and is caught in its place.
#[track_caller]
fn other_table_is_caught(call: &Call, table: &[u64], other: Vec<u64>) {
    let [outcome, _] = run_archive(call, table, Empty::Address);
    assert_ne!(outcome.table, other, "{call:?}");
    caught(call, table, |outcome| outcome.table.clone_from(&other));
}

/// The words that would be made if a key's priority were that of another number than its
/// exclusive or with the salt.
fn words_by(rule: impl Fn(u64) -> u64 + Sync, slots: usize, contents: &Contents) -> Vec<u64> {
    let unsalted = contents.clone().salted(0);
    let mut table = words(&|key| priority(rule(key)), &unsalted, slots);
    table[SALT_WORD] = contents.salt;
    table
}

/// Every call that gives or keeps a salt: the word alone is another, or zero.
#[test]
fn a_wrong_salt_word_is_caught() {
    let image = image_of(&contents());
    let [set_up, build, insert, delete, ..] = accepted_calls();
    let (order, seed, count) = (3, 2, 30);
    let load = Call::Load { order, seed, count };
    for call in [set_up, build, insert, delete, Call::Read { image }] {
        caught(&call, &table(), |outcome| outcome.table[SALT_WORD] = 0);
        caught(&call, &table(), |outcome| outcome.table[SALT_WORD] ^= 1);
    }
    caught(&load, &table(), |outcome| outcome.table[SALT_WORD] = SALT);
}

#[test]
fn a_salt_that_is_added_or_forgotten_is_caught() {
    let (call, contents) = (Call::build(&contents()), contents());
    let added = words_by(|key| key.wrapping_add(SALT), 7, &contents);
    other_table_is_caught(&call, &table(), added);
    let forgotten = words_by(|key| key, 7, &contents);
    other_table_is_caught(&call, &table(), forgotten);
    let exactly = words_by(|key| key ^ SALT, 7, &contents);
    assert_eq!(exactly, sound_table(7, &contents));
}

/// The whole table is then the one of its keys without a salt.
#[test]
fn a_salt_that_an_insert_or_a_delete_loses_is_caught() {
    let measure = Measure::new(10_000, 17);
    for key in [22, 23] {
        let mut more = contents();
        more.set.insert(key, measure);
        let other = sound_table(7, &more.salted(0));
        other_table_is_caught(&Call::Insert { key, measure }, &table(), other);
    }
    let mut fewer = contents();
    fewer.set.remove(&8);
    let other = sound_table(7, &fewer.salted(0));
    other_table_is_caught(&Call::Delete { key: 8 }, &table(), other);
}

/// Two keys of equal priority under a salt, the lesser of which has the greater exclusive
/// or with it: the table in which that one decides.
#[test]
fn a_tie_that_the_salted_keys_decide_is_caught() {
    let (a, b) = ties(u64::MAX)[0];
    assert!(a < b && a ^ u64::MAX > b ^ u64::MAX);
    let pair = Contents::unmeasured(3, &[a, b]).salted(u64::MAX);
    let raised = |key: u64| priority(key) + u64::from(key == b ^ u64::MAX);
    let other = words(&raised, &pair, 7);
    other_table_is_caught(&Call::build(&pair), &table(), other);
}

/// The image of salt zero under `LS`, and the image of a salt without it.
#[test]
fn a_wrong_header_is_caught() {
    let [plain, salted] = [0, SALT].map(|salt| contents().salted(salt));
    let bytes = image_of(&plain);
    let zero = [b"LS", &bytes[2..HEADER], &[0; 8], &bytes[HEADER..]].concat();
    let unsalted = image::image(&|key| priority(key ^ SALT), &plain);
    for (contents, other) in [(plain, zero), (salted, unsalted)] {
        let table = sound_table(7, &contents);
        let call = Call::Write { room: 400 };
        let [outcome, _] = run_archive(&call, &table, Empty::Address);
        assert!(!outcome.bytes.starts_with(&other));
        caught(&call, &table, |outcome| {
            outcome.bytes[..other.len()].copy_from_slice(&other);
            outcome.reply.numbers[0].1 = other.len() as u64;
        });
    }
}

/// A reading that takes `LS` with zero for an image without a salt.
#[test]
fn a_salt_of_zero_that_is_read_is_caught() {
    let plain = contents().salted(0);
    let bytes = image_of(&plain);
    let image = [b"LS", &bytes[2..HEADER], &[0; 8], &bytes[HEADER..]].concat();
    let call = Call::Read { image };
    let [outcome, _] = run_archive(&call, &table(), Empty::Address);
    assert_eq!(outcome.reply.refusal, 6);
    caught(&call, &table(), |outcome| {
        outcome.reply.refusal = 0;
        outcome.table = sound_table(7, &plain);
    });
}

/// A reading of an image without a salt that leaves the table the one it had.
#[test]
fn a_salt_that_a_reading_leaves_is_caught() {
    let image = image_of(&contents().salted(0));
    let other = sound_table(7, &contents());
    let mut before = other.clone();
    before[1] += 1;
    other_table_is_caught(&Call::Read { image }, &before, other);
}

/// A judge that does not look at the salt.
#[test]
fn a_changed_salt_that_is_not_refused_is_caught() {
    let mut changed = table();
    changed[SALT_WORD] += 1;
    let call = Call::LookUp { key: 21 };
    let [refused, _] = run_archive(&call, &changed, Empty::Address);
    assert_eq!(refused.reply.refusal, 7);
    let [found, _] = run_archive(&call, &table(), Empty::Address);
    caught(&call, &changed, |outcome| {
        outcome.reply.clone_from(&found.reply)
    });
}

#[test]
fn a_refusal_other_than_the_one_due_is_caught() {
    let mut tally = Tally::new("can-fail", Plan::default());
    tally.case(|case| {
        case.lend(2, &Contents::unmeasured(3, &[4]).salted(SALT));
        case.refused(Call::insert(4), 8);
        case.refused(Call::insert(4), 10);
    });
    assert_eq!((tally.calls, tally.failed), (2, 1));
}

#[test]
fn a_failure_or_too_few_calls_is_not_good() {
    let passed = FEWEST_CALLS;
    assert!(is_good(Total { passed, failed: 0 }, true));
    assert!(!is_good(Total { passed, failed: 1 }, true));
    assert!(!is_good(Total { passed, failed: 1 }, false));
    let passed = passed - 1;
    assert!(!is_good(Total { passed, failed: 0 }, true));
    assert!(is_good(Total { passed, failed: 0 }, false));
}
