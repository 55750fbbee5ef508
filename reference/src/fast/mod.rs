//! The calls of documents 01 and 02 once more, as fast as plain Rust does them:
//! the same words, replies and refusals as the literal ones, to measure speed by.
//! Nothing is kept between calls: each that is lent a table judges the whole of it,
//! but for those that make it anew.
//!
//! Only the real priority is served. No recursion; room to work in is taken from
//! the heap.

mod batch;
mod edit;
mod finder;
mod fresh;
mod home;
mod image;
mod judge;
mod judged;
mod listing;
mod load;
mod node;
mod pages;
mod placed;
mod points;
mod reader;
mod record;
mod stored;

use crate::batch::{batched, BatchReply, Question};
use crate::calls::*;
use crate::is_order;
use crate::load::{operations, NO_SALT};
use crate::measure::Measure;
use crate::points::{pointed, PointsReply};
use fresh::Nodes;
use image::Layout;
use judge::judge;
use judged::Judged;
use reader::{candidate, rises, Candidate};
use record::slots_of_length;
use stored::Stored;

/// M, or refusal 1.
fn length_of(table: &[u64]) -> Outcome<usize> {
    slots_of_length(table.len()).ok_or(TABLE_LENGTH)
}

/// What is known of a sound table, or refusal 7.
fn sound(table: &[u64]) -> Outcome<Judged> {
    judge(table).ok_or(UNSOUND)
}

/// "Set-up uses 1, 2"
pub fn set_up(table: &mut [u64], order: u64, salt: u64) -> PlainReply {
    plain(try_set_up(table, order, salt))
}

fn try_set_up(table: &mut [u64], order: u64, salt: u64) -> Outcome<()> {
    length_of(table)?;
    refuse_if(!is_order(order), ORDER)?;
    table.fill(0);
    table[record::ORDER] = order;
    table[record::SALT] = salt;
    Ok(())
}

/// "build 1, 2, 5, 10", and 12 "checked straight after 5"
pub fn build(
    table: &mut [u64],
    order: u64,
    salt: u64,
    keys: &[u64],
    lengths: &[u64],
    corrections: &[i32],
) -> PlainReply {
    plain(try_build(table, order, salt, keys, (lengths, corrections)))
}

fn try_build(
    table: &mut [u64],
    order: u64,
    salt: u64,
    keys: &[u64],
    (lengths, corrections): (&[u64], &[i32]),
) -> Outcome<()> {
    let slots = length_of(table)?;
    refuse_if(!is_order(order), ORDER)?;
    refuse_if(!rises(keys) || keys.first() == Some(&0), NOT_RISING)?;
    let number = keys.len();
    refuse_if([lengths.len(), corrections.len()] != [number; 2], MEASURE)?;
    let measures = measures(lengths, corrections).ok_or(MEASURE)?;
    refuse_if(number > slots, TOO_MANY)?;
    Nodes::new(order, salt, [&[0], keys].concat(), measures).write_table(table, order);
    Ok(())
}

/// The measures of as many lengths and corrections, after one for no node; none
/// where one is outside the rules.
fn measures(lengths: &[u64], corrections: &[i32]) -> Option<Vec<Stored>> {
    let mut measures = vec![Stored::NONE; lengths.len() + 1];
    let pairs = lengths.iter().zip(corrections);
    for (place, (&length, &correction)) in measures[1..].iter_mut().zip(pairs) {
        *place = Stored::new(Measure { length, correction })?;
    }
    Some(measures)
}

/// "the checks are 1, 2"
pub fn load(table: &mut [u64], order: u64, seed: u64, count: u16) -> PlainReply {
    plain(try_load(table, order, seed, count))
}

fn try_load(table: &mut [u64], order: u64, seed: u64, count: u16) -> Outcome<()> {
    try_set_up(table, order, NO_SALT)?;
    load::run(table, operations(seed, count));
    Ok(())
}

/// "insert 1, 3, 7, 8, 10", and 12 "on insert after 3"
pub fn insert(table: &mut [u64], key: u64, measure: Measure) -> RankReply {
    ranked(try_insert(table, key, measure))
}

fn try_insert(table: &mut [u64], key: u64, measure: Measure) -> Outcome<u64> {
    let slots = length_of(table)?;
    refuse_if(key == 0, KEY_ZERO)?;
    let measure = Stored::new(measure).ok_or(MEASURE)?;
    let mut judged = sound(table)?;
    refuse_if(judged.find(key).is_some(), HELD)?;
    refuse_if(judged.number() == slots, TOO_MANY)?;
    Ok(edit::insert(table, &mut judged, key, measure))
}

/// "delete 1, 3, 7, 9"
pub fn delete(table: &mut [u64], key: u64) -> RankReply {
    ranked(try_delete(table, key))
}

fn try_delete(table: &mut [u64], key: u64) -> Outcome<u64> {
    length_of(table)?;
    refuse_if(key == 0, KEY_ZERO)?;
    let mut judged = sound(table)?;
    let number = judged.find(key).ok_or(ABSENT)?;
    Ok(edit::delete(table, &mut judged, number))
}

/// "lookup 1, 3, 7"
pub fn look_up(table: &[u64], key: u64) -> LookUpReply {
    try_look_up(table, key).unwrap_or_else(|refusal| LookUpReply {
        refusal,
        ..Default::default()
    })
}

fn try_look_up(table: &[u64], key: u64) -> Outcome<LookUpReply> {
    length_of(table)?;
    refuse_if(key == 0, KEY_ZERO)?;
    let judged = sound(table)?;
    Ok(judged.look_up(&judged, key))
}

/// "the checks are 1, 5, 7"
pub fn look_up_batch(table: &[u64], questions: &mut [Question]) -> BatchReply {
    batched(try_look_up_batch(table, questions))
}

fn try_look_up_batch(table: &[u64], questions: &mut [Question]) -> Outcome<u64> {
    length_of(table)?;
    refuse_if(!batch::rises(questions), NOT_RISING)?;
    Ok(batch::answer(&sound(table)?, questions))
}

/// "range 1, 4, 7, 11"
pub fn range(table: &[u64], low: u64, high: u64, output: &mut [u64]) -> LengthReply {
    length(try_range(table, low, high, output))
}

fn try_range(table: &[u64], low: u64, high: u64, output: &mut [u64]) -> Outcome<usize> {
    length_of(table)?;
    refuse_if(low > high, LOW_ABOVE_HIGH)?;
    let judged = sound(table)?;
    let held = judged.nodes[1..].iter().map(|node| node.key);
    let number = held.filter(|key| (low..=high).contains(key)).count();
    let output = output.get_mut(..number).ok_or(OUTPUT_SHORT)?;
    judged.write_keys(low, output);
    Ok(number)
}

/// "a step 1, 7"; the next place comes with the reply.
pub fn step(table: &[u64], place: Place) -> (StepReply, Place) {
    try_step(table, place).unwrap_or_else(|refusal| {
        let reply = StepReply {
            refusal,
            ..Default::default()
        };
        (reply, place)
    })
}

fn try_step(table: &[u64], place: Place) -> Outcome<(StepReply, Place)> {
    length_of(table)?;
    let judged = sound(table)?;
    if place.done {
        return Ok((StepReply::default(), place));
    }
    let spent = Place {
        done: true,
        ..place
    };
    Ok(
        match judged
            .least_from(place.next)
            .filter(|&key| key <= place.high)
        {
            None => (StepReply::default(), spent),
            Some(key) => {
                let reply = StepReply {
                    refusal: 0,
                    yielded: true,
                    key,
                };
                let next = key.checked_add(1).map(|next| Place { next, ..place });
                (reply, next.unwrap_or(spent))
            }
        },
    )
}

/// "writer 1, 7, 11"
pub fn write_image(table: &[u64], output: &mut [u8]) -> LengthReply {
    length(try_write_image(table, output))
}

fn try_write_image(table: &[u64], output: &mut [u8]) -> Outcome<usize> {
    length_of(table)?;
    let judged = sound(table)?;
    let layout = Layout::new(
        table[record::ORDER],
        judged.salt,
        &judged,
        judged.root,
        judged.rising().into_iter(),
    );
    let length = layout.length();
    layout.write(output.get_mut(..length).ok_or(OUTPUT_SHORT)?);
    Ok(length)
}

/// The order that the bytes have if they are an image, and its nodes.
fn nodes_of(bytes: &[u8]) -> Option<(u64, Nodes)> {
    let Candidate {
        order,
        salt,
        keys,
        measures,
    } = candidate(bytes)?;
    Some((order, Nodes::new(order, salt, keys, measures)))
}

/// "reader 1, 6, 10"
pub fn read_image(table: &mut [u64], bytes: &[u8]) -> PlainReply {
    plain(try_read_image(table, bytes))
}

fn try_read_image(table: &mut [u64], bytes: &[u8]) -> Outcome<()> {
    let slots = length_of(table)?;
    let (order, nodes) = nodes_of(bytes).ok_or(IMAGE)?;
    refuse_if(!nodes.layout(order).is_image(bytes), IMAGE)?;
    refuse_if(nodes.number() > slots, TOO_MANY)?;
    nodes.write_table(table, order);
    Ok(())
}

/// Lists an image of up to 4,096 keys: 6, 11.
pub fn list(bytes: &[u8], output: &mut [u8]) -> LengthReply {
    length(try_list(bytes, output))
}

fn try_list(bytes: &[u8], output: &mut [u8]) -> Outcome<usize> {
    let (order, nodes) = nodes_of(bytes).ok_or(IMAGE)?;
    let layout = nodes.layout(order);
    refuse_if(!layout.is_image(bytes), IMAGE)?;
    let length = listing::length(&layout);
    listing::write(&layout, output.get_mut(..length).ok_or(OUTPUT_SHORT)?);
    Ok(length)
}

/// "the checks are 1, 7, 11"
pub fn pages(table: &[u64], output: &mut [u8]) -> LengthReply {
    length(try_pages(table, output))
}

fn try_pages(table: &[u64], output: &mut [u8]) -> Outcome<usize> {
    length_of(table)?;
    let judged = sound(table)?;
    let length = pages::length(judged.number());
    pages::write(&judged, output.get_mut(..length).ok_or(OUTPUT_SHORT)?);
    Ok(length)
}

/// "the check is 12"
pub fn points(measure: Measure) -> PointsReply {
    pointed(points::size(measure))
}
