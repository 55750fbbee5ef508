//! The calls of document 01 and the load of document 02, each with its
//! refusals, inserts, builds and lookups with the measures of document 02; its batch
//! is in [`crate::batch`], its sizes are in [`crate::points`], its pages in
//! [`crate::pages`]. "A refusal returns its number, all other numbers zero, and changes
//! no lent memory, the place included. The lowest number that applies is returned", but
//! for 12, "checked straight after 5, on insert after 3".

use crate::blocks::blocks_met;
use crate::image::{contents_of, image};
use crate::listing::listing;
use crate::load::{end_set, NO_SALT};
use crate::measure::Measure;
use crate::priority::{priority, Priority};
use crate::table::{self, shape_of, slots_of_length, words};
use crate::{is_order, Contents, Set};

/// 1. Table length is not 4 + 8·M.
pub const TABLE_LENGTH: u64 = 1;
/// 2. Order outside 3 to 255.
pub const ORDER: u64 = 2;
/// 3. Key is zero.
pub const KEY_ZERO: u64 = 3;
/// 4. Low above high.
pub const LOW_ABOVE_HIGH: u64 = 4;
/// 5. The build list is not strictly rising or has a zero; "5 also means a sheet
///    that does not rise or has a zero".
pub const NOT_RISING: u64 = 5;
/// 6. The image is not one that the writer makes for any order and any set of
///    at most 4,096 keys.
pub const IMAGE: u64 = 6;
/// 7. The table is not sound.
pub const UNSOUND: u64 = 7;
/// 8. Key to insert is held.
pub const HELD: u64 = 8;
/// 9. Key to delete is absent.
pub const ABSENT: u64 = 9;
/// 10. More keys than M would result.
pub const TOO_MANY: u64 = 10;
/// 11. The output slice is shorter than the output.
pub const OUTPUT_SHORT: u64 = 11;
/// 12. "12 for a measure outside these rules, missing or left over".
pub const MEASURE: u64 = 12;

/// Reply of set-up, build, reading and load: "A call for which no number is named
/// gives none when accepted." Refusal 0 is acceptance, here and below.
#[derive(Clone, Copy, Debug, Default, PartialEq, Eq)]
pub struct PlainReply {
    pub refusal: u64,
}

/// Reply of insert and delete.
#[derive(Clone, Copy, Debug, Default, PartialEq, Eq)]
pub struct RankReply {
    pub refusal: u64,
    pub rank: u64,
}

#[derive(Clone, Copy, Debug, Default, PartialEq, Eq)]
pub struct LookUpReply {
    pub refusal: u64,
    pub held: bool,
    pub rank: u64,
    pub count: u64,
    pub leader: u64,
    pub blocks: u64,
    pub measure: Measure,
}

/// Reply of range (the number of keys), writing, listing and pages (bytes).
#[derive(Clone, Copy, Debug, Default, PartialEq, Eq)]
pub struct LengthReply {
    pub refusal: u64,
    pub length: u64,
}

/// Reply of a step: a key, or the end (`yielded` false, key 0).
#[derive(Clone, Copy, Debug, Default, PartialEq, Eq)]
pub struct StepReply {
    pub refusal: u64,
    pub yielded: bool,
    pub key: u64,
}

/// "The place is one small record, next, high and a done mark"
#[derive(Clone, Copy, Debug, PartialEq, Eq)]
pub struct Place {
    pub next: u64,
    pub high: u64,
    pub done: bool,
}

impl Place {
    /// "the whole library": "next 0, high 2^64 − 1, not done"
    pub const WHOLE: Place = Place::new(0, u64::MAX);

    /// "the spent place": "next 0, high 0, done"
    pub const SPENT: Place = Place {
        next: 0,
        high: 0,
        done: true,
    };

    pub const fn new(low: u64, high: u64) -> Place {
        Place {
            next: low,
            high,
            done: false,
        }
    }
}

/// The calls, over a given priority.
#[derive(Clone, Copy)]
pub struct Index<'a> {
    pub priority: Priority<'a>,
}

/// The calls over the priority P of document 01.
pub static REAL: Index<'static> = Index {
    priority: &priority,
};

/// What a call answers inside: its result, or the refusal's number.
pub(crate) type Outcome<T> = Result<T, u64>;

/// Refuses with the number under the condition.
pub(crate) fn refuse_if(condition: bool, refusal: u64) -> Outcome<()> {
    if condition {
        Err(refusal)
    } else {
        Ok(())
    }
}

/// M, or refusal 1.
pub(crate) fn slots(table: &[u64]) -> Outcome<usize> {
    slots_of_length(table.len()).ok_or(TABLE_LENGTH)
}

/// Whether the list is strictly rising and without zero.
pub(crate) fn is_rising(list: &[u64]) -> bool {
    list.windows(2).all(|pair| pair[0] < pair[1]) && !list.contains(&0)
}

/// The measures of so many keys, or refusal 12: "a measure outside these rules,
/// missing or left over".
fn measures_for(number: usize, lengths: &[u64], corrections: &[i32]) -> Outcome<Vec<Measure>> {
    refuse_if(lengths.len() != number, MEASURE)?;
    refuse_if(corrections.len() != number, MEASURE)?;
    let pairs = lengths.iter().zip(corrections);
    let measures: Vec<Measure> = pairs
        .map(|(&length, &correction)| Measure::new(length, correction))
        .collect();
    refuse_if(!measures.iter().all(|measure| measure.is_right()), MEASURE)?;
    Ok(measures)
}

impl Index<'_> {
    /// The order, salt and set of a sound table; none for an unsound one.
    pub fn sound(&self, table: &[u64]) -> Option<Contents> {
        table::sound(self.priority, table)
    }

    /// The contents, or refusal 7.
    pub(crate) fn contents(&self, table: &[u64]) -> Outcome<Contents> {
        self.sound(table).ok_or(UNSOUND)
    }

    /// The words for the contents take the table's place.
    fn write(&self, table: &mut [u64], m: usize, contents: &Contents) {
        table.copy_from_slice(&words(self.priority, contents, m));
    }

    // -----------------------------------------------------------------------

    /// "Set-up writes a blank table." "Set-up uses 1, 2" "A table has a 64-bit salt,
    /// chosen at set-up or build": any number is one.
    pub fn set_up(&self, table: &mut [u64], order: u64, salt: u64) -> PlainReply {
        plain(self.try_set_up(table, order, salt))
    }

    fn try_set_up(&self, table: &mut [u64], order: u64, salt: u64) -> Outcome<()> {
        let m = slots(table)?;
        refuse_if(!is_order(order), ORDER)?;
        self.write(table, m, &Contents::unmeasured(order, &[]).salted(salt));
        Ok(())
    }

    /// "Build takes a strictly rising list of non-zero keys, perhaps empty."
    /// "Inserts, build lists and lookups carry" measures. "build 1, 2, 5, 10", and 12
    /// "checked straight after 5"
    pub fn build(
        &self,
        table: &mut [u64],
        order: u64,
        salt: u64,
        keys: &[u64],
        lengths: &[u64],
        corrections: &[i32],
    ) -> PlainReply {
        plain(self.try_build(table, order, salt, keys, (lengths, corrections)))
    }

    /// The build of keys of which none is measured, under the salt zero.
    pub fn build_unmeasured(&self, table: &mut [u64], order: u64, keys: &[u64]) -> PlainReply {
        let (lengths, corrections) = (vec![0; keys.len()], vec![0; keys.len()]);
        self.build(table, order, 0, keys, &lengths, &corrections)
    }

    fn try_build(
        &self,
        table: &mut [u64],
        order: u64,
        salt: u64,
        keys: &[u64],
        (lengths, corrections): (&[u64], &[i32]),
    ) -> Outcome<()> {
        let m = slots(table)?;
        refuse_if(!is_order(order), ORDER)?;
        refuse_if(!is_rising(keys), NOT_RISING)?;
        let measures = measures_for(keys.len(), lengths, corrections)?;
        refuse_if(keys.len() > m, TOO_MANY)?;
        let set: Set = keys.iter().copied().zip(measures).collect();
        self.write(table, m, &Contents { order, salt, set });
        Ok(())
    }

    /// "A load sets up the table with a given order, then does 0 to 65,535
    /// operations, a 16-bit count" "the checks are 1, 2" The table is made afresh
    /// from the end set.
    pub fn load(&self, table: &mut [u64], order: u64, seed: u64, count: u16) -> PlainReply {
        plain(self.try_load(table, order, seed, count))
    }

    fn try_load(&self, table: &mut [u64], order: u64, seed: u64, count: u16) -> Outcome<()> {
        let m = slots(table)?;
        refuse_if(!is_order(order), ORDER)?;
        // "a load's keys are unmeasured"
        let keys: Vec<u64> = end_set(m, seed, count).into_iter().collect();
        let contents = Contents::unmeasured(order, &keys).salted(NO_SALT);
        self.write(table, m, &contents);
        Ok(())
    }

    /// "Insert and delete give the key's rank" "insert 1, 3, 7, 8, 10", and 12 "on
    /// insert after 3"
    pub fn insert(&self, table: &mut [u64], key: u64, measure: Measure) -> RankReply {
        ranked(self.try_insert(table, key, measure))
    }

    /// The insert of a key that is not measured.
    pub fn insert_unmeasured(&self, table: &mut [u64], key: u64) -> RankReply {
        self.insert(table, key, Measure::NONE)
    }

    fn try_insert(&self, table: &mut [u64], key: u64, measure: Measure) -> Outcome<u64> {
        let m = slots(table)?;
        refuse_if(key == 0, KEY_ZERO)?;
        refuse_if(!measure.is_right(), MEASURE)?;
        let mut contents = self.contents(table)?;
        refuse_if(contents.set.contains_key(&key), HELD)?;
        refuse_if(contents.set.len() + 1 > m, TOO_MANY)?;
        contents.set.insert(key, measure);
        self.write(table, m, &contents);
        Ok(self.rank(&contents, key))
    }

    /// "(for delete, the rank it had)" "delete 1, 3, 7, 9"
    pub fn delete(&self, table: &mut [u64], key: u64) -> RankReply {
        ranked(self.try_delete(table, key))
    }

    fn try_delete(&self, table: &mut [u64], key: u64) -> Outcome<u64> {
        let m = slots(table)?;
        refuse_if(key == 0, KEY_ZERO)?;
        let mut contents = self.contents(table)?;
        refuse_if(!contents.set.contains_key(&key), ABSENT)?;
        let rank = self.rank(&contents, key);
        contents.set.remove(&key);
        self.write(table, m, &contents);
        Ok(rank)
    }

    fn rank(&self, contents: &Contents, key: u64) -> u64 {
        shape_of(self.priority, contents).node(key).unwrap().rank
    }

    /// "Lookup gives held or absent, and rank, count and leader (zeros when
    /// absent). It also gives the number of different blocks that hold the keys
    /// it compares on its way down." And the measure, zeros when absent.
    /// "lookup 1, 3, 7"
    pub fn look_up(&self, table: &[u64], key: u64) -> LookUpReply {
        self.try_look_up(table, key)
            .unwrap_or_else(|refusal| LookUpReply {
                refusal,
                ..Default::default()
            })
    }

    fn try_look_up(&self, table: &[u64], key: u64) -> Outcome<LookUpReply> {
        slots(table)?;
        refuse_if(key == 0, KEY_ZERO)?;
        let contents = self.contents(table)?;
        let shape = shape_of(self.priority, &contents);
        let absent = LookUpReply {
            blocks: blocks_met(&shape, key),
            ..Default::default()
        };
        Ok(match shape.node(key) {
            None => absent,
            Some(node) => LookUpReply {
                held: true,
                rank: node.rank,
                count: node.count,
                leader: node.leader,
                measure: contents.set[&key],
                ..absent
            },
        })
    }

    /// "Range writes the held keys from low to high, both included, rising, and
    /// their number; later output words are unchanged." "range 1, 4, 7, 11"
    pub fn range(&self, table: &[u64], low: u64, high: u64, output: &mut [u64]) -> LengthReply {
        length(self.try_range(table, low, high, output))
    }

    fn try_range(&self, table: &[u64], low: u64, high: u64, output: &mut [u64]) -> Outcome<usize> {
        slots(table)?;
        refuse_if(low > high, LOW_ABOVE_HIGH)?;
        let contents = self.contents(table)?;
        let within = |key: &u64| low <= *key && *key <= high;
        let keys: Vec<u64> = contents.set.into_keys().filter(within).collect();
        write_first(output, &keys)
    }

    /// The next place comes with the reply; at a refusal it is the one given.
    /// "a step 1, 7"
    pub fn step(&self, table: &[u64], place: Place) -> (StepReply, Place) {
        self.try_step(table, place).unwrap_or_else(|refusal| {
            let reply = StepReply {
                refusal,
                ..Default::default()
            };
            (reply, place)
        })
    }

    fn try_step(&self, table: &[u64], place: Place) -> Outcome<(StepReply, Place)> {
        slots(table)?;
        let contents = self.contents(table)?;
        let end = StepReply::default();
        // "If done, it answers end and changes nothing."
        if place.done {
            return Ok((end, place));
        }
        let spent = Place {
            done: true,
            ..place
        };
        let within = |key: &&u64| place.next <= **key && **key <= place.high;
        Ok(match contents.set.keys().find(within) {
            // "If there is none it sets done and answers end."
            None => (end, spent),
            Some(&key) => {
                let reply = StepReply {
                    refusal: 0,
                    yielded: true,
                    key,
                };
                // "the step yields the least held key from next to high and
                // sets next to it plus one; after key 2^64 − 1 it sets done
                // instead and keeps next"
                match key.checked_add(1) {
                    Some(next) => (reply, Place { next, ..place }),
                    None => (reply, spent),
                }
            }
        })
    }

    /// "the writer gives it [the length] and changes no later output byte"
    /// "writer 1, 7, 11"
    pub fn write_image(&self, table: &[u64], output: &mut [u8]) -> LengthReply {
        length(self.try_write_image(table, output))
    }

    fn try_write_image(&self, table: &[u64], output: &mut [u8]) -> Outcome<usize> {
        slots(table)?;
        let contents = self.contents(table)?;
        write_first(output, &image(self.priority, &contents))
    }

    /// "reader 1, 6, 10"
    pub fn read_image(&self, table: &mut [u64], bytes: &[u8]) -> PlainReply {
        plain(self.try_read_image(table, bytes))
    }

    fn try_read_image(&self, table: &mut [u64], bytes: &[u8]) -> Outcome<()> {
        let m = slots(table)?;
        let contents = contents_of(self.priority, bytes).ok_or(IMAGE)?;
        refuse_if(contents.set.len() > m, TOO_MANY)?;
        self.write(table, m, &contents);
        Ok(())
    }

    /// Lists an image of up to 4,096 keys into the output and gives the length.
    /// Document 01 names the listing only as a program's; as a call it refuses
    /// with 6 and 11.
    pub fn list(&self, bytes: &[u8], output: &mut [u8]) -> LengthReply {
        length(self.try_list(bytes, output))
    }

    fn try_list(&self, bytes: &[u8], output: &mut [u8]) -> Outcome<usize> {
        let contents = contents_of(self.priority, bytes).ok_or(IMAGE)?;
        write_first(output, listing(self.priority, &contents).as_bytes())
    }
}

/// Writes the result at the output's beginning and gives its length, or refuses
/// with 11.
pub(crate) fn write_first<T: Copy>(output: &mut [T], result: &[T]) -> Outcome<usize> {
    refuse_if(output.len() < result.len(), OUTPUT_SHORT)?;
    output[..result.len()].copy_from_slice(result);
    Ok(result.len())
}

pub(crate) fn plain(outcome: Outcome<()>) -> PlainReply {
    PlainReply {
        refusal: outcome.err().unwrap_or(0),
    }
}

pub(crate) fn ranked(outcome: Outcome<u64>) -> RankReply {
    match outcome {
        Ok(rank) => RankReply { refusal: 0, rank },
        Err(refusal) => RankReply { refusal, rank: 0 },
    }
}

pub(crate) fn length(outcome: Outcome<usize>) -> LengthReply {
    match outcome {
        Ok(length) => LengthReply {
            refusal: 0,
            length: length as u64,
        },
        Err(refusal) => LengthReply { refusal, length: 0 },
    }
}
