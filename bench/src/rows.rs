//! What is timed for each call, and for the three things that it is compared
//! with. Outputs and tables are not cleared between calls. Every reply is
//! looked at: a call that refuses when it should not ends the run.

use crate::black_box::black_box;
use crate::candidates::{asking, changing, changing_set, expect, over, reading, refusal};
use crate::case::{Case, ORDER};
use crate::measures::Measures;
use crate::plain::{serialised, Plain, Set};
use crate::timing::{candidate, Candidate};
use btreap::{Measure, Refusal};
use reference::calls::{self, PlainReply, TOO_MANY};
use reference::{fast, measure};

/// One call on one case with its four candidates: the library's call, (a)
/// reading the table's words once, (b) the second program's fast form, and (c)
/// a `BTreeMap` from keys to measures with serialising and comparing.
pub struct Row<'a> {
    pub call: String,
    pub candidates: [Candidate<'a>; 4],
}

/// A case with the sound table for its keys under a salt, its image and its listing's
/// length; and measures with which every key is measured.
pub struct Lent<'a> {
    pub case: &'a Case,
    pub salt: u64,
    pub table: Vec<u64>,
    pub image: Vec<u8>,
    text: usize,
    all_measured: Measures,
}

/// The library's build of keys with measures.
pub fn build(t: &mut [u64], salt: u64, keys: &[u64], m: &Measures) -> Result<(), Refusal> {
    btreap::build_measured(t, ORDER, salt, keys, &m.lengths, &m.corrections)
}

/// The same in the second program's fast form.
pub fn build_fast(t: &mut [u64], salt: u64, keys: &[u64], m: &Measures) -> PlainReply {
    fast::build(t, ORDER, salt, keys, &m.lengths, &m.corrections)
}

impl<'a> Lent<'a> {
    pub fn new(case: &'a Case, salt: u64) -> Lent<'a> {
        let mut table = vec![0; btreap::table_words(case.slots)];
        build(&mut table, salt, &case.keys, &case.measures).expect("keys rise and have room");
        let mut image = vec![0; btreap::LONGEST_IMAGE];
        let length = btreap::write(&table, &mut image).expect("the table is sound");
        image.truncate(length);
        let text = btreap::list(&image, &mut vec![0; 100 * (case.keys.len() + 1)])
            .expect("the image is right");
        Lent {
            case,
            salt,
            table,
            image,
            text,
            all_measured: Measures::of(case.keys.len(), 1),
        }
    }

    fn is_full(&self) -> bool {
        self.case.keys.len() == self.case.slots
    }

    pub fn row(
        &'a self,
        call: &str,
        ours: Candidate<'a>,
        fast: Candidate<'a>,
        plain: Candidate<'a>,
    ) -> Row<'a> {
        Row {
            call: call.to_string(),
            candidates: [ours, reading(&self.table), fast, plain],
        }
    }

    pub fn rows(&'a self) -> Vec<Row<'a>> {
        vec![
            self.set_up(),
            self.build("build", &self.case.measures),
            self.build("build, all measured", &self.all_measured),
            self.insert(),
            self.delete(),
            self.look_up("lookup, held", &self.case.held),
            self.look_up("lookup, absent", &self.case.absent),
            self.batch(),
            self.range("range, whole", 0, u64::MAX),
            self.small_range(),
            self.step(),
            self.write(),
            self.read(),
            self.list(),
            self.pages(),
        ]
    }

    // -----------------------------------------------------------------------
    // Calls that change a table

    /// (c): an empty set takes the set's place.
    fn set_up(&'a self) -> Row<'a> {
        let salt = self.salt;
        self.row(
            "set_up",
            over(&self.table, move |t, _| {
                expect(0, refusal(btreap::set_up(t, ORDER, salt)))
            }),
            over(&self.table, move |t, _| {
                expect(0, fast::set_up(t, ORDER, salt).refusal)
            }),
            asking(Plain::new(Set::new()), |plain, _| {
                plain.set = black_box(Set::new());
                assert!(plain.agrees());
            }),
        )
    }

    /// (c): a set is made of the lists; dropping the old one is not timed.
    fn build(&'a self, call: &str, measures: &'a Measures) -> Row<'a> {
        let (salt, keys) = (self.salt, &self.case.keys);
        self.row(
            call,
            over(&self.table, move |t, _| {
                expect(0, refusal(build(t, salt, keys, measures)))
            }),
            over(&self.table, move |t, _| {
                expect(0, build_fast(t, salt, keys, measures).refusal)
            }),
            candidate(
                Plain::new(self.case.set_with(measures)),
                |plain, _, _| plain.set.clear(),
                |plain, _, _| {
                    plain.set = self.case.set_with(measures);
                    assert!(plain.agrees());
                },
            ),
        )
    }

    /// A fresh key is inserted, unmeasured; the table is restored before by copying
    /// it whole, which is not timed. A full table refuses with 10.
    fn insert(&'a self) -> Row<'a> {
        let keys = &self.case.absent;
        let refused = if self.is_full() { TOO_MANY } else { 0 };
        let call = if self.is_full() {
            "insert, refused with 10"
        } else {
            "insert"
        };
        self.row(
            call,
            changing(&self.table, move |t, turn| {
                expect(refused, refusal(btreap::insert(t, keys[turn])))
            }),
            changing(&self.table, move |t, turn| {
                let none = measure::Measure::NONE;
                expect(refused, fast::insert(t, keys[turn], none).refusal)
            }),
            changing_set(
                self.case.set(),
                |set, turn| _ = set.insert(keys[turn], Measure::NONE),
                |set, turn| _ = set.remove(&keys[turn]),
            ),
        )
    }

    /// A held key is deleted; restoring as for insert.
    fn delete(&'a self) -> Row<'a> {
        let (keys, set) = (&self.case.held, self.case.set());
        self.row(
            "delete",
            changing(&self.table, |t, turn| {
                expect(0, refusal(btreap::delete(t, keys[turn])))
            }),
            changing(&self.table, |t, turn| {
                expect(0, fast::delete(t, keys[turn]).refusal)
            }),
            changing_set(
                set.clone(),
                |set, turn| _ = set.remove(&keys[turn]),
                move |now, turn| _ = now.insert(keys[turn], set[&keys[turn]]),
            ),
        )
    }

    /// An image is read into a table. (c): the serialised keys are made a set,
    /// which is serialised and compared.
    fn read(&'a self) -> Row<'a> {
        let image = &self.image;
        let bytes = serialised(&self.case.set());
        self.row(
            "read",
            over(&self.table, |t, _| {
                expect(0, refusal(btreap::read(t, image)))
            }),
            over(&self.table, |t, _| {
                expect(0, fast::read_image(t, image).refusal)
            }),
            candidate(
                Plain::new(self.case.set()),
                |plain, _, _| plain.set.clear(),
                move |plain, _, _| {
                    plain.deserialise(black_box(&bytes));
                    assert!(plain.agrees());
                },
            ),
        )
    }

    // -----------------------------------------------------------------------
    // Calls that only read

    fn look_up(&'a self, call: &str, keys: &'a [u64]) -> Row<'a> {
        let table = &self.table;
        self.row(
            call,
            asking((), |_, turn| {
                expect(0, refusal(btreap::look_up(table, keys[turn])))
            }),
            asking((), |_, turn| {
                expect(0, fast::look_up(table, keys[turn]).refusal)
            }),
            asking(Plain::new(self.case.set()), |plain, turn| {
                black_box(plain.set.get(&keys[turn]));
                assert!(plain.agrees());
            }),
        )
    }

    /// A range of about eight keys from the middle.
    fn small_range(&'a self) -> Row<'a> {
        let middle = self.case.keys.len() / 2;
        self.range(
            "range, 8 keys",
            self.case.keys[middle],
            self.case.keys[middle + 7],
        )
    }

    /// (c): the range of the set is written to the output.
    fn range(&'a self, call: &str, low: u64, high: u64) -> Row<'a> {
        let table = &self.table;
        let output = || vec![0; self.case.keys.len()];
        self.row(
            call,
            asking(output(), move |out, _| {
                expect(0, refusal(btreap::range(table, low, high, out)))
            }),
            asking(output(), move |out, _| {
                expect(0, fast::range(table, low, high, out).refusal)
            }),
            asking(
                (Plain::new(self.case.set()), output()),
                move |(plain, out), _| {
                    let keys = plain.set.range(low..=high);
                    out.iter_mut()
                        .zip(keys)
                        .for_each(|(word, (key, _))| *word = *key);
                    assert!(plain.agrees());
                },
            ),
        )
    }

    /// One step, from a held key on.
    fn step(&'a self) -> Row<'a> {
        let (table, keys) = (&self.table, &self.case.held);
        self.row(
            "step",
            asking((), |_, turn| {
                let mut place = btreap::Place::new(keys[turn], u64::MAX);
                expect(0, refusal(btreap::step(table, &mut place)));
                black_box(place);
            }),
            asking((), |_, turn| {
                let place = calls::Place::new(keys[turn], u64::MAX);
                expect(0, black_box(fast::step(table, place)).0.refusal);
            }),
            asking(Plain::new(self.case.set()), |plain, turn| {
                black_box(plain.set.range(keys[turn]..).next());
                assert!(plain.agrees());
            }),
        )
    }

    /// (c): serialising is the writing.
    fn write(&'a self) -> Row<'a> {
        let table = &self.table;
        let output = || vec![0; self.image.len()];
        self.row(
            "write",
            asking(output(), |out, _| {
                expect(0, refusal(btreap::write(table, out)))
            }),
            asking(output(), |out, _| {
                expect(0, fast::write_image(table, out).refusal)
            }),
            asking(Plain::new(self.case.set()), |plain, _| {
                assert!(plain.agrees())
            }),
        )
    }

    /// (c): the serialised keys are made a set, which is serialised, compared
    /// and listed, one line for each key.
    fn list(&'a self) -> Row<'a> {
        let image = &self.image;
        let output = || vec![0; self.text];
        let bytes = serialised(&self.case.set());
        self.row(
            "list",
            asking(output(), |out, _| {
                expect(0, refusal(btreap::list(image, out)))
            }),
            asking(output(), |out, _| expect(0, fast::list(image, out).refusal)),
            asking(
                (Plain::new(self.case.set()), String::new()),
                move |(plain, text), _| {
                    plain.deserialise(black_box(&bytes));
                    assert!(plain.agrees());
                    plain.listing(text);
                    black_box(text);
                },
            ),
        )
    }
}
