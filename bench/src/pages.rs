//! The keys of a table on pages.

use crate::black_box::black_box;
use crate::candidates::{asking, expect, refusal};
use crate::plain::Plain;
use crate::rows::{Lent, Row};
use reference::fast;

impl<'a> Lent<'a> {
    /// (c): the set is serialised and compared, and its keys are printed on pages, each
    /// with its size; it has no ranks, counts and leaders.
    pub fn pages(&'a self) -> Row<'a> {
        let table = &self.table;
        let output = || vec![0; btreap::pages_bytes(self.case.keys.len())];
        self.row(
            "pages",
            asking(output(), move |out, _| {
                expect(0, refusal(btreap::pages(table, out)))
            }),
            asking(output(), move |out, _| {
                expect(0, fast::pages(table, out).refusal)
            }),
            asking(
                (Plain::new(self.case.set()), String::new()),
                |(plain, text), _| {
                    assert!(plain.agrees());
                    plain.pages(text);
                    black_box(text);
                },
            ),
        )
    }
}
