//! Tables that the tests ask.

/// The table of order 3, no salt and these keys.
pub fn table_of(slots: usize, keys: &[u64]) -> Vec<u64> {
    let mut table = vec![0; btreap::table_words(slots)];
    btreap::build(&mut table, 3, 0, keys).unwrap();
    table
}

/// A table that says of itself that it holds one key more than it does.
pub fn unsound(slots: usize) -> Vec<u64> {
    let mut table = table_of(slots, &[5, 7]);
    table[1] += 1;
    table
}
