//! The report, in Markdown.

use crate::agree;
use crate::batch;
use crate::case::{self, Case, BATCH, ORDER};
use crate::load;
use crate::points;
use crate::rows::{Lent, Row};
use crate::salts::{self, NO_SALT};
use crate::timing::least;

/// Measures every row and prints it.
pub fn print() {
    println!("Order {ORDER}. Every second key is measured. Times are the least of many rounds. The last three columns are multiples of");
    println!(
        "(a) reading the table's words once, (b) the same call in the second program's fast form,"
    );
    println!(
        "(c) a `BTreeMap` from keys to measures, serialised whole and compared with a stored copy."
    );
    case::all().iter().for_each(print_case);
    print_salts();
    print_load();
    print_points();
}

/// The rows of a case. Reading the words is one job for all of them, so that its
/// least time over all rows is taken.
fn print_case(case: &Case) {
    let lent = Lent::new(case, NO_SALT);
    agree::check(&lent);
    let measure = |row: Row| (row.call, least(row.candidates));
    let rows: Vec<(String, [f64; 4])> = lent.rows().into_iter().map(measure).collect();
    let words = rows
        .iter()
        .map(|row| row.1[1])
        .fold(f64::INFINITY, f64::min);
    let batch = time_of(&rows, &batch::call());
    println!("\n### {}\n", case.name);
    println!("| call | µs | × (a) | × (b) | × (c) |");
    println!("|---|---:|---:|---:|---:|");
    for (call, [ours, _, fast, plain]) in rows {
        let ratios = [words, fast, plain].map(|other| figures(ours / other));
        println!(
            "| {call} | {} | {} |",
            figures(ours / 1000.0),
            ratios.join(" | ")
        );
    }
    println!(
        "\n(a) reads {} words in {} µs.",
        lent.table.len(),
        figures(words / 1000.0)
    );
    print_one_by_one(batch, lent.one_by_one());
}

/// What the batch takes beside the lookups of its keys one by one.
fn print_one_by_one(batch: f64, one_by_one: f64) {
    println!(
        "The lookups of the batch's keys one by one take {} µs, {} times the batch;",
        figures(one_by_one / 1000.0),
        figures(one_by_one / batch)
    );
    println!(
        "the batch takes {} times one of them.",
        figures(batch / (one_by_one / BATCH as f64))
    );
}

/// The library's time in the row of that call.
fn time_of(rows: &[(String, [f64; 4])], call: &str) -> f64 {
    let row = rows.iter().find(|row| row.0 == call);
    row.expect("there is such a row").1[0]
}

/// The library's calls without a salt and under one.
fn print_salts() {
    let case = salts::case();
    let tables = salts::tables(&case);
    tables.iter().for_each(agree::check);
    println!("\n### {}, without a salt and under one\n", case.name);
    println!("| call | µs without | µs under a salt | × |");
    println!("|---|---:|---:|---:|");
    for (call, times) in salts::times(&tables) {
        let [without, under] = times.map(|time| figures(time / 1000.0));
        let ratio = figures(times[1] / times[0]);
        println!("| {call} | {without} | {under} | {ratio} |");
    }
}

/// The load, whose times are in milliseconds, and the candidates for it.
fn print_load() {
    agree::check_load();
    let [ours, separate, fast, plain] = load::times().map(|time| time / 1e6);
    println!("\n### Load, M = {}\n", load::SLOTS);
    println!("| operations | ms | × (b) | × (c) | × separate calls |");
    println!("|---|---:|---:|---:|---:|");
    let ratios = [fast, plain, separate].map(|other| figures(ours / other));
    let ours = figures(ours);
    println!("| {} | {ours} | {} |", load::COUNT, ratios.join(" | "));
    let others = [fast, plain, separate].map(figures);
    println!(
        "\n(b) takes {} ms, (c) {} ms, the library's set_up and as many separate calls {} ms;",
        others[0], others[1], others[2]
    );
    println!("each is the least of {} rounds.", load::ROUNDS);
}

/// Sizes, which hang on no table.
fn print_points() {
    agree::check_points();
    let times = points::times();
    let [ours, fast] = times.map(|time| figures(time / 1000.0));
    println!("\n### Points\n");
    println!("| sizes, a call for each | µs | × (b) |");
    println!("|---|---:|---:|");
    let ratio = figures(times[0] / times[1]);
    println!("| {} | {ours} | {ratio} |", points::LASTS);
    let [one, one_fast] = times.map(|time| figures(time / points::LASTS as f64));
    println!("\n(b) takes {fast} µs. One size takes {one} ns, in (b) {one_fast} ns.");
}

/// A number with three figures or so.
fn figures(number: f64) -> String {
    match number {
        large if large >= 100.0 => format!("{large:.0}"),
        middling if middling >= 10.0 => format!("{middling:.1}"),
        small => format!("{small:.2}"),
    }
}
