//! Runs sections in threads, prints a line for each, and adds up.

use crate::case::{Plan, Tally};
use crate::options::Options;
use crate::sections::{Section, RANDOM_SECTIONS, SECTIONS};
use std::sync::atomic::{AtomicUsize, Ordering};
use std::sync::Mutex;
use std::thread;
use std::time::Instant;

/// The default run compares at least so many calls.
pub const FEWEST_CALLS: u64 = 500_000;

/// The second program walks down a chain of 4,096 keys by recursion.
const STACK: usize = 256 << 20;

/// Calls that agreed and calls that did not.
#[derive(Clone, Copy, Debug, Default, PartialEq, Eq)]
pub struct Total {
    pub passed: u64,
    pub failed: u64,
}

/// Runs what the options name; gives the total and whether it is good.
pub fn run(options: &Options) -> Result<(Total, bool), String> {
    let plan = Plan {
        seed: options.seed,
        only: options.case,
        deadline: options.soak.map(|time| Instant::now() + time),
        trace: options.trace,
    };
    println!("seed {}", options.seed);
    let total = match (&options.section, options.soak) {
        (Some(name), None) => one_section(name, plan)?,
        (None, None) => all_sections(plan, options.threads),
        (None, Some(_)) => soak(plan, options.threads),
        (Some(_), Some(_)) => return Err("a soak has its own sections".to_string()),
    };
    let is_default = options.section.is_none() && options.soak.is_none() && options.case.is_none();
    Ok((total, is_good(total, is_default)))
}

/// Nothing failed and, in the default run, enough was compared.
pub fn is_good(total: Total, is_default: bool) -> bool {
    let enough = !is_default || total.passed >= FEWEST_CALLS;
    total.failed == 0 && enough
}

fn one_section(name: &str, plan: Plan) -> Result<Total, String> {
    let section = SECTIONS.iter().find(|section| section.name == name);
    let section = section.ok_or_else(|| format!("the sections are {}", names()))?;
    Ok(in_threads(1, 1, |_| (section, plan)))
}

fn names() -> String {
    SECTIONS.map(|section| section.name).join(", ")
}

fn all_sections(plan: Plan, threads: usize) -> Total {
    in_threads(threads, SECTIONS.len(), |i| (&SECTIONS[i], plan))
}

/// Round after round of the random sections, each with a seed of its own, until
/// the deadline.
fn soak(plan: Plan, threads: usize) -> Total {
    in_threads(threads, usize::MAX, |i| {
        let round = (i / RANDOM_SECTIONS.len()) as u64;
        let seed = plan.seed.wrapping_add(round);
        (
            &RANDOM_SECTIONS[i % RANDOM_SECTIONS.len()],
            Plan { seed, ..plan },
        )
    })
}

/// Runs the jobs, as many at a time as there are threads, and prints a line for
/// each section.
fn in_threads(
    threads: usize,
    jobs: usize,
    job: impl Fn(usize) -> (&'static Section, Plan) + Sync,
) -> Total {
    let next = AtomicUsize::new(0);
    let tallies = Mutex::new(vec![]);
    let work = || loop {
        let i = next.fetch_add(1, Ordering::Relaxed);
        if i >= jobs {
            return;
        }
        let (section, plan) = job(i);
        if plan.is_over() {
            return;
        }
        let tally = run_section(section, plan);
        tallies.lock().expect("no thread gives up").push(tally);
    };
    thread::scope(|scope| {
        for _ in 0..threads {
            let builder = thread::Builder::new().stack_size(STACK);
            builder.spawn_scoped(scope, work).expect("a thread");
        }
    });
    summary(&tallies.into_inner().expect("no thread gives up"))
}

fn run_section(section: &Section, plan: Plan) -> Tally {
    let mut tally = Tally::new(section.name, plan);
    (section.run)(&mut tally);
    tally
}

/// Prints a line for each section that was run, however often, and adds up.
fn summary(tallies: &[Tally]) -> Total {
    let mut total = Total::default();
    for section in SECTIONS {
        let of_section = tallies.iter().filter(|tally| tally.section == section.name);
        let (mut runs, mut calls, mut failed) = (0, 0, 0);
        for tally in of_section {
            runs += 1;
            calls += tally.calls;
            failed += tally.failed;
        }
        if runs > 0 {
            println!(
                "section {}: {calls} calls, {failed} differences",
                section.name
            );
        }
        total.passed += calls - failed;
        total.failed += failed;
    }
    total
}
