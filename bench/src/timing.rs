//! Times of several candidates for one job, measured in turn within one run.

use crate::clock::thread_time;
use std::time::{Duration, Instant};

/// A candidate: told which turn it is, it does the job that many times, of
/// which only the job itself is timed, and gives the time.
pub type Candidate<'a> = Box<dyn FnMut(usize, usize) -> Duration + 'a>;

/// A sample repeats a short job until it lasts about this long, so that reading
/// the clock does not count.
const SAMPLE: Duration = Duration::from_micros(30);

/// The most repetitions in a sample.
const MOST_REPEATS: usize = 1000;

/// A row goes on for about this long, within these numbers of rounds.
const ROW: Duration = Duration::from_millis(900);
const LEAST_ROUNDS: usize = 11;
const MOST_ROUNDS: usize = 401;

/// A candidate that does `prepare` untimed and then `job` timed, each told the
/// turn and which repetition it is.
pub fn candidate<'a, S: 'a>(
    mut state: S,
    mut prepare: impl FnMut(&mut S, usize, usize) + 'a,
    mut job: impl FnMut(&mut S, usize, usize) + 'a,
) -> Candidate<'a> {
    Box::new(move |turn, repeats| {
        (0..repeats).for_each(|repeat| prepare(&mut state, turn, repeat));
        let start = thread_time();
        (0..repeats).for_each(|repeat| job(&mut state, turn, repeat));
        thread_time() - start
    })
}

/// The least time of each candidate in nanoseconds: what it takes when nothing
/// disturbs it. In each round every candidate has its turn, so that a change of
/// the machine's speed meets all.
pub fn least<const N: usize>(mut candidates: [Candidate; N]) -> [f64; N] {
    let repeats: Vec<usize> = candidates.iter_mut().map(repeats_of).collect();
    let mut least = [f64::INFINITY; N];
    let start = Instant::now();
    for turn in 0..MOST_ROUNDS {
        if turn >= LEAST_ROUNDS && start.elapsed() > ROW {
            break;
        }
        round(&mut candidates, turn, &repeats, &mut least);
    }
    least
}

/// The same for jobs that take seconds: so many rounds, once in each.
pub fn least_of_rounds<const N: usize>(mut candidates: [Candidate; N], rounds: usize) -> [f64; N] {
    let mut least = [f64::INFINITY; N];
    (0..rounds).for_each(|turn| round(&mut candidates, turn, &[1; N], &mut least));
    least
}

/// Every candidate has its turn.
fn round(candidates: &mut [Candidate], turn: usize, repeats: &[usize], least: &mut [f64]) {
    for ((candidate, &repeats), least) in candidates.iter_mut().zip(repeats).zip(least) {
        let time = candidate(turn, repeats).as_nanos() as f64 / repeats as f64;
        *least = least.min(time);
    }
}

/// How often a candidate repeats its job in a sample, by a first try.
fn repeats_of(candidate: &mut Candidate) -> usize {
    candidate(0, 1);
    let once = candidate(1, 1).as_nanos().max(1);
    (SAMPLE.as_nanos() / once).clamp(1, MOST_REPEATS as u128) as usize
}
