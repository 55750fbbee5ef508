//! Finds pairs of keys of equal priority: `cargo run --release --example find_ties`.
//!
//! P(a) = P(b) says that eight differences, one for each byte, cancel. Each is
//! one of 32,896 numbers, so the differences are joined two and two, first on
//! their lowest 16 bits, then on the next 14, then on all (the generalised
//! birthday search).

use reference::priority::{priority, E};

/// A sum of differences, with the bytes of the two keys that make it.
#[derive(Clone, Copy)]
struct Difference {
    sum: u64,
    a: u64,
    b: u64,
}

/// All differences that byte j can make.
fn of_byte(j: usize) -> Vec<Difference> {
    let pair = |x: usize, y: usize| Difference {
        sum: E[256 * j + x] ^ E[256 * j + y],
        a: (x as u64) << (8 * j),
        b: (y as u64) << (8 * j),
    };
    (0..256)
        .flat_map(|x| (x..256).map(move |y| pair(x, y)))
        .collect()
}

/// The sums of one of each list that agree with the target under the mask.
fn join(left: &[Difference], right: &[Difference], mask: u64, target: u64) -> Vec<Difference> {
    let mut sorted = right.to_vec();
    sorted.sort_by_key(|d| d.sum & mask);
    let mut all = vec![];
    for l in left {
        let wanted = (l.sum ^ target) & mask;
        let start = sorted.partition_point(|d| d.sum & mask < wanted);
        for r in sorted[start..]
            .iter()
            .take_while(|d| d.sum & mask == wanted)
        {
            all.push(Difference {
                sum: l.sum ^ r.sum,
                a: l.a | r.a,
                b: l.b | r.b,
            });
        }
    }
    all
}

fn main() {
    let low = (1 << 16) - 1;
    let middle = (1 << 30) - 1;
    let pairs: Vec<_> = (0..4)
        .map(|i| join(&of_byte(2 * i), &of_byte(2 * i + 1), low, 0))
        .collect();
    for target in 1..400u64 {
        let first = join(&pairs[0], &pairs[1], middle, target << 16);
        let second = join(&pairs[2], &pairs[3], middle, target << 16);
        for d in join(&first, &second, u64::MAX, 0) {
            if d.a != d.b && d.a != 0 && d.b != 0 {
                assert_eq!(priority(d.a), priority(d.b));
                println!("(0x{:016X}, 0x{:016X}),", d.a.min(d.b), d.a.max(d.b));
            }
        }
    }
}
