//! Numbers for the calls beside the tally.

use crate::card::HIGHEST_X;
use crate::generate::weighings::{self, EDGES};
use crate::prng::Prng;
use crate::tally::Tally;
use crate::weights::Weighing;

/// Numbers at the ends of the types and of the tables.
const ENDS: [u32; 12] = [0, 1, 2, 100, 101, 500, 501, 502, 65_535, 65_536, u32::MAX / 2, u32::MAX];

/// Table 14G wholly, with numbers past its end.
pub fn labels(prng: &mut Prng) -> Vec<(u32, u32)> {
    let mut pairs = every(0..104, 0..130);
    pairs.extend(ends(prng));
    pairs
}

/// Table 14H wholly, with averages past its end.
pub fn pairs(prng: &mut Prng) -> Vec<(u32, u32)> {
    let mut pairs = every(0..540, 0..540);
    pairs.extend(ends(prng));
    pairs
}

/// Containers and kilograms: every small lot, the limits of the weights, and some at random.
pub fn lots(prng: &mut Prng, number: usize) -> Vec<(u32, u32)> {
    let mut lots = every(0..140, 0..420);
    for weight in [500u32, 3_000, 20_000] {
        for containers in 1..=200 {
            let kilograms = weight / containers;
            lots.extend([(containers, kilograms), (containers, kilograms + 1)]);
        }
    }
    lots.extend(ends(prng));
    for _ in 0..number {
        let containers = prng.pick(&[16, 70, 3_000, 65_537]);
        let kilograms = prng.pick(&[16, 120, 3_000, 65_537]);
        lots.push((prng.below(containers) as u32, prng.below(kilograms) as u32));
    }
    lots
}

/// Component results with a tolerated range, mostly close to their range.
pub fn components(prng: &mut Prng) -> (Vec<u32>, u32) {
    let length = prng.pick(&[0, 1, 2, 2, 3, 5, 10, 30, 59, 60, 60, 61, 100]);
    let width = prng.pick(&[1, 5, 100, 1_000, 10_001]);
    let base = prng.below(10_001 - width.min(10_000)) as u32;
    let mut results: Vec<u32> = (0..length).map(|_| base + prng.below(width) as u32).collect();
    if length > 0 && prng.once_in(5) {
        let place = prng.below(length);
        results[place] = prng.pick(&[0, 9_999, 10_000, 10_001, 65_536, u32::MAX]);
    }
    let ends = (results.iter().min(), results.iter().max());
    let range = if let (Some(least), Some(most)) = ends { most - least } else { 0 };
    let tolerated =
        prng.pick(&[range.saturating_sub(1), range, range, range.saturating_add(1), 0, 10_000, u32::MAX]);
    (results, tolerated)
}

/// Every two of the edges, statuses of one bit each and at the ends, and some of any kind.
pub fn weighings(prng: &mut Prng, number: usize) -> Vec<Weighing> {
    let with = |component| EDGES.iter().map(move |&remainder| weighings::steady(component, remainder));
    let mut all: Vec<Weighing> = EDGES.iter().flat_map(|&component| with(component)).collect();
    let one = weighings::steady(0x3F80_0000, 0x3F80_0000);
    all.extend((0..32).map(|bit| Weighing { status: 1 << bit, ..one }));
    all.extend(ENDS.iter().map(|&status| Weighing { status, ..one }));
    for _ in 0..number {
        let x = prng.within(0..=10_000);
        all.extend([weighings::any(prng), weighings::accepted(prng, x), weighings::of_share(prng, x)]);
    }
    all
}

/// A container of a lot or none, held or free; or one that 16 bits do not carry, but would be such a one by them.
pub fn container(prng: &mut Prng, tally: &Tally) -> u32 {
    let last = tally.lot().containers;
    let held: Vec<u16> = tally.held().iter().map(|held| held.container).collect();
    let some =
        if held.is_empty() || prng.once_in(2) { prng.within(1..=last.max(1)) } else { prng.pick(&held) };
    wide(prng, some, &[0, last, last.saturating_add(1), 65_535])
}

/// X within its limit, at it or above it, or one that 16 bits do not carry.
pub fn x(prng: &mut Prng) -> u32 {
    let some = prng.within(0..=HIGHEST_X);
    wide(prng, some, &[0, HIGHEST_X, HIGHEST_X + 1, 65_535])
}

/// A number, one of the limits, a number of more than 16 bits whose last ones it is, or an end of the type.
fn wide(prng: &mut Prng, some: u16, limits: &[u16]) -> u32 {
    match prng.below(8) {
        0 => prng.pick(limits).into(),
        1 => (prng.draw() as u32) << 16 | u32::from(some),
        2 => prng.pick(&[65_536, 65_537, u32::MAX - 1, u32::MAX]),
        _ => some.into(),
    }
}

fn every(firsts: std::ops::Range<u32>, seconds: std::ops::Range<u32>) -> Vec<(u32, u32)> {
    firsts.flat_map(|first| seconds.clone().map(move |second| (first, second))).collect()
}

/// Every two of the ends, and each end with any other number.
fn ends(prng: &mut Prng) -> Vec<(u32, u32)> {
    let mut pairs: Vec<(u32, u32)> =
        ENDS.iter().flat_map(|&first| ENDS.iter().map(move |&second| (first, second))).collect();
    for &end in &ENDS {
        for _ in 0..50 {
            let other = prng.draw() as u32 >> prng.below(32);
            pairs.extend([(end, other), (other, end)]);
        }
    }
    pairs
}
