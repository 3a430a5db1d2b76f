//! Every bit pattern of a weight through two subjects, on as many threads as the machine runs at once.

use std::num::NonZero;
use std::ops::Range;
use std::sync::Mutex;
use std::sync::atomic::{AtomicU64, Ordering};
use std::thread;

use crate::comparison::Comparison;
use crate::subject::Subject;

/// All patterns of 32 bits; their end is no pattern.
pub const ALL: Range<u64> = 0..1 << 32;
/// What patterns are counted as.
pub const NAME: &str = "bit patterns";
/// How many patterns a thread takes at a time.
const PART: u64 = 1 << 20;

/// Compares the tenths of a milligram of the given patterns, where both subjects have the call for it.
pub fn compare(patterns: Range<u64>, left: &dyn Subject, right: &dyn Subject, found: &mut Comparison) {
    if left.tenths(0).is_none() || right.tenths(0).is_none() {
        return;
    }
    let next = AtomicU64::new(patterns.start);
    let found = Mutex::new(found);
    let take_parts = || {
        loop {
            let start = next.fetch_add(PART, Ordering::Relaxed);
            if start >= patterns.end {
                break;
            }
            let part = start..patterns.end.min(start + PART);
            let differing = differing(part.clone(), left, right);
            let mut found = found.lock().expect("no thread breaks off");
            found.count(NAME, (part.end - part.start) as usize);
            for bits in differing {
                found.differ(|| words(bits, left, right));
            }
        }
    };
    thread::scope(|scope| {
        for _ in 0..thread::available_parallelism().map_or(1, NonZero::get) {
            scope.spawn(take_parts);
        }
    });
}

/// The patterns of a part that the subjects do not answer alike.
fn differing(part: Range<u64>, left: &dyn Subject, right: &dyn Subject) -> Vec<u32> {
    let differs = |bits: &u32| left.tenths(*bits) != right.tenths(*bits);
    part.map(|pattern| pattern as u32).filter(differs).collect()
}

fn words(bits: u32, left: &dyn Subject, right: &dyn Subject) -> String {
    format!("tenths of {bits:08X}: {:?} and {:?}", left.tenths(bits), right.tenths(bits))
}
