//! The time that a call takes.
use crate::clock::{median, now};

/// The array that an entry tells its values in.
pub type Values = [u64; 8];

/// How often each is measured; the median counts.
const RUNS: usize = 15;

/// The nanoseconds of one call.
pub fn nanoseconds(calls: usize, mut call: impl FnMut()) -> f64 {
    let times = (0..RUNS).map(|_| {
        let start = now();
        for _ in 0..calls {
            call();
        }
        (now() - start) / calls as f64
    });
    median(times.collect()) * 1e9
}
