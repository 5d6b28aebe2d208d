//! Time per call: the median of many batches.

use std::time::{Duration, Instant};

use crate::work::{Implementation, Row};

const BATCHES: usize = 201;
/// Long enough for the clock, short enough to fall between interruptions.
const BATCH: Duration = Duration::from_micros(500);

/// Nanoseconds per call of each implementation, in batches by turns.
pub fn times(row: &Row) -> [f64; 2] {
    let mut calls = Implementation::BOTH.map(|implementation| row.call(implementation));
    let sizes = calls.each_mut().map(batch_size);
    let mut samples = [Vec::new(), Vec::new()];
    for _ in 0..BATCHES {
        for ((call, &size), samples) in calls.iter_mut().zip(&sizes).zip(&mut samples) {
            samples.push(batch(call, size).as_nanos() as f64 / f64::from(size));
        }
    }
    samples.map(median)
}

fn batch(call: &mut impl FnMut(), size: u32) -> Duration {
    let start = Instant::now();
    for _ in 0..size {
        call();
    }
    start.elapsed()
}

fn batch_size(call: &mut impl FnMut()) -> u32 {
    let mut size = 1;
    while batch(call, size) < BATCH {
        size *= 2;
    }
    size
}

fn median(mut samples: Vec<f64>) -> f64 {
    samples.sort_by(f64::total_cmp);
    samples[samples.len() / 2]
}
