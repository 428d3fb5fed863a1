//! Times of several ways to do one thing, measured side by side.

use std::time::{Duration, Instant};

/// Samples of each way; their median counts.
const SAMPLES: usize = 9;
/// A sample repeats its work for about this long: short enough that most
/// samples escape the scheduler of a busy machine.
const SAMPLE_LENGTH: Duration = Duration::from_millis(1);

/// Median seconds that each way takes once. The ways take turns, so that a
/// busy moment of the machine meets all of them alike.
pub fn median_seconds<const N: usize>(mut ways: [&mut dyn FnMut(); N]) -> [f64; N] {
    let repeats = ways.each_mut().map(|way| repeats_of(*way));
    let mut samples = [const { Vec::new() }; N];
    for _ in 0..SAMPLES {
        for place in 0..N {
            samples[place].push(seconds(&mut *ways[place], repeats[place]));
        }
    }
    samples.map(median)
}

/// How often a way is done within one sample.
fn repeats_of(way: &mut dyn FnMut()) -> u32 {
    let once = seconds(way, 1).max(1e-9);
    (SAMPLE_LENGTH.as_secs_f64() / once).ceil() as u32
}

fn seconds(way: &mut dyn FnMut(), repeats: u32) -> f64 {
    let start = Instant::now();
    for _ in 0..repeats {
        way();
    }
    start.elapsed().as_secs_f64() / f64::from(repeats)
}

fn median(mut samples: Vec<f64>) -> f64 {
    samples.sort_by(f64::total_cmp);
    samples[samples.len() / 2]
}
