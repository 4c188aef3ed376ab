//! The least time of a call over many repetitions.

use std::hint::black_box;
use std::time::{Duration, Instant};

/// Short, so that some repetitions fall between disturbances.
const REPETITION: Duration = Duration::from_micros(500);
const REPETITIONS: u32 = 200;

/// Makes the given number of calls and returns a sum over their answers.
pub type Calls<'a> = Box<dyn FnMut(u64) -> u64 + 'a>;

/// The least nanoseconds of one call for each of the subjects. They take turns, so that a disturbance falls on all of them.
pub fn least(subjects: &mut [Calls]) -> Vec<f64> {
    let counts: Vec<u64> = subjects.iter_mut().map(calls_for_repetition).collect();
    let mut least = vec![f64::INFINITY; subjects.len()];
    for _ in 0..REPETITIONS {
        for (i, subject) in subjects.iter_mut().enumerate() {
            let taken = time(subject, counts[i]).as_nanos() as f64 / counts[i] as f64;
            least[i] = least[i].min(taken);
        }
    }
    least
}

/// The least nanoseconds of one call in each of the parts that a subject times by itself.
pub fn least_parts<const N: usize>(mut subject: impl FnMut(u64) -> [u64; N]) -> [f64; N] {
    let mut calls = 1;
    while u128::from(subject(calls).iter().sum::<u64>()) < REPETITION.as_nanos() {
        calls *= 2;
    }
    let mut least = [f64::INFINITY; N];
    for _ in 0..REPETITIONS {
        for (least, ns) in least.iter_mut().zip(subject(calls)) {
            *least = least.min(ns as f64 / calls as f64);
        }
    }
    least
}

fn calls_for_repetition(subject: &mut Calls) -> u64 {
    let mut calls = 1;
    while time(subject, calls) < REPETITION {
        calls *= 2;
    }
    calls
}

fn time(subject: &mut Calls, calls: u64) -> Duration {
    let start = Instant::now();
    black_box(subject(black_box(calls)));
    start.elapsed()
}
