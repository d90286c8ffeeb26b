//! Times of two ways to do the same, sample by sample in turn.

use std::fmt::Debug;
use std::hint::black_box;
use std::time::Instant;

const SAMPLES: usize = 41;
const LEAST_NANOSECONDS: u128 = 4_000_000;

/// Nanoseconds for each call, the quickest sample of each way: what other
/// programs on the machine add to a sample is left out as far as it goes.
pub struct Times {
    pub library: f64,
    pub baseline: f64,
}

/// Each way does all `calls` calls once every time it is run.
pub fn compare(calls: usize, mut library: impl FnMut(), mut baseline: impl FnMut()) -> Times {
    let library_rounds = rounds_for(&mut library);
    let baseline_rounds = rounds_for(&mut baseline);
    let mut quickest = Times {
        library: f64::INFINITY,
        baseline: f64::INFINITY,
    };
    for _ in 0..SAMPLES {
        let library_time = sample(calls, library_rounds, &mut library);
        let baseline_time = sample(calls, baseline_rounds, &mut baseline);
        quickest.library = quickest.library.min(library_time);
        quickest.baseline = quickest.baseline.min(baseline_time);
    }
    quickest
}

/// Calls both ways with all inputs. They must give the same answers and outputs, with
/// other inputs too, before they are timed.
pub fn compare_calls<Input, Output: Copy + Debug + PartialEq>(
    inputs: &[Input],
    others: &[Input],
    output: Output,
    mut library: impl FnMut(&Input, &mut Output) -> u32,
    mut baseline: impl FnMut(&Input, &mut Output) -> u32,
) -> Times {
    for input in inputs.iter().chain(others) {
        let (mut ours, mut theirs) = (output, output);
        let answer = library(input, &mut ours);
        assert_eq!(baseline(input, &mut theirs), answer);
        assert_eq!(ours, theirs);
    }
    let (mut ours, mut theirs) = (output, output);
    compare(
        inputs.len(),
        || call_with_all(inputs, &mut ours, &mut library),
        || call_with_all(inputs, &mut theirs, &mut baseline),
    )
}

pub fn call_with_all<Input, Output>(
    inputs: &[Input],
    output: &mut Output,
    mut call: impl FnMut(&Input, &mut Output) -> u32,
) {
    for input in inputs {
        black_box(call(black_box(input), output));
        black_box(&*output);
    }
}

/// How many runs take long enough for the clock; also warms the caches.
fn rounds_for(run: &mut impl FnMut()) -> usize {
    let mut rounds = 1;
    loop {
        let start = Instant::now();
        (0..rounds).for_each(|_| run());
        if start.elapsed().as_nanos() >= LEAST_NANOSECONDS {
            return rounds;
        }
        rounds *= 2;
    }
}

fn sample(calls: usize, rounds: usize, run: &mut impl FnMut()) -> f64 {
    let start = Instant::now();
    (0..rounds).for_each(|_| run());
    start.elapsed().as_nanos() as f64 / (rounds * calls) as f64
}
