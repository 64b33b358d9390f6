//! Times of the programs, taken in turn on the same inputs.
use bench::calls::Program;
use bench::inputs::{Input, Pair};
use std::hint::black_box;
use std::time::Instant;

/// Microseconds a call of each program.
pub type Times<const N: usize> = [f64; N];

/// Seconds of a run that is made twice and not more often.
const LONG: f64 = 0.5;

/// Seconds of one call for each pair: the least of several times, so that what else the machine
/// did counts least.
fn best<const N: usize>(times: usize, calls: &[Program; N], image: &[u8], pairs: &[Pair]) -> Times<N> {
    let mut space = vec![0; plain::WORKSPACE];
    let mut least = [f64::MAX; N];
    for time in 0..times {
        for ((_, call), least) in calls.iter().zip(&mut least) {
            if time >= 2 && *least > LONG {
                continue;
            }
            let start = Instant::now();
            for pair in pairs {
                black_box(call(black_box(image), black_box(pair), &mut space));
            }
            *least = start.elapsed().as_secs_f64().min(*least);
        }
    }
    least
}

/// The average over all pairs of all inputs.
pub fn average<const N: usize>(times: usize, calls: &[Program; N], inputs: &[Input]) -> Times<N> {
    let mut sum = [0.0; N];
    for input in inputs {
        let least = best(times, calls, &input.image, &input.pairs);
        sum = std::array::from_fn(|k| sum[k] + least[k]);
    }
    let count: usize = inputs.iter().map(|i| i.pairs.len()).sum();
    sum.map(|seconds| seconds * 1e6 / count as f64)
}

/// The slowest pair of an input.
pub fn slowest<const N: usize>(calls: &[Program; N], input: &Input) -> Times<N> {
    let mut most = [0.0; N];
    for pair in input.pairs.chunks(1) {
        let least = best(5, calls, &input.image, pair);
        most = std::array::from_fn(|k| least[k].max(most[k]));
    }
    most.map(|seconds| seconds * 1e6)
}
