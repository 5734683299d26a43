//! Times of single runs, and what is kept of them.
use std::hint::black_box;
use std::time::Instant;

/// Nanoseconds of one run.
pub fn time<T>(run: impl FnOnce() -> T) -> f64 {
    let began = Instant::now();
    let made = run();
    let took = began.elapsed();
    black_box(made);
    took.as_nanos() as f64
}

fn median(mut samples: Vec<f64>) -> f64 {
    samples.sort_unstable_by(f64::total_cmp);
    samples[samples.len() / 2]
}

/// What the clock itself takes.
fn clock() -> f64 {
    median((0..10_000).map(|_| time(|| ())).collect())
}

/// Some ways to do the same, in turns: a batch of each in every round. `run` gives the nanoseconds of one run. A round counts with the best of its batch, so
/// that other work of the machine does not; the answer is the median over the rounds.
pub fn medians<const N: usize>(rounds: usize, batch: usize, mut run: impl FnMut(usize) -> f64) -> [f64; N] {
    let clock = clock();
    let mut samples: [Vec<f64>; N] = std::array::from_fn(|_| Vec::with_capacity(rounds));
    for _ in 0..rounds {
        for (way, samples) in samples.iter_mut().enumerate() {
            samples.push((0..batch).map(|_| run(way)).fold(f64::MAX, f64::min) - clock);
        }
    }
    samples.map(median)
}
