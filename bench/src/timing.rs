//! Times of runs that take turns.
use std::hint::black_box;
use std::time::Instant;

/// One thing that is timed: a run gives the nanoseconds that it took.
pub type Timed<'a> = Box<dyn FnMut() -> f64 + 'a>;

/// Nanoseconds of one run. What it answers is dropped behind the time.
pub fn timed<T>(run: impl FnOnce() -> T) -> f64 {
    let begin = Instant::now();
    let answer = black_box(run());
    let took = begin.elapsed().as_nanos() as f64;
    drop(answer);
    took
}

/// The median of each, over rounds in which each runs once. A tenth more rounds go before, to warm up.
pub fn medians(rounds: usize, runs: &mut [Timed]) -> Vec<f64> {
    let mut times = vec![Vec::with_capacity(rounds); runs.len()];
    for round in 0..rounds + rounds / 10 {
        for (run, times) in runs.iter_mut().zip(&mut times) {
            let took = run();
            if round >= rounds / 10 {
                times.push(took);
            }
        }
    }
    times.into_iter().map(median).collect()
}

fn median(mut times: Vec<f64>) -> f64 {
    times.sort_by(f64::total_cmp);
    times[times.len() / 2]
}
