//! Times and how they are printed. A figure is made of short batches, each the best of several repeats, so that a
//! pause of the machine doesn't count.

use std::ops::Range;
use std::time::{Duration, Instant};

/// The most operations that are timed at once.
pub const BATCH: usize = 128;

/// The operations numbered from 0, cut into batches.
pub fn batches(operations: usize, batch: usize) -> Vec<Range<usize>> {
    (0..operations).step_by(batch).map(|first| first..operations.min(first + batch)).collect()
}

/// Goes through the batches so often. `run` takes one and answers how long each implementation took for it; the
/// best times, put together, give the nanoseconds for one operation.
pub fn best_of<const IMPLEMENTATIONS: usize>(
    repeats: usize,
    batches: &[Range<usize>],
    mut run: impl FnMut(Range<usize>) -> [Duration; IMPLEMENTATIONS],
) -> [f64; IMPLEMENTATIONS] {
    let mut best = vec![[Duration::MAX; IMPLEMENTATIONS]; batches.len()];
    for _ in 0..repeats {
        for (batch, best) in batches.iter().zip(&mut best) {
            for (best, time) in best.iter_mut().zip(run(batch.clone())) {
                *best = time.min(*best);
            }
        }
    }
    let operations: usize = batches.iter().map(|batch| batch.len()).sum();
    std::array::from_fn(|implementation| {
        let time: Duration = best.iter().map(|times| times[implementation]).sum();
        time.as_nanos() as f64 / operations as f64
    })
}

pub fn time(work: impl FnOnce()) -> Duration {
    let begun = Instant::now();
    work();
    begun.elapsed()
}

pub fn report_proved(what: &str, proved: f64) {
    println!("{what}");
    println!("  {:<54}{:>9} ns", "proved, through C", figure(proved));
}

pub fn report(what: &str, [proved, by_value, in_place]: [f64; 3]) {
    report_proved(what, proved);
    report_other("model by value", by_value, proved);
    report_other("model in place", in_place, proved);
}

/// A line beneath the proved one.
pub fn report_other(name: &str, time: f64, proved: f64) {
    println!("  {name:<54}{:>9} ns    proved / this {:>7.2}", figure(time), proved / time);
}

/// One decimal, and three where there are but a few nanoseconds.
fn figure(time: f64) -> String {
    if time < 10.0 {
        format!("{time:.3}")
    } else {
        format!("{time:.1}")
    }
}
