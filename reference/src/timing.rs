//! What the measuring programs have in common.

use std::hint::black_box;
use std::time::{Duration, Instant};

/// Something that is measured again and again. It times itself, and can so leave out what only
/// prepares it.
pub type Run<'a> = Box<dyn FnMut() -> Duration + 'a>;

/// In nanoseconds.
#[derive(Clone, Copy)]
pub struct Times {
    pub least: f64,
    pub median: f64,
}

impl Times {
    /// Of one out of so many equal pieces of work.
    pub fn for_each(self, count: usize) -> Times {
        Times {
            least: self.least / count as f64,
            median: self.median / count as f64,
        }
    }

    /// What the work costs beyond another.
    pub fn beyond(self, other: Times) -> Times {
        Times {
            least: self.least - other.least,
            median: self.median - other.median,
        }
    }
}

/// The runs take turns sample by sample, so that a slow moment of the machine meets them all.
/// Each goes once before the time counts, and so finds its own data in the caches.
pub fn in_turn(samples: usize, mut runs: Vec<Run>) -> Vec<Times> {
    let mut times = vec![Vec::new(); runs.len()];
    for _ in 0..samples {
        for (run, times) in runs.iter_mut().zip(&mut times) {
            run();
            times.push(run().as_nanos() as f64);
        }
    }
    times.into_iter().map(summary).collect()
}

/// A row for each run: the least and the median time of one of so many calls, and their ratios to
/// those of two of the runs.
pub fn show(names: &[&str], times: &[Times], calls: usize, compared: [usize; 2]) {
    let of = compared.map(|at| format!("of {}", names[at]));
    let [one, other] = compared.map(|at| times[at]);
    println!(
        "               least  {0:>11}  {1:>11}       median  {0:>11}  {1:>11}",
        of[0], of[1]
    );
    for (name, run) in names.iter().zip(times) {
        let each = run.for_each(calls);
        println!(
            "  {name:<8}{:>8.0} ns  {:>11.3}  {:>11.3}  {:>8.0} ns  {:>11.3}  {:>11.3}",
            each.least,
            run.least / one.least,
            run.least / other.least,
            each.median,
            run.median / one.median,
            run.median / other.median,
        );
    }
}

/// Calls so many times.
pub fn time<T>(calls: usize, mut work: impl FnMut() -> T) -> Duration {
    let start = Instant::now();
    for _ in 0..calls {
        black_box(work());
    }
    start.elapsed()
}

fn summary(mut samples: Vec<f64>) -> Times {
    samples.sort_by(f64::total_cmp);
    Times {
        least: samples[0],
        median: samples[samples.len() / 2],
    }
}
