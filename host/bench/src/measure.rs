//! How calls are timed.

use std::time::Duration;

/// Timed runs of each call, of which the median counts. Odd, so that there is one in the middle.
pub const RUNS: usize = 9;

/// A run takes at least this long, so that the clock's own grain is no matter.
const LEAST: Duration = Duration::from_millis(20);

/// Repeats a call so many times and says how long that took, preparations left out.
pub type Timed<'a> = &'a dyn Fn(u64) -> Duration;

/// As many repetitions as a run needs. Finding them warms the caches and the branch predictor.
fn repetitions(timed: Timed) -> u64 {
    let mut count = 1;
    while timed(count) < LEAST {
        count *= 2;
    }
    count
}

fn median(mut figures: Vec<f64>) -> f64 {
    figures.sort_by(f64::total_cmp);
    figures[figures.len() / 2]
}

/// Nanoseconds that one call of each takes. Their runs take turns, so that what else the machine
/// does falls on all of them.
pub fn nanoseconds(calls: &[Timed]) -> Vec<f64> {
    let counts: Vec<u64> = calls.iter().map(|timed| repetitions(*timed)).collect();
    let mut figures = vec![Vec::new(); calls.len()];
    for _ in 0..RUNS {
        for ((timed, count), figures) in calls.iter().zip(&counts).zip(&mut figures) {
            figures.push(timed(*count).as_nanos() as f64 / *count as f64);
        }
    }
    figures.into_iter().map(median).collect()
}

#[cfg(test)]
mod tests {
    use super::*;

    #[test]
    fn the_one_in_the_middle() {
        assert_eq!(median(vec![9.0, 1.0, 3.0]), 3.0);
    }

    #[test]
    fn a_figure_for_each_call() {
        let slow = |count: u64| Duration::from_millis(30 * count);
        let quick = |count: u64| Duration::from_micros(10 * count);
        assert_eq!(nanoseconds(&[&slow, &quick]), [30_000_000.0, 10_000.0]);
    }
}
