//! Times of jobs: taken, gathered and written.

use std::hint::black_box;
use std::time::{Duration, Instant};

/// How often each job is run; the least time counts.
pub const RUNS: usize = 7;

/// The time of each of some runs of a call, whose reply is kept from being optimised away.
pub fn each<R>(runs: usize, call: impl Fn() -> R) -> Vec<Duration> {
    let time = |_| {
        let start = Instant::now();
        black_box(call());
        start.elapsed()
    };
    (0..runs).map(time).collect()
}

/// The least time of some runs of a call, at least one.
pub fn least_of<R>(runs: usize, call: impl Fn() -> R) -> Duration {
    each(runs, call).into_iter().min().expect("some runs")
}

/// The least time of the runs that count.
pub fn least<R>(call: impl Fn() -> R) -> Duration {
    least_of(RUNS, call)
}

/// The median, mean and largest of some times.
pub struct Times {
    /// From the least on.
    sorted: Vec<Duration>,
    pub median: Duration,
    pub mean: Duration,
    pub largest: Duration,
}

impl Times {
    /// The times of at least one job.
    pub fn of(mut times: Vec<Duration>) -> Times {
        times.sort();
        let (low, high) = ((times.len() - 1) / 2, times.len() / 2);
        Times {
            median: (times[low] + times[high]) / 2,
            mean: times.iter().sum::<Duration>() / times.len() as u32,
            largest: times[times.len() - 1],
            sorted: times,
        }
    }

    pub fn count(&self) -> usize {
        self.sorted.len()
    }

    /// How many are over a bound.
    pub fn over(&self, bound: Duration) -> usize {
        self.count() - self.sorted.partition_point(|&time| time <= bound)
    }

    /// Three columns of a table.
    pub fn columns(&self) -> String {
        [self.median, self.mean, self.largest].map(text).join(" | ")
    }
}

/// A time with three digits.
pub fn text(time: Duration) -> String {
    let nanoseconds = time.as_nanos() as f64;
    let (number, unit) = match nanoseconds {
        n if n < 1e3 => (n, "ns"),
        n if n < 1e6 => (n / 1e3, "µs"),
        n if n < 1e9 => (n / 1e6, "ms"),
        n => (n / 1e9, "s"),
    };
    let digits = usize::from(number < 100.0) + usize::from(number < 10.0);
    format!("{number:.digits$} {unit}")
}

/// A time in microseconds.
pub fn microseconds(time: Duration) -> String {
    format!("{:.1}", time.as_nanos() as f64 / 1e3)
}

/// How many times longer the first is.
pub fn ratio(long: Duration, short: Duration) -> f64 {
    long.as_secs_f64() / short.as_secs_f64()
}

/// A ratio with a digit after the point where it is small.
pub fn plain(ratio: f64) -> String {
    let digits = usize::from(ratio < 10.0);
    format!("{ratio:.digits$}")
}
