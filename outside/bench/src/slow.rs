//! A search for slow jobs: random jobs of every kind are changed step by step, and a change is kept
//! where the reply takes longer. The seed decides the steps that are tried; which of them are kept
//! depends on the times too.

use std::cmp::Reverse;
use std::time::{Duration, Instant};

use second::choice::Job;
use second::random::Random;

use crate::jobs::{jobs, Recorded};
use crate::kinds::known;
use crate::steps::changed;
use crate::times::{least, least_of};

/// The formats, of which each has half of the time.
const FORMATS: [(u64, u64); 2] = [(8, 23), (11, 52)];
/// How many random jobs the search begins with, of every kind in turn. After each round the slower
/// half goes on, and every round has the same time.
pub const BEGINNINGS: usize = 32;
/// How often two jobs are run to see which is slower: the least times count.
pub const COMPARED: usize = 3;

/// The slowest job found in a format.
pub struct Slowest {
    pub format: (u64, u64),
    pub job: Job,
    pub time: Duration,
    pub has_case: bool,
    /// How many changes were tried.
    pub tried: u64,
}

/// A job with its time.
struct Timed {
    job: Recorded,
    time: Duration,
}

fn time(job: &Recorded) -> Duration {
    least_of(COMPARED, || vindacsor::generate(&job.record))
}

struct Search {
    random: Random,
    tried: u64,
}

impl Search {
    /// Random jobs, of every kind in turn.
    fn beginnings(&mut self, format: (u64, u64)) -> Vec<Timed> {
        let kinds = known().cycle().take(BEGINNINGS);
        let jobs = kinds.flat_map(|(_, kind)| jobs(&mut self.random, format, kind, 1).0);
        jobs.map(|job| Timed {
            time: time(&job),
            job,
        })
        .collect()
    }

    /// Changes a job for some time, and keeps what is slower.
    fn climb(&mut self, slowest: &mut Timed, period: Duration) {
        let until = Instant::now() + period;
        slowest.time = time(&slowest.job);
        while Instant::now() < until {
            self.tried += 1;
            let job = Recorded::of(changed(&mut self.random, &slowest.job.job));
            if least_of(1, || vindacsor::generate(&job.record)) <= slowest.time {
                continue;
            }
            // The machine may have become slower, so both are run now.
            slowest.time = time(&slowest.job);
            let time = time(&job);
            if time > slowest.time {
                *slowest = Timed { job, time };
            }
        }
    }
}

/// The slowest job found in a format within the time.
fn search(seed: u64, format: (u64, u64), time: Duration) -> Slowest {
    let mut search = Search {
        random: Random::new(seed),
        tried: 0,
    };
    let round = time / (BEGINNINGS.ilog2() + 1);
    let mut climbing = search.beginnings(format);
    loop {
        let part = round / climbing.len() as u32;
        climbing.iter_mut().for_each(|job| search.climb(job, part));
        if climbing.len() == 1 {
            break;
        }
        climbing.sort_by_key(|job| Reverse(job.time));
        climbing.truncate(climbing.len() / 2);
    }
    let job = &climbing[0].job;
    Slowest {
        format,
        job: job.job,
        time: least(|| vindacsor::generate(&job.record)),
        has_case: job.has_case(),
        tried: search.tried,
    }
}

/// The slowest job found in each format, with half of the time for each.
pub fn slowest(seed: u64, time: Duration) -> Vec<Slowest> {
    FORMATS.map(|format| search(seed, format, time / 2)).into()
}
