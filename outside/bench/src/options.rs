//! What the command line says.

use std::time::Duration;

use second::random::seed;

pub const USAGE: &str = "usage: bench [--seed N] [--jobs N] [--limit SECONDS] [--stack KIB] \
                         [--slow SECONDS] [--alone] [--write]";

const SEED: u64 = 0xB3AC4;

pub struct Options {
    pub seed: u64,
    pub jobs: usize,
    pub limit: Duration,
    /// The stack of the thread on which every timed job runs, in KiB.
    pub stack: usize,
    /// How long slow jobs are searched for.
    pub slow: Option<Duration>,
    pub alone: bool,
    pub write: bool,
}

impl Options {
    /// The options in the words after the program's name; none where a word is not understood.
    pub fn read(mut words: impl Iterator<Item = String>) -> Option<Options> {
        let mut options = Options {
            seed: SEED,
            jobs: 40,
            limit: Duration::from_secs(20),
            stack: 256,
            slow: None,
            alone: false,
            write: false,
        };
        while let Some(word) = words.next() {
            match word.as_str() {
                "--seed" => options.seed = seed(Some(&words.next()?), SEED)?,
                "--jobs" => options.jobs = words.next()?.parse().ok().filter(|&jobs| jobs > 0)?,
                "--limit" => options.limit = seconds(words.next()?)?,
                "--stack" => options.stack = words.next()?.parse().ok()?,
                "--slow" => options.slow = Some(seconds(words.next()?)?),
                "--alone" => options.alone = true,
                "--write" => options.write = true,
                _ => return None,
            }
        }
        Some(options)
    }
}

fn seconds(word: String) -> Option<Duration> {
    Some(Duration::from_secs(word.parse().ok()?))
}
