//! Document 01's case 13 in its own format, 8/23, and in double precision: addition, a's and b's
//! sign bits fixed to 0 and c's to 1, nothing else fixed, and no case.

use std::time::Duration;

use second::choice::Job;
use second::fits::Conditions;
use second::format::{LARGEST_MODE, NO_CASE};
use second::mask::Mask;
use second::record::encode;
use vindacsor::Refusal;

use crate::times::each;

/// How often the job is given in each format and mode. Every run counts, the first too.
pub const RUNS: usize = 5000;
/// The formats in which the job is given.
const FORMATS: [(u64, u64); 2] = [(8, 23), (11, 52)];

/// The runs in one format and mode.
pub struct Runs {
    pub format: (u64, u64),
    pub mode: u64,
    pub times: Spread,
}

/// How long some runs took.
pub struct Spread {
    pub median: Duration,
    /// 99 of 100 runs took no longer.
    pub nearly_all: Duration,
    pub largest: Duration,
}

impl Spread {
    fn of(mut times: Vec<Duration>) -> Spread {
        times.sort();
        let part = |of_100: usize| times[(times.len() - 1) * of_100 / 100];
        Spread {
            median: part(50),
            nearly_all: part(99),
            largest: part(100),
        }
    }
}

/// The job with both random words 0, which its record leaves out.
fn record((w, f): (u64, u64), mode: u64) -> Vec<u8> {
    let sign = 1 << (w + f);
    let fixed = |value| Mask { care: sign, value };
    let mut conditions = Conditions::free(w, f, 0, mode);
    conditions.a = fixed(0);
    conditions.b = fixed(0);
    conditions.c = fixed(sign);
    let words = [0, 0];
    encode(&Job { conditions, words }).expect("a well-made job")
}

/// The times in each format and mode; another reply than refusal 7 is an error.
pub fn case_13() -> Result<Vec<Runs>, String> {
    let timed = |(format, mode)| {
        let record = record(format, mode);
        match vindacsor::generate(&record) {
            Err(Refusal(number)) if number == u64::from(NO_CASE) => {}
            reply => return Err(format!("case 13, {format:?}, mode {mode}: {reply:x?}")),
        }
        Ok(Runs {
            format,
            mode,
            times: Spread::of(each(RUNS, || vindacsor::generate(&record))),
        })
    };
    FORMATS
        .into_iter()
        .flat_map(|format| (0..=LARGEST_MODE).map(move |mode| (format, mode)))
        .map(timed)
        .collect()
}
