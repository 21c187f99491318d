//! The jobs that are timed. The seed decides all of them.

use second::arith::Adder;
use second::choice::Job;
use second::dropped::Dropped;
use second::format::{Format, LARGEST_MODE};
use second::mask::Mask;
use second::random::Random;
use second::record::encode;
use second::whole::WholeCase;
use vindacsor::WholeJob;

use crate::conditions::{care, conditions, exponent_field, mask, without};
use crate::kinds::Kind;

/// A job with its record.
pub struct Recorded {
    pub job: Job,
    pub record: Vec<u8>,
}

impl Recorded {
    /// A job that is well made.
    pub fn of(job: Job) -> Recorded {
        let record = encode(&job).expect("a well-made job");
        Recorded { job, record }
    }

    pub fn has_case(&self) -> bool {
        vindacsor::generate(&self.record).is_ok()
    }
}

/// A job of a format with any operation and mode, of a kind. One that is to be impossible may
/// have a case: `jobs` leaves such out.
fn job(random: &mut Random, (w, f): (u64, u64), kind: Kind) -> Job {
    let operation = match kind {
        Kind::Signs => 0,
        _ => random.below(2),
    };
    // Toward zero nothing is rounded to infinity, and ties go to even in mode 0 alone.
    let mode = match kind {
        Kind::OddTie => 0,
        Kind::Overflow => [0, 2, 3, 4][random.below(4) as usize],
        _ => random.below(LARGEST_MODE + 1),
    };
    let adder = Adder::new(w, f, operation, mode).expect("within the limits");
    let conditions = conditions(random, &adder, kind);
    let width = adder.format.width();
    let words = [random.bits(width), random.bits(width)];
    Job { conditions, words }
}

/// The job without the one mask or the bounds that are to leave it no case, where its kind has
/// such.
fn relieved(job: &Job, kind: Kind) -> Option<Job> {
    let mut relieved = *job;
    let conditions = &mut relieved.conditions;
    match kind {
        Kind::ExponentOfC => {
            let format = Format::new(conditions.w, conditions.f).expect("within the limits");
            conditions.c = without(conditions.c, exponent_field(format));
        }
        Kind::OtherBelow | Kind::OddTie => conditions.dropped = Dropped::FREE,
        Kind::Carries => conditions.carries = Mask::FREE,
        Kind::Turned { .. } => conditions.bounds = [None; 3],
        Kind::Beyond { .. } => conditions.bounds[2] = None,
        _ => return None,
    }
    Some(relieved)
}

/// Whether a job of an impossible kind has no case, and has one without the mask or the bounds that
/// its kind is named for.
fn is_as_said(drawn: &Recorded, kind: Kind) -> bool {
    if !kind.is_impossible() {
        return true;
    }
    let relieved = relieved(&drawn.job, kind).map(Recorded::of);
    !drawn.has_case() && relieved.is_none_or(|job| job.has_case())
}

/// `count` jobs of a kind, and how many draws were left out because they had a case.
pub fn jobs(
    random: &mut Random,
    format: (u64, u64),
    kind: Kind,
    count: usize,
) -> (Vec<Recorded>, u64) {
    let (mut kept, mut left_out) = (Vec::new(), 0);
    while kept.len() < count {
        let drawn = Recorded::of(job(random, format, kind));
        if is_as_said(&drawn, kind) {
            kept.push(drawn);
        } else {
            left_out += 1;
        }
    }
    (kept, left_out)
}

/// `count` whole-number jobs of 32 bits around true cases. Where `possible` does not hold, bits
/// of z are turned until there is no case.
pub fn whole_jobs(random: &mut Random, of_16: u64, possible: bool, count: usize) -> Vec<WholeJob> {
    let mut kept = Vec::new();
    while kept.len() < count {
        let mut job = whole_job(random, of_16);
        if !possible {
            job.z.value ^= random.bits(32) & job.z.care;
        }
        if vindacsor::whole(&job).is_ok() == possible {
            kept.push(job);
        }
    }
    kept
}

fn whole_job(random: &mut Random, of_16: u64) -> WholeJob {
    const LENGTH: u32 = 32;
    let case = WholeCase::of(
        LENGTH,
        random.bits(LENGTH),
        random.bits(LENGTH),
        random.below(2),
    );
    let mut masked = |word, width| {
        let m = mask(word, care(random, width, of_16));
        vindacsor::Mask {
            care: m.care,
            value: m.value,
        }
    };
    WholeJob {
        length: u64::from(LENGTH),
        x: masked(case.x, LENGTH),
        y: masked(case.y, LENGTH),
        z: masked(case.z, LENGTH),
        carries: masked(case.carries, LENGTH + 1),
        words: [0; 3].map(|_: u64| random.bits(LENGTH)),
    }
}

#[cfg(test)]
mod tests {
    use super::*;
    use crate::kinds::{known, CANCELLED};
    use second::fits::confirm;

    /// Whether the numbers that a case has are those of its kind: the exponent fields of a, b and
    /// c, and c without its sign, in a format with so many fraction bits and this infinity.
    fn is_of(kind: Kind, case: &vindacsor::Case, f: u64, infinity: u64) -> bool {
        let [a, b, c] = [case.a, case.b, case.c].map(|word| (word & infinity) >> f);
        let size = case.c & (infinity | ((1 << f) - 1));
        match kind {
            Kind::Cancelled => c + CANCELLED <= a.min(b),
            Kind::Subnormal => c == 0 && size != 0,
            Kind::Overflow => case.row.is_some() && size == infinity,
            Kind::Opposed => a == b && case.row.is_some(),
            _ => true,
        }
    }

    #[test]
    fn jobs_are_of_their_kinds() {
        let mut random = Random::new(1);
        for (w, f) in [(4, 23), (5, 10), (8, 23), (11, 52)] {
            let format = Format::new(w, f).expect("within the limits");
            for (name, kind) in known() {
                for drawn in jobs(&mut random, (w, f), kind, 20).0 {
                    let found = vindacsor::generate(&drawn.record);
                    assert!(
                        matches!(kind, Kind::Mixed { .. })
                            || found.is_err() == kind.is_impossible(),
                        "{name}: {found:x?}"
                    );
                    let conditions = &drawn.job.conditions;
                    let is_of = |case: vindacsor::Case| {
                        let fits = confirm(conditions, case.a, case.b, case.c);
                        fits == Ok(true) && is_of(kind, &case, f, format.infinity())
                    };
                    assert!(
                        found.is_ok_and(is_of) || found.is_err(),
                        "{name}: {found:x?}"
                    );
                }
            }
        }
    }
}
