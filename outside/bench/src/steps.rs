//! Random changes of a job that leave it well made.

use second::bounds::Bounds;
use second::choice::Job;
use second::dropped::Dropped;
use second::format::{ones, Format, LARGEST_G, LARGEST_MODE};
use second::mask::Mask;
use second::random::Random;
use second::sample::word;
use second::within::{between, place_of};

use crate::conditions::{exponent_field, with, without};

/// The job with a random change, or some of them.
pub fn changed(random: &mut Random, job: &Job) -> Job {
    let mut job = *job;
    change(random, &mut job);
    while random.one_in(2) {
        change(random, &mut job);
    }
    job
}

/// Changes the mode, the operation, a random word, bounds or a mask.
fn change(random: &mut Random, job: &mut Job) {
    let format = Format::new(job.conditions.w, job.conditions.f).expect("within the limits");
    match random.below(14) {
        0 => job.conditions.mode = random.below(LARGEST_MODE + 1),
        1 => job.conditions.operation = 1 - job.conditions.operation,
        2 | 3 => {
            let bits = some_bits(random, format, format.width());
            job.words[random.below(2) as usize] ^= bits;
        }
        4 | 5 => {
            let stated = &mut job.conditions.bounds[random.below(3) as usize];
            *stated = changed_bounds(random, *stated, format);
        }
        _ => change_mask(random, job, format),
    }
}

/// Changes one of the masks.
fn change_mask(random: &mut Random, job: &mut Job, format: Format) {
    let place = random.below(5) as usize;
    if place == 4 {
        let dropped = &mut job.conditions.dropped;
        *dropped = changed_dropped(random, *dropped, format);
        return;
    }
    let width = [format.width(), format.precision()][place / 3];
    let bits = some_bits(random, format, width);
    let mask = &mut *job.conditions.masks_mut()[place];
    *mask = changed_mask(random, *mask, bits);
}

/// Frees some bits of a mask, fixes them, or turns those that are fixed.
fn changed_mask(random: &mut Random, mask: Mask, bits: u64) -> Mask {
    match random.below(5) {
        0 => without(mask, bits),
        1 => with(mask, random.word(), bits),
        2 => with(mask, 0, bits),
        3 => with(mask, bits, bits),
        _ => with(mask, !mask.value, bits & mask.care),
    }
}

/// Changes the mask of the dropped bits, and every fourth time how many these are; there are any
/// number of them where none was fixed.
fn changed_dropped(random: &mut Random, dropped: Dropped, format: Format) -> Dropped {
    let mut g = dropped.g;
    if dropped == Dropped::FREE || random.one_in(4) {
        g = random.below(LARGEST_G + 1);
    }
    let width = g as u32 + 1;
    let bits = some_bits(random, format, width);
    let mask = without(dropped.mask, !ones(width));
    let mask = changed_mask(random, mask, bits);
    Dropped { g, mask }.taken()
}

/// Turns some bits of the ends of bounds, or states any where there are none. Every fourth time,
/// and where an end has become a NaN, there are none.
fn changed_bounds(random: &mut Random, stated: Option<Bounds>, format: Format) -> Option<Bounds> {
    if stated.is_some() && random.one_in(4) {
        return None;
    }
    let words = match stated {
        Some(bounds) => bounds.words(),
        None => [0; 2].map(|_| word(random, format)),
    };
    let [one, other] = words.map(|end| {
        let moved = match random.below(2) {
            0 => end ^ some_bits(random, format, format.width()),
            _ => end,
        };
        place_of(format, moved)
    });
    Some(between(random, format, one?, other?))
}

/// One bit, some in a row, or a field of a word or all of it, as far as that lies in so many bits.
fn some_bits(random: &mut Random, format: Format, width: u32) -> u64 {
    let all = ones(width);
    match random.below(3) {
        0 => 1 << random.below(u64::from(width)),
        1 => {
            let [above, below] = [0; 2].map(|_| random.below(u64::from(width)));
            (all >> above) & (all << below)
        }
        _ => {
            let [sign, fraction] = [format.sign_bit(), ones(format.fraction_bits())];
            let fields = [sign, exponent_field(format), fraction, all];
            all & fields[random.below(4) as usize]
        }
    }
}

#[cfg(test)]
mod tests {
    use super::*;
    use second::fits::Conditions;

    #[test]
    fn jobs_stay_well_made() {
        let mut random = Random::new(1);
        for (w, f) in [(2, 2), (8, 23), (11, 52)] {
            let conditions = Conditions::free(w, f, 0, 0);
            let words = [0, 0];
            let mut job = Job { conditions, words };
            for _ in 0..2000 {
                job = changed(&mut random, &job);
                assert!(job.check().is_ok(), "{job:x?}");
            }
        }
    }
}
