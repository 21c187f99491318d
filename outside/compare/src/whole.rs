//! The whole-number generator.

use second::malform::{malform_whole_job, WHOLE_MASKS};
use second::mask::Mask;
use second::random::Random;
use second::whole::{generate_whole, WholeCase, WholeJob, LARGEST_N};
use vindacsor::buffer;

use crate::call::{compare, Tally};
use crate::damage::{damaged_number, damaged_word, some_masks};
use crate::numbers;

/// The most bits of x and y together that a job leaves free: the second implementation tries
/// them all.
const FREE: u32 = 11;

/// A mask that a word meets, with about `care` of 8 bits fixed.
fn around(random: &mut Random, word: u64, width: u32, care: u64) -> Mask {
    let bits = (0..width).filter(|_| random.below(8) < care);
    let care = bits.map(|i| 1 << i).sum();
    Mask {
        care,
        value: word & care,
    }
}

/// A job whose masks are made around a true case; in one of two a fixed bit is turned.
fn job(random: &mut Random) -> WholeJob {
    let n = 1 + random.below(32) as u32;
    let case = WholeCase::of(n, random.bits(n), random.bits(n), random.below(2));
    let care = if n < 6 { random.below(8) } else { 7 };
    let (care_z, care_carries) = (random.below(9), random.below(5));
    let mut job = WholeJob {
        n: u64::from(n),
        x: around(random, case.x, n, care),
        y: around(random, case.y, n, care),
        z: around(random, case.z, n, care_z),
        carries: around(random, case.carries, n + 1, care_carries),
        words: [0; 3].map(|_: u64| random.bits(n)),
    };
    if random.one_in(2) {
        let bit = 1 << random.below(u64::from(n) + 1);
        job.z.value ^= bit & job.z.care;
        job.carries.value ^= bit & job.carries.care;
    }
    if random.one_in(8) {
        damage(random, &mut job);
    }
    job
}

/// A job of a length of at most 3 whose masks are made around no case, each with about half of
/// its bits fixed.
fn short_job(random: &mut Random) -> WholeJob {
    let n = 1 + random.below(3) as u32;
    let mut any = |width| {
        let word = random.bits(width);
        around(random, word, width, 4)
    };
    WholeJob {
        n: u64::from(n),
        x: any(n),
        y: any(n),
        z: any(n),
        carries: any(n + 1),
        words: [0; 3].map(|_: u64| random.bits(n)),
    }
}

/// Malforms one to four masks, three times of four; the length and a random word are bad one time
/// of four each.
fn damage(random: &mut Random, job: &mut WholeJob) {
    let n = job.n as u32;
    if !random.one_in(4) {
        let set = some_masks(random, WHOLE_MASKS);
        malform_whole_job(random, job, set);
    }
    if random.one_in(4) {
        job.words[random.below(3) as usize] = damaged_word(random, 0, n);
    }
    if random.one_in(4) {
        job.n = damaged_number(random, LARGEST_N);
    }
}

/// Whether the second implementation answers the job at once.
fn is_quick(job: &WholeJob) -> bool {
    job.check()
        .map_or(true, |n| job.x.free_bits(n) + job.y.free_bits(n) <= FREE)
}

/// A job of the second implementation as the library takes it.
pub fn given(job: &WholeJob) -> vindacsor::WholeJob {
    let [x, y, z, carries] = job.masks().map(numbers::given);
    vindacsor::WholeJob {
        length: job.n,
        x,
        y,
        z,
        carries,
        words: job.words,
    }
}

/// The generator on a job, held against the second implementation.
fn generation(random: &mut Random, tally: &mut Tally, job: &WholeJob) -> Result<(), String> {
    let reply = generate_whole(job).map(|case| vec![case.x, case.y, case.z, case.carries]);
    let call = |out: &mut [u8]| buffer::whole(&given(job), out);
    compare(random, tally, &reply, call, || {
        format!("whole numbers {job:x?}")
    })
}

/// Whole numbers, on `count` jobs.
pub fn generations(random: &mut Random, count: u64) -> Result<Tally, String> {
    let mut tally = Tally::default();
    while tally.calls() < count {
        let job = job(random);
        if is_quick(&job) {
            generation(random, &mut tally, &job)?;
        }
    }
    Ok(tally)
}

/// Whole numbers of a length of at most 3, on `count` jobs.
pub fn short_generations(random: &mut Random, count: u64) -> Result<Tally, String> {
    let mut tally = Tally::default();
    for _ in 0..count {
        let job = short_job(random);
        generation(random, &mut tally, &job)?;
    }
    Ok(tally)
}
