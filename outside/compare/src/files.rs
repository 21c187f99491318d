//! What takes a job file: reading, confirmation and the case generator.

use second::arith::{every_setting, Adder};
use second::bounds::{Bounds, Number};
use second::choice::{free_bits, generate, Job};
use second::dropped::Dropped;
use second::fits::{confirm, Case, Computed, Conditions};
use second::format::{Refusal, CUT_SHORT};
use second::mask::Mask;
use second::random::Random;
use second::record::{encode, read, Reply};
use second::sample::{
    all_but_few, bounded_job, dropped_job, dropping_pair, job, numbers, opposed_job, pair,
    unrelated_job,
};
use second::signs::refusal;
use second::table::Table;
use vindacsor::buffer;

use crate::call::{self, compare, Tally};
use crate::damage::{
    any_raw_record, damage_file, damaged_word, malformed_record, misbounded_record,
};
use crate::numbers::every_adder;

/// The job that a function which wants one takes from a file.
fn job_in(file: &[u8]) -> Result<Job, Refusal> {
    match read(file).0 {
        Reply::End => Err(CUT_SHORT),
        Reply::Job(job) => Ok(job),
        Reply::Refused(number) => Err(number),
    }
}

/// The record of a job that no number but 7 refuses.
pub fn record(job: &Job) -> Vec<u8> {
    encode(job).expect("a well-made job")
}

/// What reading, confirmation of the case a, b, c and the generator return for a record. The lent
/// bytes are as they were where all three refuse.
pub fn returned(record: &[u8], [a, b, c]: [u64; 3]) -> [u64; 3] {
    let mut out = [0xA5; 40];
    let numbers = [
        buffer::read(record, &mut out),
        buffer::confirm(record, a, b, c, &mut out),
        buffer::generate(record, &mut out),
    ];
    assert_eq!(out == [0xA5; 40], !numbers.contains(&0), "{record:02x?}");
    numbers
}

/// A job of any format; about `care` of 64 bits are fixed in the masks of a and b. One in four asks
/// for dropped bits of a chosen kind, and one in four states bounds, at least.
fn any_job(random: &mut Random, care: u64) -> Job {
    let numbers = numbers(random);
    match random.below(4) {
        0 => dropped_job(random, numbers, care),
        1 => bounded_job(random, numbers, care),
        _ => job(random, numbers, care),
    }
}

/// The numbers of a case.
fn case_numbers(case: Case) -> Vec<u64> {
    let [flag, row] = case.row.map_or([0, 0], |row| [1, row]);
    vec![case.a, case.b, case.c, flag, row]
}

/// One to three records, damaged but for one file in eight; some files are random bytes, and some
/// end with a record that has any bytes for w and f, malformed masks or bad bounds.
pub fn damaged_file(random: &mut Random) -> Vec<u8> {
    let kind = random.below(16);
    if kind == 0 {
        let length = random.below(128);
        return (0..length).map(|_| random.bits(8) as u8).collect();
    }
    let mut file = Vec::new();
    for _ in 0..1 + random.below(3) {
        file.extend(record(&any_job(random, 32)));
    }
    match kind {
        1..=2 => any_raw_record(random),
        3..=4 => [file, any_raw_record(random)].concat(),
        5..=9 => {
            let job = any_job(random, 32);
            let fault = [malformed_record, misbounded_record][(kind % 2) as usize];
            [file, fault(random, &job)].concat()
        }
        _ if random.one_in(8) => file,
        _ => {
            damage_file(random, &mut file);
            file
        }
    }
}

/// The record of a job; one time of eight it is damaged, one of eight it has malformed masks, one
/// of sixteen bad bounds, and one of sixteen another one stands there, with any bytes for w and f.
fn perhaps_damaged(random: &mut Random, job: &Job) -> Vec<u8> {
    let mut file = record(job);
    match random.below(16) {
        0 => any_raw_record(random),
        1 | 2 => {
            damage_file(random, &mut file);
            file
        }
        3 | 4 => malformed_record(random, job),
        5 => misbounded_record(random, job),
        _ => file,
    }
}

/// Reading what stands first in a file: the reply and the rest are the second implementation's.
fn reading<'a>(
    random: &mut Random,
    tally: &mut Tally,
    file: &'a [u8],
) -> Result<(Reply, &'a [u8]), String> {
    let (first, after) = read(file);
    let reply: call::Reply = match first {
        Reply::Refused(number) => Err(number),
        _ => Ok(vec![(file.len() - after.len()) as u64]),
    };
    let call = |out: &mut [u8]| buffer::read(file, out);
    compare(random, tally, &reply, call, || {
        format!("reading {file:02x?}")
    })?;
    Ok((first, after))
}

/// Reading a file to its end or its first refusal.
pub fn whole_reading(random: &mut Random, tally: &mut Tally, file: &[u8]) -> Result<(), String> {
    let mut rest = file;
    while let (Reply::Job(_), after) = reading(random, tally, rest)? {
        rest = after;
    }
    Ok(())
}

/// Reading, on `count` files.
pub fn readings(random: &mut Random, count: u64) -> Result<Tally, String> {
    let mut tally = Tally::default();
    for _ in 0..count {
        let file = damaged_file(random);
        whole_reading(random, &mut tally, &file)?;
    }
    Ok(tally)
}

/// A proposed case: one that the masks were made around where it can be had, or any.
fn proposed(random: &mut Random, job: &Job, adder: &Adder) -> [u64; 3] {
    let width = adder.format.width();
    let masks = &job.conditions;
    let draw = [pair, dropping_pair][random.below(2) as usize];
    let (mut a, mut b) = draw(random, adder.format);
    if !random.one_in(4) {
        a = a & !masks.a.care | masks.a.value;
        b = b & !masks.b.care | masks.b.value;
    }
    let mut case = [a, b, adder.result(a, b)];
    if random.one_in(8) {
        let at = random.below(3) as usize;
        case[at] = damaged_word(random, case[at], width);
    } else if random.one_in(4) {
        case[2] ^= 1 << random.below(u64::from(width));
    }
    case
}

/// Asks of c, of the dropped bits and by bounds what a case has, where its words are words of the
/// format. Bounds that shut a word out become this word alone, and are left out for a NaN.
fn ask_for(conditions: &mut Conditions, adder: &Adder, [a, b, c]: [u64; 3]) {
    conditions.c.value = c & conditions.c.care;
    let are_words = [a, b, c]
        .iter()
        .all(|&word| adder.format.check_word(word).is_ok());
    if !are_words {
        return;
    }
    for (stated, word) in conditions.bounds.iter_mut().zip([a, b, c]) {
        if stated.is_some_and(|bounds| !bounds.admit(adder.format, word)) {
            let (low, high) = (word, word);
            *stated = Number::of(adder.format, word).map(|_| Bounds { low, high });
        }
    }
    if let Some(below) = Computed::of(adder, a, b).below {
        let Dropped { g, mask } = &mut conditions.dropped;
        mask.value = below.word(*g) & mask.care;
    }
}

/// Confirmation, on `count` calls.
pub fn confirmations(random: &mut Random, count: u64) -> Result<Tally, String> {
    let mut tally = Tally::default();
    for _ in 0..count {
        let care = 8 * random.below(3);
        let mut job = any_job(random, care);
        if random.one_in(2) {
            job.conditions.carries = Mask::FREE;
        }
        let adder = job.check().expect("a well-made job");
        let [a, b, c] = proposed(random, &job, &adder);
        // Every second job asks of c, of the dropped bits and by bounds only what this case has.
        if random.one_in(2) {
            ask_for(&mut job.conditions, &adder, [a, b, c]);
        }
        let file = perhaps_damaged(random, &job);
        let reply = job_in(&file)
            .and_then(|job| confirm(&job.conditions, a, b, c))
            .map(|fits| vec![u64::from(fits)]);
        let call = |out: &mut [u8]| buffer::confirm(&file, a, b, c, out);
        let asked = || format!("confirming {a:x} {b:x} {c:x} for {file:02x?}");
        compare(random, &mut tally, &reply, call, asked)?;
    }
    Ok(tally)
}

/// The generator on the job of a file, held against `wanted`.
fn generation(
    random: &mut Random,
    tally: &mut Tally,
    file: &[u8],
    wanted: Result<Case, Refusal>,
) -> Result<(), String> {
    let reply = wanted.map(case_numbers);
    let call = |out: &mut [u8]| buffer::generate(file, out);
    compare(random, tally, &reply, call, || {
        format!("the case for {file:02x?}")
    })
}

/// The generator in every format of at most `WIDTH` bits, each operation and mode, with `each`
/// jobs for each of them, made by their number.
fn small(
    random: &mut Random,
    each: u64,
    make: impl Fn(&mut Random, [u64; 4], u64) -> Job,
) -> Result<Tally, String> {
    const WIDTH: u64 = 8;
    let mut tally = Tally::default();
    for (w, f) in (2..WIDTH).flat_map(|w| (2..WIDTH).map(move |f| (w, f))) {
        if w + f + 1 > WIDTH {
            continue;
        }
        for [operation, mode] in every_setting() {
            let adder = Adder::new(w, f, operation, mode).expect("within the limits");
            let table = Table::new(adder).expect("a small format");
            for n in 0..each {
                let job = make(random, [w, f, operation, mode], n);
                generation(random, &mut tally, &record(&job), table.generate(&job))?;
            }
        }
    }
    Ok(tally)
}

/// Jobs of which every fifth has masks that are made around no case.
pub fn small_generations(random: &mut Random, each: u64) -> Result<Tally, String> {
    small(random, each, |random, numbers, n| match n % 5 {
        0 => unrelated_job(random, numbers),
        _ => {
            let care = 8 * random.below(6);
            job(random, numbers, care)
        }
    })
}

/// Jobs around a case with equal exponents and unlike effective signs; the exponents are fixed.
pub fn small_opposed_generations(random: &mut Random, each: u64) -> Result<Tally, String> {
    small(random, each, |random, numbers, _| {
        let care = 8 * random.below(6);
        opposed_job(random, numbers, care)
    })
}

/// Jobs around a case with chosen bits below its last one, some of which are always fixed.
pub fn small_dropped_generations(random: &mut Random, each: u64) -> Result<Tally, String> {
    small(random, each, |random, numbers, _| {
        let care = 8 * random.below(6);
        dropped_job(random, numbers, care)
    })
}

/// Jobs that state bounds, of which every fifth has free masks of a, b and c, so that the bounds
/// alone decide.
pub fn small_bounded_generations(random: &mut Random, each: u64) -> Result<Tally, String> {
    small(random, each, |random, numbers, n| {
        let care = 8 * random.below(6);
        let mut job = bounded_job(random, numbers, care);
        if n % 5 == 0 {
            let masks = &mut job.conditions;
            [masks.a, masks.b, masks.c] = [Mask::FREE; 3];
        }
        job
    })
}

/// A job that fixes the effective signs of a and b to + and that of c to −, and other bits too
/// where `more` holds.
fn signs_job(random: &mut Random, numbers: [u64; 4], more: bool) -> Job {
    let [w, f, operation, mode] = numbers;
    let (sign, plus) = (1 << (w + f), operation << (w + f));
    let mut job = unrelated_job(random, numbers);
    if !more {
        job.conditions = Conditions::free(w, f, operation, mode);
    }
    let masks = &mut job.conditions;
    for (mask, bit) in [
        (&mut masks.a, 0),
        (&mut masks.b, plus),
        (&mut masks.c, sign),
    ] {
        mask.care |= sign;
        mask.value = mask.value & !sign | bit;
    }
    job
}

/// The generator on jobs without a case because of their signs, in every format, each operation
/// and mode: one that fixes nothing else, and `each` that do. Document 01's case 13 is the
/// former, in operation 0.
pub fn sign_generations(random: &mut Random, each: u64) -> Result<Tally, String> {
    let mut tally = Tally::default();
    for adder in every_adder() {
        for n in 0..=each {
            let job = signs_job(random, adder, n > 0);
            let number = refusal(&job).expect("a job that its signs decide");
            generation(random, &mut tally, &record(&job), Err(number))?;
        }
    }
    Ok(tally)
}

/// The generator on `count` jobs of any format whose masks leave few bits free, made by how many of
/// 64 bits are fixed, and on damaged files.
fn wide(
    random: &mut Random,
    count: u64,
    make: impl Fn(&mut Random, [u64; 4], u64) -> Job,
) -> Result<Tally, String> {
    const FREE: u32 = 10;
    let mut tally = Tally::default();
    while tally.calls() < count {
        let numbers = numbers(random);
        let job = make(random, numbers, all_but_few(numbers));
        let file = perhaps_damaged(random, &job);
        let wanted = match job_in(&file) {
            Err(number) => Err(number),
            Ok(job) => {
                let adder = job.check().expect("a job that was read");
                if free_bits(&job.conditions, &adder) > FREE {
                    continue;
                }
                generate(&job)
            }
        };
        generation(random, &mut tally, &file, wanted)?;
    }
    Ok(tally)
}

/// Any jobs.
pub fn wide_generations(random: &mut Random, count: u64) -> Result<Tally, String> {
    wide(random, count, job)
}

/// Jobs around a case with equal exponents and unlike effective signs; the exponents are fixed.
pub fn wide_opposed_generations(random: &mut Random, count: u64) -> Result<Tally, String> {
    wide(random, count, opposed_job)
}

/// Jobs around a case with chosen bits below its last one, some of which are always fixed.
pub fn wide_dropped_generations(random: &mut Random, count: u64) -> Result<Tally, String> {
    wide(random, count, dropped_job)
}

/// Jobs that state bounds.
pub fn wide_bounded_generations(random: &mut Random, count: u64) -> Result<Tally, String> {
    wide(random, count, bounded_job)
}
