//! Feeds random and damaged job files to a listing program and compares what it prints with the
//! second implementation's listing.
//!
//! `fuzz_listing PROGRAM [--seconds N] [--seed N]` runs for about N seconds, 60 by default, and
//! ends with status 1 at the first unlike output, which it prints with the file. Jobs that leave
//! too many bits free for the second implementation are answered by the proved library, so for
//! those only the lines are compared.

use std::process::ExitCode;
use std::time::{Duration, Instant};

use compare::damage::damage_file;
use compare::files::{damaged_file, record};
use compare::program::printed;
use second::choice::{free_bits, generate, Job};
use second::fits::Case;
use second::format::Refusal;
use second::listing::{listing, LONGEST_FILE};
use second::random::{seed, Random};
use second::sample::{all_but_few, bounded_job, job, numbers};

const SEED: u64 = 0xF022;
/// The most free bits of a and b for which the second implementation answers.
const FREE: u32 = 12;

struct Options {
    program: String,
    time: Duration,
    seed: u64,
}

fn options() -> Option<Options> {
    let mut words = std::env::args().skip(1);
    let mut options = Options {
        program: words.next()?,
        time: Duration::from_secs(60),
        seed: SEED,
    };
    while let Some(word) = words.next() {
        match word.as_str() {
            "--seconds" => options.time = Duration::from_secs(words.next()?.parse().ok()?),
            "--seed" => options.seed = seed(Some(&words.next()?), SEED)?,
            _ => return None,
        }
    }
    Some(options)
}

/// The case of a job that was read: the second implementation's where it answers soon.
fn answer(job: &Job) -> Result<Case, Refusal> {
    let adder = job.check()?;
    if free_bits(&job.conditions, &adder) <= FREE {
        return generate(job);
    }
    match vindacsor::generate(&record(job)) {
        Ok(case) => Ok(Case {
            a: case.a,
            b: case.b,
            c: case.c,
            row: case.row,
        }),
        Err(vindacsor::Refusal(number)) => Err(number as Refusal),
    }
}

/// Jobs of a small format, or with few bits free.
fn easy_file(random: &mut Random) -> Vec<u8> {
    let mut file = Vec::new();
    for _ in 0..random.below(12) {
        let mut numbers = numbers(random);
        let mut care = all_but_few(numbers);
        if random.one_in(2) {
            numbers[0] = 2 + random.below(2);
            numbers[1] = 2 + random.below(2);
            care = 8 * random.below(8);
        }
        let draw = [job, bounded_job][random.below(2) as usize];
        file.extend(record(&draw(random, numbers, care)));
    }
    file
}

/// A file about as long as the longest: a job many times, cut at the limit or a few bytes off.
fn long_file(random: &mut Random) -> Vec<u8> {
    let numbers = numbers(random);
    let record = record(&job(random, numbers, 64));
    let length = LONGEST_FILE + random.below(5) as usize - 2;
    record.into_iter().cycle().take(length).collect()
}

fn file(random: &mut Random) -> Vec<u8> {
    match random.below(64) {
        0 => long_file(random),
        1..=15 => (0..random.below(100))
            .map(|_| random.bits(8) as u8)
            .collect(),
        16..=31 => easy_file(random),
        32..=47 => {
            let mut file = easy_file(random);
            damage_file(random, &mut file);
            file
        }
        _ => damaged_file(random),
    }
}

/// How many files and lines were alike.
#[derive(Default)]
struct Count {
    files: u64,
    found: usize,
    none: usize,
    refused: usize,
    long: usize,
}

impl Count {
    fn add(&mut self, text: &str) {
        let with = |word: &str| text.lines().filter(|line| line.contains(word)).count();
        self.files += 1;
        self.found += with(" found ");
        self.none += with(" none");
        self.refused += with(" refused ");
        self.long += with("long");
    }
}

fn run(options: &Options) -> Result<Count, String> {
    let mut random = Random::new(options.seed);
    let mut count = Count::default();
    let start = Instant::now();
    while start.elapsed() < options.time {
        let file = file(&mut random);
        let wanted = listing(&file, answer);
        let unlike = match printed(&options.program, &file) {
            Ok(text) if text == wanted.as_bytes() => {
                count.add(&wanted);
                continue;
            }
            Ok(text) => String::from_utf8_lossy(&text).into_owned(),
            Err(error) => error,
        };
        return Err(format!(
            "file number {} unlike: {file:02x?}\nwanted:\n{wanted}came:\n{unlike}",
            count.files + 1
        ));
    }
    Ok(count)
}

fn main() -> ExitCode {
    let Some(options) = options() else {
        eprintln!("usage: fuzz_listing PROGRAM [--seconds N] [--seed N]");
        return ExitCode::from(2);
    };
    println!("seed {:#x}", options.seed);
    match run(&options) {
        Ok(count) => {
            println!(
                "{} files alike: {} lines found, {} none, {} refused, {} files too long",
                count.files, count.found, count.none, count.refused, count.long
            );
            ExitCode::SUCCESS
        }
        Err(unlike) => {
            println!("{unlike}");
            ExitCode::FAILURE
        }
    }
}
