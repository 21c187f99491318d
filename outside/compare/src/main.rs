//! Compares every function of the proved static library with the second implementation, on
//! numbers and bytes that are valid and damaged. `compare [SEED]` prints the seed and a line of
//! counts for each function, and ends with status 1 at the first unlike reply.

use std::process::ExitCode;
use std::time::Instant;

use compare::call::Part;
use compare::{files, numbers, whole};
use second::random::{seed, Random};

const SEED: u64 = 0x5EED;

/// Each part with how many calls, files or jobs it makes.
const PARTS: [(&str, Part, u64); 17] = [
    ("rounded result", numbers::results, 4_000_000),
    ("carry row", numbers::rows, 4_000_000),
    ("row, equal exponents", numbers::opposed_rows, 500_000),
    ("joining", numbers::joinings, 200_000),
    ("reading", files::readings, 200_000),
    ("confirmation", files::confirmations, 200_000),
    // 100 adders of at most eight bits, so 50,000 jobs.
    ("generator, small formats", files::small_generations, 500),
    (
        "generator, any format, few bits free",
        files::wide_generations,
        20_000,
    ),
    // Around cases with equal exponents and unlike effective signs: 20,000 jobs, and as many of any
    // format.
    (
        "small formats, equal exponents",
        files::small_opposed_generations,
        200,
    ),
    (
        "few bits free, equal exponents",
        files::wide_opposed_generations,
        20_000,
    ),
    // Dropped bits are fixed in some of the jobs above, and in each of these: 30,000, and as many
    // of any format.
    (
        "dropped bits, small formats",
        files::small_dropped_generations,
        300,
    ),
    (
        "dropped bits, few bits free",
        files::wide_dropped_generations,
        30_000,
    ),
    // Bounds are stated in some of the jobs above, and in each of these: 30,000, and as many of any
    // format.
    (
        "bounds, small formats",
        files::small_bounded_generations,
        300,
    ),
    (
        "bounds, few bits free",
        files::wide_bounded_generations,
        30_000,
    ),
    // 5,100 adders of every format, so 10,200 jobs.
    (
        "generator, any format, no case by signs",
        files::sign_generations,
        1,
    ),
    ("whole numbers", whole::generations, 40_000),
    (
        "short whole numbers, masks at random",
        whole::short_generations,
        15_000,
    ),
];

fn run(seed: u64) -> Result<(), String> {
    println!("seed {seed:#x}");
    let mut calls = 0;
    for (name, part, count) in PARTS {
        let start = Instant::now();
        // Each part has its own sequence, so that a part can change alone.
        let mut random = Random::new(seed ^ u64::from_le_bytes(first_eight(name)));
        let tally = part(&mut random, count)?;
        calls += tally.calls();
        println!(
            "{} ({:.1} s)",
            tally.line(name),
            start.elapsed().as_secs_f64()
        );
    }
    println!("{calls} calls, all alike");
    Ok(())
}

/// The first eight bytes of a name, with zeros after a shorter one.
fn first_eight(name: &str) -> [u8; 8] {
    std::array::from_fn(|i| name.as_bytes().get(i).copied().unwrap_or(0))
}

fn main() -> ExitCode {
    let given = std::env::args().nth(1);
    let Some(seed) = seed(given.as_deref(), SEED) else {
        eprintln!("usage: compare [SEED]");
        return ExitCode::from(2);
    };
    match run(seed) {
        Ok(()) => ExitCode::SUCCESS,
        Err(unlike) => {
            println!("unlike: {unlike}");
            ExitCode::FAILURE
        }
    }
}
