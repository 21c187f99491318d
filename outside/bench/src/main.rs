//! Times of the proved generators per job, and of z3 on the same jobs where it is installed.
//!
//! `bench [--seed N] [--jobs N] [--limit SECONDS] [--stack KIB] [--slow SECONDS] [--alone]
//! [--write]`: at least one job of each kind, 40 by default; z3 may spend the limit on a job, 20
//! seconds by default; every job that is timed runs on a thread with a stack of so many KiB, 256 by
//! default; `--alone` asks no z3; `--write` writes what is printed to docs/SPEED.md; `--slow`
//! searches for slow jobs for so long and does nothing else; with `--write` it says how long the
//! search for the report is, 120 seconds by default.
//!
//! Where `VINDACSOR_LIBRARY` names an archive when this program is built, that is linked in place
//! of target/staticlib/libvindacsor.a: so two builds can be timed one after the other. Kinds of
//! jobs that an older one refuses are left out.

mod bounded;
mod case_13;
mod conditions;
mod dropped;
mod jobs;
mod kinds;
mod options;
mod report;
mod rows;
mod slow;
mod solver;
mod stack;
mod steps;
mod targets;
mod times;
mod walks;

use std::process::ExitCode;
use std::time::Duration;

use options::{Options, USAGE};
use report::Found;
use second::random::Random;
use solver::Solver;

/// How long a run that is written searches for slow jobs.
const SEARCH: Duration = Duration::from_secs(120);

/// All times and counts, and where they are to be written the slowest jobs.
fn found(options: &Options) -> Result<Found, String> {
    let version = solver::version().filter(|_| !options.alone);
    let mut solver = match version {
        Some(_) => Some(Solver::start(options.limit).map_err(|error| format!("z3: {error}"))?),
        None => None,
    };
    let mut random = Random::new(options.seed);
    let mut rows = rows::case_rows(&mut random, &mut solver, options.jobs)?;
    rows.extend(rows::whole_rows(&mut random, options.jobs));
    // After all others, so that these keep their jobs.
    rows.extend(rows::bounded_rows(&mut random, &mut solver, options.jobs)?);
    let time = options.slow.unwrap_or(SEARCH);
    Ok(Found {
        version,
        rows,
        case_13: case_13::case_13()?,
        counts: walks::counts(options.seed, options.jobs)?,
        stacks: stack::stacks(options.seed, options.jobs),
        slowest: options
            .write
            .then(|| (slow::slowest(options.seed, time), time)),
    })
}

/// What is printed.
fn run(options: &Options) -> Result<String, String> {
    match options.slow {
        Some(time) if !options.write => {
            let slowest = slow::slowest(options.seed, time);
            Ok(report::slow(options, &slowest, time))
        }
        _ => Ok(report::report(options, &found(options)?)),
    }
}

fn main() -> ExitCode {
    let mut words = std::env::args().skip(1);
    if let (Some(walks::REPLAY), Some(path)) = (words.next().as_deref(), words.next()) {
        return match walks::replay(&path) {
            Ok(()) => ExitCode::SUCCESS,
            Err(_) => ExitCode::FAILURE,
        };
    }
    let Some(options) = Options::read(std::env::args().skip(1)) else {
        eprintln!("{USAGE}");
        return ExitCode::from(2);
    };
    let write = options.write;
    let thread = std::thread::Builder::new().stack_size(1024 * options.stack);
    let done = thread.spawn(move || run(&options)).expect("a thread");
    let text = match done.join().expect("no panic") {
        Ok(text) => text,
        Err(error) => {
            println!("{error}");
            return ExitCode::FAILURE;
        }
    };
    print!("{text}");
    if write {
        let path = std::path::Path::new(env!("CARGO_MANIFEST_DIR")).join("../../docs/SPEED.md");
        if let Err(error) = std::fs::write(path, text) {
            eprintln!("docs/SPEED.md: {error}");
            return ExitCode::FAILURE;
        }
    }
    ExitCode::SUCCESS
}
