//! The rows of the report: the times of the jobs of one kind in one format, and z3's beside them.

use std::time::Duration;

use second::random::Random;

use crate::jobs::{jobs, whole_jobs, Recorded};
use crate::kinds::{Kind, HALF_FIXED, IMPOSSIBLE, KINDS};
use crate::solver::{Said, Solver};
use crate::times::{least, ratio, Times, RUNS};

/// How many jobs of mixed masks there are for each of another kind: their largest time counts.
const MIXED: usize = 250;

/// A format, w and f, and its name.
type Named = ((u64, u64), &'static str);

const SINGLE: Named = ((8, 23), "single precision (8/23)");
pub const DOUBLE: Named = ((11, 52), "double precision (11/52)");
/// The formats in which every kind is timed.
const FORMATS: [Named; 3] = [((5, 10), "half precision (5/10)"), SINGLE, DOUBLE];
/// Few exponent bits beside a wide fraction: here the generator is timed alone, on two kinds.
const WIDE_FRACTIONS: [Named; 2] = [
    ((2, 52), "few exponent bits (2/52)"),
    ((5, 52), "few exponent bits (5/52)"),
];

/// What z3 did with the jobs of one kind.
pub struct Other {
    pub times: Times,
    /// The least ratio of a job, z3's time by the generator's.
    pub least_ratio: f64,
    pub unanswered: usize,
    pub alike: usize,
}

/// The times of the jobs of one kind.
pub struct Row {
    pub name: String,
    /// The format and the kind; whole numbers have none.
    pub subject: Option<((u64, u64), Kind)>,
    pub left_out: u64,
    pub times: Times,
    pub other: Option<Other>,
}

impl Row {
    /// The ratio of the medians, z3's by the generator's.
    pub fn ratio(&self) -> Option<f64> {
        Some(ratio(self.other.as_ref()?.times.median, self.times.median))
    }

    /// Whether its jobs have no case by their kind.
    pub fn is_impossible(&self) -> bool {
        self.subject.is_some_and(|(_, kind)| kind.is_impossible())
    }

    /// Whether its jobs state bounds.
    pub fn has_bounds(&self) -> bool {
        self.subject.is_some_and(|(_, kind)| kind.has_bounds())
    }

    /// The least ratio of a job.
    pub fn least_ratio(&self) -> f64 {
        self.other
            .as_ref()
            .map_or(f64::INFINITY, |other| other.least_ratio)
    }
}

/// Times z3 on the jobs and holds its answers against the generator's, whose times are given. An
/// unlike answer is an error.
fn ask_other(solver: &mut Solver, jobs: &[Recorded], own: &[Duration]) -> Result<Other, String> {
    let (mut times, mut unanswered, mut alike) = (Vec::new(), 0, 0);
    for Recorded { job, record } in jobs {
        let found = vindacsor::generate(record);
        let (said, time) = solver
            .ask_again(job, found.is_ok(), RUNS)
            .map_err(|error| format!("z3: {error}"))?;
        times.push(time);
        match (said, found) {
            (Said::Nothing, _) => unanswered += 1,
            (Said::None, Err(_)) => alike += 1,
            (Said::Case(a, b), Ok(case)) if (a, b) == (case.a, case.b) => alike += 1,
            (said, found) => {
                return Err(format!(
                    "unlike: z3 {said:x?}, generator {found:x?}, job {job:x?}"
                ))
            }
        }
    }
    let ratios = times.iter().zip(own).map(|(&z3, &own)| ratio(z3, own));
    Ok(Other {
        least_ratio: ratios.fold(f64::INFINITY, f64::min),
        times: Times::of(times),
        unanswered,
        alike,
    })
}

fn row(
    random: &mut Random,
    solver: &mut Option<Solver>,
    (format, format_name): Named,
    (kind_name, kind): (&str, Kind),
    count: usize,
) -> Result<Row, String> {
    let (jobs, left_out) = jobs(random, format, kind, count);
    let times: Vec<Duration> = jobs
        .iter()
        .map(|job| least(|| vindacsor::generate(&job.record)))
        .collect();
    let other = match solver {
        Some(solver) if !kind.has_carries() => Some(ask_other(solver, &jobs, &times)?),
        _ => None,
    };
    Ok(Row {
        name: format!("{format_name}, {kind_name}"),
        subject: Some((format, kind)),
        left_out,
        times: Times::of(times),
        other,
    })
}

/// The rows of every format in which z3 is asked too, of the kinds with bounds or of the others.
fn format_rows(
    random: &mut Random,
    solver: &mut Option<Solver>,
    count: usize,
    bounds: bool,
) -> Result<Vec<Row>, String> {
    let mut rows = Vec::new();
    for format in FORMATS {
        for (name, kind) in KINDS {
            if kind.has_bounds() != bounds {
                continue;
            }
            let count = match kind {
                Kind::Mixed { .. } => MIXED * count,
                _ => count,
            };
            // A row has its own sequence, so that its jobs are the same whatever others there are.
            let mut random = Random::new(random.word());
            if kind.is_known() {
                rows.push(row(&mut random, solver, format, (name, kind), count)?);
            }
        }
    }
    Ok(rows)
}

/// The rows of the case generator on jobs without bounds, first those of the formats in which z3 is
/// asked too.
pub fn case_rows(
    random: &mut Random,
    solver: &mut Option<Solver>,
    count: usize,
) -> Result<Vec<Row>, String> {
    let mut rows = format_rows(random, solver, count, false)?;
    for format in WIDE_FRACTIONS {
        for kind in [HALF_FIXED, IMPOSSIBLE] {
            rows.push(row(random, &mut None, format, kind, count)?);
        }
    }
    Ok(rows)
}

/// The rows of the case generator on jobs with bounds.
pub fn bounded_rows(
    random: &mut Random,
    solver: &mut Option<Solver>,
    count: usize,
) -> Result<Vec<Row>, String> {
    format_rows(random, solver, count, true)
}

fn whole_row(random: &mut Random, of_16: u64, possible: bool, name: &str, count: usize) -> Row {
    let jobs = whole_jobs(random, of_16, possible, count);
    let times = jobs
        .iter()
        .map(|job| least(|| vindacsor::whole(job)))
        .collect();
    Row {
        name: format!("whole numbers (32 bits), {name}"),
        subject: None,
        left_out: 0,
        times: Times::of(times),
        other: None,
    }
}

/// The rows of the whole-number generator.
pub fn whole_rows(random: &mut Random, count: usize) -> Vec<Row> {
    [
        (1, true, "sparse"),
        (8, true, "half fixed"),
        (14, true, "dense"),
        (8, false, "impossible, half fixed"),
    ]
    .map(|(of_16, possible, name)| whole_row(random, of_16, possible, name, count))
    .into()
}
