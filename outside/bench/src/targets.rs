//! The targets, and whether a run meets them.

use std::time::Duration;

use crate::kinds::{Kind, MIXED, MIXED_BELOW};
use crate::rows::{Row, DOUBLE};
use crate::times::{plain, text};

/// How many times faster than z3 the generator is to be, in the median of each kind.
struct Faster {
    /// The target in words.
    text: &'static str,
    target: f64,
    /// Whether the kinds are those without a case, and whether they are those with bounds.
    impossible: bool,
    bounds: bool,
}

const FASTER: [Faster; 4] = [
    Faster {
        text:
            "The whole reply 1,000 times faster than z3's `minimize`, in the median of each kind \
               without bounds that z3 is asked",
        target: 1000.0,
        impossible: false,
        bounds: false,
    },
    Faster {
        text: "Impossible jobs 100 times faster than z3's decision, in the median of each kind \
               without bounds that z3 is asked",
        target: 100.0,
        impossible: true,
        bounds: false,
    },
    Faster {
        text:
            "With bounds, the whole reply 100 times faster than z3's `minimize`, in the median of \
               each kind",
        target: 100.0,
        impossible: false,
        bounds: true,
    },
    Faster {
        text:
            "Impossible jobs with bounds 30 times faster than z3's decision, in the median of each \
               kind",
        target: 30.0,
        impossible: true,
        bounds: true,
    },
];

/// How many times faster than z3 each single job with bounds is to be.
const SINGLE: f64 = 10.0;

/// How many jobs with any share of each mask fixed there are to be in double precision, and what
/// none of them is to take longer than.
const JOBS: usize = 10_000;
const BOUND: Duration = Duration::from_millis(10);

/// The section on the targets.
pub fn section(rows: &[Row]) -> String {
    let mut table = "## The targets\n\n\
         The ratios are z3's time by the generator's.\n\n\
         | Target | Met | In this run |\n|---|---|---|\n"
        .to_string();
    for faster in FASTER {
        table += &faster.line(rows);
    }
    table += &single(rows);
    for kind in [MIXED, MIXED_BELOW] {
        table += &bounded(rows, kind);
    }
    table
}

fn met(holds: bool) -> &'static str {
    if holds {
        "yes"
    } else {
        "no"
    }
}

impl Faster {
    /// Its line: the kind with the least ratio of medians, and the least ratio of one job in all
    /// of them.
    fn line(&self, rows: &[Row]) -> String {
        let Faster { text, target, .. } = self;
        let of_kind =
            |row: &&Row| row.is_impossible() == self.impossible && row.has_bounds() == self.bounds;
        let mut ratios: Vec<(f64, &Row)> = rows
            .iter()
            .filter(of_kind)
            .filter_map(|row| Some((row.ratio()?, row)))
            .collect();
        ratios.sort_by(|(one, _), (other, _)| one.total_cmp(other));
        let Some((least, row)) = ratios.first() else {
            return format!("| {text} | - | z3 was not asked |\n");
        };
        let asked: Vec<&Row> = ratios.iter().map(|(_, row)| *row).collect();
        let (least_of_jobs, job_name) = least_of_jobs(&asked).expect("a row");
        let below = ratios.iter().filter(|(ratio, _)| ratio < target).count();
        format!(
            "| {text} | {} | least ratio of medians {} ({}), {below} of {} below {target}; least \
             ratio of a single job {} ({job_name}) |\n",
            met(below == 0),
            plain(*least),
            row.name,
            ratios.len(),
            plain(least_of_jobs),
        )
    }
}

/// The least ratio of a single job in some rows, and its row's name.
fn least_of_jobs<'a>(rows: &[&'a Row]) -> Option<(f64, &'a str)> {
    let of_jobs = rows.iter().map(|row| (row.least_ratio(), &row.name[..]));
    of_jobs.min_by(|(one, _), (other, _)| one.total_cmp(other))
}

/// The line of every single job with bounds that z3 is asked, with the largest time of them.
fn single(rows: &[Row]) -> String {
    let target = format!("Each single job with bounds {SINGLE} times faster than z3");
    let asked = |row: &&Row| row.has_bounds() && row.other.is_some();
    let asked: Vec<&Row> = rows.iter().filter(asked).collect();
    let slowest = asked.iter().max_by_key(|row| row.times.largest);
    let (Some((least, name)), Some(slowest)) = (least_of_jobs(&asked), slowest) else {
        return format!("| {target} | - | z3 was not asked |\n");
    };
    format!(
        "| {target} | {} | least ratio of a single job {} ({name}); largest time {} ({}) |\n",
        met(least >= SINGLE),
        plain(least),
        text(slowest.times.largest),
        slowest.name
    )
}

/// The line of the bound on a single job of a kind.
fn bounded(rows: &[Row], (name, kind): (&str, Kind)) -> String {
    let target = format!(
        "No job of {JOBS} in double precision, with {name}, over {}",
        text(BOUND)
    );
    let asked = Some((DOUBLE.0, kind));
    let Some(row) = rows.iter().find(|row| row.subject == asked) else {
        return format!("| {target} | - | not asked |\n");
    };
    let (count, over) = (row.times.count(), row.times.over(BOUND));
    let met = if over == 0 && count < JOBS {
        "too few jobs"
    } else {
        met(over == 0)
    };
    format!(
        "| {target} | {met} | largest {}, {over} of {count} jobs over it; median {} |\n",
        text(row.times.largest),
        text(row.times.median)
    )
}
