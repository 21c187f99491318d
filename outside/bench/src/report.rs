//! The report: what docs/SPEED.md holds.

use std::path::Path;
use std::time::Duration;

use second::dropped::Dropped;

use crate::case_13::{self, Runs};
use crate::options::Options;
use crate::rows::Row;
use crate::slow::{Slowest, BEGINNINGS, COMPARED};
use crate::solver::ENOUGH;
use crate::stack::{self, Deepest, Stacks};
use crate::targets;
use crate::times::{microseconds, plain, text, RUNS};
use crate::walks::{formats, Counted, Counts, COUNTED};

/// What a run found.
pub struct Found {
    /// z3's version, where it was asked.
    pub version: Option<String>,
    pub rows: Vec<Row>,
    pub case_13: Vec<Runs>,
    pub counts: Option<Vec<Counts>>,
    pub stacks: Stacks,
    /// The slowest jobs, where they were searched for, and how long.
    pub slowest: Option<(Vec<Slowest>, Duration)>,
}

/// The whole report.
pub fn report(options: &Options, found: &Found) -> String {
    let rows = &found.rows;
    let mut parts = vec!["# Speed\n".to_string(), targets::section(rows)];
    match &found.version {
        Some(version) => parts.push(comparison(version, options, rows)),
        None => parts.push("z3 was not asked, so there is no comparison.\n".to_string()),
    }
    parts.push(own(rows));
    if let Some((slowest, time)) = &found.slowest {
        parts.push(slow(options, slowest, *time));
    }
    parts.push(signs(&found.case_13));
    if let Some(counts) = &found.counts {
        parts.extend((0..COUNTED.len()).map(|which| count(counts, which)));
    }
    parts.push(stack(&found.stacks));
    parts.push(conditions(options, rows));
    parts.join("\n")
}

fn comparison(version: &str, options: &Options, rows: &[Row]) -> String {
    let mut table = format!(
        "## Beside z3\n\n\
         {version}. It is started once and asked over its standard input, so its start is not in \
         the times. A job is three bit vectors under the masks, with c the IEEE 754 sum or \
         difference (fp.add, fp.sub) in the job's mode and the one NaN. Bounds are `fp.leq`, which \
         holds of no NaN. Dropped bits are written \
         out in bit-vector operations: the smaller operand aligned to the larger with a sticky \
         bit, their sum or difference in as few columns as serve, moved up until its leading 1 \
         stands at the top. Of a job with a case z3's optimizer is asked for the smallest a \
         exclusive-or the first random word, then b with the second; of an impossible one \
         whether it has a case (QF_BVFP). These jobs have no carry mask: those with one are timed \
         alone. A job may take z3 {} s; one that hits the limit counts with the time so far. Every \
         answer that z3 gave is the generator's.\n\n\
         | Ratio of medians | Least ratio of a job | Jobs | z3 median | z3 mean | z3 largest | no answer \
         | answers alike | generator median | generator largest |\n\
         |---|---|---|---|---|---|---|---|---|---|\n",
        options.limit.as_secs()
    );
    for row in rows {
        let (Some(other), Some(ratio)) = (&row.other, row.ratio()) else {
            continue;
        };
        let columns = [
            plain(ratio),
            plain(other.least_ratio),
            row.name.clone(),
            other.times.columns(),
            other.unanswered.to_string(),
            other.alike.to_string(),
            text(row.times.median),
            text(row.times.largest),
        ];
        table += &format!("| {} |\n", columns.join(" | "));
    }
    table
}

fn own(rows: &[Row]) -> String {
    let mut table =
        "## The generators\n\n| Jobs | count | median | mean | largest |\n|---|---|---|---|---|\n"
            .to_string();
    for row in rows {
        table += &format!(
            "| {} | {} | {} |\n",
            row.name,
            row.times.count(),
            row.times.columns()
        );
    }
    table
}

/// The slowest job found in each format, a column for each.
pub fn slow(options: &Options, slowest: &[Slowest], time: Duration) -> String {
    let mut table = format!(
        "## The slowest found\n\n\
         A search for slow jobs (`--slow`), {} s, half of it in each format, seed {:#x}. {BEGINNINGS} \
         random jobs, of every kind in turn, are changed at random: bits, runs of bits and fields \
         of the masks, bits of the random words, bounds, the mode, the operation. A change is kept \
         where the reply takes longer, by the least of {COMPARED} runs, and the slower half of the jobs goes on \
         until one is left. Its time here is the least of {RUNS} runs. The times have a part in \
         the way that the search takes, so the seed alone does not repeat it. That no job is \
         slower is not shown.\n\n",
        time.as_secs(),
        options.seed,
    );
    let lines: Vec<Vec<String>> = slowest.iter().map(lines_of).collect();
    for (number, name) in SLOW_LINES.iter().enumerate() {
        let columns: Vec<&str> = lines.iter().map(|lines| lines[number].as_str()).collect();
        table += &format!("| {name} | {} |\n", columns.join(" | "));
        if number == 0 {
            table += &format!("|---|{}\n", "---|".repeat(columns.len()));
        }
    }
    table
}

/// What is said of a slow job, line by line.
const SLOW_LINES: [&str; 15] = [
    "Format",
    "time",
    "reply",
    "operation",
    "mode",
    "a: care, value",
    "b: care, value",
    "c: care, value",
    "carries: care, value",
    "dropped bits: g, care, value",
    "bounds of a: low, high",
    "bounds of b: low, high",
    "bounds of c: low, high",
    "random words",
    "changes tried",
];

fn lines_of(slowest: &Slowest) -> Vec<String> {
    let (w, f) = slowest.format;
    let conditions = &slowest.job.conditions;
    let reply = if slowest.has_case { "a case" } else { "none" };
    let hexadecimal = |[one, other]: [u64; 2]| format!("`{one:x}` `{other:x}`");
    let mut lines = vec![format!("{w}/{f}"), text(slowest.time), reply.to_string()];
    lines.extend([conditions.operation, conditions.mode].map(|number| number.to_string()));
    lines.extend(
        conditions
            .masks()
            .map(|mask| hexadecimal([mask.care, mask.value])),
    );
    let Dropped { g, mask } = conditions.dropped;
    lines.push(format!("{g} {}", hexadecimal([mask.care, mask.value])));
    lines.extend(conditions.bounds.map(|stated| match stated {
        Some(bounds) => hexadecimal(bounds.words()),
        None => "none".to_string(),
    }));
    lines.push(hexadecimal(slowest.job.words));
    lines.push(slowest.tried.to_string());
    lines
}

/// Case 13, a line for each format and mode.
fn signs(lines: &[Runs]) -> String {
    let mut table = format!(
        "## Document 01's case 13\n\n\
         The one job: + and + give -, nothing else fixed, both random words 0. The generator alone, \
         {} runs in each format and mode, of which every one counts.\n\n\
         | Format | Mode | median, µs | 99 of 100 within, µs | largest, µs |\n|---|---|---|---|---|\n",
        case_13::RUNS
    );
    for Runs {
        format: (w, f),
        mode,
        times,
    } in lines
    {
        let columns = [times.median, times.nearly_all, times.largest].map(microseconds);
        table += &format!("| {w}/{f} | {mode} | {} |\n", columns.join(" | "));
    }
    table
}

/// One of the counts, a line for each kind and one format beside the other.
fn count(counts: &[Counts], which: usize) -> String {
    let Counted {
        title,
        text,
        function,
        ..
    } = COUNTED[which];
    let mut means = counts.iter().flat_map(|row| &row.means);
    if means.all(|mean| mean[which] == 0.0) {
        return format!("## {title}\n\nCallgrind saw no call of `{function}`.\n");
    }
    let names = formats();
    let mut table = format!(
        "## {title}\n\n{text} In the mean, counted by callgrind at `{function}`; the formats with 23 \
         fraction bits differ in the exponent bits alone.\n\n| Jobs | {} |\n|---|{}\n",
        names.join(" | "),
        "---|".repeat(names.len())
    );
    for row in counts {
        let means: Vec<String> = row
            .means
            .iter()
            .map(|mean| format!("{:.0}", mean[which]))
            .collect();
        table += &format!("| {} | {} |\n", row.name, means.join(" | "));
    }
    table
}

/// The stack of a reply, a line for each kind and one format beside the other.
fn stack(stacks: &Stacks) -> String {
    let names = stack::FORMATS.map(|(w, f)| format!("{w}/{f}"));
    let mut table = format!(
        "## Stack\n\nHow many bytes of stack a reply takes, the frames of the Rust wrapper among \
         them: the most of the jobs of a kind. On jobs of 32 bits, half fixed, the generator of \
         whole numbers took {} at most.\n\n\
         | Jobs | {} |\n|---|{}\n",
        stacks.whole,
        names.join(" | "),
        "---|".repeat(names.len())
    );
    for Deepest { name, bytes } in &stacks.cases {
        let columns = bytes.map(|bytes| bytes.to_string());
        table += &format!("| {name} | {} |\n", columns.join(" | "));
    }
    table
}

fn conditions(options: &Options, rows: &[Row]) -> String {
    let left_out: u64 = rows.iter().map(|row| row.left_out).sum();
    let words: Vec<String> = std::env::args().skip(1).collect();
    format!(
        "## How it was measured\n\n\
         {}, then `cargo run --release --offline --manifest-path \
         outside/bench/Cargo.toml -- {}`, on {}. Seed {:#x}. Each job is given {RUNS} times, \
         to z3 as to the generator, and the least time counts; z3 is not given a job again that it \
         has had {} s for. All jobs that are timed ran on a thread with a stack of {} KiB. That no \
         job takes longer than the largest here is not shown.\n\n\
         {KINDS_MEAN} {left_out} impossible jobs were drawn again because they had a case.\n",
        library(),
        words.join(" "),
        machine(),
        options.seed,
        ENOUGH.as_secs(),
        options.stack
    )
}

/// How the masks of the kinds are made, where their names do not tell it.
const KINDS_MEAN: &str = "Operation and mode of a job are random, but case 13 is an addition, \
    overflow has no mode toward zero, and a tie to an odd c has mode 0. Masks are made around a \
    true case, but with all fractions fixed, in case 13 and for a tie to an odd c; with any share \
    of each mask fixed, each has its own share, and one of four is made around no case. Where \
    cancellation is needed c's exponent is fixed, and of a's and b's only the top bits are, so \
    that each stays 3 or more above it. For a subnormal result c's exponent and a 1 of its \
    fraction are fixed. For overflow c is fixed to infinity, but for its sign, and so is a 0 of \
    each operand's exponent. Impossible only by c's exponent: this is fixed to another field than \
    the true case's, and about a quarter of a's and b's exponents is fixed; only by the carries: \
    one is fixed to the other value than the true case's; only by the dropped bits: all are \
    fixed, one of them to the other value. Without that all three have a case. With equal \
    exponents both are fixed, and the effective signs of the true case are unlike. There are 8 \
    dropped bits, beside the sticky bit; in a tie the first is 1, and all else 0. All else in \
    these is half fixed. For a tie to an odd c only the dropped bits and the last bit of c are \
    fixed. Wide bounds have any ends around the words of a true case, and 1/16 of the bits is \
    fixed around it; narrow ones have ends up to a factor of two away, of any number of digits, \
    and of the fractions half is fixed, nothing else. Impossible by masks and bounds: narrow \
    ones, and a fixed bit of a fraction turned; without the bounds there is a case. Only by c's \
    bounds: 1/16 of the bits is fixed around a true case, a's and b's bounds lie around it, wide \
    or narrow, and c's begin beyond all rounded results of these, by 2^f numbers of the format or \
    up to twice as many, or by one or two; without them there is a case.";

/// What was linked: the library that the toolchain builds, or the file that a variable names.
fn library() -> String {
    match option_env!("VINDACSOR_LIBRARY") {
        None => "`ffi/build-library`".to_string(),
        Some(path) => {
            let name = Path::new(path).file_name().unwrap_or_default();
            format!("Another library, `{}`", name.to_string_lossy())
        }
    }
}

/// The processor's name where the system tells it, and how many of them there are.
fn machine() -> String {
    let count = std::thread::available_parallelism().map_or(1, usize::from);
    let name = std::fs::read_to_string("/proc/cpuinfo")
        .ok()
        .and_then(|text| {
            let line = text.lines().find(|line| line.starts_with("model name"))?;
            Some(line.split_once(':')?.1.trim().to_string())
        });
    format!(
        "{} of {}",
        count,
        name.unwrap_or_else(|| "an unnamed processor".to_string())
    )
}
