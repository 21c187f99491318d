//! What a reply takes, by count and not by time: walks over columns, pairs of exponent fields and
//! instructions, counted by valgrind where it is installed.
//!
//! The static library keeps no count, so this program runs itself under callgrind on a file of
//! records and reads off how often a function was called or how many instructions its calls took.

use std::path::{Path, PathBuf};
use std::process::{Command, Stdio};

use second::random::Random;

use crate::jobs::{jobs, Recorded};
use crate::kinds::known;

/// The word on the command line after which the file of records stands.
pub const REPLAY: &str = "--replay";
/// Something that is counted for a reply.
pub struct Counted {
    pub title: &'static str,
    pub text: &'static str,
    /// The function of the library whose calls tell it.
    pub function: &'static str,
    figure: Figure,
}

/// The figure of a function that counts.
enum Figure {
    Calls,
    /// Thousands of instructions within its calls.
    Instructions,
}

/// What is counted. A function that the compiler made a part of its caller cannot be.
pub const COUNTED: [Counted; 4] = [
    Counted {
        title: "Walks over columns",
        text: "How often a reply asks the columns.",
        function: "making::ask::ask",
        figure: Figure::Calls,
    },
    Counted {
        title: "Questions about finite pairs",
        text: "How often a reply asks about two finite exponent fields with two signs, those that \
               stand for a class among them. Pairs that the table refuses are not, nor those that \
               are stepped over.",
        function: "pair::finite::signs_admit",
        figure: Figure::Calls,
    },
    Counted {
        title: "Pairs visited",
        text: "How many steps the search takes: one for each exponent field of a that it looks \
               for partners of, and one for each pair that is refused, by the table or by a \
               question.",
        function: "pass::span::partner_from",
        figure: Figure::Calls,
    },
    Counted {
        title: "Instructions",
        text: "How many thousand instructions a reply takes.",
        function: "vindacsor_generate",
        figure: Figure::Instructions,
    },
];
/// The formats whose counts are set side by side: some that differ in the exponent bits alone, and
/// double precision.
const FORMATS: [(u64, u64); 5] = [(4, 23), (6, 23), (8, 23), (10, 23), (11, 52)];
/// No record is longer than this; in the file each has this many bytes after its length.
const SLOT: usize = 255;

/// The mean counts per reply for one kind, in each of the formats.
pub struct Counts {
    pub name: &'static str,
    pub means: Vec<[f64; COUNTED.len()]>,
}

/// The names of the formats.
pub fn formats() -> Vec<String> {
    FORMATS.map(|(w, f)| format!("{w}/{f}")).to_vec()
}

/// Generates for each record of a file, once.
pub fn replay(path: &str) -> std::io::Result<()> {
    for slot in std::fs::read(path)?.chunks(SLOT + 1) {
        let record = &slot[1..=usize::from(slot[0])];
        let _ = std::hint::black_box(vindacsor::generate(record));
    }
    Ok(())
}

fn write_records(path: &Path, jobs: &[Recorded]) -> std::io::Result<()> {
    let mut bytes = Vec::new();
    for job in jobs {
        bytes.push(job.record.len() as u8);
        bytes.extend(&job.record);
        bytes.resize(bytes.len().next_multiple_of(SLOT + 1), 0);
    }
    std::fs::write(path, bytes)
}

/// How often a function was called and how many instructions its calls took, by a file that
/// callgrind wrote. A function has a number there, which stands for its name after the first time;
/// a line `calls=N ..` follows that of the callee, and then one that ends with the instructions.
fn calls(profile: &str, function: &str) -> [u64; 2] {
    let mut numbers = Vec::new();
    let (mut callee, mut counts) = (false, [0, 0]);
    let mut lines = profile.lines();
    while let Some(line) = lines.next() {
        let named = line.strip_prefix("cfn=").or(line.strip_prefix("fn="));
        if let Some(named) = named {
            let (number, name) = named.split_once(' ').unwrap_or((named, ""));
            if name == function {
                numbers.push(number);
            }
            callee = line.starts_with("cfn=") && numbers.contains(&number);
        } else if let (Some(calls), true) = (line.strip_prefix("calls="), callee) {
            let number = |word: Option<&str>| word.and_then(|n| n.parse().ok()).unwrap_or(0);
            counts[0] += number(calls.split(' ').next());
            counts[1] += number(lines.next().and_then(|line| line.split(' ').next_back()));
        }
    }
    counts
}

/// The mean of each count over the jobs.
fn means_of(folder: &Path, jobs: &[Recorded]) -> Result<[f64; COUNTED.len()], String> {
    let (records, profile) = (folder.join("records"), folder.join("profile"));
    let told = |error: std::io::Error| error.to_string();
    write_records(&records, jobs).map_err(told)?;
    let status = Command::new("valgrind")
        .args(["--quiet", "--tool=callgrind"])
        .arg(format!("--callgrind-out-file={}", profile.display()))
        .arg(std::env::current_exe().map_err(told)?)
        .arg(REPLAY)
        .arg(&records)
        .stderr(Stdio::null())
        .status()
        .map_err(told)?;
    if !status.success() {
        return Err(format!("valgrind ended with {status}"));
    }
    let text = std::fs::read_to_string(&profile).map_err(told)?;
    Ok(COUNTED.map(|counted| {
        let [calls, instructions] = calls(&text, counted.function).map(|count| count as f64);
        let figure = match counted.figure {
            Figure::Calls => calls,
            Figure::Instructions => instructions / 1e3,
        };
        figure / jobs.len() as f64
    }))
}

fn all(folder: &Path, seed: u64, count: usize) -> Result<Vec<Counts>, String> {
    let row = |(name, kind)| {
        let mut random = Random::new(seed);
        let mut means = Vec::new();
        for format in FORMATS {
            let (jobs, _) = jobs(&mut random, format, kind, count);
            means.push(means_of(folder, &jobs)?);
        }
        Ok(Counts { name, means })
    };
    known().map(row).collect()
}

/// The counts for every kind, or nothing where valgrind is not installed.
pub fn counts(seed: u64, count: usize) -> Result<Option<Vec<Counts>>, String> {
    let there = Command::new("valgrind")
        .arg("--version")
        .stdout(Stdio::null())
        .status();
    if there.is_err() {
        return Ok(None);
    }
    let folder: PathBuf = std::env::temp_dir().join(format!("walks-{}", std::process::id()));
    std::fs::create_dir_all(&folder).map_err(|error| error.to_string())?;
    let rows = all(&folder, seed, count);
    let _ = std::fs::remove_dir_all(&folder);
    rows.map(Some)
}

#[cfg(test)]
mod tests {
    use super::*;

    #[test]
    fn calls_are_summed_by_callee() {
        let profile = "fn=(1) main\ncfn=(2) making::ask::ask\ncalls=3 0\n0 9\ncfn=(4) other\n\
                       calls=8 0\n0 1\nfn=(3) twice\ncfn=(2)\ncalls=4 0\n0 90\n";
        assert_eq!(calls(profile, "making::ask::ask"), [7, 99]);
    }
}
