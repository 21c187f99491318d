//! z3, run once and asked many jobs over its standard input, so that its start is not timed.
//! A job is a and b as bit vectors with c the floating-point sum, under the masks and within the
//! bounds; dropped bits are written out in bit-vector operations. Of a job that has a case the
//! smallest a exclusive-or the first random word is asked for, then b with the second, by z3's
//! optimizer; of an impossible one only whether it has a case.

use std::io::{BufRead, BufReader, Write};
use std::process::{Child, ChildStdin, Command, Stdio};
use std::sync::mpsc::{channel, Receiver};
use std::thread;
use std::time::{Duration, Instant};

use second::bounds::Bounds;
use second::choice::Job;
use second::fits::Conditions;
use second::format::Format;
use second::mask::Mask;

use crate::dropped;

/// What z3 said of a job.
#[derive(Debug, PartialEq, Eq)]
pub enum Said {
    Case(u64, u64),
    None,
    Nothing,
}

pub struct Solver {
    process: Child,
    input: ChildStdin,
    lines: Receiver<String>,
    limit: Duration,
}

/// The time for a job after which z3 is not asked it again.
pub const ENOUGH: Duration = Duration::from_secs(1);

/// z3's version, where it is installed.
pub fn version() -> Option<String> {
    let output = Command::new("z3").arg("--version").output().ok()?;
    Some(String::from_utf8_lossy(&output.stdout).trim().to_string())
}

impl Solver {
    /// Starts z3, which is to spend no more than the limit on a job.
    pub fn start(limit: Duration) -> std::io::Result<Solver> {
        let mut process = Command::new("z3")
            .arg("-in")
            .stdin(Stdio::piped())
            .stdout(Stdio::piped())
            .spawn()?;
        let input = process.stdin.take().expect("a pipe");
        let output = BufReader::new(process.stdout.take().expect("a pipe"));
        let (sender, lines) = channel();
        thread::spawn(move || {
            for line in output.lines().map_while(Result::ok) {
                if sender.send(line).is_err() {
                    break;
                }
            }
        });
        Ok(Solver {
            process,
            input,
            lines,
            limit,
        })
    }

    /// What z3 says of a job that it is asked `runs` times, or until it has had `ENOUGH` time for
    /// it, and the least time; nothing where the limit was hit once.
    pub fn ask_again(
        &mut self,
        job: &Job,
        has_case: bool,
        runs: usize,
    ) -> std::io::Result<(Said, Duration)> {
        let start = Instant::now();
        let (mut said, mut least) = self.ask(job, has_case)?;
        for _ in 1..runs {
            if said == Said::Nothing || start.elapsed() >= ENOUGH {
                break;
            }
            let (again, time) = self.ask(job, has_case)?;
            (said, least) = (again, least.min(time));
        }
        Ok((said, least))
    }

    /// What z3 says of a job, and how long it took; nothing where the limit was hit, after which
    /// z3 is started anew.
    fn ask(&mut self, job: &Job, has_case: bool) -> std::io::Result<(Said, Duration)> {
        let script = script(job, has_case);
        let start = Instant::now();
        self.input.write_all(script.as_bytes())?;
        self.input.flush()?;
        let mut reply = String::new();
        loop {
            let left = self.limit.saturating_sub(start.elapsed());
            match self.lines.recv_timeout(left) {
                Ok(line) if line == END => return Ok((said(&reply), start.elapsed())),
                Ok(line) => reply += &(line + " "),
                Err(_) => {
                    let time = start.elapsed();
                    self.stop();
                    *self = Solver::start(self.limit)?;
                    return Ok((Said::Nothing, time));
                }
            }
        }
    }

    fn stop(&mut self) {
        // Either fails only where z3 has ended by itself.
        let _ = self.process.kill();
        let _ = self.process.wait();
    }
}

impl Drop for Solver {
    fn drop(&mut self) {
        self.stop();
    }
}

const END: &str = "end of job";

pub fn literal(word: u64, width: u32) -> String {
    format!("(_ bv{word} {width})")
}

pub fn meets(name: &str, mask: Mask, width: u32) -> String {
    let [care, value] = [mask.care, mask.value].map(|word| literal(word, width));
    format!("(assert (= (bvand {name} {care}) {value}))\n")
}

/// That a word lies within bounds: `fp.leq` holds of no NaN, and of the zeros both ways.
fn lies_within(name: &str, bounds: Bounds, width: u32, float: &str) -> String {
    let [low, high] = bounds
        .words()
        .map(|word| format!("((_ to_fp {float}) {})", literal(word, width)));
    let number = format!("((_ to_fp {float}) {name})");
    format!("(assert (fp.leq {low} {number}))\n(assert (fp.leq {number} {high}))\n")
}

/// The words a, b and c, with what is asked of each alone.
fn words(conditions: &Conditions, width: u32, float: &str) -> String {
    let masks = [conditions.a, conditions.b, conditions.c];
    let mut asked = String::new();
    for (i, name) in ["a", "b", "c"].into_iter().enumerate() {
        asked += &format!("(declare-const {name} (_ BitVec {width}))\n");
        asked += &meets(name, masks[i], width);
        if let Some(bounds) = conditions.bounds[i] {
            asked += &lies_within(name, bounds, width, float);
        }
    }
    asked
}

/// The job for z3: declarations, masks, bounds, the sum, dropped bits, the objectives and the
/// question.
fn script(job: &Job, has_case: bool) -> String {
    let conditions = &job.conditions;
    let format = Format::new(conditions.w, conditions.f).expect("within the limits");
    let width = format.width();
    let float = format!("{} {}", format.exponent_bits(), format.precision());
    let operation = ["fp.add", "fp.sub"][conditions.operation as usize];
    let mode = ["RNE", "RTZ", "RTP", "RTN", "RNA"][conditions.mode as usize];
    let mut script = String::from("(reset)\n");
    if !has_case {
        script += "(set-logic QF_BVFP)\n";
    }
    script += &words(conditions, width, &float);
    let nan = literal(format.nan(), width);
    script += &format!(
        "(define-fun s () (_ FloatingPoint {float}) \
         ({operation} {mode} ((_ to_fp {float}) a) ((_ to_fp {float}) b)))\n\
         (assert (= ((_ to_fp {float}) c) s))\n\
         (assert (=> (fp.isNaN s) (= c {nan})))\n"
    );
    script += &dropped::question(job);
    if has_case {
        for (name, word) in [("a", job.words[0]), ("b", job.words[1])] {
            let word = literal(word, width);
            script += &format!("(minimize (bvxor {name} {word}))\n");
        }
    }
    script += "(check-sat)\n";
    if has_case {
        script += "(get-value (a b))\n";
    }
    script + &format!("(echo \"{END}\")\n")
}

/// The reply's meaning: z3 writes words as `#x` and hexadecimal or `#b` and binary digits.
fn said(reply: &str) -> Said {
    let words: Vec<u64> = reply.split(['(', ')', ' ']).filter_map(word).collect();
    match words[..] {
        [a, b] if reply.starts_with("sat") => Said::Case(a, b),
        _ if reply.starts_with("unsat") => Said::None,
        _ => Said::Nothing,
    }
}

fn word(text: &str) -> Option<u64> {
    if let Some(digits) = text.strip_prefix("#x") {
        return u64::from_str_radix(digits, 16).ok();
    }
    u64::from_str_radix(text.strip_prefix("#b")?, 2).ok()
}

#[cfg(test)]
mod tests {
    use super::*;
    use second::choice::{free_bits, generate};
    use second::random::Random;
    use second::sample::{all_but_few, bounded_job, dropped_job};

    /// Jobs that ask for dropped bits or state bounds, and ask for no carries, of a format, with so
    /// few bits of a and b free that all pairs can be tried.
    fn jobs(random: &mut Random, (w, f): (u64, u64), count: usize) -> Vec<Job> {
        let draw = || {
            let numbers = [w, f, random.below(2), random.below(5)];
            let draw = [dropped_job, bounded_job][random.below(2) as usize];
            let mut job = draw(random, numbers, all_but_few(numbers));
            job.conditions.carries = Mask::FREE;
            job
        };
        let is_few = |job: &Job| {
            let adder = job.check().expect("a well-made job");
            free_bits(&job.conditions, &adder) <= 14
        };
        std::iter::repeat_with(draw)
            .filter(is_few)
            .take(count)
            .collect()
    }

    /// Where z3 is installed, its answers are those of trying all pairs.
    #[test]
    fn answers_are_those_of_all_pairs() {
        if version().is_none() {
            return;
        }
        let mut solver = Solver::start(Duration::from_secs(60)).expect("z3 starts");
        let (mut random, mut found) = (Random::new(0xD206), 0);
        for (format, count) in [
            ((2, 2), 150),
            ((3, 4), 150),
            ((5, 10), 60),
            ((8, 23), 30),
            ((11, 52), 10),
        ] {
            for job in jobs(&mut random, format, count) {
                let case = generate(&job);
                let wanted = match case {
                    Ok(case) => Said::Case(case.a, case.b),
                    Err(_) => Said::None,
                };
                let (said, _) = solver.ask(&job, case.is_ok()).expect("z3 answers");
                assert_eq!(said, wanted, "{job:x?}");
                found += u32::from(case.is_ok());
            }
        }
        assert!((100..300).contains(&found), "{found}");
    }
}
