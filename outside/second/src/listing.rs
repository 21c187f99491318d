//! What the listing program prints (document 01, "Cases, in hexadecimal", at the end; document
//! 02, W-202).

use crate::choice::Job;
use crate::fits::Case;
use crate::format::{Refusal, NO_CASE};
use crate::record::{read, word_bytes, Reply};

/// The longest file that is listed, in bytes.
pub const LONGEST_FILE: usize = 65_536;

/// The text for a whole file. Every line, the last one too, ends with a line feed. The
/// generator is passed in, because trying pairs serves small formats only.
pub fn listing(file: &[u8], generate: impl FnMut(&Job) -> Result<Case, Refusal>) -> String {
    if file.len() > LONGEST_FILE {
        return "long\n".to_string();
    }
    let lines = lines(file, generate);
    let numbered = (1..).zip(&lines).map(|(n, line)| format!("{n} {line}\n"));
    numbered.chain([format!("end {}\n", lines.len())]).collect()
}

/// The lines before the last one, without their numbers.
fn lines(file: &[u8], mut generate: impl FnMut(&Job) -> Result<Case, Refusal>) -> Vec<String> {
    let mut lines = Vec::new();
    let mut rest = file;
    loop {
        let (reply, after) = read(rest);
        rest = after;
        let answer = match reply {
            Reply::End => return lines,
            Reply::Refused(number) => Err(number),
            Reply::Job(job) => generate(&job).map(|case| found(&job, &case)),
        };
        // Reading stops at any refusal but the one that says that no case fits.
        let stops = answer.as_ref().is_err_and(|&number| number != NO_CASE);
        lines.push(answer.unwrap_or_else(refused));
        if stops {
            return lines;
        }
    }
}

/// The line of a case: two digits for each byte that a word has in the job's record.
fn found(job: &Job, case: &Case) -> String {
    let digits = 2 * word_bytes(job.conditions.w, job.conditions.f);
    let text = |word: u64| format!("{word:0digits$x}");
    let [a, b, c] = [case.a, case.b, case.c].map(text);
    let row = case.row.map_or("-".to_string(), text);
    format!("found {a} {b} {c} {row}")
}

fn refused(number: Refusal) -> String {
    match number {
        NO_CASE => "none".to_string(),
        _ => format!("refused {number}"),
    }
}
