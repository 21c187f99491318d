//! One call held against the reply that the second implementation gives.

use second::format::{Refusal, BUFFER_TOO_SHORT, LAST_REFUSAL};
use second::random::Random;

/// The numbers of an answer, or the number of a refusal.
pub type Reply = Result<Vec<u64>, Refusal>;

/// How often each number was returned; place 0 counts the answers. A yes, a row and a job that
/// was read have a first number other than 0, so those answers are counted besides.
#[derive(Default)]
pub struct Tally {
    returned: [u64; LAST_REFUSAL as usize + 1],
    not_zero: u64,
}

impl Tally {
    pub fn calls(&self) -> u64 {
        self.returned.iter().sum()
    }

    /// How often a refusal came.
    pub fn refused(&self, number: Refusal) -> u64 {
        self.returned[usize::from(number)]
    }

    /// The line of a table: the calls, the answers, and each refusal that came.
    pub fn line(&self, name: &str) -> String {
        let refused: Vec<String> = (1..self.returned.len())
            .filter(|&number| self.returned[number] > 0)
            .map(|number| format!("{number}: {}", self.returned[number]))
            .collect();
        format!(
            "{name}: {} calls alike, {} answered, {} of them not 0; refusals {}",
            self.calls(),
            self.returned[0],
            self.not_zero,
            refused.join(", ")
        )
    }
}

/// A part of the comparison: so many calls, files or jobs.
pub type Part = fn(&mut Random, u64) -> Result<Tally, String>;

/// A buffer of random bytes, most often long enough for every answer.
fn buffer(random: &mut Random) -> Vec<u8> {
    let length = if random.one_in(16) {
        random.below(48)
    } else {
        40 + random.below(9)
    };
    (0..length).map(|_| random.bits(8) as u8).collect()
}

/// What is to be returned, and the buffer afterwards.
fn expected(reply: &Reply, before: &[u8]) -> (u64, Vec<u8>) {
    let mut after = before.to_vec();
    match reply {
        Err(number) => (u64::from(*number), after),
        Ok(numbers) if 8 * numbers.len() > before.len() => (u64::from(BUFFER_TOO_SHORT), after),
        Ok(numbers) => {
            for (place, number) in after.chunks_exact_mut(8).zip(numbers) {
                place.copy_from_slice(&number.to_le_bytes());
            }
            (0, after)
        }
    }
}

/// A reply as text, a refusal's number in decimal and the numbers of an answer in hexadecimal.
fn text(reply: &Reply) -> String {
    match reply {
        Err(number) => format!("refusal {number}"),
        Ok(numbers) => format!("{numbers:x?}"),
    }
}

/// Calls the library with a random buffer and compares the number and every byte of the buffer.
/// The text, made only where they differ, says what was asked.
pub fn compare(
    random: &mut Random,
    tally: &mut Tally,
    reply: &Reply,
    call: impl FnOnce(&mut [u8]) -> u64,
    asked: impl FnOnce() -> String,
) -> Result<(), String> {
    let before = buffer(random);
    let mut after = before.clone();
    let number = call(&mut after);
    let wanted = expected(reply, &before);
    if (number, &after) != (wanted.0, &wanted.1) {
        return Err(format!(
            "{}\n  second: {}\n  buffer before: {before:02x?}\n  wanted {} and {:02x?}\n  \
             came   {number} and {after:02x?}",
            asked(),
            text(reply),
            wanted.0,
            wanted.1,
        ));
    }
    tally.returned[number as usize] += 1;
    if number == 0 && reply.as_ref().is_ok_and(|numbers| numbers[0] != 0) {
        tally.not_zero += 1;
    }
    Ok(())
}

#[cfg(test)]
mod tests {
    use super::*;

    fn held(number: u64, write: &[u8]) -> Result<(), String> {
        let call = |out: &mut [u8]| {
            let count = write.len().min(out.len());
            out[..count].copy_from_slice(&write[..count]);
            number
        };
        let (mut random, mut tally) = (Random::new(1), Tally::default());
        compare(
            &mut random,
            &mut tally,
            &Ok(vec![0x0102]),
            call,
            String::new,
        )
    }

    #[test]
    fn tells_unlike_replies() {
        assert!(held(0, &[2, 1, 0, 0, 0, 0, 0, 0]).is_ok());
        assert!(held(0, &[1, 2, 0, 0, 0, 0, 0, 0]).is_err());
        assert!(held(5, &[]).is_err());
        // A byte too many is an unlike buffer, whatever stood there before.
        assert!((0..2).any(|byte| held(0, &[2, 1, 0, 0, 0, 0, 0, 0, byte]).is_err()));
    }

    #[test]
    fn a_refusal_leaves_the_buffer() {
        assert_eq!(expected(&Err(7), &[9; 8]), (7, vec![9; 8]));
        assert_eq!(expected(&Ok(vec![1]), &[9; 7]), (11, vec![9; 7]));
        assert_eq!(
            expected(&Ok(vec![1]), &[9; 9]),
            (0, vec![1, 0, 0, 0, 0, 0, 0, 0, 9])
        );
    }
}
