//! The case generator, by trying pairs of words (document 01, "Masks and choice").
//!
//! The work doubles with every bit that the masks of a and b leave free, in every format:
//! all pairs of eight-bit words, or pairs of 64-bit words with sixteen free bits together.

use crate::arith::Adder;
use crate::fits::{Case, Computed, Conditions};
use crate::format::{Refusal, NO_CASE};

/// A job: conditions and the two random words.
#[derive(Clone, Copy, Debug, PartialEq, Eq)]
pub struct Job {
    pub conditions: Conditions,
    pub words: [u64; 2],
}

impl Job {
    /// Refuses with 1 to 5, 14 to 17, 6, 18, in this order.
    pub fn check(&self) -> Result<Adder, Refusal> {
        self.conditions.check(&self.words)
    }
}

/// The fitting case with the smallest a exclusive-or the first random word, and then the
/// smallest b exclusive-or the second. Refuses with 1 to 5, 14 to 17, 6, 18, 7.
pub fn generate(job: &Job) -> Result<Case, Refusal> {
    let adder = job.check()?;
    first_fitting(job, &adder, |a, b| Computed::of(&adder, a, b))
}

/// How many free bits a and b of a checked job have together: the generator tries at most
/// 2 to this power pairs.
pub fn free_bits(conditions: &Conditions, adder: &Adder) -> u32 {
    let width = adder.format.width();
    conditions.a.free_bits(width) + conditions.b.free_bits(width)
}

/// The first fitting case in the order of choice. The pairs come in that order, so nothing
/// after the first has to be seen, and a refusal comes only after all of them. An a outside its
/// bounds has no pair that is worth trying.
pub(crate) fn first_fitting(
    job: &Job,
    adder: &Adder,
    computed: impl Fn(u64, u64) -> Computed,
) -> Result<Case, Refusal> {
    let width = adder.format.width();
    let [first, second] = job.words;
    let of_a = job.conditions.bounds[0];
    let is_within = |a: &u64| of_a.is_none_or(|bounds| bounds.admit(adder.format, *a));
    let words_of_a = job.conditions.a.words_near(width, first);
    for a in words_of_a.filter(is_within) {
        for b in job.conditions.b.words_near(width, second) {
            let found = computed(a, b);
            if found.meets(&job.conditions, adder.format) {
                return Ok(found.case);
            }
        }
    }
    Err(NO_CASE)
}
