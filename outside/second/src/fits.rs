//! Conditions, the definition of a fitting case, and confirmation (document 01, "Masks and
//! choice"; document 02, W-206 and W-207).

use crate::arith::Adder;
use crate::bounds::Bounds;
use crate::dropped::{Below, Dropped};
use crate::format::{Format, Refusal};
use crate::mask::{check_masks, Mask};
use crate::row::row;

/// What a job asks of a case: all of the job but its random words. Numbers stand as they
/// came in and are checked by `check`.
#[derive(Clone, Copy, Debug, PartialEq, Eq)]
pub struct Conditions {
    pub w: u64,
    pub f: u64,
    pub operation: u64,
    pub mode: u64,
    pub a: Mask,
    pub b: Mask,
    pub c: Mask,
    pub carries: Mask,
    pub dropped: Dropped,
    /// Those of a, b and c, each stated or not.
    pub bounds: [Option<Bounds>; 3],
}

impl Conditions {
    /// Conditions that fix no bit and state no bounds.
    pub fn free(w: u64, f: u64, operation: u64, mode: u64) -> Conditions {
        Conditions {
            w,
            f,
            operation,
            mode,
            a: Mask::FREE,
            b: Mask::FREE,
            c: Mask::FREE,
            carries: Mask::FREE,
            dropped: Dropped::FREE,
            bounds: [None; 3],
        }
    }

    /// The first four masks, in the order in which they are checked and stand in a record.
    pub fn masks(&self) -> [Mask; 4] {
        [self.a, self.b, self.c, self.carries]
    }

    /// The same masks, to be changed.
    pub fn masks_mut(&mut self) -> [&mut Mask; 4] {
        [&mut self.a, &mut self.b, &mut self.c, &mut self.carries]
    }

    /// Checks them together with the words that come beside them, random or proposed ones. Refuses
    /// with 1 to 5, 14 to 17, 6, 18, in this order.
    pub fn check(&self, words: &[u64]) -> Result<Adder, Refusal> {
        let adder = Adder::new(self.w, self.f, self.operation, self.mode)?;
        let (width, precision) = (adder.format.width(), adder.format.precision());
        check_masks(self.masks(), width, precision)?;
        self.dropped.check()?;
        let stated = self.bounds.iter().flatten();
        let ends = stated.clone().flat_map(|bounds| bounds.words());
        for word in ends.chain(words.iter().copied()) {
            adder.format.check_word(word)?;
        }
        for bounds in stated {
            bounds.check(adder.format)?;
        }
        Ok(adder)
    }
}

/// A case with its row.
#[derive(Clone, Copy, Debug, PartialEq, Eq)]
pub struct Case {
    pub a: u64,
    pub b: u64,
    pub c: u64,
    pub row: Option<u64>,
}

impl Case {
    /// The case that two words make, with c the rounded result.
    pub fn of(adder: &Adder, a: u64, b: u64) -> Case {
        Case {
            a,
            b,
            c: adder.result(a, b),
            row: row(adder.format, adder.operation, a, b),
        }
    }
}

/// A case with the bits below its last one: all that conditions speak of.
#[derive(Clone, Copy, Debug, PartialEq, Eq)]
pub struct Computed {
    pub case: Case,
    pub below: Option<Below>,
}

impl Computed {
    /// What two words make.
    pub fn of(adder: &Adder, a: u64, b: u64) -> Computed {
        let exact = adder.exact(a, b);
        Computed {
            case: Case::of(adder, a, b),
            below: exact.and_then(|exact| Below::of(adder.format, &exact)),
        }
    }

    /// Whether the words, the row and the bits below agree with every fixed bit, and the words lie
    /// within their bounds.
    pub fn meets(&self, conditions: &Conditions, format: Format) -> bool {
        conditions.a.is_met(self.case.a)
            && conditions.b.is_met(self.case.b)
            && conditions.c.is_met(self.case.c)
            && conditions.carries.is_met_by_optional(self.case.row)
            && conditions.dropped.is_met(self.below)
            && self.is_within(&conditions.bounds, format)
    }

    /// Whether each word lies within its bounds, where these are stated.
    fn is_within(&self, bounds: &[Option<Bounds>; 3], format: Format) -> bool {
        let words = [self.case.a, self.case.b, self.case.c];
        let admit = |(bounds, word): (&Option<Bounds>, u64)| {
            bounds.is_none_or(|bounds| bounds.admit(format, word))
        };
        bounds.iter().zip(words).all(admit)
    }
}

/// Whether the proposed case fits. Refuses with 1 to 5, 14 to 17, 6, 18; a case that does not fit
/// is a no.
pub fn confirm(conditions: &Conditions, a: u64, b: u64, c: u64) -> Result<bool, Refusal> {
    let adder = conditions.check(&[a, b, c])?;
    let computed = Computed::of(&adder, a, b);
    Ok(computed.case.c == c && computed.meets(conditions, adder.format))
}
