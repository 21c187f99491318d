//! All cases of one small format, operation and mode, computed once, so that many jobs can
//! be answered. The answers are those of `choice::generate`.

use crate::arith::Adder;
use crate::choice::{first_fitting, Job};
use crate::dropped::Below;
use crate::fits::{Case, Computed};
use crate::format::Refusal;

/// The widest word for which a table is made: 2^24 cases.
pub const WIDEST: u32 = 12;

/// The cases by a and then b.
pub struct Table {
    adder: Adder,
    results: Vec<u16>,
    rows: Vec<Option<u16>>,
    below: Vec<Option<Below>>,
}

impl Table {
    /// The table of an adder, or none where its words have more than `WIDEST` bits.
    pub fn new(adder: Adder) -> Option<Table> {
        if adder.format.width() > WIDEST {
            return None;
        }
        let count = 1u64 << adder.format.width();
        let pairs = || (0..count).flat_map(|a| (0..count).map(move |b| (a, b)));
        let computed = pairs().map(|(a, b)| Computed::of(&adder, a, b));
        let (results, (rows, below)) = computed
            .map(|Computed { case, below }| {
                (case.c as u16, (case.row.map(|row| row as u16), below))
            })
            .unzip();
        Some(Table {
            adder,
            results,
            rows,
            below,
        })
    }

    /// What two words of the format make.
    fn computed(&self, a: u64, b: u64) -> Computed {
        let at = (a << self.adder.format.width() | b) as usize;
        let case = Case {
            a,
            b,
            c: u64::from(self.results[at]),
            row: self.rows[at].map(u64::from),
        };
        Computed {
            case,
            below: self.below[at],
        }
    }

    /// What `choice::generate` answers to a job. An accepted job must be of this table's
    /// format, operation and mode.
    pub fn generate(&self, job: &Job) -> Result<Case, Refusal> {
        let adder = job.check()?;
        assert!(adder == self.adder, "job of another table");
        first_fitting(job, &adder, |a, b| self.computed(a, b))
    }
}
