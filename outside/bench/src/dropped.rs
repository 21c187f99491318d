//! The bits below the last one as bit-vector operations, for z3: the smaller operand aligned to the
//! larger with a sticky bit, their sum or difference, moved up until its leading 1 stands at the
//! top, and what then follows the digits that are kept.

use second::choice::Job;
use second::dropped::Dropped;
use second::format::Format;

use crate::solver::{literal, meets};

/// What is asked of the words a and b where a job asks for dropped bits; nothing where it does not.
pub fn question(job: &Job) -> String {
    let conditions = &job.conditions;
    let dropped = conditions.dropped.taken();
    if dropped == Dropped::FREE {
        return String::new();
    }
    let format = Format::new(conditions.w, conditions.f).expect("within the limits");
    let columns = Columns {
        format,
        count: format.precision() + dropped.g as u32 + 3,
    };
    let steps = columns.steps();
    columns.operands()
        + &columns.sum(conditions.operation)
        + &columns.moved_up(&steps)
        + &columns.met(&steps, &dropped)
}

/// The columns of the sum: one for a carry, those of a significand, and below them g + 2. A
/// difference of operands whose units are 2 or more apart has one digit less at most, which leaves
/// the dropped bits and the sticky bit; of units that are nearer no digit is lost.
struct Columns {
    format: Format,
    count: u32,
}

/// The definition of a bit vector, whose parameters, where it has some, stand after its name.
fn define(name: &str, parameters: &str, width: u32, term: &str) -> String {
    format!("(define-fun {name} ({parameters}) (_ BitVec {width}) {term})\n")
}

impl Columns {
    /// Of a word the exponent field, the exponent of its unit, counted from 1 on, and the
    /// significand in its columns; then the operand l of larger magnitude, and the other, r.
    fn operands(&self) -> String {
        let (width, field) = (self.format.width(), self.format.exponent_bits());
        let f = self.format.fraction_bits();
        let [zero, one] = [0, 1].map(|number| literal(number, field));
        let (top, last) = (width - 2, f - 1);
        let below = literal(0, self.count - f - 2);
        let word = format!("(x (_ BitVec {width}))");
        let smaller = format!("(bvult ((_ extract {top} 0) a) ((_ extract {top} 0) b))");
        let significand = format!(
            "(concat (ite (= (field x) {zero}) #b00 #b01) ((_ extract {last} 0) x) {below})"
        );
        [
            define("field", &word, field, &format!("((_ extract {top} {f}) x)")),
            define(
                "unit",
                &word,
                field,
                &format!("(ite (= (field x) {zero}) {one} (field x))"),
            ),
            define("significand", &word, self.count, &significand),
            define("l", "", width, &format!("(ite {smaller} b a)")),
            define("r", "", width, &format!("(ite {smaller} a b)")),
        ]
        .concat()
    }

    /// The smaller operand in the larger one's columns, the last of which is 1 where a 1 was lost,
    /// and their sum, or the difference where the effective signs are unlike.
    fn sum(&self, operation: u64) -> String {
        let (n, sign) = (self.count, self.format.width() - 1);
        let more = n - self.format.exponent_bits();
        let [zero, one] = [0, 1].map(|number| literal(number, n));
        let signs = ["a", "b"].map(|x| format!("((_ extract {sign} {sign}) {x})"));
        let unlike = format!("(= (bvxor {}) #b{})", signs.join(" "), 1 - operation);
        let gap = format!("((_ zero_extend {more}) (bvsub (unit l) (unit r)))");
        let lost = format!("(ite (= (bvshl aligned gap) (significand r)) {zero} {one})");
        let terms = "(significand l) (bvor aligned lost)";
        let sum = format!("(ite {unlike} (bvsub {terms}) (bvadd {terms}))");
        [
            define("gap", "", n, &gap),
            define("aligned", "", n, "(bvlshr (significand r) gap)"),
            define("lost", "", n, &lost),
            define("sum0", "", n, &sum),
        ]
        .concat()
    }

    /// By how much the sum is moved up, step by step, where as many zeros stand at its top: powers
    /// of two, the largest first.
    fn steps(&self) -> Vec<u32> {
        let largest = (self.count - 1).ilog2();
        (0..=largest).rev().map(|i| 1 << i).collect()
    }

    /// The sum after each step, and whether it was taken.
    fn moved_up(&self, steps: &[u32]) -> String {
        let n = self.count;
        let one = |(i, &by): (usize, &u32)| {
            let (top, low, next) = (n - 1, n - by, i + 1);
            let zeros = format!("(= ((_ extract {top} {low}) sum{i}) {})", literal(0, by));
            let moved = format!("(bvshl sum{i} {})", literal(u64::from(by), n));
            define(
                &format!("step{i}"),
                "",
                1,
                &format!("(ite {zeros} #b1 #b0)"),
            ) + &define(
                &format!("sum{next}"),
                "",
                n,
                &format!("(ite (= step{i} #b1) {moved} sum{i})"),
            )
        };
        steps.iter().enumerate().map(one).collect()
    }

    /// Both operands are finite, there is a leading 1, no more steps were taken than its unit can
    /// fall without the result being less than the smallest normal number, and the bits meet the
    /// mask.
    fn met(&self, steps: &[u32], dropped: &Dropped) -> String {
        let (n, field) = (self.count, self.format.exponent_bits());
        let last = format!("sum{}", steps.len());
        let taken: Vec<String> = (0..steps.len()).map(|i| format!("step{i}")).collect();
        let (high, low) = (n - self.format.precision() - 1, 3);
        let rest = format!("((_ extract {} 0) {last})", low - 1);
        let sticky = format!("(ite (= {rest} {}) #b0 #b1)", literal(0, low));
        let word = match dropped.g {
            0 => sticky,
            _ => format!("(concat ((_ extract {high} {low}) {last}) {sticky})"),
        };
        let infinite = literal((1 << field) - 1, field);
        let top = n - 1;
        let mut asserted = define("word", "", dropped.g as u32 + 1, &word);
        for condition in [
            format!("(distinct (field a) {infinite})"),
            format!("(distinct (field b) {infinite})"),
            format!("(= ((_ extract {top} {top}) {last}) #b1)"),
            format!(
                "(bvuge ((_ zero_extend {}) (unit l)) ((_ zero_extend {field}) (concat {})))",
                taken.len(),
                taken.join(" ")
            ),
        ] {
            asserted += &format!("(assert {condition})\n");
        }
        asserted + &meets("word", dropped.mask, dropped.g as u32 + 1)
    }
}
