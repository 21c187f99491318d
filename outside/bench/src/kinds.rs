//! The kinds of jobs that are timed, with their names.

/// How the masks of a job are made.
#[derive(Clone, Copy, PartialEq, Eq)]
pub enum Kind {
    /// Around a true case, with about this many of 16 bits fixed in each mask; the carries' too
    /// where that is said.
    Fixed { of_16: u64, carries: bool },
    /// Half fixed around a true case in which leading digits cancel, but for the exponents: c's is
    /// fixed, and of a's and b's the top bits that keep each `CANCELLED` or more above it. So
    /// digits cancel in every case left.
    Cancelled,
    /// Half fixed around a true case with a subnormal c. c's exponent and a 1 of its fraction are
    /// fixed, so c is subnormal and not zero in every case left.
    Subnormal,
    /// Half fixed around a true case of finite operands that round past the largest finite number
    /// to infinity. c is fixed but for its sign, and a 0 of each operand's exponent is, so the
    /// operands are finite in every case left.
    Overflow,
    /// c wholly fixed to the result of some pair, a and b free.
    Result,
    /// All fractions fixed at random, exponents and signs free, and no case.
    Fractions,
    /// Document 01's case 13: only signs are fixed, and there is no case.
    Signs,
    /// Half fixed around a true case, of a's and b's exponents a quarter, but c's exponent wholly
    /// to another field, and no case: with c's exponent free there would be one.
    ExponentOfC,
    /// Half fixed around a true case, the carries too, but one of them to the other value, and no
    /// case: with the carries free there would be one.
    Carries,
    /// Half fixed around a true case of equal exponents and unlike effective signs, the carries
    /// too. The exponents are fixed, so they are equal in every case left.
    Opposed,
    /// Half fixed around a true case that has dropped bits, these and the sticky bit too.
    Below,
    /// Half fixed around a tie, the dropped bits and the sticky bit wholly: so every case left is a
    /// tie.
    Tie,
    /// Half fixed around a true case, the dropped bits and the sticky bit wholly, but one of them
    /// to the other value, and no case: with these free there would be one.
    OtherBelow,
    /// A tie with ties going to even, by the dropped bits and the sticky bit, and the last bit of c
    /// fixed to 1, nothing else: no case.
    OddTie,
    /// Few bits fixed around a true case, and bounds of so many words, with any ends around it.
    Wide { words: usize },
    /// Fractions half fixed around a true case, and bounds of so many words, with ends up to a
    /// factor of two from it.
    Narrow { words: usize },
    /// The same with a fixed bit turned, and no case: without the bounds there would be one.
    Turned { words: usize },
    /// Few bits fixed around a true case, bounds of a and b around it, and bounds of c beyond all
    /// results of these, by a factor of two or more, or by a place or two: no case, and without the
    /// bounds of c there would be one.
    Beyond { far: bool },
    /// Each mask, the carries' too, with its own share of fixed bits, from none to all, and around
    /// a true case or not; the dropped bits' too where that is said, and bounds of one word or
    /// more.
    Mixed { below: bool, bounds: bool },
}

/// How far c's exponent field stands below both operands' where digits are to cancel.
pub const CANCELLED: u64 = 3;

pub const HALF_FIXED: (&str, Kind) = ("half fixed", fixed(8));
pub const IMPOSSIBLE: (&str, Kind) = ("impossible (all fractions fixed)", Kind::Fractions);
pub const MIXED: (&str, Kind) = ("any share of each mask fixed", mixed(false, false));
pub const MIXED_BELOW: (&str, Kind) = (
    "any share of each mask fixed, dropped bits too",
    mixed(true, false),
);
pub const MIXED_BOUNDS: (&str, Kind) = (
    "any share of each mask fixed, dropped bits and bounds too",
    mixed(true, true),
);
/// Those of which z3 is asked for the smallest case, those of which it is asked whether there is
/// one, and those with carry masks, of which it is not asked; then those with bounds in the same
/// order.
pub const KINDS: [(&str, Kind); 31] = [
    ("sparse (1/16 of the bits fixed)", fixed(1)),
    HALF_FIXED,
    ("dense (7/8 fixed)", fixed(14)),
    ("cancellation needed", Kind::Cancelled),
    ("subnormal result", Kind::Subnormal),
    ("overflow", Kind::Overflow),
    ("c fixed, a and b free", Kind::Result),
    ("half fixed, dropped bits too", Kind::Below),
    ("a tie, all dropped bits fixed", Kind::Tie),
    IMPOSSIBLE,
    ("impossible (case 13: + and + give -)", Kind::Signs),
    ("impossible only by c's exponent", Kind::ExponentOfC),
    ("impossible only by the dropped bits", Kind::OtherBelow),
    ("impossible (a tie to an odd c)", Kind::OddTie),
    (
        "half fixed, carries too",
        Kind::Fixed {
            of_16: 8,
            carries: true,
        },
    ),
    ("equal exponents, carries too", Kind::Opposed),
    ("impossible only by the carries", Kind::Carries),
    MIXED,
    MIXED_BELOW,
    ("wide bounds of one word", Kind::Wide { words: 1 }),
    ("wide bounds of two words", Kind::Wide { words: 2 }),
    ("wide bounds of three words", Kind::Wide { words: 3 }),
    ("narrow bounds of one word", Kind::Narrow { words: 1 }),
    ("narrow bounds of two words", Kind::Narrow { words: 2 }),
    ("narrow bounds of three words", Kind::Narrow { words: 3 }),
    (
        "impossible by masks and bounds of one word",
        Kind::Turned { words: 1 },
    ),
    (
        "impossible by masks and bounds of two words",
        Kind::Turned { words: 2 },
    ),
    (
        "impossible by masks and bounds of three words",
        Kind::Turned { words: 3 },
    ),
    (
        "impossible only by c's bounds, far off",
        Kind::Beyond { far: true },
    ),
    (
        "impossible only by c's bounds, one place off or two",
        Kind::Beyond { far: false },
    ),
    MIXED_BOUNDS,
];

const fn mixed(below: bool, bounds: bool) -> Kind {
    Kind::Mixed { below, bounds }
}

const fn fixed(of_16: u64) -> Kind {
    Kind::Fixed {
        of_16,
        carries: false,
    }
}

impl Kind {
    /// Whether carries are fixed. z3 is asked where they are not.
    pub fn has_carries(self) -> bool {
        matches!(
            self,
            Kind::Fixed { carries: true, .. } | Kind::Opposed | Kind::Carries | Kind::Mixed { .. }
        )
    }

    /// Whether dropped bits are fixed.
    fn has_below(self) -> bool {
        matches!(
            self,
            Kind::Below
                | Kind::Tie
                | Kind::OtherBelow
                | Kind::OddTie
                | Kind::Mixed { below: true, .. }
        )
    }

    /// Whether bounds are stated.
    pub fn has_bounds(self) -> bool {
        matches!(
            self,
            Kind::Wide { .. }
                | Kind::Narrow { .. }
                | Kind::Turned { .. }
                | Kind::Beyond { .. }
                | Kind::Mixed { bounds: true, .. }
        )
    }

    /// Whether the linked library takes its jobs: one that is older than W-206 refuses those that
    /// ask for dropped bits, and one older than W-207 those with bounds.
    pub fn is_known(self) -> bool {
        const WITH_BELOW: [u8; 9] = [0x40, 3, 4, 0, 0, 1, 0, 0, 0];
        const WITH_BOUNDS: [u8; 13] = [0x80, 1, 3, 4, 0, 0, 0, 0, 0, 0, 0, 0, 0];
        (!self.has_below() || vindacsor::read(&WITH_BELOW).is_ok())
            && (!self.has_bounds() || vindacsor::read(&WITH_BOUNDS).is_ok())
    }

    /// Whether no job of the kind has a case.
    pub fn is_impossible(self) -> bool {
        matches!(
            self,
            Kind::Fractions
                | Kind::Signs
                | Kind::ExponentOfC
                | Kind::OtherBelow
                | Kind::OddTie
                | Kind::Carries
                | Kind::Turned { .. }
                | Kind::Beyond { .. }
        )
    }
}

/// The kinds whose jobs the linked library takes.
pub fn known() -> impl Iterator<Item = (&'static str, Kind)> + Clone {
    KINDS.into_iter().filter(|(_, kind)| kind.is_known())
}
