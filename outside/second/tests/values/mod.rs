//! The values of the words of a small format, for tests.

/// The value of a word in smallest steps; beyond all steps for an infinity, none for a NaN.
pub fn value((w, f): (u64, u64), word: u64) -> Option<i128> {
    let index = word % (1 << (w + f));
    let (e, t) = (index >> f, i128::from(index % (1 << f)));
    let size = match e {
        0 => t,
        _ if e < (1 << w) - 1 => (t + (1 << f)) << (e - 1),
        _ if t == 0 => 1 << 100,
        _ => return None,
    };
    Some(if word >> (w + f) == 1 { -size } else { size })
}
