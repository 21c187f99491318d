//! Document 01's case 12 with the limits of document 02, W-202, wherever a format is taken: w and f
//! at their limits are taken, and one more or less is refused with 1 or 2, in this order. Lent
//! bytes are then as they were.

use compare::program::listed;
use second::format::{F_OUT_OF_RANGE, LARGEST_F, LARGEST_W, W_OUT_OF_RANGE};
use vindacsor::buffer;

/// What every function that takes a format returns for it. They write only where they return 0.
fn returned(w: u8, f: u8) -> [u64; 5] {
    let record = [0, w, f, 0];
    let [w, f] = [w, f].map(u64::from);
    let mut out = [0xA5; 40];
    let numbers = [
        buffer::result(w, f, 0, 0, 0, 0, &mut out),
        buffer::row(w, f, 0, 0, 0, &mut out),
        buffer::read(&record, &mut out),
        buffer::confirm(&record, 0, 0, 0, &mut out),
        buffer::generate(&record, &mut out),
    ];
    assert_eq!(out == [0xA5; 40], numbers != [0; 5]);
    numbers
}

/// The number with which a format is refused everywhere, 0 for none.
fn number(w: u8, f: u8) -> u64 {
    let returned = returned(w, f);
    assert_eq!(returned, [returned[0]; 5], "{w} {f}");
    let listed = listed(&[0, w, f, 0]);
    match returned[0] {
        0 => assert!(listed.starts_with("1 found 0")),
        number => assert_eq!(listed, format!("1 refused {number}\nend 1\n")),
    }
    returned[0]
}

#[test]
fn case_12() {
    for f in [2, 52] {
        assert_eq!([2, 11].map(|w| number(w, f)), [0; 2]);
        assert_eq!([1, 12].map(|w| number(w, f)), [1; 2]);
    }
    for w in [2, 11] {
        assert_eq!([1, 53].map(|f| number(w, f)), [2; 2]);
    }
    for w in [1, 12] {
        assert_eq!([1, 53].map(|f| number(w, f)), [1; 2]);
    }
}

/// Numbers above a limit: the next ones, and single high bits, which no function may cut.
fn above(limit: u64) -> impl Iterator<Item = u64> {
    let bits = (0..64).map(|i| 1 << i);
    let high = bits.flat_map(move |bit| [bit, bit + limit]);
    (limit + 1..1 << 10).chain(high.filter(move |&number| number > limit))
}

#[test]
fn larger_numbers_are_refused() {
    let mut out = [0xA5; 16];
    for w in above(LARGEST_W) {
        let wanted = u64::from(W_OUT_OF_RANGE);
        assert_eq!(buffer::result(w, 4, 0, 0, 0, 0, &mut out), wanted);
        assert_eq!(buffer::row(w, 4, 0, 0, 0, &mut out), wanted);
    }
    for f in above(LARGEST_F) {
        let wanted = u64::from(F_OUT_OF_RANGE);
        assert_eq!(buffer::result(3, f, 0, 0, 0, 0, &mut out), wanted);
        assert_eq!(buffer::row(3, f, 0, 0, 0, &mut out), wanted);
    }
    assert_eq!(out, [0xA5; 16]);
}

/// A word of double precision has all 64 bits; one bit less in the format, and the top is too wide.
#[test]
fn the_widest_words() {
    let mut out = [0; 8];
    let top = 1 << 63;
    assert_eq!(buffer::result(11, 52, 0, 0, top, top, &mut out), 0);
    assert_eq!(u64::from_le_bytes(out), top);
    for (w, f) in [(10, 52), (11, 51)] {
        assert_eq!(buffer::result(w, f, 0, 0, top, 0, &mut out), 6);
        assert_eq!(buffer::result(w, f, 0, 0, 0, top, &mut out), 6);
    }
}
