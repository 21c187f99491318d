//! A number above the last mode is refused with 4 wherever a mode is taken, and lent bytes are then
//! as they were; the last mode is taken.

use compare::files;
use compare::program::listed;
use second::format::{LARGEST_MODE, UNKNOWN_MODE};
use vindacsor::buffer;

/// A record of format 3/4 that adds in a mode and fixes nothing.
fn record(mode: u8) -> [u8; 5] {
    [0x10, 3, 4, 0, mode]
}

fn returned(record: &[u8]) -> [u64; 3] {
    files::returned(record, [0; 3])
}

#[test]
fn the_last_mode_is_taken() {
    let mode = LARGEST_MODE as u8;
    assert_eq!(returned(&record(mode)), [0; 3]);
    assert_eq!(
        listed(&record(mode)),
        "1 found 00000000 00000000 00000000 00000000\nend 1\n"
    );
}

#[test]
fn a_record_in_another_mode_is_refused() {
    for mode in LARGEST_MODE as u8 + 1..=u8::MAX {
        assert_eq!(returned(&record(mode)), [u64::from(UNKNOWN_MODE); 3]);
        assert_eq!(listed(&record(mode)), "1 refused 4\nend 1\n");
    }
}

#[test]
fn a_result_in_another_mode_is_refused() {
    let bits = (0..64).map(|i| 1 << i).filter(|&mode| mode > LARGEST_MODE);
    for mode in (LARGEST_MODE + 1..1 << 10).chain(bits).chain([u64::MAX]) {
        let mut out = [0xA5; 8];
        let number = buffer::result(3, 4, 0, mode, 0x30, 0x02, &mut out);
        assert_eq!((number, out), (u64::from(UNKNOWN_MODE), [0xA5; 8]));
    }
}
