//! The listing program on files whose listings document 01 fixes.

use compare::program::listed;
use second::choice::generate;
use second::listing::{listing, LONGEST_FILE};

/// The records of cases 1 and 4.
const MASKS: [u8; 24] = [
    0xF7, 0, 0, 0, 0x45, 0, 0, 0, 0xEF, 0, 0, 0, 0x2B, 0, 0, 0, 0xE6, 0, 0, 0, 0x44, 0, 0, 0,
];

fn two_jobs() -> Vec<u8> {
    let carries = [2, 0, 0, 0, 2, 0, 0, 0];
    [
        &[0x07, 3, 4, 0][..],
        &MASKS,
        &[0x0F, 3, 4, 0],
        &MASKS,
        &carries,
    ]
    .concat()
}

#[test]
fn two_jobs_of_document_01() {
    assert_eq!(
        listed(&two_jobs()),
        "1 found 00000045 0000002b 0000004c 00000004\n2 none\nend 2\n"
    );
}

#[test]
fn no_byte() {
    assert_eq!(listed(&[]), "end 0\n");
}

/// Records of four bytes that fix nothing: found at once, by the second implementation too.
fn free_jobs(length: usize) -> Vec<u8> {
    [0, 2, 2, 0].into_iter().cycle().take(length).collect()
}

#[test]
fn the_longest_file_is_listed_to_its_end() {
    let file = free_jobs(LONGEST_FILE);
    let text = listing(&file, generate);
    assert!(text.ends_with("16384 found 00000000 00000000 00000000 00000000\nend 16384\n"));
    assert_eq!(listed(&file), text);
}

#[test]
fn one_byte_more_is_long() {
    assert_eq!(listed(&free_jobs(LONGEST_FILE + 1)), "long\n");
}

#[test]
fn a_cut_record_ends_the_listing() {
    let mut file = two_jobs();
    file.pop();
    assert_eq!(
        listed(&file),
        "1 found 00000045 0000002b 0000004c 00000004\n2 refused 8\nend 2\n"
    );
}

#[test]
fn an_infinite_operand_has_no_row() {
    assert_eq!(
        listed(&[1, 3, 4, 0, 0xFF, 0, 0, 0, 0x70, 0, 0, 0]),
        "1 found 00000070 00000000 00000070 -\nend 1\n"
    );
}
