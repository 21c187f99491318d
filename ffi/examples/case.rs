//! The case of document 01's first job for two pairs of random words, a job with no case, one that
//! asks for dropped bits, one with bounds of a, and one whose second mask is malformed.
//! Run it with `cargo run --offline --manifest-path ffi/Cargo.toml --example case`.

/// Format 3/4, add, mode 0; a 0100x101, b 001x1011, c 010xx10x.
const MASKS: [u8; 24] = [
    0xF7, 0, 0, 0, 0x45, 0, 0, 0, 0xEF, 0, 0, 0, 0x2B, 0, 0, 0, 0xE6, 0, 0, 0, 0x44, 0, 0, 0,
];

/// A job record: its map, of one byte or two, the header, the masks and the fields after them.
fn record(map: &[u8], fields: &[u8]) -> Vec<u8> {
    [map, &[3, 4, 0], &MASKS, fields].concat()
}

fn main() {
    let no_words = record(&[0x07], &[]);
    let words = record(&[0x27], &[0x4D, 0, 0, 0, 0, 0, 0, 0]);
    let carry_1 = record(&[0x0F], &[2, 0, 0, 0, 2, 0, 0, 0]);
    // Two dropped bits of 11, and nothing below them.
    let dropped = record(&[0x47], &[2, 7, 0, 6, 0]);
    // a from 46 to infinity.
    let bounded = record(&[0x87, 1], &[0x46, 0, 0, 0, 0x70, 0, 0, 0]);
    let mut outside = no_words.clone();
    // b's care, after the header and a's mask.
    outside[12] = 0;
    for job in [no_words, words, carry_1, dropped, bounded, outside] {
        match vindacsor::generate(&job) {
            Ok(case) => println!("{case:x?}"),
            Err(refusal) => println!("{refusal}"),
        }
    }
}
