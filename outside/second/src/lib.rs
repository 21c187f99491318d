//! A second implementation of documents 01 and 02, written from these alone.
//!
//! It exists to be compared with the first one, so it shares no code with it and
//! prefers the obvious way to the fast one: exact sums on wide integers, rounding by
//! comparison with the two neighbouring numbers, and search by trying every pair.
//!
//! The files, lowest first:
//!
//! - `format`: limits, refusal numbers, the fixed words of a format
//! - `wide`: whole numbers of 2,112 bits
//! - `operand`: the kinds of operand and their magnitudes in smallest steps
//! - `arith`: the rounded result
//! - `row`: the carry row
//! - `mask`: masks, well formed, met, joined, the first four of a job, and the words that meet one
//! - `dropped`: the bits below the last fraction bit, and what a job asks of them
//! - `bounds`: the order of numbers, and a low and a high bound of a word
//! - `fits`: conditions, the definition of a fitting case, confirmation
//! - `choice`: jobs and the generator by trying pairs
//! - `table`: the same search for many jobs over one small format
//! - `signs`: jobs that their signs alone leave without a case, in every format
//! - `whole`: the whole-number generator
//! - `record`: job records and job files
//! - `listing`: what the listing program prints
//! - `random`: a small deterministic random generator
//! - `within`: random bounds that favour hard places
//! - `sample`: random words, pairs and jobs that do
//! - `malform`: malformed masks and bounds

#![forbid(unsafe_code)]

pub mod arith;
pub mod bounds;
pub mod choice;
pub mod dropped;
pub mod fits;
pub mod format;
pub mod listing;
pub mod malform;
pub mod mask;
pub mod operand;
pub mod random;
pub mod record;
pub mod row;
pub mod sample;
pub mod signs;
pub mod table;
pub mod whole;
pub mod wide;
pub mod within;
