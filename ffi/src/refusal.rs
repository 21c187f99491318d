//! The refusals, by their numbers and in words.

use std::fmt;

/// The number of a refusal, 1 to 18. Displayed, it says in words what the number says and no more:
/// 14 is for b's mask in a job for a case and for y's in one for whole numbers, so its words name
/// both.
#[derive(Clone, Copy, Debug, PartialEq, Eq)]
pub struct Refusal(pub u64);

/// The masks by their numbers: which one it is in a job for a case, and what else the number says.
const MASKS: [(u64, &str, &str); 5] = [
    (5, "a's mask", " (in whole numbers x's, in joining either)"),
    (14, "b's mask", " (in whole numbers y's)"),
    (15, "c's mask", " (in whole numbers z's)"),
    (16, "the carry mask", ""),
    (17, "the mask of the dropped bits", "; or g above 8"),
];

impl fmt::Display for Refusal {
    fn fmt(&self, text: &mut fmt::Formatter<'_>) -> fmt::Result {
        if let Some((_, mask, more)) = MASKS.iter().find(|row| row.0 == self.0) {
            let wrong = "a value bit outside care, or a bit above its width";
            return write!(text, "{mask}: {wrong}{more}");
        }
        let words = match self.0 {
            1 => "w below 2 or above 11",
            2 => "f below 2 or above 52",
            3 => "operation above 1",
            4 => "mode above 4",
            6 => "an operand, a proposed or a random word or a bound is too wide",
            7 => "no case fits",
            8 => "record cut short, or no byte where a record is wanted",
            9 => "a bit from 3 on set in the second map",
            10 => "a field that says its default, or a second map of 0",
            11 => "buffer too short",
            12 => "length outside 1 to 32",
            13 => "two masks fix one bit unlike",
            18 => "a bound is a NaN, or a low bound exceeds its high one",
            other => return write!(text, "refusal {other}"),
        };
        text.write_str(words)
    }
}

impl std::error::Error for Refusal {}

#[cfg(test)]
mod tests {
    use super::*;

    const LAST: u64 = 18;

    fn words(number: u64) -> String {
        Refusal(number).to_string()
    }

    #[test]
    fn every_number_has_its_own_words() {
        let mut all: Vec<String> = (1..=LAST).map(words).collect();
        assert!(all.iter().all(|text| !text.contains("refusal")));
        all.sort_unstable();
        all.dedup();
        assert_eq!(all.len() as u64, LAST);
    }

    #[test]
    fn other_numbers_are_said_as_they_are() {
        assert_eq!(words(0), "refusal 0");
        assert_eq!(words(LAST + 1), "refusal 19");
        assert_eq!(words(u64::MAX), "refusal 18446744073709551615");
    }

    #[test]
    fn the_words_of_a_number() {
        assert_eq!(words(1), "w below 2 or above 11");
        assert_eq!(words(7), "no case fits");
        assert_eq!(words(13), "two masks fix one bit unlike");
        let error: Box<dyn std::error::Error> = Refusal(12).into();
        assert_eq!(error.to_string(), "length outside 1 to 32");
    }

    /// The five masks, and only these, with what is wrong of each.
    #[test]
    fn malformed_masks_are_named() {
        let wrong = "a value bit outside care, or a bit above its width";
        let named = |number| words(number).replacen(wrong, "..", 1);
        assert_eq!(
            [5, 14, 15, 16, 17].map(named),
            [
                "a's mask: .. (in whole numbers x's, in joining either)",
                "b's mask: .. (in whole numbers y's)",
                "c's mask: .. (in whole numbers z's)",
                "the carry mask: ..",
                "the mask of the dropped bits: ..; or g above 8",
            ]
        );
        let malformed = (1..=LAST).filter(|&number| words(number).contains(wrong));
        assert_eq!(malformed.collect::<Vec<_>>(), [5, 14, 15, 16, 17]);
    }
}
