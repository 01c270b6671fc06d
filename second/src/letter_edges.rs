//! The places where an event can stand beside something else, so that any byte can be tried there,
//! and the bytes at the ends of the two runs of letters.

/// The first and the last letter of both runs, and the bytes beside and between them.
pub const ENDS: [u8; 12] = *b"@AZ[\\]^_`az{";

/// What stands for the byte in the texts below, which have no other use for it.
const BLANK: u8 = b'?';

/// The places in a rule: at both ends of a text and within it, and at every side of an operator.
const RULES: [&str; 10] = [
    "?b", "a?b", "a?", "!?", "?|a", "a|?", "?&a", "a&?", "(?)", "?*",
];

/// The places in a word: first, in the middle and last.
const WORDS: [&str; 3] = ["?b", "a?b", "a?"];

/// The places in a day: in the first line, in a middle one and in the last.
const DAYS: [&str; 3] = [
    "E\t5\t?\nE\t5\tb\n",
    "E\t5\ta\nE\t5\t?\nE\t5\tb\n",
    "E\t5\ta\nE\t5\t?\n",
];

/// Rules with the byte.
pub fn rules(byte: u8) -> [Vec<u8>; 10] {
    RULES.map(|text| filled(text, byte))
}

/// Words with the byte.
pub fn words(byte: u8) -> [Vec<u8>; 3] {
    WORDS.map(|text| filled(text, byte))
}

/// Days with the byte as a letter.
pub fn days(byte: u8) -> [Vec<u8>; 3] {
    DAYS.map(|text| filled(text, byte))
}

/// A text with the byte where it has a blank.
pub fn filled(text: &str, byte: u8) -> Vec<u8> {
    let with_byte = |other: u8| if other == BLANK { byte } else { other };
    text.bytes().map(with_byte).collect()
}
