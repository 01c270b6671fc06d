//! The alphabet and the bounds of documents 01 and 02, each in one place so that a change is one
//! line.

/// The events, which are also the letters of a rule.
pub const LETTERS: &[u8; 52] = b"abcdefghijklmnopqrstuvwxyzABCDEFGHIJKLMNOPQRSTUVWXYZ";

/// Whether a byte is an event.
pub fn is_event(byte: u8) -> bool {
    LETTERS.contains(&byte)
}

/// The longest rule text, in bytes.
pub const MAX_RULE_BYTES: usize = 255;

/// The most nodes a rule may have (m).
pub const MAX_NODES: usize = 64;

/// The most special nodes a rule may have (k).
pub const MAX_SPECIAL: usize = 7;

/// The most lines of a rule file.
pub const MAX_RULE_LINES: usize = 16;

/// The longest name of a rule, in bytes.
pub const MAX_NAME_BYTES: usize = 12;

/// Whether a byte may stand in a name.
pub fn is_name_byte(byte: u8) -> bool {
    byte.is_ascii_lowercase()
}

/// The longest word, in events (n).
pub const MAX_WORD: usize = 255;

/// The longest day file, in bytes.
pub const MAX_DAY_BYTES: usize = 2_550;

/// The most lines of a day file; each one is an event of the word.
pub const MAX_DAY_LINES: usize = MAX_WORD;

/// The most events of two merged days together, which are a word, too.
pub const MAX_MERGED: usize = MAX_WORD;

/// The most digits of a second.
pub const MAX_SECOND_DIGITS: usize = 5;

/// The last second of a day, which has 25 hours when the clocks go back; any day may come to it.
pub const LAST_SECOND: u32 = 89_999;

/// How many bytes of its input the program reads.
pub const MAX_JOB_BYTES: usize = 2_809;

/// The highest limit the program gives to a judge call.
pub const MAX_LIMIT: u64 = 4_210_688;
