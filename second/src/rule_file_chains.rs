//! Rule files in which lines use the line above, so that texts after replacement become long.

use crate::limits::MAX_RULE_BYTES;
use crate::rule_file_lines::line;

/// The most parentheses around a letter that leave a line for one more rule.
pub const DEEPEST: usize = 1_905;

/// A file that grows line by line.
#[derive(Clone)]
pub struct Chain {
    pub file: Vec<u8>,
    lines: usize,
}

impl Chain {
    /// A file of one line.
    pub fn of(rule: impl AsRef<[u8]>) -> Self {
        let file = line(&name(1), rule);
        Chain { file, lines: 1 }
    }

    /// A file whose last line is, after replacement, a letter in so many parentheses.
    pub fn nested(letter: u8, depth: usize) -> Self {
        let mut around = depth.min(MAX_RULE_BYTES / 2);
        let mut chain = Chain::of(enclosed(&char::from(letter).to_string(), around));
        let mut rest = depth - around;
        while rest > 0 {
            // The name itself takes three bytes, and brings one pair of parentheses.
            around = (rest - 1).min((MAX_RULE_BYTES - 3) / 2);
            chain = chain.then(&enclosed("?", around));
            rest -= 1 + around;
        }
        chain
    }

    /// Adds a line in which each question mark has become the use of the line above.
    pub fn then(mut self, rule: &str) -> Self {
        let above = format!("<{}>", name(self.lines));
        self.lines += 1;
        let written = line(&name(self.lines), rule.replace('?', &above));
        self.file.extend(written);
        self
    }

    /// Adds such a line so many times.
    pub fn then_often(self, rule: &str, times: usize) -> Self {
        (0..times).fold(self, |chain, _| chain.then(rule))
    }
}

/// The name of a line, by its number from 1.
fn name(number: usize) -> String {
    let letter = b'a' + (number - 1) as u8;
    char::from(letter).to_string()
}

/// A text in so many parentheses.
pub fn enclosed(text: &str, depth: usize) -> String {
    ["(".repeat(depth).as_str(), text, &")".repeat(depth)].concat()
}

/// A file whose last letter, after replacement, has just this offset, which is from 1,000 to 70,000.
pub fn letter_at(offset: usize) -> Vec<u8> {
    const COPIES: usize = 20;
    // Each copy has its letter, its parentheses and those of its name.
    let depth = (offset / COPIES - 3) / 2;
    let around = offset - COPIES * (2 * depth + 3);
    let last = ["?".repeat(COPIES), enclosed("b", around)].concat();
    Chain::nested(b'a', depth).then(&last).file
}

/// A file whose two special nodes would change their order if offsets had 16 bits.
pub fn special_at_long_offsets() -> Vec<u8> {
    let last = [
        "?".repeat(11),
        "!?".to_string(),
        "?".repeat(7),
        "!(?b)".to_string(),
    ];
    Chain::nested(b'a', DEEPEST).then(&last.concat()).file
}

/// Files with as long texts as there can be, and with as many parentheses inside each other.
pub fn longest() -> Vec<Vec<u8>> {
    let deepest = Chain::nested(b'a', DEEPEST);
    let lasts = [
        "?".repeat(32),
        "?".repeat(32) + "*",
        "?".repeat(31) + "|?",
        "(".repeat(79) + &"?".repeat(32) + &")".repeat(79) + "*",
        // Refused for their nodes: after replacement they would have 65 and more.
        "?".repeat(33),
        "?".repeat(31) + "(?*)*",
        "?".repeat(85),
    ];
    let mut files: Vec<Vec<u8>> = lasts.map(|last| deepest.clone().then(&last).file).into();
    files.push(Chain::nested(b'Z', DEEPEST + 127).file);
    // Long texts that are put in once more, and a great many times.
    let long = Chain::nested(b'a', DEEPEST - 2 * 127).then(&"?".repeat(32));
    files.push(long.clone().then("?*").file);
    files.push(long.clone().then(&enclosed("?", 126)).then("(?)*").file);
    files.push(long.then(&"?".repeat(85)).file);
    files
}

/// Files that reach the most nodes and the most special nodes line by line, and pass them.
pub fn growing() -> Vec<Vec<u8>> {
    let letter = || Chain::of("a");
    let seven = || Chain::of("!!!!!!!a");
    let chains = [
        letter().then_often("??", 5),
        letter().then_often("??", 6),
        letter().then_often("??", 5).then("?*"),
        letter().then_often("??", 5).then("(?*)*"),
        letter().then_often("??", 5).then("?a"),
        letter().then_often("??", 5).then_often("(?)", 10),
        letter().then_often("!?", 7),
        letter().then_often("!?", 8),
        letter().then_often("!?", 7).then("?*").then("!?"),
        letter().then_often("?&?", 3),
        letter().then_often("?&?", 3).then("?&?"),
        letter().then_often("?&?", 2).then("?&!?"),
        letter().then_often("?*", 15),
        letter().then_often("a?", 15),
        letter().then_often("?a", 15),
        letter().then_often("?|b", 15),
        letter().then_often("(?*)", 15),
        // 64 nodes, 7 of them special, and one more of either.
        seven().then(&["?", &"a".repeat(28)].concat()),
        seven().then(&["?", &"a".repeat(29)].concat()),
        seven().then("!?"),
    ];
    chains.map(|chain| chain.file).into()
}
