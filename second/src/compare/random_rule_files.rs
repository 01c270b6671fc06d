//! Random rule files: good ones, ones with a fault at any line, deep chains, and what is near them.

use crate::generate::{alphabet, any_byte, change_byte, sentence, spoil_leaf, Bounds};
use crate::limits::{MAX_NODES, MAX_RULE_BYTES, MAX_RULE_LINES, MAX_SPECIAL};
use crate::named_rule;
use crate::random::Random;
use crate::random_stars::repeat_stars;
use crate::refusal::Reason;
use crate::rule::Rule;
use crate::rule_file::Line;
use crate::rule_file_chains::{enclosed, Chain, DEEPEST};
use crate::rule_file_lines::{faulty_lines, good_lines, line, FIRST_NAME, LINE_REASONS};
use crate::shape::Shape;

/// How often a rule is drawn anew that its names make too large.
const TRIES: usize = 4;

/// Bytes that mean something in a rule file, or are next to one that does.
const SIGNS: &[u8] = b"<<<>>>RR\t\t\t\n\n\naxAZ01|&!*()[]._`{\0\r ";

/// Operands of a long rule, with the nodes that each has; a question mark stands for a name.
const OPERANDS: [(&str, usize); 10] = [
    ("?", 1),
    ("?", 1),
    ("?", 1),
    ("?", 1),
    ("(?)", 1),
    ("b", 1),
    ("[bc]", 1),
    (".", 1),
    ("?*", 2),
    ("!?", 2),
];

/// A random file of any kind that there is.
pub fn file(random: &mut Random) -> Vec<u8> {
    match random.below(48) {
        0..=2 => chain(random),
        3 => winding_chain(random),
        4..=16 => with_fault(random),
        17..=22 => {
            let mut file = good(random);
            damage(random, &mut file);
            file
        }
        _ => good(random),
    }
}

/// A file that is accepted: mostly of a few lines, with names of earlier ones.
fn good(random: &mut Random) -> Vec<u8> {
    let lines = match random.below(12) {
        0 => MAX_RULE_LINES - random.below(2),
        1 => 1 + random.below(MAX_RULE_LINES),
        _ => 1 + random.below(5),
    };
    grown(random, lines).file
}

/// A good file that grows line by line.
#[derive(Default)]
struct Grown {
    file: Vec<u8>,
    lines: Vec<Line>,
}

/// A good file of so many lines.
fn grown(random: &mut Random, lines: usize) -> Grown {
    let mut grown = Grown::default();
    for _ in 0..lines {
        grown.add(random);
    }
    grown
}

impl Grown {
    /// Adds a good line.
    fn add(&mut self, random: &mut Random) {
        let name = self.new_name(random);
        let (written, (text, rule)) = self.good_rule(random);
        self.file.extend(line(&name, written));
        let name = name.into();
        self.lines.push(Line { name, text, rule });
    }

    /// A name that is not taken; many begin with others.
    fn new_name(&self, random: &mut Random) -> String {
        loop {
            let length = random.pick(&[1, 1, 2, 2, 3, 4, 11, 12]);
            let letters = random.pick(&["ab", "xyz", "az"]).as_bytes();
            let letter = |_| char::from(random.pick(letters));
            let name: String = (0..length).map(letter).collect();
            if self.lines.iter().all(|line| line.name != name.as_bytes()) {
                return name;
            }
        }
    }

    /// A rule that is accepted after the lines so far, and its reading.
    fn good_rule(&self, random: &mut Random) -> (Vec<u8>, (Vec<u8>, Rule)) {
        for _ in 0..TRIES {
            let written = self.rule_with_names(random);
            if let Ok(reading) = named_rule::read(&written, &self.lines) {
                return (written, reading);
            }
        }
        let written = b"a".to_vec();
        let reading = named_rule::read(&written, &self.lines);
        (written, reading.expect("a letter is a rule"))
    }

    /// A sentence in which some leaves have become names of lines.
    fn rule_with_names(&self, random: &mut Random) -> Vec<u8> {
        let bounds = Bounds {
            bytes: MAX_RULE_BYTES,
            nodes: random.pick(&[4, 8, 8, 12, MAX_NODES]),
            special: random.pick(&[1, 2, MAX_SPECIAL]),
        };
        let letters = alphabet(random);
        let sentence = sentence(random, letters, &bounds);
        let times = random.pick(&[1, 2, 4]);
        let mut written = Vec::new();
        let mut done = 0;
        for leaf in Shape::of(&sentence).leaves() {
            written.extend_from_slice(&sentence[done..leaf.start]);
            done = leaf.end;
            match self.any_name(random) {
                Some(name) if random.one_in(times) => {
                    written.extend([b"<", name, b">"].concat());
                }
                _ => written.extend_from_slice(&sentence[leaf]),
            }
        }
        written.extend_from_slice(&sentence[done..]);
        written
    }

    /// The name of a line, if there is one; in half of the cases the last one's.
    fn any_name(&self, random: &mut Random) -> Option<&[u8]> {
        let last = self.lines.last()?;
        let line = match random.one_in(2) {
            true => last,
            false => &self.lines[random.below(self.lines.len())],
        };
        Some(&line.name)
    }
}

/// A file with each fault at each line, and now and then with more lines after it.
fn with_fault(random: &mut Random) -> Vec<u8> {
    // A 17th line is a fault, too.
    let reason = LINE_REASONS
        .get(random.below(LINE_REASONS.len() + 1))
        .copied();
    let before = match reason {
        None => MAX_RULE_LINES,
        Some(Reason::NameTaken) => 1 + random.below(MAX_RULE_LINES - 1),
        _ => random.below(MAX_RULE_LINES),
    };
    let (mut file, name) = lines_before(random, before);
    file.extend(match reason {
        None => vec![any_byte(random)],
        Some(reason) => {
            let lines = faulty_lines(reason, before);
            renamed(&lines[random.below(lines.len())], &name)
        }
    });
    for _ in 0..random.pick(&[0, 0, 0, 1, 2]) {
        let faulty = faulty_lines(random.pick(&LINE_REASONS), 1);
        file.extend_from_slice(&faulty[random.below(faulty.len())]);
    }
    file
}

/// So many good lines, and a name among them.
fn lines_before(random: &mut Random, count: usize) -> (Vec<u8>, Vec<u8>) {
    if count > 0 && random.one_in(2) {
        let grown = grown(random, count);
        let name = grown.lines[random.below(count)].name.clone();
        (grown.file, name)
    } else {
        (good_lines(count), FIRST_NAME.into())
    }
}

/// A line in which another name stands wherever the first good line's stood.
fn renamed(line: &[u8], name: &[u8]) -> Vec<u8> {
    let mut renamed = Vec::new();
    let mut rest = line;
    while let Some((&byte, after)) = rest.split_first() {
        if let Some(after) = rest.strip_prefix(FIRST_NAME.as_bytes()) {
            renamed.extend_from_slice(name);
            rest = after;
        } else {
            renamed.push(byte);
            rest = after;
        }
    }
    renamed
}

/// Changes a few bytes, changes the order of the lines, spoils a leaf or stars of a line, or takes
/// some bytes off the end.
fn damage(random: &mut Random, file: &mut Vec<u8>) {
    match random.below(7) {
        0 => file.truncate(random.below(file.len() + 1)),
        1 | 2 => {
            let mut lines: Vec<&[u8]> = file.split_inclusive(|&byte| byte == b'\n').collect();
            let (one, other) = (random.below(lines.len()), random.below(lines.len()));
            lines.swap(one, other);
            *file = lines.concat();
        }
        3 => {
            let mut lines: Vec<Vec<u8>> = file
                .split_inclusive(|&byte| byte == b'\n')
                .map(<[u8]>::to_vec)
                .collect();
            let line = random.below(lines.len());
            spoil_line(random, &mut lines[line]);
            *file = lines.concat();
        }
        _ => {
            for _ in 0..=random.below(2) {
                let byte = match random.below(4) {
                    0 => any_byte(random),
                    _ => random.pick(SIGNS),
                };
                change_byte(random, file, byte, usize::MAX);
            }
        }
    }
}

/// Spoils a leaf in the rule of a line, or puts in stars after stars.
fn spoil_line(random: &mut Random, line: &mut Vec<u8>) {
    let last_tab = line.iter().rposition(|&byte| byte == b'\t');
    let mut rule = line.split_off(last_tab.map_or(0, |tab| tab + 1));
    let spoil = random.pick(&[spoil_leaf, repeat_stars]);
    spoil(random, &mut rule, usize::MAX);
    line.extend(rule);
}

/// A file whose last text after replacement is long, mostly within the limits.
fn chain(random: &mut Random) -> Vec<u8> {
    let depth = match random.below(3) {
        0 => 1 + random.below(DEEPEST),
        _ => DEEPEST - random.below(300),
    };
    let letter = random.pick(b"aZ");
    let mut last = match random.below(5) {
        // About as many as there may be.
        0 => "?".repeat(31 + random.below(3)),
        1 | 2 => "?".repeat(29 + random.below(3)) + "!?",
        _ => {
            let nodes = random.pick(&[20, 50, 60, MAX_NODES, MAX_NODES, MAX_NODES + 1]);
            long_rule(random, nodes)
        }
    };
    if random.one_in(8) {
        last.push_str(random.pick(&["|", "_", "<zz>", ")", "[ba]", "**"]));
    }
    Chain::nested(letter, depth).then(&last).file
}

/// A file in which each line puts parentheses around the one above, and many something beside it.
fn winding_chain(random: &mut Random) -> Vec<u8> {
    let mut chain = Chain::of("a");
    for _ in 0..1 + random.below(MAX_RULE_LINES - 1) {
        let around = random.pick(&["?", "?", "?", "?*", "!?", "A?", "?b", "a|?", "?&b", "??"]);
        let depth = random.pick(&[0, 60, 120]);
        chain = chain.then(&enclosed(around, depth));
    }
    chain.file
}

/// A rule of just so many nodes in which nearly every letter is a name, written as `Chain::then`
/// takes it.
fn long_rule(random: &mut Random, nodes: usize) -> String {
    let mut rule = String::from("?");
    let mut left = nodes - 1;
    while left >= 3 {
        let (operand, nodes) = random.pick(&OPERANDS);
        rule.push_str(random.pick(&["", "", "", "|"]));
        rule.push_str(operand);
        // What joins it to those before is one more.
        left -= nodes + 1;
    }
    // Each star is around all before it, so that none directly follows another one.
    (0..left).fold(rule, |rule, _| format!("({rule})*"))
}
