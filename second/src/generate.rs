//! Random trees, sentences, words and bytes, for the random cases and the tests.

use std::ops::Range;

use crate::limits::LETTERS;
use crate::random::Random;
use crate::rule::Kind;
use crate::set::Set;
use crate::shape::Shape;

/// The small alphabets of random cases; with few letters more words obey. In some of them a letter
/// stands in both cases.
const ALPHABETS: [&[u8]; 8] = [b"ab", b"abc", b"az", b"bmz", b"aA", b"AB", b"bBZ", b"azAZ"];

/// The bytes of random texts: mostly listed ones, operators more often than their share.
const LISTED: &[u8] = b"aabzAAZ01||&&!!**(())[[]].";

/// Printable bytes that no rule lists, most of them next to a listed one.
const FOREIGN: &[u8] = b"@\\^_`{-/2 ;'+,}~\"%#$?";

/// What is no set, and makes no sentence or has a foreign byte where a leaf should stand.
const NO_SETS: [&[u8]; 20] = [
    b"[]", b"[", b"]", b"[a", b"a]", b"[Zb", b"[.]", b"[0]", b"[a1]", b"[a|b]", b"[a&b]", b"[!a]",
    b"[a*]", b"[(a)]", b"[[a]]", b"[a[b]", b"[a-c]", b"[^a]", b"[a b]", b"[a<b]",
];

/// The most that a random sentence may have.
pub struct Bounds {
    pub bytes: usize,
    pub nodes: usize,
    pub special: usize,
}

/// One of the small alphabets.
pub fn alphabet(random: &mut Random) -> &'static [u8] {
    random.pick(&ALPHABETS)
}

/// A random word of at most so many letters.
pub fn word(random: &mut Random, letters: &[u8], most: usize) -> Vec<u8> {
    let n = random.below(most + 1);
    (0..n).map(|_| random.pick(letters)).collect()
}

/// A listed byte, or now and then a foreign one.
pub fn random_byte(random: &mut Random) -> u8 {
    let foreign = random.one_in(40);
    random.pick(if foreign { FOREIGN } else { LISTED })
}

/// Any byte at all.
pub fn any_byte(random: &mut Random) -> u8 {
    random.below(256) as u8
}

/// Puts in the byte, puts it in another's place or takes one out, and stays within so many bytes.
pub fn change_byte(random: &mut Random, text: &mut Vec<u8>, byte: u8, most_bytes: usize) {
    let at = random.below(text.len() + 1);
    match random.below(3) {
        0 if text.len() < most_bytes => text.insert(at, byte),
        1 if at < text.len() => drop(text.remove(at)),
        _ if at < text.len() => text[at] = byte,
        _ => {}
    }
}

/// A random set: mostly of a few of the letters, else of all that there are or of any.
pub fn set(random: &mut Random, letters: &[u8]) -> Set {
    match random.below(8) {
        0 | 1 => Set::all(),
        2 => {
            let times = random.pick(&[2, 6, 20]);
            let others = LETTERS.iter().copied().filter(|_| random.one_in(times));
            let mut members: Vec<u8> = others.collect();
            members.push(random.pick(letters));
            Set::of(&members)
        }
        _ => few_letters(random, letters),
    }
}

/// A random set of one to three of the letters.
fn few_letters(random: &mut Random, letters: &[u8]) -> Set {
    let times = 1 + random.below(3);
    let members: Vec<u8> = (0..times).map(|_| random.pick(letters)).collect();
    Set::of(&members)
}

/// Letters in brackets that do not rise: two have changed places, or one comes a second time.
fn fallen_set(random: &mut Random) -> Vec<u8> {
    let letters = alphabet(random);
    let rising = if random.one_in(4) {
        set(random, letters)
    } else {
        few_letters(random, letters)
    };
    let mut members: Vec<u8> = rising.letters().collect();
    let at = random.below(members.len());
    let later = at + 1 + random.below(members.len() - at);
    if later < members.len() && random.one_in(2) {
        members.swap(at, later);
    } else {
        members.insert(later, members[at]);
    }
    [b"[", &members[..], b"]"].concat()
}

/// Puts brackets that hold no set, or letters that do not rise, in the place of a leaf, and stays
/// within so many bytes.
pub fn spoil_leaf(random: &mut Random, text: &mut Vec<u8>, most_bytes: usize) {
    let Some(leaf) = random_leaf(random, text) else {
        return;
    };
    let spoilt = if random.one_in(2) {
        fallen_set(random)
    } else {
        random.pick(&NO_SETS).to_vec()
    };
    if text.len() - leaf.len() + spoilt.len() <= most_bytes {
        text.splice(leaf, spoilt);
    }
}

/// Where one of a text's leaves stands, if it has any.
pub fn random_leaf(random: &mut Random, text: &[u8]) -> Option<Range<usize>> {
    let mut leaves: Vec<Range<usize>> = Shape::of(text).leaves().collect();
    let some = !leaves.is_empty();
    some.then(|| leaves.swap_remove(random.below(leaves.len())))
}

/// A random sentence within the bounds.
pub fn sentence(random: &mut Random, letters: &[u8], bounds: &Bounds) -> Vec<u8> {
    // A text of b bytes has at most b leaves and b - 1 concatenations.
    let most_nodes = bounds.nodes.min(2 * bounds.bytes - 1);
    loop {
        let nodes = 1 + random.below(most_nodes);
        let special = random.below(bounds.special + 1);
        let tree = grow_tree(random, letters, nodes, special);
        let text = write_tree(random, &tree);
        if text.len() <= bounds.bytes {
            return text;
        }
    }
}

/// A random tree of so many nodes, each after its sides, with at most so many special ones; some
/// trees have sets of several letters.
pub fn grow_tree(random: &mut Random, letters: &[u8], nodes: usize, special: usize) -> Vec<Kind> {
    let sets = !random.one_in(3);
    let mut grower = Grower {
        random,
        letters,
        sets,
        special,
        kinds: Vec::new(),
    };
    grower.grow(nodes);
    grower.kinds
}

/// A tree that is being grown.
struct Grower<'a> {
    random: &'a mut Random,
    letters: &'a [u8],
    /// Whether there are sets of several letters.
    sets: bool,
    /// How many special nodes may still be added.
    special: usize,
    kinds: Vec<Kind>,
}

impl Grower<'_> {
    /// Adds a part of so many nodes; gives the index of its head.
    fn grow(&mut self, nodes: usize) -> usize {
        let kind = match nodes {
            1 => self.leaf(),
            2 => self.around(1),
            _ if self.random.one_in(3) => self.around(nodes - 1),
            _ => self.between(nodes - 1),
        };
        self.kinds.push(kind);
        self.kinds.len() - 1
    }

    /// A node without sides, mostly a letter or a set.
    fn leaf(&mut self) -> Kind {
        match self.random.below(10) {
            0 => Kind::NoWord,
            1 => Kind::EmptyWord,
            2..=7 if self.sets => Kind::OneOf(set(self.random, self.letters)),
            _ => Kind::OneOf(Set::of(&[self.random.pick(self.letters)])),
        }
    }

    /// A node with one side, after that side's nodes.
    fn around(&mut self, nodes: usize) -> Kind {
        let special = self.take_special(2);
        let inner = self.grow(nodes);
        if special {
            Kind::Complement(inner)
        } else {
            Kind::Star(inner)
        }
    }

    /// A node with two sides, after the nodes of both together.
    fn between(&mut self, nodes: usize) -> Kind {
        let special = self.take_special(4);
        let union = self.random.one_in(2);
        let left_nodes = 1 + self.random.below(nodes - 1);
        let left = self.grow(left_nodes);
        let right = self.grow(nodes - left_nodes);
        if special {
            Kind::Intersection(left, right)
        } else if union {
            Kind::Union(left, right)
        } else {
            Kind::Concatenation(left, right)
        }
    }

    /// Whether the next node is special: once in so many times, as long as some may be added.
    fn take_special(&mut self, times: usize) -> bool {
        let taken = self.special > 0 && self.random.one_in(times);
        self.special -= usize::from(taken);
        taken
    }
}

/// Writes a tree as a text that reads back to it, with a few parentheses more than it takes.
pub fn write_tree(random: &mut Random, kinds: &[Kind]) -> Vec<u8> {
    let has_several =
        |kind: &Kind| matches!(kind, Kind::OneOf(set) if set.letters().nth(1).is_some());
    let mut writer = Writer {
        random,
        kinds,
        sets: kinds.iter().any(has_several),
        text: Vec::new(),
    };
    writer.write(kinds.len() - 1, 0);
    writer.text
}

/// A tree that is being written.
struct Writer<'a> {
    random: &'a mut Random,
    kinds: &'a [Kind],
    /// Whether there are sets of several letters; then one letter may stand in brackets, too.
    sets: bool,
    text: Vec<u8>,
}

impl Writer<'_> {
    /// Writes the part a node heads where nothing looser than a tightness may stand.
    fn write(&mut self, node: usize, least: usize) {
        if tightness(self.kinds[node]) < least || self.random.one_in(12) {
            self.text.push(b'(');
            self.write(node, 0);
            self.text.push(b')');
            return;
        }
        match self.kinds[node] {
            Kind::NoWord => self.text.push(b'0'),
            Kind::EmptyWord => self.text.push(b'1'),
            Kind::OneOf(set) => self.write_set(set),
            // Grouping from the left: a right side must be tighter than its operator.
            Kind::Union(left, right) => self.write_sides((left, 0), b"|", (right, 1)),
            Kind::Intersection(left, right) => self.write_sides((left, 1), b"&", (right, 2)),
            Kind::Concatenation(left, right) => self.write_sides((left, 2), b"", (right, 3)),
            Kind::Complement(inner) => {
                self.text.push(b'!');
                self.write(inner, 3);
            }
            Kind::Star(inner) => {
                // No star directly follows another one.
                self.write(inner, 5);
                self.text.push(b'*');
            }
        }
    }

    /// Writes a set: a letter, a dot, or letters in brackets.
    fn write_set(&mut self, set: Set) {
        let letters: Vec<u8> = set.letters().collect();
        if letters.len() == 1 && !(self.sets && self.random.one_in(4)) {
            self.text.extend(letters);
        } else if set == Set::all() && !self.random.one_in(16) {
            self.text.push(b'.');
        } else {
            self.text.extend([b"[", &letters[..], b"]"].concat());
        }
    }

    /// Writes two sides, each with its least tightness, and the operator between them.
    fn write_sides(&mut self, left: (usize, usize), sign: &[u8], right: (usize, usize)) {
        self.write(left.0, left.1);
        self.text.extend_from_slice(sign);
        self.write(right.0, right.1);
    }
}

/// How tightly a node binds, from the loosest operator to a leaf.
fn tightness(kind: Kind) -> usize {
    match kind {
        Kind::Union(..) => 0,
        Kind::Intersection(..) => 1,
        Kind::Concatenation(..) => 2,
        Kind::Complement(_) => 3,
        Kind::Star(_) => 4,
        Kind::NoWord | Kind::EmptyWord | Kind::OneOf(_) => 5,
    }
}
