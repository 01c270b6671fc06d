//! The reader of rule texts: trees, offsets, and refusals 1 to 6 with their order and places; those
//! of sets have tests of their own.

#[path = "common/records.rs"]
mod records;

use records::records_of;
use second::generate::{grow_tree, write_tree};
use second::random::Random;
use second::rule::{read, Kind, Node, Rule};
use second::set::Set;

/// The records of an accepted text as sign and offset, a dot for concatenation.
fn records(text: &str) -> String {
    records_of(&read(text.as_bytes()).unwrap())
}

/// Number and place; 0 and 0 if accepted.
fn verdict(text: &[u8]) -> (u32, usize) {
    read(text).map_or_else(|refusal| (refusal.number(), refusal.place), |_| (0, 0))
}

fn sizes(text: &str) -> (usize, usize) {
    let rule = read(text.as_bytes()).unwrap();
    (rule.m(), rule.k())
}

#[test]
fn records_stand_left_right_node() {
    let cases = [
        ("a", "a0"),
        ("0", "00"),
        ("1", "10"),
        ("a|b", "a0 b2 |1"),
        ("a&b", "a0 b2 &1"),
        ("ab", "a0 b1 .1"),
        ("!a", "a1 !0"),
        ("a*", "a0 *1"),
        ("(a)", "a1"),
        ("01", "00 11 .1"),
    ];
    for (text, expected) in cases {
        assert_eq!(records(text), expected, "{text}");
    }
}

#[test]
fn precedence_runs_from_union_to_star() {
    let cases = [
        ("!a*", "a1 *2 !0"),
        ("!ab", "a1 !0 b2 .2"),
        ("ab*", "a0 b1 *2 .1"),
        ("ab&c", "a0 b1 .1 c3 &2"),
        ("a&bc", "a0 b2 c3 .3 &1"),
        ("a|b&c", "a0 b2 c4 &3 |1"),
        ("a&b|c", "a0 b2 &1 c4 |3"),
        ("a|b&cd", "a0 b2 c4 d5 .5 &3 |1"),
        ("!a&b", "a1 !0 b3 &2"),
        ("a!b", "a0 b2 !1 .1"),
        ("a!bc", "a0 b2 !1 .1 c3 .3"),
        ("(!a)*", "a2 !1 *4"),
        ("!(ab)", "a2 b3 .3 !0"),
        ("(a|b)c", "a1 b3 |2 c5 .5"),
        ("!!(a*)*", "a3 *4 *6 !1 !0"),
    ];
    for (text, expected) in cases {
        assert_eq!(records(text), expected, "{text}");
    }
}

#[test]
fn two_sides_group_from_the_left() {
    assert_eq!(records("a|b|c"), "a0 b2 |1 c4 |3");
    assert_eq!(records("a&b&c"), "a0 b2 &1 c4 &3");
    assert_eq!(records("abc"), "a0 b1 .1 c2 .2");
    assert_eq!(records("a|(b|c)"), "a0 b3 c5 |4 |1");
    assert_eq!(records("a&(b&c)"), "a0 b3 c5 &4 &1");
    assert_eq!(records("a(bc)"), "a0 b2 c3 .3 .1");
}

#[test]
fn a_concatenation_stands_where_its_right_side_begins() {
    assert_eq!(records("a(b)"), "a0 b2 .1");
    assert_eq!(records("a((b))*"), "a0 b3 *6 .1");
    assert_eq!(records("(a)(b)"), "a1 b4 .3");
    assert_eq!(records("a!(b)"), "a0 b3 !1 .1");
    assert_eq!(records("(a)*!!b"), "a1 *3 b6 !5 !4 .4");
}

#[test]
fn nodes_carry_their_sides_and_letters() {
    let letter = |offset: usize, letter: u8| Node {
        offset,
        kind: Kind::OneOf(Set::of(&[letter])),
    };
    let nodes = vec![
        letter(1, b'x'),
        Node {
            offset: 0,
            kind: Kind::Complement(0),
        },
        letter(2, b'Z'),
        Node {
            offset: 3,
            kind: Kind::Star(2),
        },
        Node {
            offset: 2,
            kind: Kind::Concatenation(1, 3),
        },
    ];
    assert_eq!(read(b"!xZ*"), Ok(Rule { nodes }));
}

#[test]
fn every_byte_alone() {
    for byte in 0..=255u8 {
        let expected = match byte {
            b'A'..=b'Z' | b'a'..=b'z' | b'0' | b'1' | b'.' => (0, 0),
            b'|' | b'&' | b'*' | b')' | b']' => (4, 0),
            b'!' | b'(' | b'[' => (4, 1),
            _ => (3, 0),
        };
        assert_eq!(verdict(&[byte]), expected, "byte {byte}");
    }
}

#[test]
fn an_empty_text_is_1() {
    assert_eq!(verdict(b""), (1, 0));
    assert_eq!(verdict(b"a"), (0, 0));
}

#[test]
fn over_255_bytes_is_2_before_all_else() {
    let nested = |depth: usize| ["(".repeat(depth), "a".into(), ")".repeat(depth)].concat();
    assert_eq!(nested(127).len(), 255);
    assert_eq!(records(&nested(127)), "a127");
    assert_eq!(verdict(format!("{}*", nested(127)).as_bytes()), (2, 0));
    assert_eq!(verdict(nested(128).as_bytes()), (2, 0));
    assert_eq!(verdict(&[b'_'; 256]), (2, 0));
    assert_eq!(verdict(&[b')'; 256]), (2, 0));
    assert_eq!(verdict(&[b'a'; 256]), (2, 0));
}

#[test]
fn a_foreign_byte_is_3_at_the_first_one() {
    assert_eq!(verdict(b"_"), (3, 0));
    assert_eq!(verdict(b"a_c@"), (3, 1));
    assert_eq!(verdict(b"aB`D["), (3, 2));
    assert_eq!(verdict(b"a b"), (3, 1));
    assert_eq!(verdict(b"a\tb"), (3, 1));
    assert_eq!(verdict(b"ab\0"), (3, 2));
    assert_eq!(verdict(b"a\xff\xfe"), (3, 1));
    assert_eq!(verdict(&[&[b'a'; 254][..], b"2"].concat()), (3, 254));
}

#[test]
fn a_foreign_byte_is_3_before_a_bad_form() {
    assert_eq!(verdict(b")_"), (3, 1));
    assert_eq!(verdict(b"()()`"), (3, 4));
    assert_eq!(verdict(b")A"), (4, 0));
    assert_eq!(verdict(b"()()A"), (4, 1));
}

#[test]
fn not_a_sentence_is_4_at_the_longest_beginning() {
    let cases: [(&str, usize); 22] = [
        (")", 0),
        ("(a", 2),
        ("a)", 1),
        ("()", 1),
        ("a|", 2),
        ("a&", 2),
        ("!", 1),
        ("*", 0),
        ("|a", 0),
        ("&a", 0),
        ("a||b", 2),
        ("a|&b", 2),
        ("a|*", 2),
        ("!*", 1),
        ("!|a", 1),
        ("(*", 1),
        ("(a)b)", 4),
        ("((a)", 4),
        ("(a|)", 3),
        ("a!)b", 2),
        ("a)(", 1),
        ("(a))*", 3),
    ];
    for (text, place) in cases {
        assert_eq!(verdict(text.as_bytes()), (4, place), "{text}");
    }
}

#[test]
fn a_beginning_may_belong_to_a_sentence_over_255_bytes() {
    // Only sentences of at least 511, 257 and 256 bytes begin like these.
    assert_eq!(verdict(&[b'('; 255]), (4, 255));
    let text = ["(".repeat(128), "a".into(), ")".repeat(126)].concat();
    assert_eq!(verdict(text.as_bytes()), (4, 255));
    assert_eq!(verdict(&[&[b'a'; 254][..], b"|"].concat()), (4, 255));
    // Here the last byte fits no sentence of any length.
    assert_eq!(verdict(&[&[b'('; 254][..], b")"].concat()), (4, 254));
    assert_eq!(verdict(&[&[b'a'; 254][..], b")"].concat()), (4, 254));
}

#[test]
fn over_64_nodes_is_5() {
    assert_eq!(sizes(&"a".repeat(32)), (63, 0));
    assert_eq!(sizes(&format!("{}*", "a".repeat(32))), (64, 0));
    assert_eq!(verdict("a".repeat(33).as_bytes()), (5, 0));
    let two_stars = format!("({}*)*", "a".repeat(32));
    assert_eq!(verdict(two_stars.as_bytes()), (5, 0));
    let nested = |around: usize| ["(".repeat(around), "a*".into(), ")*".repeat(around)].concat();
    assert_eq!(sizes(&nested(62)), (64, 0));
    assert_eq!(verdict(nested(63).as_bytes()), (5, 0));
    assert_eq!(verdict(&[b'a'; 255]), (5, 0));
    // The same with | between: 32 letters and 31 signs, then one more of each.
    assert_eq!(sizes(&["a"; 32].join("|")), (63, 0));
    assert_eq!(verdict(["a"; 33].join("|").as_bytes()), (5, 0));
}

#[test]
fn over_7_special_nodes_is_6() {
    assert_eq!(sizes("!!!!!!!a"), (8, 7));
    assert_eq!(verdict(b"!!!!!!!!a"), (6, 0));
    assert_eq!(sizes("a&a&a&a&a&a&a&a"), (15, 7));
    assert_eq!(verdict(b"a&a&a&a&a&a&a&a&a"), (6, 0));
    assert_eq!(sizes("!a&!a&!a&!a"), (11, 7));
    assert_eq!(verdict(b"!a&!a&!a&!!a"), (6, 0));
}

#[test]
fn refusal_4_comes_before_5_and_6_and_5_before_6() {
    assert_eq!(verdict(format!("{}|", "a".repeat(33)).as_bytes()), (4, 34));
    assert_eq!(verdict(b"!!!!!!!!"), (4, 8));
    assert_eq!(verdict(b"!!!!!!!!a)"), (4, 9));
    assert_eq!(
        verdict(format!("!!!!!!!!{}", "a".repeat(33)).as_bytes()),
        (5, 0)
    );
}

/// Writes a tree and notes the record of each node as its text is written.
struct Writer<'a> {
    kinds: &'a [Kind],
    /// Parentheses around every part, or only where document 01's order of tightness asks for them.
    everywhere: bool,
    /// Brackets around every set, or only where neither a letter nor a dot will do.
    brackets: bool,
    text: Vec<u8>,
    nodes: Vec<Node>,
}

impl Writer<'_> {
    fn part(&mut self, node: usize, least: usize) {
        let tightness = match self.kinds[node] {
            Kind::Union(..) => 0,
            Kind::Intersection(..) => 1,
            Kind::Concatenation(..) => 2,
            Kind::Complement(_) => 3,
            Kind::Star(_) => 4,
            Kind::NoWord | Kind::EmptyWord | Kind::OneOf(_) => 5,
        };
        if self.everywhere || tightness < least {
            self.text.push(b'(');
            self.bare(node);
            self.text.push(b')');
        } else {
            self.bare(node);
        }
    }

    fn bare(&mut self, node: usize) {
        let kind = self.kinds[node];
        let offset = match kind {
            Kind::NoWord => self.sign(b"0"),
            Kind::EmptyWord => self.sign(b"1"),
            Kind::OneOf(set) => self.set(set),
            Kind::Union(left, right) => self.sides((left, 0), b"|", (right, 1)),
            Kind::Intersection(left, right) => self.sides((left, 1), b"&", (right, 2)),
            Kind::Concatenation(left, right) => self.sides((left, 2), b"", (right, 3)),
            Kind::Complement(inner) => {
                let offset = self.sign(b"!");
                self.part(inner, 3);
                offset
            }
            Kind::Star(inner) => {
                self.part(inner, 5);
                self.sign(b"*")
            }
        };
        self.nodes.push(Node { offset, kind });
    }

    /// A letter alone or in brackets, all letters as a dot or in brackets, others in brackets.
    fn set(&mut self, set: Set) -> usize {
        let letters: Vec<u8> = set.letters().collect();
        match letters.len() {
            1 if !self.brackets => self.sign(&letters),
            52 if !self.brackets => self.sign(b"."),
            _ => self.sign(&[b"[", &letters[..], b"]"].concat()),
        }
    }

    fn sides(&mut self, left: (usize, usize), sign: &[u8], right: (usize, usize)) -> usize {
        self.part(left.0, left.1);
        let offset = self.sign(sign);
        self.part(right.0, right.1);
        offset
    }

    fn sign(&mut self, sign: &[u8]) -> usize {
        self.text.extend_from_slice(sign);
        self.text.len() - sign.len()
    }
}

#[test]
fn a_written_tree_reads_back() {
    let mut random = Random::new(1);
    let mut too_long = 0;
    for round in 0..20_000 {
        let nodes = 1 + random.below(64);
        let kinds = grow_tree(&mut random, b"azAZ", nodes, 7);
        assert_eq!(kinds.len(), nodes);
        let everywhere = round % 2 == 0;
        let mut writer = Writer {
            kinds: &kinds,
            everywhere,
            brackets: round % 3 == 0,
            text: vec![],
            nodes: vec![],
        };
        writer.part(kinds.len() - 1, 0);
        if writer.text.len() > 255 {
            too_long += 1;
            continue;
        }
        let expected = Rule {
            nodes: writer.nodes,
        };
        assert_eq!(
            read(&writer.text),
            Ok(expected),
            "{}",
            writer.text.escape_ascii()
        );
    }
    assert!(too_long < 5_000, "{too_long}");
}

#[test]
fn a_random_text_reads_back_to_its_tree() {
    let mut random = Random::new(14);
    for _ in 0..5_000 {
        let nodes = 1 + random.below(30);
        let kinds = grow_tree(&mut random, b"azAZ", nodes, 7);
        let text = write_tree(&mut random, &kinds);
        let rule = read(&text).unwrap();
        let read_kinds: Vec<Kind> = rule.nodes.iter().map(|node| node.kind).collect();
        assert_eq!(read_kinds, kinds, "{}", text.escape_ascii());
    }
}
