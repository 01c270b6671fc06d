//! Sets of letters, sentence by sentence of document 02 e): numbers, places, nodes and spans.

use second::day;
use second::generate::{alphabet, grow_tree, word, write_tree};
use second::job::output;
use second::judge::{judge, Answer};
use second::language::spans_of_nodes;
use second::random::Random;
use second::rule::{read, Kind, Node, Rule};
use second::rule_file;
use second::set::Set;

/// The letters in byte order.
const LETTERS: &[u8; 52] = b"ABCDEFGHIJKLMNOPQRSTUVWXYZabcdefghijklmnopqrstuvwxyz";

/// Number and place; 0 and 0 if accepted.
fn verdict(text: &[u8]) -> (u32, usize) {
    read(text).map_or_else(|refusal| (refusal.number(), refusal.place), |_| (0, 0))
}

/// Number and place of a rule file; 0 and 0 if accepted.
fn file_verdict(file: &str) -> (u32, usize) {
    let read = rule_file::read(file.as_bytes());
    read.map_or_else(|refusal| (refusal.number(), refusal.place), |_| (0, 0))
}

/// A node that is one of these letters.
fn one_of(offset: usize, letters: &[u8]) -> Node {
    let kind = Kind::OneOf(Set::of(letters));
    Node { offset, kind }
}

/// Offset and kind of each node, where the only operators are concatenations.
fn check_joined(text: &str, sets: &[(usize, &str)]) {
    let mut nodes = Vec::new();
    for (at, &(offset, letters)) in sets.iter().enumerate() {
        nodes.push(one_of(offset, letters.as_bytes()));
        if at > 0 {
            let kind = Kind::Concatenation(nodes.len() - 2, nodes.len() - 1);
            nodes.push(Node { offset, kind });
        }
    }
    assert_eq!(read(text.as_bytes()), Ok(Rule { nodes }), "{text}");
}

/// The answer without a limit that matters, and the needed numbers of the table.
fn judged(rule: &[u8], word: &[u8]) -> (Answer, Vec<u64>) {
    let special = rule.iter().filter(|byte| b"&!".contains(byte)).count();
    let mut table = vec![0; (special + 1) * (word.len() + 1) * 4];
    let answer = judge(rule, word, u64::MAX, &mut table);
    (answer, table)
}

/// The spans of a short word whose bit is 1 in the first block.
fn spans(rule: &str, word: &str) -> Vec<(usize, usize)> {
    let (answer, table) = judged(rule.as_bytes(), word.as_bytes());
    assert_eq!(answer.number, 0, "{rule}");
    let n = word.len();
    let all = (0..=n).flat_map(|i| (i..=n).map(move |j| (i, j)));
    all.filter(|&(i, j)| table[4 * i] >> j & 1 == 1).collect()
}

#[test]
fn brackets_are_one_node_that_fits_any_of_the_letters_inside() {
    check_joined("[abc]", &[(0, "abc")]);
    assert_eq!(spans("[abc]", "adcbA"), [(0, 1), (2, 3), (3, 4)]);
    assert_eq!(spans("[ac]", "abc"), [(0, 1), (2, 3)]);
    assert_eq!(spans("[Za]", "YZab"), [(1, 2), (2, 3)]);
    for &letter in LETTERS {
        for &event in LETTERS {
            let found = u64::from(event == letter || event == b'q');
            let mut letters = [letter, b'q'];
            letters.sort();
            let text = match letter {
                b'q' => b"[q]".to_vec(),
                _ => [b"[", &letters[..], b"]"].concat(),
            };
            assert_eq!(judged(&text, &[event]).0.found, found);
        }
    }
}

#[test]
fn a_dot_is_one_node_for_all_52() {
    let all = std::str::from_utf8(LETTERS).unwrap();
    check_joined(".", &[(0, all)]);
    check_joined("a.", &[(0, "a"), (1, all)]);
    let each: Vec<(usize, usize)> = (0..52).map(|i| (i, i + 1)).collect();
    assert_eq!(spans(".", all), each);
    assert_eq!(spans(".", ""), []);
    assert_eq!(spans("!(.*)", "aZ"), []);
    let in_brackets = format!("[{all}]");
    assert_eq!(read(in_brackets.as_bytes()), read(b"."));
}

#[test]
fn number_3_no_longer_covers_the_new_signs() {
    for text in [&b"["[..], b"]", b".", b"a[", b"a]b", b"[]", b"].["] {
        assert_ne!(verdict(text).0, 3, "{}", text.escape_ascii());
    }
    // But these it still does, in brackets too.
    assert_eq!(verdict(b"[a-c]"), (3, 2));
    assert_eq!(verdict(b"[^a]"), (3, 1));
    assert_eq!(verdict(b"[\\]"), (3, 1));
    assert_eq!(verdict(b"[a b]"), (3, 2));
    assert_eq!(verdict(b"[<a>]"), (3, 1));
    assert_eq!(verdict(b"[][]_"), (3, 4));
    assert_eq!(verdict(b"[ba]-"), (3, 4));
    assert_eq!(file_verdict("R\tx\t[a-c]\n"), (3, 1));
    assert_eq!(file_verdict("R\tx\t[^a]\n"), (3, 1));
}

#[test]
fn the_new_signs_are_no_events() {
    for byte in *b"[]." {
        let (answer, _) = judged(b"[ab]", &[b'a', byte]);
        assert_eq!((answer.number, answer.place), (8, 1));
        let line = [b"E\t0\t", &[byte][..], b"\n"].concat();
        let refusal = day::read(&line, &mut [0], &mut [0]).unwrap_err();
        assert_eq!((refusal.number(), refusal.place), (12, 1));
    }
}

#[test]
fn a_single_letter_is_a_set_of_one() {
    for &letter in LETTERS {
        let plain = read(&[letter]).unwrap();
        assert_eq!(plain.nodes, [one_of(0, &[letter])]);
        assert_eq!(read(&[b'[', letter, b']']), Ok(plain));
    }
}

#[test]
fn any_letters_in_brackets_make_a_sentence_and_nothing_else_does() {
    for text in ["[ba]", "[aa]", "[zyx]", "[aAbB]"] {
        assert_eq!(verdict(text.as_bytes()).0, 20, "{text}");
    }
    let no_sentences = [
        ("[]", 1),
        ("[a", 2),
        ("[", 1),
        ("]", 0),
        ("[.]", 1),
        ("[a|b]", 2),
        ("[ba]|", 5),
        ("[0]", 1),
        ("[a1]", 2),
        ("[[a]]", 1),
        ("[a[b]]", 2),
        ("[a*]", 2),
        ("[!a]", 1),
        ("[(a)]", 1),
        ("a]", 1),
        ("[a]]", 3),
        ("[ab]cd]", 6),
        ("([ab]", 5),
        ("([a)]", 3),
        ("x[ab]|[", 7),
        ("*[ab]", 0),
        // What fails before brackets comes first.
        (")[", 0),
        ("a||[]", 2),
        ("[]||", 1),
    ];
    for (text, place) in no_sentences {
        assert_eq!(verdict(text.as_bytes()), (4, place), "{text}");
    }
    assert_eq!(verdict(&[b'['; 255]), (4, 1));
    assert_eq!(verdict(&[&b"["[..], &[b'a'; 254]].concat()), (4, 255));
}

#[test]
fn a_set_has_the_offset_of_its_first_byte_and_so_has_what_joins_it() {
    check_joined("x[ab]", &[(0, "x"), (1, "ab")]);
    check_joined("[ab]x", &[(0, "ab"), (4, "x")]);
    check_joined("[ab][cd]e[f]", &[(0, "ab"), (4, "cd"), (8, "e"), (9, "f")]);
    let nodes = |text: &str| read(text.as_bytes()).unwrap().nodes;
    let offsets =
        |text: &str| -> Vec<usize> { nodes(text).iter().map(|node| node.offset).collect() };
    assert_eq!(offsets("![ab]*"), [1, 5, 0]);
    assert_eq!(offsets("c([ab])"), [0, 2, 1]);
    assert_eq!(offsets("[ab]|[cd]&.!."), [0, 5, 10, 12, 11, 11, 9, 4]);
}

#[test]
fn letters_that_do_not_rise_are_20_at_the_first_such_letter() {
    let fallen = [
        ("[ba]", 2),
        ("[aa]", 2),
        ("[aZ]", 2),
        ("[zZ]", 2),
        ("x[ab][ba]", 7),
        ("[abb]", 3),
        ("[abca]", 4),
        ("[cba]", 2),
        ("[ab][ba][ba]", 6),
        ("[a][aa]", 5),
        ("ba[ab][cc]", 8),
        ("((([dc])))", 5),
    ];
    for (text, place) in fallen {
        assert_eq!(verdict(text.as_bytes()), (20, place), "{text}");
    }
    // Capitals are below small letters, and letters in other brackets or in none do not count.
    for text in [
        "[Za]", "[AZaz]", "[b][a]", "[ab][ab]", "ba", "b[a]", "[b]a", "[ab]ba",
    ] {
        assert_eq!(verdict(text.as_bytes()), (0, 0), "{text}");
    }
    for at in 0..51 {
        let mut letters = *LETTERS;
        letters.swap(at, at + 1);
        let text = [b"[", &letters[..], b"]"].concat();
        assert_eq!(verdict(&text), (20, at + 2));
    }
}

#[test]
fn every_two_letters_in_brackets() {
    for one in 0..=255u8 {
        for two in 0..=255u8 {
            let is_letter = |byte: u8| byte.is_ascii_alphabetic();
            let is_listed = |byte: u8| is_letter(byte) || b"01|&!*()[].".contains(&byte);
            let expected = if !is_listed(one) {
                (3, 1)
            } else if !is_listed(two) {
                (3, 2)
            } else if !is_letter(one) {
                // The brackets of `[]a]` are empty, and so on.
                (4, 1)
            } else if two == b']' {
                (4, 3)
            } else if !is_letter(two) {
                (4, 2)
            } else if two <= one {
                (20, 2)
            } else {
                (0, 0)
            };
            let text = [b'[', one, two, b']'];
            assert_eq!(verdict(&text), expected, "{}", text.escape_ascii());
        }
    }
}

#[test]
fn number_20_comes_after_4_and_before_5_and_6() {
    let many = |sign: &str, times: usize| sign.repeat(times);
    let (nodes, special) = (many("a", 33), many("!", 8));
    let cases = [
        ("[ba]|".to_string(), (4, 5)),
        ("[ba".to_string(), (4, 3)),
        ("[aa])".to_string(), (4, 4)),
        ("[ba][]".to_string(), (4, 5)),
        (format!("{nodes}[ba]"), (20, 35)),
        (format!("[ba]{nodes}"), (20, 2)),
        (many("[ba]", 33), (20, 2)),
        (format!("{special}[ba]"), (20, 10)),
        (format!("{special}{nodes}[aa]"), (20, 43)),
        (format!("{nodes}[ab]"), (5, 0)),
        (format!("{special}[ab]"), (6, 0)),
        (many("[ba]", 64), (2, 0)),
    ];
    for (text, expected) in cases {
        assert_eq!(verdict(text.as_bytes()), expected, "{text}");
    }
}

#[test]
fn a_set_is_one_of_the_64_nodes() {
    let sizes = |text: &str| read(text.as_bytes()).map(|rule| (rule.m(), rule.k()));
    assert_eq!(sizes(&"[ab]".repeat(32)), Ok((63, 0)));
    assert_eq!(sizes(&format!("{}*", "[ab]".repeat(32))), Ok((64, 0)));
    assert_eq!(verdict("[ab]".repeat(33).as_bytes()), (5, 0));
    assert_eq!(sizes(&".".repeat(32)), Ok((63, 0)));
    assert_eq!(verdict(".".repeat(33).as_bytes()), (5, 0));
    assert_eq!(sizes("!!!!!!!."), Ok((8, 7)));
}

#[test]
fn the_walk_moves_if_the_next_event_is_in_the_set() {
    let count = |rule: &str, word: &str| judged(rule.as_bytes(), word.as_bytes()).0.count;
    // The entry at each start, and the exit where the event fits.
    assert_eq!(count("[ab]", "ab"), 5);
    assert_eq!(count("[ab]", "ac"), 4);
    assert_eq!(count("[bc]", "a"), 2);
    assert_eq!(count(".", "aZ"), 5);
    assert_eq!(count(".", ""), 1);
    // As many as for a plain letter that fits as often.
    assert_eq!(count("[ab]*", "ab"), count("a*", "aa"));
    assert_eq!(count("![ab]", "c"), count("!a", "b"));
}

/// A tree in which each set is written out as a union of its letters, grouped from the left.
fn written_out(kinds: &[Kind]) -> Rule {
    let mut all: Vec<Kind> = Vec::new();
    let mut heads: Vec<usize> = Vec::new();
    for &kind in kinds {
        let head = |side: usize| heads[side];
        let kind = match kind {
            Kind::OneOf(set) => {
                let mut letters = set.letters();
                let letter = |letter: u8| Kind::OneOf(Set::of(&[letter]));
                let mut union = letter(letters.next().unwrap());
                for next in letters {
                    all.extend([union, letter(next)]);
                    union = Kind::Union(all.len() - 2, all.len() - 1);
                }
                union
            }
            Kind::Union(a, b) => Kind::Union(head(a), head(b)),
            Kind::Intersection(a, b) => Kind::Intersection(head(a), head(b)),
            Kind::Concatenation(a, b) => Kind::Concatenation(head(a), head(b)),
            Kind::Complement(a) => Kind::Complement(head(a)),
            Kind::Star(a) => Kind::Star(head(a)),
            Kind::NoWord | Kind::EmptyWord => kind,
        };
        all.push(kind);
        heads.push(all.len() - 1);
    }
    let nodes = all.into_iter().map(|kind| Node { offset: 0, kind });
    Rule {
        nodes: nodes.collect(),
    }
}

#[test]
fn a_set_has_the_spans_of_the_union_of_its_letters() {
    let mut random = Random::new(31);
    let mut longer = 0;
    for _ in 0..1_500 {
        let letters = alphabet(&mut random);
        let nodes = 1 + random.below(24);
        let tree = grow_tree(&mut random, letters, nodes, 5);
        let word = word(&mut random, letters, 7);
        let rule = read(&write_tree(&mut random, &tree)).unwrap();
        let union = written_out(&tree);
        longer += usize::from(union.m() > rule.m());
        let (one, other) = (spans_of_nodes(&rule, &word), spans_of_nodes(&union, &word));
        assert_eq!(one[rule.head()], other[union.head()], "{rule:?}");
    }
    assert!(longer > 500, "{longer}");
}

#[test]
fn brackets_around_each_letter_change_nothing_but_offsets() {
    let mut random = Random::new(32);
    for _ in 0..1_500 {
        let letters = alphabet(&mut random);
        let nodes = 1 + random.below(40);
        let mut tree = grow_tree(&mut random, letters, nodes, 7);
        for kind in &mut tree {
            if let Kind::OneOf(_) = kind {
                *kind = Kind::OneOf(Set::of(&[random.pick(letters)]));
            }
        }
        let plain = write_tree(&mut random, &tree);
        let in_brackets = |&byte: &u8| match byte {
            b'A'..=b'Z' | b'a'..=b'z' => vec![b'[', byte, b']'],
            _ => vec![byte],
        };
        let with_brackets: Vec<u8> = plain.iter().flat_map(in_brackets).collect();
        let [rule, with] = [&plain, &with_brackets].map(|text| read(text).unwrap());
        let letters_before = |at: usize| {
            plain[..at]
                .iter()
                .filter(|byte| byte.is_ascii_alphabetic())
                .count()
        };
        for (one, other) in rule.nodes.iter().zip(&with.nodes) {
            assert_eq!(one.kind, other.kind);
            assert_eq!(one.offset + 2 * letters_before(one.offset), other.offset);
        }
        assert_eq!(rule.m(), with.m());
        let word = word(&mut random, letters, 9);
        assert_eq!(judged(&plain, &word), judged(&with_brackets, &word));
    }
}

#[test]
fn a_job_takes_sets() {
    let day = "E\t0\ta\nE\t1\tZ\n";
    let printed = |rule: &str| output(format!("R\t{rule}\n{day}").as_bytes());
    assert_eq!(printed("[Za]"), "H\t2\t1\t0\t2\t5\nS\t0\t1\nS\t1\t2\n");
    assert_eq!(printed("."), "H\t2\t1\t0\t2\t5\nS\t0\t1\nS\t1\t2\n");
    assert_eq!(printed("[ab]"), "H\t2\t1\t0\t1\t4\nS\t0\t1\n");
    assert_eq!(printed("[aZ]"), "X\t20\t2\n");
    assert_eq!(printed("x[aa]"), "X\t20\t3\n");
    assert_eq!(printed("[]"), "X\t4\t1\n");
    assert_eq!(printed("[a"), "X\t4\t2\n");
    assert_eq!(printed("[a-z]"), "X\t3\t2\n");
    // A bad day comes later.
    assert_eq!(output(b"R\t[ba]\nE\n"), "X\t20\t2\n");
}

#[test]
fn in_a_rule_file_the_place_of_20_is_the_line() {
    assert_eq!(file_verdict("R\tx\t[ba]\n"), (20, 1));
    assert_eq!(file_verdict("R\tx\ta\nR\ty\t<x>[ba]\n"), (20, 2));
    assert_eq!(file_verdict("R\tx\ta\nR\ty\t[aa]\nR\tz\t<x>\n"), (20, 2));
    assert_eq!(file_verdict("R\tx\t[ab]\nR\ty\t<x>[bc].\n"), (0, 0));
    // The letters of names are in no brackets.
    assert_eq!(file_verdict("R\tba\ta\nR\ty\t[ab]<ba>\n"), (0, 0));
    for line in 1..=16 {
        let good = ('a'..='z').take(line - 1);
        let good: String = good.map(|name| format!("R\t{name}\t[ab].\n")).collect();
        let file = format!("{good}R\tlast\t[ba]\nR\tafter\t[ab]\n");
        assert_eq!(file_verdict(&file), (20, line));
    }
}

#[test]
fn in_a_rule_file_20_comes_after_4_and_17_and_before_5_and_6() {
    let many = |sign: &str, times: usize| sign.repeat(times);
    let (nodes, special) = (many("a", 33), many("!", 8));
    let cases = [
        ("[ba]_".to_string(), 3),
        ("[ba]|".to_string(), 4),
        ("[ba]<zz>)".to_string(), 4),
        ("[<x>]".to_string(), 4),
        ("[<zz>]".to_string(), 4),
        ("<[x]>".to_string(), 4),
        ("[x<x>]".to_string(), 4),
        ("[]".to_string(), 4),
        ("[ba]<zz>".to_string(), 17),
        ("<zz>[ba]".to_string(), 17),
        (format!("{nodes}[ba]<zz>"), 17),
        ("[ba]<x>".to_string(), 20),
        (format!("{nodes}[ba]"), 20),
        (format!("{}[ba]", many("<x>", 40)), 20),
        (format!("{special}[ba]"), 20),
        (format!("{special}{nodes}[aa]<x>"), 20),
        (format!("{nodes}[ab]"), 5),
        (format!("{}[ab]", many("<x>", 40)), 5),
        (format!("{special}[ab]"), 6),
        ("[ab]<x>".to_string(), 0),
    ];
    for (rule, number) in cases {
        let place = if number == 0 { 0 } else { 2 };
        let file = format!("R\tx\taa\nR\ty\t{rule}\n");
        assert_eq!(file_verdict(&file), (number, place), "{rule}");
    }
}

#[test]
fn a_name_may_stand_for_a_set() {
    let lines = rule_file::read(b"R\tx\t[ab]\nR\ty\tc<x>*.\n").unwrap();
    assert_eq!(lines[1].text, b"c([ab])*.");
    let nodes = lines[1].rule.nodes.iter();
    let offsets: Vec<usize> = nodes.map(|node| node.offset).collect();
    assert_eq!(offsets, [0, 2, 7, 1, 8, 8]);
    assert_eq!(lines[1].rule.nodes[1], one_of(2, b"ab"));
}
