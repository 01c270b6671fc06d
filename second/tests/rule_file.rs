//! Rule files, sentence by sentence of document 02 b): numbers, places, sizes and offsets.

#[path = "common/records.rs"]
mod records;

use records::records_of;
use second::generate::{grow_tree, write_tree};
use second::limits::LETTERS;
use second::random::Random;
use second::rule::{self, read_sentence, Kind, Node, Rule};
use second::rule_file::{read, Line};
use second::rule_file_chains::{letter_at, Chain, DEEPEST};
use second::rule_file_lines::good_lines;
use second::set::Set;
use second::shape::Shape;

/// A file as the issue writes it down: an arrow for a tab, a slash for a newline.
fn file(text: &str) -> Vec<u8> {
    text.replace('→', "\t").replace('/', "\n").into()
}

/// Number and place; 0 and 0 if accepted.
fn verdict(file: &[u8]) -> (u32, usize) {
    read(file).map_or_else(|refusal| (refusal.number(), refusal.place), |_| (0, 0))
}

/// Checks number and place of files.
fn check(cases: &[(&str, (u32, usize))]) {
    for (text, expected) in cases {
        assert_eq!(verdict(&file(text)), *expected, "{text}");
    }
}

/// A file whose first line has the name `x` and stands for a letter, and whose second has a rule.
fn second_rule(rule: &str) -> Vec<u8> {
    [file("R→x→a/R→y→"), rule.into(), b"\n".to_vec()].concat()
}

/// The records of a line as sign and offset, a dot for concatenation.
fn records(line: &Line) -> String {
    records_of(&line.rule)
}

/// The records of each line of an accepted file.
fn all_records(text: &str) -> Vec<String> {
    read(&file(text)).unwrap().iter().map(records).collect()
}

#[test]
fn the_issue_s_own_files() {
    let lines = all_records("R→x→a|b/R→y→<x>c/");
    assert_eq!(lines, ["a0 b2 |1", "a1 b3 |2 c5 .5"]);
    let lines = all_records("R→x→a/R→y→!<x>&<x><x>*/");
    assert_eq!(lines, ["a0", "a2 !0 a6 a9 *11 .8 &4"]);
    let sizes = |text: &str| {
        let lines = read(&file(text)).unwrap();
        let last = lines.last().unwrap();
        (last.rule.m(), last.rule.k())
    };
    assert_eq!(sizes("R→x→a|b/R→y→<x>c/"), (5, 0));
    assert_eq!(sizes("R→x→a/R→y→!<x>&<x><x>*/"), (7, 2));
    check(&[
        ("R→x→aaaaaaaa/R→y→<x><x><x><x>/R→z→<y><y>/", (5, 3)),
        ("R→x→a/R→x→)/", (18, 2)),
    ]);
}

#[test]
fn a_file_has_1_to_16_lines() {
    assert_eq!(verdict(b""), (16, 1));
    for lines in 1..=16 {
        assert_eq!(read(&good_lines(lines)).unwrap().len(), lines);
    }
    for byte in 0..=255 {
        let file = [&good_lines(16)[..], &[byte]].concat();
        assert_eq!(verdict(&file), (19, 17), "byte {byte}");
    }
    // Nothing else of the 17th line is looked at, but all lines before it are.
    let more = |line: &str| [good_lines(16), file(line)].concat();
    assert_eq!(verdict(&more("R→la→)/R→")), (19, 17));
    let bad_last = [good_lines(15), file("R→x→)/R")].concat();
    assert_eq!(verdict(&bad_last), (4, 16));
}

#[test]
fn a_line_is_r_tab_name_tab_rule_newline() {
    check(&[
        ("R→x→a/", (0, 0)),
        ("R→x→a", (16, 1)),
        ("R→x→", (16, 1)),
        ("R→x/", (16, 1)),
        ("R/", (16, 1)),
        ("/", (16, 1)),
        ("r→x→a/", (16, 1)),
        ("E→x→a/", (16, 1)),
        ("→x→a/", (16, 1)),
        ("R x→a/", (16, 1)),
        ("R→x a/", (16, 1)),
        (" R→x→a/", (16, 1)),
        ("R→→x→a/", (16, 1)),
        ("R→x→a//", (16, 2)),
        ("R→x→a/R→y→b", (16, 2)),
        ("R→x→a/R", (16, 2)),
        ("R→x→a/\0", (16, 2)),
        // The rule is every byte up to the newline.
        ("R→x→→a/", (3, 1)),
        ("R→x→a→b/", (3, 1)),
        ("R→x→a→/", (3, 1)),
        ("R→x→a\r/", (3, 1)),
        ("R→x→\0/", (3, 1)),
    ]);
}

#[test]
fn a_name_is_1_to_12_small_letters() {
    check(&[
        ("R→→a/", (16, 1)),
        ("R→a→a/", (0, 0)),
        ("R→abcdefghijkl→a/", (0, 0)),
        ("R→abcdefghijklm→a/", (16, 1)),
        ("R→X→a/", (16, 1)),
        ("R→xX→a/", (16, 1)),
        ("R→x1→a/", (16, 1)),
        ("R→<x>→a/", (16, 1)),
        ("R→x →a/", (16, 1)),
        ("R→x\0→a/", (16, 1)),
    ]);
    for byte in (0..=255u8).filter(|byte| !b"\t\n".contains(byte)) {
        let is_small = byte.is_ascii_lowercase();
        let expected = if is_small { (0, 0) } else { (16, 1) };
        let alone = [b"R\t", &[byte][..], b"\ta\n"].concat();
        assert_eq!(verdict(&alone), expected, "byte {byte}");
        let last = [b"R\tabc", &[byte][..], b"\ta\n"].concat();
        assert_eq!(verdict(&last), expected, "byte {byte}");
    }
}

#[test]
fn a_name_stands_for_an_earlier_rule_in_parentheses() {
    let line = |text: &str| all_records(text).pop().unwrap();
    assert_eq!(line("R→x→a|b/R→y→c<x>*/"), "c0 a2 b4 |3 *6 .1");
    assert_eq!(line("R→x→ab/R→y→!<x>/"), "a2 b3 .3 !0");
    assert_eq!(line("R→x→a/R→y→<x>/"), "a1");
    assert_eq!(line("R→x→a/R→y→(<x>)/"), "a2");
    assert_eq!(line("R→x→(a)/R→y→<x><x>/"), "a2 a7 .5");
    // What is put in is the earlier rule's text after replacement.
    assert_eq!(line("R→x→a/R→y→<x>b/R→z→c<y>/"), "c0 a3 b5 .5 .1");
    assert_eq!(line("R→x→a/R→y→<x>/R→z→<y>/"), "a2");
}

#[test]
fn a_line_uses_only_names_above_it() {
    check(&[
        ("R→x→<x>/", (17, 1)),
        ("R→x→<y>/R→y→a/", (17, 1)),
        ("R→x→a/R→y→<y>/", (17, 2)),
        ("R→x→a/R→y→<z>/R→z→<x>/", (17, 2)),
        ("R→ab→a/R→y→<a>/", (17, 2)),
        ("R→ab→a/R→y→<abc>/", (17, 2)),
        ("R→a→x/R→ab→y/R→abc→<a><ab>/", (0, 0)),
        ("R→x→a/R→y→<x><x>/R→z→<x><y>/", (0, 0)),
    ]);
    assert_eq!(
        all_records("R→a→x/R→ab→y/R→c→<ab><a>/").pop().unwrap(),
        "y1 x4 .3"
    );
}

#[test]
fn a_malformed_name_is_no_sentence() {
    let malformed = [
        "<",
        ">",
        "<>",
        "><",
        "<x",
        "x>",
        "a<",
        "a>",
        "<X>",
        "<x1>",
        "<1>",
        "<<x>>",
        "<<x>",
        "<x>>",
        "<x<x>>",
        "<(x)>",
        "<x|x>",
        "<x*>",
        "<abcdefghijklm>",
        "<x><",
        "<x>x>",
        "<!x>",
    ];
    for rule in malformed {
        assert_eq!(verdict(&second_rule(rule)), (4, 2), "{rule}");
    }
    // These are no part of the list at all.
    for rule in ["<x >", "<x2>", "<x\0>", "< x>", "<x_>"] {
        assert_eq!(verdict(&second_rule(rule)), (3, 2), "{rule}");
    }
    assert_eq!(verdict(&second_rule("<abcdefghijkl>")), (17, 2));
}

#[test]
fn a_name_is_an_operand_whatever_it_stands_for() {
    let no_sentences = ["<x>|", "|<x>", "(<x>", "<x>)", "<x>&|<x>", "<x>!", "*<x>"];
    for rule in no_sentences {
        assert_eq!(verdict(&second_rule(rule)), (4, 2), "{rule}");
        let unknown = rule.replace("<x>", "<zz>");
        assert_eq!(verdict(&second_rule(&unknown)), (4, 2), "{unknown}");
    }
    for rule in ["<x>*", "!<x>", "<x><x>", "(<x>)", "a<x>b", "<x>|<x>&!<x>*"] {
        assert_eq!(verdict(&second_rule(rule)), (0, 0), "{rule}");
        let unknown = rule.replace("<x>", "<zz>");
        assert_eq!(verdict(&second_rule(&unknown)), (17, 2), "{unknown}");
    }
}

#[test]
fn the_255_bytes_are_those_written() {
    let enclosed =
        |inner: &str, depth: usize| ["(".repeat(depth), inner.into(), ")".repeat(depth)].concat();
    for (depth, expected) in [(126, (0, 0)), (127, (2, 2))] {
        assert_eq!(verdict(&second_rule(&enclosed("<x>", depth))), expected);
    }
    // 256 bytes of which 58 would be left.
    let long_name = format!("R→abcdefghijkl→a/R→y→{}(b)*/", "<abcdefghijkl>".repeat(18));
    assert_eq!(verdict(&file(&long_name)), (2, 2));
    let one_less = long_name.replace("(b)*", "(b)");
    assert_eq!(verdict(&file(&one_less)), (0, 0));
}

#[test]
fn nodes_and_special_nodes_are_those_after_replacement() {
    let sixteen = "R→x→aaaaaaaaaaaaaaaa/";
    check(&[
        (&format!("{sixteen}R→y→<x><x>/"), (0, 0)),
        (&format!("{sixteen}R→y→(<x><x>)*/"), (0, 0)),
        (&format!("{sixteen}R→y→((<x><x>)*)*/"), (5, 2)),
        (&format!("{sixteen}R→y→<x><x>a/"), (5, 2)),
        ("R→x→!!!!!!!a/R→y→<x>/", (0, 0)),
        ("R→x→!!!!!!!a/R→y→!<x>/", (6, 2)),
        ("R→x→!a&!a/R→y→<x><x>/", (0, 0)),
        ("R→x→!a&!a/R→y→<x><x>&<x>/", (6, 2)),
        ("R→x→!!!!!!!a/R→y→<x>|<x>/", (6, 2)),
    ]);
    let doubled = |lines: usize| verdict(&Chain::of("a").then_often("??", lines - 1).file);
    assert_eq!(doubled(6), (0, 0));
    assert_eq!(doubled(7), (5, 7));
    let complements = |lines: usize| verdict(&Chain::of("a").then_often("!?", lines - 1).file);
    assert_eq!(complements(8), (0, 0));
    assert_eq!(complements(9), (6, 9));
}

#[test]
fn the_numbers_of_a_line_have_an_order() {
    let many = |sign: &str, times: usize| sign.repeat(times);
    let (long, nodes, special) = (many("a", 256), many("a", 33), many("!", 8));
    let cases = [
        // 16 before all others.
        ("R→x→)".to_string(), 16),
        ("r→x→)/".to_string(), 16),
        // 18 before those of the rule.
        ("R→x→/".to_string(), 18),
        (format!("R→x→{long}/"), 18),
        ("R→x→_/".to_string(), 18),
        ("R→x→)/".to_string(), 18),
        ("R→x→<z>/".to_string(), 18),
        (format!("R→x→{nodes}/"), 18),
        (format!("R→x→{special}a/"), 18),
        ("R→y→/".to_string(), 1),
        // 2 before 3, 4, 17, 5 and 6.
        (format!("R→y→{}/", many("_", 256)), 2),
        (format!("R→y→{}/", many(")", 256)), 2),
        (format!("R→y→{}/", many("<zz>", 64)), 2),
        (format!("R→y→{long}/"), 2),
        (format!("R→y→{}a/", many("!", 255)), 2),
        // 3 before 4, 17, 5 and 6.
        ("R→y→)_/".to_string(), 3),
        ("R→y→<z>_/".to_string(), 3),
        (format!("R→y→{nodes}_/"), 3),
        (format!("R→y→{special}a_/"), 3),
        // 4 before 17, 5 and 6.
        ("R→y→<z>)/".to_string(), 4),
        (format!("R→y→{nodes}|/"), 4),
        (format!("R→y→{special}/"), 4),
        (format!("R→y→{}|/", many("<x>", 40)), 4),
        // 17 before 5 and 6.
        (format!("R→y→{nodes}<z>/"), 17),
        (format!("R→y→<z>{nodes}/"), 17),
        (format!("R→y→{}<z>/", many("<x>", 40)), 17),
        (format!("R→y→{special}<z>/"), 17),
        // 5 before 6.
        (format!("R→y→{}a/", many("!", 64)), 5),
        (format!("R→y→{special}a/"), 6),
    ];
    for (line, number) in cases {
        let text = format!("R→x→aa/{line}");
        assert_eq!(verdict(&file(&text)), (number, 2), "{text}");
    }
}

#[test]
fn the_first_bad_line_wins_whoever_uses_it() {
    check(&[
        ("R→x→_/R→y→/", (3, 1)),
        ("R→x→a/R→y→<z>/R→y→/r", (17, 2)),
        ("R→x→a/R→y→)/R→z→<x>/", (4, 2)),
        ("R→x→a/R→y→<x>/R→y→a/R→z→<x>/", (18, 3)),
        ("R→x→a/R→y→!!!!!!!!a/R→z→<x>/", (6, 2)),
        ("R→x→a/r→y→a/R→z→<x>/", (16, 2)),
    ]);
}

#[test]
fn in_a_plain_rule_the_signs_of_a_name_stay_foreign() {
    for (text, place) in [("<x>", 0), ("a<", 1), (">", 0), ("a|b>", 3), (")<", 1)] {
        let refusal = rule::read(text.as_bytes()).unwrap_err();
        assert_eq!((refusal.number(), refusal.place), (3, place), "{text}");
    }
}

#[test]
fn texts_after_replacement_may_be_long() {
    let lines = read(&Chain::nested(b'a', DEEPEST).then(&"?".repeat(32)).file).unwrap();
    let [before, last] = &lines[14..] else {
        panic!("16 lines are read");
    };
    let nested = ["(".repeat(DEEPEST), "a".into(), ")".repeat(DEEPEST)].concat();
    assert_eq!(before.text, nested.as_bytes());
    assert_eq!(records(before), "a1905");
    assert_eq!(last.text, format!("({nested})").repeat(32).as_bytes());
    assert_eq!((last.text.len(), last.rule.m()), (122_016, 63));
    assert_eq!(last.rule.nodes[62].offset, 31 * 3_813);
    assert_eq!(last.rule.nodes[61].offset, 31 * 3_813 + 1_906);
    for offset in [65_534, 65_535, 65_536, 65_537] {
        let lines = read(&letter_at(offset)).unwrap();
        let nodes = &lines.last().unwrap().rule.nodes;
        let letter = nodes
            .iter()
            .find(|node| node.kind == Kind::OneOf(Set::of(b"b")));
        assert_eq!(letter.unwrap().offset, offset);
    }
    // Ten million bytes that are not wanted, because their nodes are too many.
    let long = Chain::nested(b'a', DEEPEST - 127).then(&"?".repeat(32));
    assert_eq!(verdict(&long.then(&"?".repeat(85)).file), (5, 16));
}

#[test]
fn a_file_of_a_million_bytes_is_refused() {
    let million = |text: &str| text.repeat(1_000_000 / text.len()).into_bytes();
    assert_eq!(verdict(&million("R")), (16, 1));
    assert_eq!(verdict(&million("\n")), (16, 1));
    assert_eq!(verdict(&million("R\tx\ta\n")), (18, 2));
    assert_eq!(
        verdict(&[b"R\tx\t", &million("a")[..], b"\n"].concat()),
        (2, 1)
    );
    assert_eq!(
        verdict(&[b"R\t", &million("x")[..], b"\ta\n"].concat()),
        (16, 1)
    );
    assert_eq!(verdict(&[good_lines(16), million("R")].concat()), (19, 17));
}

/// A sentence with so many parentheses around each leaf, and where its nodes then stand.
fn enclosed(text: &[u8], rule: &Rule, depth: usize) -> (Vec<u8>, Vec<Node>) {
    let leaves: Vec<_> = Shape::of(text).leaves().collect();
    let leaves_before = |at: usize| leaves.iter().filter(|leaf| leaf.start < at).count();
    let mut longer = Vec::new();
    let mut done = 0;
    for leaf in &leaves {
        longer.extend_from_slice(&text[done..leaf.start]);
        longer.extend(vec![b'('; depth]);
        longer.extend_from_slice(&text[leaf.clone()]);
        longer.extend(vec![b')'; depth]);
        done = leaf.end;
    }
    longer.extend_from_slice(&text[done..]);
    let moved = |node: &Node| {
        let has_no_sides = matches!(node.kind, Kind::NoWord | Kind::EmptyWord | Kind::OneOf(_));
        let inside = if has_no_sides { depth } else { 0 };
        Node {
            offset: node.offset + 2 * depth * leaves_before(node.offset) + inside,
            kind: node.kind,
        }
    };
    (longer, rule.nodes.iter().map(moved).collect())
}

#[test]
fn parentheses_change_nothing_but_offsets() {
    let mut random = Random::new(21);
    for round in 0..400 {
        let nodes = 1 + random.below(64);
        let tree = grow_tree(&mut random, LETTERS, nodes, 7);
        let text = write_tree(&mut random, &tree);
        let rule = read_sentence(&text).unwrap();
        let kinds: Vec<Kind> = rule.nodes.iter().map(|node| node.kind).collect();
        assert_eq!(kinds, tree);
        let depth = if round % 20 == 0 {
            2_000
        } else {
            random.below(9)
        };
        let (longer, nodes) = enclosed(&text, &rule, depth);
        assert_eq!(read_sentence(&longer), Ok(Rule { nodes }));
    }
}

/// A file's text after replacement by nothing but searching and replacing.
fn replaced_by_search(file: &[u8]) -> Vec<String> {
    let mut texts: Vec<(String, String)> = Vec::new();
    for line in String::from_utf8(file.to_vec()).unwrap().lines() {
        let fields: Vec<&str> = line.split('\t').collect();
        let mut text = fields[2].to_string();
        for (name, earlier) in &texts {
            text = text.replace(&format!("<{name}>"), &format!("({earlier})"));
        }
        texts.push((fields[1].to_string(), text));
    }
    texts.into_iter().map(|(_, text)| text).collect()
}

#[test]
fn random_files_are_read_as_what_they_stand_for() {
    let mut random = Random::new(22);
    let (mut compared, mut with_names) = (0, 0);
    for _ in 0..3_000 {
        let file = second::compare::random_rule_files::file(&mut random);
        let Ok(lines) = read(&file) else {
            continue;
        };
        for (line, text) in lines.iter().zip(replaced_by_search(&file)) {
            assert_eq!(line.text, text.as_bytes());
            if text.len() <= 255 {
                assert_eq!(rule::read(text.as_bytes()).as_ref(), Ok(&line.rule));
                compared += 1;
            }
        }
        with_names += usize::from(file.contains(&b'<'));
    }
    assert!(
        compared > 3_000 && with_names > 500,
        "{compared} {with_names}"
    );
}
