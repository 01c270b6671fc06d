//! The command `edges` for the readers: answers that document 01 gives by hand, nothing left out.

use crate::{answered, cases, check_answer, letters_after, numbers, seconds_after, stream, Case};

/// The edges of both readers with their answers.
fn edges() -> Vec<(Case, String)> {
    let names = ["edges rules", "edges days"];
    names
        .map(|name| answered(&stream(name)))
        .into_iter()
        .flatten()
        .collect()
}

/// The answer to a rule text; it must be among the edges.
fn rule_answer(edges: &[(Case, String)], text: &[u8]) -> String {
    let found = edges
        .iter()
        .find(|(case, _)| case.is_rule() && case.bytes == text);
    let (_, line) = found.unwrap_or_else(|| panic!("no edge {}", text.escape_ascii()));
    line.clone()
}

/// The answer to a day with such buffers; it must be among the edges.
fn day_answer(edges: &[(Case, String)], day: &[u8], buffers: (usize, usize)) -> String {
    let found = edges
        .iter()
        .find(|(case, _)| !case.is_rule() && case.bytes == day && case.buffers() == buffers);
    let (_, line) = found.unwrap_or_else(|| panic!("no edge {}", day.escape_ascii()));
    line.clone()
}

/// The answer to a day with buffers that are longer than n, and their lengths.
fn answer_with_enough(edges: &[(Case, String)], day: &[u8]) -> (String, (usize, usize)) {
    let newlines = day.iter().filter(|&&byte| byte == b'\n').count();
    let buffers = (newlines + 1, newlines + 2);
    (day_answer(edges, day, buffers), buffers)
}

/// Checks that the texts are refused with this number at these places.
fn check_refused(number: usize, texts: &[(Vec<u8>, usize)]) {
    let edges = edges();
    for (text, place) in texts {
        let expected = format!("rule\t{number}\t{place}\t0\t0\t0\t0\t-");
        assert_eq!(
            rule_answer(&edges, text),
            expected,
            "{}",
            text.escape_ascii()
        );
    }
}

/// Checks m, k and the records of accepted texts.
fn check_readings(readings: &[(&str, &str)]) {
    let edges = edges();
    for (text, reading) in readings {
        let reading = reading.replace(' ', "\t");
        let expected = format!("rule\t0\t0\t0\t0\t{reading}");
        assert_eq!(rule_answer(&edges, text.as_bytes()), expected, "{text}");
    }
}

/// Checks m and k of accepted texts.
fn check_sizes(texts: &[(Vec<u8>, usize, usize)]) {
    let edges = edges();
    for (text, m, k) in texts {
        let line = rule_answer(&edges, text);
        let expected = format!("rule\t0\t0\t0\t0\t{m}\t{k}\t");
        assert!(line.starts_with(&expected), "{}", text.escape_ascii());
    }
}

/// Checks that the days, with buffers that are long enough, are refused like this.
fn check_refused_days(days: &[(&[u8], usize, usize)]) {
    let edges = edges();
    for (day, number, place) in days {
        let (line, buffers) = answer_with_enough(&edges, day);
        let letters = letters_after(b"", buffers.0);
        let seconds = seconds_after(&[], buffers.1);
        let expected = format!("day\t{number}\t{place}\t0\t0\t0\t{letters}\t{seconds}");
        assert_eq!(line, expected, "{}", day.escape_ascii());
    }
}

/// Parts so many times over, one after another.
fn text(parts: &[(&str, usize)]) -> Vec<u8> {
    let parts = parts.iter().map(|(part, times)| part.repeat(*times));
    parts.collect::<String>().into()
}

#[test]
fn the_known_days_rules_are_read() {
    check_readings(&[
        ("1", "1 0 0:1"),
        ("0", "1 0 0:0"),
        ("a", "1 0 0:a"),
        ("!a", "2 1 1:a;0:!"),
        ("!0", "2 1 1:0;0:!"),
        ("a*", "2 0 0:a;1:*"),
        ("a&a", "3 1 0:a;2:a;1:&"),
        (
            "(a&ab)(bc|c)",
            "11 1 1:a;3:a;4:b;4:.;2:&;7:b;8:c;8:.;10:c;9:|;6:.",
        ),
        (
            "a(bc|c)&ab(bc|c)",
            "17 1 0:a;2:b;3:c;3:.;5:c;4:|;1:.;8:a;9:b;9:.;11:b;12:c;12:.;14:c;13:|;10:.;7:&",
        ),
        ("!ab", "4 1 1:a;0:!;2:b;2:."),
        ("!(ab)", "4 1 2:a;3:b;3:.;0:!"),
        ("!a*", "3 1 1:a;2:*;0:!"),
        ("1*", "2 0 0:1;1:*"),
    ]);
}

#[test]
fn example_1_is_read() {
    let rule = "((ttt)*t&(tttt)*ttt)bt*".replace('t', "(a|b)");
    // The three records of a t, and those of a t that is joined to what stands before it.
    let t = |at: usize| format!("{}:a;{}:b;{}:|;", at + 1, at + 3, at + 2);
    let joined = |at: usize| format!("{}{at}:.;", t(at));
    let left = [t(2), joined(7), joined(12), "18:*;".into(), joined(19)].concat();
    let first = [t(26), joined(31), joined(36), joined(41), "47:*;".into()].concat();
    let right = [first, joined(48), joined(53), joined(58)].concat();
    let tail = format!("24:&;64:b;64:.;{}70:*;65:.", t(65));
    check_readings(&[(&rule, &format!("52 1 {left}{right}{tail}"))]);
}

#[test]
fn tightness_and_offsets_are_as_document_01_says() {
    check_readings(&[
        ("a(b)", "3 0 0:a;2:b;1:."),
        ("(a)b", "3 0 1:a;3:b;3:."),
        ("(a)(b)", "3 0 1:a;4:b;3:."),
        ("a((b))*", "4 0 0:a;3:b;6:*;1:."),
        ("a!b", "4 1 0:a;2:b;1:!;1:."),
        ("!(a)b", "4 1 2:a;0:!;4:b;4:."),
        ("(!a)b", "4 1 2:a;1:!;4:b;4:."),
        ("!(a*)", "3 1 2:a;3:*;0:!"),
        ("(!a)*", "3 1 2:a;1:!;4:*"),
        ("!!(a*)*", "5 2 3:a;4:*;6:*;1:!;0:!"),
        ("a*b*", "5 0 0:a;1:*;2:b;3:*;2:."),
        ("(a)*!!b", "6 2 1:a;3:*;6:b;5:!;4:!;4:."),
        ("(a|b)&!c*d", "9 2 1:a;3:b;2:|;7:c;8:*;6:!;9:d;9:.;5:&"),
        ("a|b&c", "5 1 0:a;2:b;4:c;3:&;1:|"),
        ("a&b|c", "5 1 0:a;2:b;1:&;4:c;3:|"),
        ("ab|c", "5 0 0:a;1:b;1:.;3:c;2:|"),
        ("a&bc", "5 1 0:a;2:b;3:c;3:.;1:&"),
        ("((((a))))", "1 0 4:a"),
    ]);
}

#[test]
fn two_sides_group_from_the_left() {
    check_readings(&[
        ("abc", "5 0 0:a;1:b;1:.;2:c;2:."),
        ("a(bc)", "5 0 0:a;2:b;3:c;3:.;1:."),
        ("(ab)c", "5 0 1:a;2:b;2:.;4:c;4:."),
        ("a|b|c", "5 0 0:a;2:b;1:|;4:c;3:|"),
        ("a|(b|c)", "5 0 0:a;3:b;5:c;4:|;1:|"),
        ("a&b&c", "5 2 0:a;2:b;1:&;4:c;3:&"),
        ("a&(b&c)", "5 2 0:a;3:b;5:c;4:&;1:&"),
    ]);
}

#[test]
fn an_empty_text_is_1_and_over_255_bytes_is_2() {
    check_refused(1, &[(vec![], 0)]);
    let texts = [
        text(&[("a", 256)]),
        text(&[("a", 257)]),
        text(&[("a", 300)]),
        text(&[("(", 256)]),
        text(&[(")", 256)]),
        text(&[("_", 256)]),
        text(&[("a", 255), ("_", 1)]),
        text(&[("(", 127), ("a", 1), (")", 127), ("*", 1)]),
        text(&[("(", 128), ("a", 1), (")", 128)]),
    ];
    check_refused(2, &texts.map(|text| (text, 0)));
}

#[test]
fn a_foreign_byte_is_3_at_the_first_one() {
    let texts: [(&[u8], usize); 10] = [
        (b"_", 0),
        (b"a_c@", 1),
        (b"ab\n", 2),
        (b"ab\0", 2),
        (b"\xc3\xa4", 0),
        (b")_", 1),
        (b"()()`", 4),
        (b"a||b/c", 4),
        (b")a)^)@", 3),
        (b"!!!!!!!!_", 8),
    ];
    check_refused(3, &texts.map(|(text, place)| (text.to_vec(), place)));
    check_refused(
        3,
        &[
            (text(&[("a", 254), ("2", 1)]), 254),
            (text(&[("a|", 127), ("_", 1)]), 254),
            (text(&[("a", 40), ("_)", 1)]), 40),
        ],
    );
}

#[test]
fn no_sentence_is_4_at_the_longest_beginning() {
    let texts = [
        (")", 0),
        ("(a", 2),
        ("a)", 1),
        ("()", 1),
        ("a|", 2),
        ("*", 0),
        ("|", 0),
        ("&", 0),
        ("!", 1),
        ("(", 1),
        ("a||b", 2),
        ("a!*b", 2),
        ("(a|)", 3),
        ("a()b", 2),
        ("(a)b)", 4),
        ("((a)b", 5),
        ("(a))(b", 3),
        ("a|b&", 4),
        ("ab!!", 4),
        ("!(!(", 4),
        ("(a|b))*", 5),
        ("a|(b&(c*)", 9),
        (")A", 0),
        ("A|B)Z", 3),
    ];
    check_refused(4, &texts.map(|(text, place)| (text.into(), place)));
    check_refused(
        4,
        &[
            (text(&[("(", 255)]), 255),
            (text(&[("!", 255)]), 255),
            (text(&[("|", 255)]), 0),
            (text(&[("*", 255)]), 0),
            (text(&[(")", 255)]), 0),
            (text(&[("(", 254), ("a", 1)]), 255),
            (text(&[("(", 254), (")", 1)]), 254),
            (text(&[("(", 126), ("a", 1), (")", 127)]), 253),
            (text(&[("(", 128), ("a", 1), (")", 126)]), 255),
            (text(&[("a", 254), ("|", 1)]), 255),
            (text(&[("a", 254), (")", 1)]), 254),
            (text(&[("a", 127), (")", 1)]), 127),
            (text(&[("(", 128), (")a", 1)]), 128),
            (text(&[("!", 129), ("*a", 1)]), 129),
        ],
    );
}

#[test]
fn refusal_4_comes_before_5_and_6() {
    check_refused(
        4,
        &[
            (text(&[("a", 33), ("|", 1)]), 34),
            (text(&[("a", 33), (")", 1)]), 33),
            (text(&[("(", 1), ("a", 33)]), 34),
            (text(&[("a", 100), ("|&", 1), ("a", 100)]), 101),
            (text(&[("a", 1), ("*", 70), ("(", 1)]), 72),
            (text(&[("!", 8)]), 8),
            (text(&[("!", 8), ("a)", 1)]), 9),
            (text(&[("a&", 9)]), 18),
            (text(&[("!", 8), ("a", 33), ("(", 1)]), 42),
        ],
    );
}

#[test]
fn over_64_nodes_is_5_and_before_6() {
    check_sizes(&[
        (text(&[("a", 32)]), 63, 0),
        (text(&[("a", 32), ("*", 1)]), 64, 0),
        (text(&[("(a)", 32)]), 63, 0),
        (text(&[("a|", 31), ("a", 1)]), 63, 0),
        (text(&[("(", 61), ("a*", 1), (")*", 61)]), 63, 0),
        (text(&[("(", 62), ("a*", 1), (")*", 62)]), 64, 0),
        (text(&[("!", 7), ("a", 29)]), 64, 7),
        (text(&[("(", 127), ("a", 1), (")", 127)]), 1, 0),
        (text(&[("(", 79), ("(a)", 32), (")", 79), ("*", 1)]), 64, 0),
        (b"abcdefghijklmnopqrstuvwxyz".to_vec(), 51, 0),
        (b"ABCDEFGHIJKLMNOPQRSTUVWXYZ".to_vec(), 51, 0),
    ]);
    let texts = [
        text(&[("a", 33)]),
        text(&[("(", 1), ("a", 32), ("*)*", 1)]),
        text(&[("(a)", 33)]),
        text(&[("a|", 32), ("a", 1)]),
        text(&[("(", 63), ("a*", 1), (")*", 63)]),
        text(&[("!", 7), ("a", 30)]),
        text(&[("!", 8), ("a", 29)]),
        text(&[("!", 8), ("a", 33)]),
        text(&[("!", 64), ("a", 1)]),
        text(&[("a&", 40), ("a", 1)]),
        text(&[("a", 255)]),
        text(&[("!", 254), ("a", 1)]),
        text(&[("a|", 127), ("a", 1)]),
    ];
    check_refused(5, &texts.map(|text| (text, 0)));
}

#[test]
fn over_7_special_nodes_is_6() {
    check_readings(&[("!!!!!!!a", "8 7 7:a;6:!;5:!;4:!;3:!;2:!;1:!;0:!")]);
    check_sizes(&[
        (text(&[("!a", 7)]), 20, 7),
        (text(&[("a&", 7), ("a", 1)]), 15, 7),
        (text(&[("(a&", 7), ("a", 1), (")", 7)]), 15, 7),
        (text(&[("a&", 4), ("!", 3), ("a", 1)]), 12, 7),
        (b"!a&!a&!a&!a".to_vec(), 11, 7),
    ]);
    let texts = [
        text(&[("!", 8), ("a", 1)]),
        text(&[("!", 9), ("a", 1)]),
        text(&[("!a", 8)]),
        text(&[("!(", 8), ("a", 1), (")", 8)]),
        text(&[("a&", 8), ("a", 1)]),
        text(&[("a&", 5), ("!", 3), ("a", 1)]),
        text(&[("!", 8), ("a", 28), ("*", 1)]),
        text(&[("!", 63), ("a", 1)]),
        b"!a&!a&!a&!!a".to_vec(),
    ];
    check_refused(6, &texts.map(|text| (text, 0)));
}

#[test]
fn every_byte_stands_alone_as_a_rule() {
    let edges = edges();
    for byte in 0..=255u8 {
        let expected = match byte {
            b'A'..=b'Z' | b'a'..=b'z' | b'0' | b'1' => {
                format!("rule\t0\t0\t0\t0\t1\t0\t0:{}", char::from(byte))
            }
            b'.' => format!("rule\t0\t0\t0\t0\t1\t0\t0:{ALL_LETTERS}"),
            b'|' | b'&' | b'*' | b')' | b']' => "rule\t4\t0\t0\t0\t0\t0\t-".into(),
            b'!' | b'(' | b'[' => "rule\t4\t1\t0\t0\t0\t0\t-".into(),
            _ => "rule\t3\t0\t0\t0\t0\t0\t-".into(),
        };
        assert_eq!(rule_answer(&edges, &[byte]), expected, "byte {byte}");
    }
}

/// The letters as the record of a dot has them.
const ALL_LETTERS: &str = "ABCDEFGHIJKLMNOPQRSTUVWXYZabcdefghijklmnopqrstuvwxyz";

/// The bytes at the ends of the two runs of letters: letters, and others beside and between them.
const ENDS: ([u8; 4], [u8; 8]) = ([65, 90, 97, 122], [64, 91, 92, 93, 94, 95, 96, 123]);

#[test]
fn the_ends_of_the_letters_stand_everywhere_in_a_rule() {
    let places = [
        ("?b", 0, "3 0 0:?;1:b;1:."),
        ("a?b", 1, "5 0 0:a;1:?;1:.;2:b;2:."),
        ("a?", 1, "3 0 0:a;1:?;1:."),
        ("!?", 1, "2 1 1:?;0:!"),
        ("?|a", 0, "3 0 0:?;2:a;1:|"),
        ("a|?", 2, "3 0 0:a;2:?;1:|"),
        ("?&a", 0, "3 1 0:?;2:a;1:&"),
        ("a&?", 2, "3 1 0:a;2:?;1:&"),
        ("(?)", 1, "1 0 1:?"),
        ("?*", 0, "2 0 0:?;1:*"),
    ];
    for (text, place, reading) in places {
        let with = |text: &str, byte: u8| text.replace('?', &char::from(byte).to_string());
        for letter in ENDS.0 {
            check_readings(&[(&with(text, letter), &with(reading, letter))]);
        }
        let foreign = ENDS.1.iter().filter(|byte| !b"[]".contains(byte));
        let foreign: Vec<(Vec<u8>, usize)> = foreign
            .map(|&byte| (with(text, byte).into(), place))
            .collect();
        check_refused(3, &foreign);
        check_refused(4, &[(with(text, b']').into(), place)]);
    }
}

#[test]
fn sets_are_read_with_the_offset_of_their_first_byte() {
    check_readings(&[
        ("[ab]", "1 0 0:ab"),
        ("[a]", "1 0 0:a"),
        ("[Za]", "1 0 0:Za"),
        ("[AZaz]", "1 0 0:AZaz"),
        (".", &format!("1 0 0:{ALL_LETTERS}")),
        (&format!("[{ALL_LETTERS}]"), &format!("1 0 0:{ALL_LETTERS}")),
        ("a.b", &format!("5 0 0:a;1:{ALL_LETTERS};1:.;2:b;2:.")),
        ("([ab])", "1 0 1:ab"),
        ("[ab]c", "3 0 0:ab;4:c;4:."),
        ("c[ab]", "3 0 0:c;1:ab;1:."),
        ("c([ab])", "3 0 0:c;2:ab;1:."),
        ("c![ab]", "4 1 0:c;2:ab;1:!;1:."),
        ("[ab][cd][ef]", "5 0 0:ab;4:cd;4:.;8:ef;8:."),
        ("x|[ab]y&[cd]*", "8 1 0:x;2:ab;6:y;6:.;8:cd;12:*;7:&;1:|"),
        ("!!([ab]*)*", "5 2 3:ab;7:*;9:*;1:!;0:!"),
    ]);
    check_sizes(&[
        (text(&[("[ab]", 32), ("*", 1)]), 64, 0),
        (text(&[(".", 32), ("*", 1)]), 64, 0),
        (text(&[("!", 7), ("[ab]", 29)]), 64, 7),
        (text(&[("(", 125), ("[ab]", 1), (")", 125), ("*", 1)]), 2, 0),
    ]);
}

#[test]
fn brackets_without_a_set_are_4_where_they_break() {
    let texts = [
        ("[]", 1),
        ("[a", 2),
        ("[", 1),
        ("]", 0),
        ("[.]", 1),
        ("[0]", 1),
        ("[a|b]", 2),
        ("[[a]]", 1),
        ("[ba]|", 5),
        ("[ba", 3),
        ("[aa]|)", 5),
        (")[ba]", 0),
        ("[ab]cd]", 6),
        ("([a)]", 3),
    ];
    check_refused(4, &texts.map(|(text, place)| (text.into(), place)));
    check_refused(
        4,
        &[
            (text(&[("[", 1), ("a", 254)]), 255),
            (text(&[("a", 254), ("[", 1)]), 255),
            (text(&[("a", 254), ("]", 1)]), 254),
            (text(&[("a", 33), ("[ba]|", 1)]), 38),
            (text(&[("!", 8), ("[ba])", 1)]), 12),
        ],
    );
}

#[test]
fn letters_that_do_not_rise_are_20_before_5_and_6() {
    let texts = [
        ("[ba]", 2),
        ("[aa]", 2),
        ("[aZ]", 2),
        ("x[ab][ba]", 7),
        ("[abca]", 4),
        ("[a][aa]", 5),
        ("[ab]ba[dc]", 8),
    ];
    check_refused(20, &texts.map(|(text, place)| (text.into(), place)));
    check_refused(
        20,
        &[
            (text(&[("a", 33), ("[ba]", 1)]), 35),
            (text(&[("[aa]", 1), ("a", 33)]), 2),
            (text(&[("!", 8), ("[ba]", 1)]), 10),
            (text(&[("[", 1), ("a", 253), ("]", 1)]), 2),
            (text(&[("a", 251), ("[ba]", 1)]), 253),
            (text(&[("[", 1), (ALL_LETTERS, 2), ("]", 1)]), 53),
        ],
    );
    check_refused(5, &[(text(&[("[ab]", 33)]), 0), (text(&[(".", 33)]), 0)]);
    check_refused(6, &[(text(&[("!", 8), ("[ab]", 1)]), 0)]);
    check_refused(2, &[(text(&[("a", 252), ("[ba]", 1)]), 0)]);
    check_refused(3, &[(b"[a-c]".to_vec(), 2), (b"[ba]_".to_vec(), 4)]);
}

#[test]
fn capitals_are_letters_of_their_own() {
    check_readings(&[
        ("A", "1 0 0:A"),
        ("aA", "3 0 0:a;1:A;1:."),
        ("!A|a&!(A)*", "8 3 1:A;0:!;3:a;7:A;9:*;5:!;4:&;2:|"),
        ("(E|R)*", "4 0 1:E;3:R;2:|;5:*"),
    ]);
}

/// A day with these bytes as its letters.
fn day_of(letters: &[u8]) -> Vec<u8> {
    let line = |&letter: &u8| [b"E\t5\t", &[letter][..], b"\n"].concat();
    letters.iter().flat_map(line).collect()
}

#[test]
fn the_ends_of_the_letters_stand_in_every_line() {
    let edges = edges();
    for (before, after) in [("", "b"), ("a", "b"), ("a", "")] {
        let with = |byte: u8| [before.as_bytes(), &[byte], after.as_bytes()].concat();
        for letter in ENDS.0 {
            let day = day_of(&with(letter));
            let (answer, buffers) = answer_with_enough(&edges, &day);
            let n = with(letter).len();
            let letters = letters_after(&with(letter), buffers.0);
            let seconds = seconds_after(&vec![5; n], buffers.1);
            assert_eq!(
                answer,
                format!("day\t0\t0\t0\t0\t{n}\t{letters}\t{seconds}")
            );
        }
        for byte in ENDS.1 {
            let day = day_of(&with(byte));
            check_refused_days(&[(&day, 12, before.len() + 1)]);
        }
    }
}

#[test]
fn tags_are_tags_by_their_place() {
    let edges = edges();
    let good: [(&[u8], &str); 2] = [
        (b"E\t0\tE\n", "1\t69,129\t0,100001,100002"),
        (
            b"E\t0\tR\nE\t1\tS\nE\t1\tX\nE\t2\tH\nE\t2\tE\nE\t3\te\n",
            "6\t82,83,88,72,69,101,134\t0,1,1,2,2,3,100006,100007",
        ),
    ];
    for (day, rest) in good {
        let (line, _) = answer_with_enough(&edges, day);
        assert_eq!(line, format!("day\t0\t0\t0\t0\t{rest}"));
    }
    check_refused_days(&[
        (b"E\tE\tE\n", 12, 1),
        (b"A\t0\tE\n", 12, 1),
        (b"E\t4\tEE\n", 12, 1),
    ]);
}

#[test]
fn short_good_days_are_read() {
    let edges = edges();
    let good: [(&[u8], &str); 15] = [
        (b"", "0\t128\t100000,100001"),
        (b"E\t0\ta\n", "1\t97,129\t0,100001,100002"),
        (b"E\t0\ta\nE\t0\ta\n", "2\t97,97,130\t0,0,100002,100003"),
        (b"E\t9\ta\nE\t10\ta\n", "2\t97,97,130\t9,10,100002,100003"),
        (
            b"E\t7\tz\nE\t7\ty\nE\t7\tz\n",
            "3\t122,121,122,131\t7,7,7,100003,100004",
        ),
        (
            b"E\t0\ta\nE\t0\tA\nE\t0\tz\nE\t0\tZ\n",
            "4\t97,65,122,90,132\t0,0,0,0,100004,100005",
        ),
        (b"E\t86399\tq\n", "1\t113,129\t86399,100001,100002"),
        (b"E\t86400\tq\n", "1\t113,129\t86400,100001,100002"),
        (b"E\t89998\tq\n", "1\t113,129\t89998,100001,100002"),
        (b"E\t89999\tq\n", "1\t113,129\t89999,100001,100002"),
        (
            b"E\t0\ta\nE\t89999\tb\nE\t89999\tc\n",
            "3\t97,98,99,131\t0,89999,89999,100003,100004",
        ),
        (
            b"E\t86399\ta\nE\t86400\tb\nE\t89999\tc\n",
            "3\t97,98,99,131\t86399,86400,89999,100003,100004",
        ),
        (
            b"E\t0\ta\nE\t86400\tb\nE\t86400\tB\n",
            "3\t97,98,66,131\t0,86400,86400,100003,100004",
        ),
        (b"E\t65536\tq\n", "1\t113,129\t65536,100001,100002"),
        (b"E\t0\tq\n", "1\t113,129\t0,100001,100002"),
    ];
    for (day, rest) in good {
        let (line, _) = answer_with_enough(&edges, day);
        assert_eq!(line, format!("day\t0\t0\t0\t0\t{rest}"));
    }
}

#[test]
fn a_damaged_line_is_12() {
    check_refused_days(&[
        (b"F\t4\tb\n", 12, 1),
        (b"e\t4\tb\n", 12, 1),
        (b"\t4\tb\n", 12, 1),
        (b"E4\tb\n", 12, 1),
        (b"E\t4b\n", 12, 1),
        (b"E\t\t4\tb\n", 12, 1),
        (b"E\t4\t\tb\n", 12, 1),
        (b"E 4\tb\n", 12, 1),
        (b"E\t\tb\n", 12, 1),
        (b"E\t123456\tb\n", 12, 1),
        (b"E\t100000\tb\n", 12, 1),
        (b"E\t089999\tb\n", 12, 1),
        (b"E\t01\tb\n", 12, 1),
        (b"E\t00\tb\n", 12, 1),
        (b"E\t+1\tb\n", 12, 1),
        (b"E\t-1\tb\n", 12, 1),
        (b"E\tx\tb\n", 12, 1),
        (b"E\t1x\tb\n", 12, 1),
        (b"E\t4\t@\n", 12, 1),
        (b"E\t4\t[\n", 12, 1),
        (b"E\t4\t_\n", 12, 1),
        (b"E\t4\tab\n", 12, 1),
        (b"E\t4\t\n", 12, 1),
        (b"E\t4\tb", 12, 1),
        (b"E\t4\tb\r\n", 12, 1),
        (b"E\t4\tb\t\n", 12, 1),
        (b" E\t4\tb\n", 12, 1),
        (b"\n", 12, 1),
        // The first line is good, what follows is not.
        (b"E\t4\tb\n\n", 12, 2),
        (b"E\t3\ta\n\n", 12, 2),
        (b"E\t3\ta\nF\t4\tb\nE\t5\tc\n", 12, 2),
        (b"E\t3\ta\nE\t4\tbE\t5\tc\n", 12, 2),
        (b"E\t3\ta\nE\t4\tb\r\nE\t5\tc\n", 12, 2),
        (b"E\t3\ta\nE\t12345\tb", 12, 2),
        (b"E\t3\ta\nE\t12345", 12, 2),
        (b"E\t3\ta\nE", 12, 2),
    ]);
}

#[test]
fn a_second_too_late_or_too_early_is_13() {
    check_refused_days(&[
        (b"E\t90000\tq\n", 13, 1),
        (b"E\t90001\tq\n", 13, 1),
        (b"E\t99999\tq\n", 13, 1),
        (b"E\t3\ta\nE\t90000\tb\nE\t5\tc\n", 13, 2),
        (b"E\t89999\ta\nE\t90000\tb\n", 13, 2),
        (b"E\t10\ta\nE\t9\ta\n", 13, 2),
        (b"E\t1\ta\nE\t0\ta\n", 13, 2),
        (b"E\t86399\ta\nE\t86398\tb\n", 13, 2),
        (b"E\t86400\ta\nE\t86399\tb\n", 13, 2),
        (b"E\t86401\ta\nE\t86400\tb\n", 13, 2),
        (b"E\t89999\ta\nE\t89998\tb\n", 13, 2),
        (b"E\t1\ta\nE\t5\tb\nE\t4\tc\n", 13, 3),
        (b"E\t5\ta\nE\t1\tb\nE\t3\tc\n", 13, 2),
        (b"E\t90000\tA\n", 13, 1),
        (b"E\t5\ta\nE\t4\tA\n", 13, 2),
    ]);
}

#[test]
fn a_clock_that_is_put_back_is_13() {
    check_refused_days(&[
        (b"E\t10799\ta\nE\t7200\tb\n", 13, 2),
        (b"E\t10800\ta\nE\t7200\tb\n", 13, 2),
        (b"E\t3600\ta\nE\t0\tb\n", 13, 2),
        (b"E\t89999\ta\nE\t86400\tb\n", 13, 2),
        (b"E\t89999\ta\nE\t86399\tb\n", 13, 2),
        (b"E\t86400\ta\nE\t0\tb\n", 13, 2),
        (b"E\t7200\ta\nE\t10799\tb\nE\t7200\tc\n", 13, 3),
    ]);
}

#[test]
fn within_a_line_12_wins_and_then_the_first_bad_line() {
    check_refused_days(&[
        (b"E\t90000\t_\n", 12, 1),
        (b"E\t99999\ta", 12, 1),
        (b"E\t90000\ta\r\n", 12, 1),
        (b"E\t5\ta\nE\t4\t_\n", 12, 2),
        (b"E\t5\ta\nE\t4\ta", 12, 2),
        (b"E\t5\ta\nE\t04\ta\n", 12, 2),
        (b"E\nE\t90000\ta\n", 12, 1),
        (b"E\t5\ta\n\nE\t4\ta\n", 12, 2),
        (b"E\t90000\ta\nE\n", 13, 1),
        (b"E\t5\ta\nE\t4\ta\nE\n", 13, 2),
        (b"E\t90000\ta\nE\t0\ta\n", 13, 1),
        (b"E\t5\ta\nE\t4\t[\nE\t3\ta\n", 12, 2),
        (b"E\t5\ta\nE\t4\ta\nE\t90000\ta\nx", 13, 2),
        (b"E\t86401\ta\nE\t86400\tb\nE\t90000\tc\n", 13, 2),
        (b"E\t90000\ta\nE\t89999\tb\n", 13, 1),
        (b"E\t90000\ta\nE\t100000\tb\n", 13, 1),
        (b"E\t100000\ta\nE\t90000\tb\n", 12, 1),
    ]);
}

#[test]
fn every_byte_stands_as_letter_and_as_digit() {
    let edges = edges();
    for byte in 0..=255u8 {
        let (line, _) = answer_with_enough(&edges, &[b"E\t5\t", &[byte][..], b"\n"].concat());
        let expected = match byte {
            b'A'..=b'Z' | b'a'..=b'z' => {
                format!("day\t0\t0\t0\t0\t1\t{byte},129\t5,100001,100002")
            }
            b'\n' => "day\t12\t1\t0\t0\t0\t128,129,130\t100000,100001,100002,100003".into(),
            _ => "day\t12\t1\t0\t0\t0\t128,129\t100000,100001,100002".into(),
        };
        assert_eq!(line, expected, "letter {byte}");
        let (line, _) = answer_with_enough(&edges, &[b"E\t", &[byte][..], b"\tk\n"].concat());
        let expected = match byte {
            b'0'..=b'9' => {
                let second = byte - b'0';
                format!("day\t0\t0\t0\t0\t1\t107,129\t{second},100001,100002")
            }
            b'\n' => "day\t12\t1\t0\t0\t0\t128,129,130\t100000,100001,100002,100003".into(),
            _ => "day\t12\t1\t0\t0\t0\t128,129\t100000,100001,100002".into(),
        };
        assert_eq!(line, expected, "digit {byte}");
    }
}

/// The lines of the edges with 255 lines: 52 letters at each of the seconds 0 to 4.
fn full_day() -> Vec<String> {
    let letters = ('a'..='z').chain('A'..='Z').cycle();
    let seconds = (0..5).flat_map(|second| [second; 52]);
    let lines = seconds.zip(letters);
    lines
        .map(|(second, letter)| format!("E\t{second}\t{letter}\n"))
        .take(255)
        .collect()
}

#[test]
fn a_256th_line_is_14_unless_a_line_before_is_bad() {
    let full = full_day().concat();
    let and = |rest: &str| (full.clone() + rest).into_bytes();
    let with = |place: usize, line: &str, rest: &str| {
        let mut lines = full_day();
        lines[place - 1] = line.into();
        (lines.concat() + rest).into_bytes()
    };
    check_refused_days(&[
        (&and("E\t9\ta\n"), 14, 256),
        (&and("\n"), 14, 256),
        (&b"E\t0\tb\n".repeat(425), 14, 256),
        (&with(255, "E\t9\ta", ""), 12, 255),
        (&with(1, "E\t0\t_\n", "E\t9\ta\n"), 12, 1),
        (&with(128, "\n", "E"), 12, 128),
        (&with(255, "E\t3\ta\n", "E"), 13, 255),
    ]);
    let (line, buffers) = answer_with_enough(&edges(), full.as_bytes());
    let letters = (b'a'..=b'z').chain(b'A'..=b'Z').cycle();
    let letters: Vec<u8> = letters.take(255).collect();
    let letters = letters_after(&letters, buffers.0);
    let seconds: Vec<usize> = (0..255).map(|index| index / 52).collect();
    let seconds = seconds_after(&seconds, buffers.1);
    assert_eq!(line, format!("day\t0\t0\t0\t0\t255\t{letters}\t{seconds}"));
}

#[test]
fn over_2550_bytes_is_11_before_all_else() {
    let longest = b"E\t89999\tz\n".repeat(255);
    assert_eq!(longest.len(), 2_550);
    let (line, buffers) = answer_with_enough(&edges(), &longest);
    let letters = letters_after(&[b'z'; 255], buffers.0);
    let seconds = seconds_after(&[89_999; 255], buffers.1);
    assert_eq!(line, format!("day\t0\t0\t0\t0\t255\t{letters}\t{seconds}"));
    check_refused_days(&[(&[&longest[..], b"E"].concat(), 11, 0)]);
    assert_eq!(
        day_answer(&edges(), &[b'x'; 2_551], (0, 0)),
        "day\t11\t0\t0\t0\t0\t-\t-"
    );
}

#[test]
fn a_buffer_shorter_than_n_is_15_after_all_lines() {
    let edges = edges();
    let check = |day: &[u8], buffers: (usize, usize), expected: &str| {
        let line = day_answer(&edges, day, buffers);
        assert_eq!(line, format!("day\t{expected}"), "{buffers:?}");
    };
    check(b"", (0, 0), "0\t0\t0\t0\t0\t-\t-");
    check(b"", (0, 1), "0\t0\t0\t0\t0\t-\t100000");
    check(b"E\t0\ta\n", (0, 0), "15\t0\t0\t0\t0\t-\t-");
    check(b"E\t0\ta\n", (1, 0), "15\t0\t0\t0\t0\t128\t-");
    check(b"E\t0\ta\n", (0, 2), "15\t0\t0\t0\t0\t-\t100000,100001");
    check(b"E\t0\ta\n", (1, 1), "0\t0\t0\t0\t1\t97\t0");
    let three = b"E\t0\ta\nE\t0\tb\nE\t0\tc\n";
    check(three, (3, 3), "0\t0\t0\t0\t3\t97,98,99\t0,0,0");
    check(three, (4, 3), "0\t0\t0\t0\t3\t97,98,99,131\t0,0,0");
    check(three, (3, 4), "0\t0\t0\t0\t3\t97,98,99\t0,0,0,100003");
    check(
        three,
        (2, 3),
        "15\t0\t0\t0\t0\t128,129\t100000,100001,100002",
    );
    check(
        three,
        (4, 2),
        "15\t0\t0\t0\t0\t128,129,130,131\t100000,100001",
    );
    check(b"E\t1\ta\nE\t2\tb\nE\n", (0, 0), "12\t3\t0\t0\t0\t-\t-");
    check(b"E\t5\ta\nE\t4\tb\n", (1, 0), "13\t2\t0\t0\t0\t128\t-");
    let full = full_day().concat();
    let letters = letters_after(b"", 254);
    let seconds = seconds_after(&[], 255);
    let expected = format!("15\t0\t0\t0\t0\t{letters}\t{seconds}");
    check(full.as_bytes(), (254, 255), &expected);
    let letters = letters_after(b"", 255);
    let expected = format!("14\t256\t0\t0\t0\t{letters}\t-");
    check(format!("{full}x").as_bytes(), (255, 0), &expected);
}

#[test]
fn stars_after_stars_are_21_at_the_first_of_them() {
    let texts = [
        ("a**", 2),
        ("a***", 2),
        ("(a*)**", 5),
        ("(a**)*", 3),
        ("a*b**", 4),
        ("a**b**", 2),
        ("!a**", 3),
        ("!!a**", 4),
        ("a**|b", 2),
        ("b&a**", 4),
        ("0**", 2),
        (".**", 2),
        ("[ab]**", 5),
        ("![AZaz]***.**", 8),
    ];
    check_refused(21, &texts.map(|(text, place)| (text.into(), place)));
    check_refused(
        21,
        &[
            // 5 and 6 come later.
            (text(&[("a", 1), ("*", 64)]), 2),
            (text(&[("a", 1), ("*", 70)]), 2),
            (text(&[("a", 1), ("*", 254)]), 2),
            (text(&[("a", 33), ("*", 2)]), 34),
            (text(&[("!", 8), ("a**", 1)]), 10),
            // 255 bytes, with stars at their very end and inside.
            (text(&[("(", 126), ("a", 1), (")", 126), ("*", 2)]), 254),
            (text(&[("(", 126), ("a**", 1), (")", 126)]), 128),
        ],
    );
}

#[test]
fn refusals_2_3_4_and_20_come_before_21() {
    let no_sentences = [
        ("a**|", 4),
        ("**", 0),
        ("(**)", 1),
        ("a**)", 3),
        ("(a**", 4),
        ("a**||b", 4),
        ("!!**", 2),
        ("[a**]", 2),
        ("a**[", 4),
    ];
    check_refused(4, &no_sentences.map(|(text, place)| (text.into(), place)));
    let fallen = [
        ("[ba]**", 2),
        ("a**[ba]", 5),
        ("[aa]***|b", 2),
        ("a**[ab][ba]**", 9),
    ];
    check_refused(20, &fallen.map(|(text, place)| (text.into(), place)));
    let foreign = [("a**_", 3), ("a* *", 2), ("<x>**", 0)];
    check_refused(3, &foreign.map(|(text, place)| (text.into(), place)));
    check_refused(2, &[(text(&[("a", 1), ("*", 255)]), 0)]);
}

#[test]
fn stars_in_each_other_are_read() {
    check_readings(&[
        ("(a*)*", "3 0 1:a;2:*;4:*"),
        ("((a*)*)*", "4 0 2:a;3:*;5:*;7:*"),
        ("(((a*)))*", "3 0 3:a;4:*;8:*"),
        ("a*(b*)*", "6 0 0:a;1:*;3:b;4:*;6:*;2:."),
        ("0*1*", "5 0 0:0;1:*;2:1;3:*;2:."),
    ]);
    check_sizes(&[(text(&[("!", 7), ("(a*)*", 1)]), 10, 7)]);
}

#[test]
fn every_number_of_both_readers_occurs() {
    let times = numbers(&edges());
    for number in (0..=6).chain(11..=15).chain([20, 21]) {
        assert!(times[number] > 0, "no {number}");
    }
    assert_eq!(times[7..=10], [0; 4]);
    assert_eq!(times[16..=19], [0; 4]);
}

#[test]
fn every_answer_is_sound_by_itself() {
    for (case, line) in edges() {
        check_answer(&case, &line);
    }
}

#[test]
fn each_stream_has_one_kind_and_at_most_65536_bytes() {
    for (name, kind) in [("rules", "rule"), ("days", "day")] {
        let stream = stream(&format!("edges {name}"));
        assert!(stream.len() <= 65_536);
        let cases = cases(&stream);
        assert!(cases.len() > 900, "{} cases", cases.len());
        assert!(cases.iter().all(|case| case.header[0] == kind));
    }
}
