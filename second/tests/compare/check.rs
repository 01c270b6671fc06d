//! One call and its comparison: libraries that do one thing wrong are found.

use second::compare::call::{Call, Kind, FILE_LINES, FILE_NODES, NODES};
use second::compare::check::check;
use second::compare::lent::Dirt;
use second::compare::reference;
use second::compare::request::{shown_bytes, Asked, Request};

/// A rule file whose second line is `!(a)` after replacement.
const TWO_LINES: &[u8] = b"R\tx\ta\nR\ty\t!<x>\n";

/// What a library does after it has done a call rightly.
type Mistake = fn(&mut Call);

/// Where a library that makes the mistake differs, whatever it is lent.
fn place(asked: Asked, answer: usize, mistake: Mistake) -> Option<String> {
    place_of(asked, answer, mistake, |returned| returned)
}

/// Where a library differs that makes the mistake, and returns what it makes of the right number.
fn place_of(
    asked: Asked,
    answer: usize,
    mistake: Mistake,
    changed: fn(u64) -> u64,
) -> Option<String> {
    let places = [Dirt::Ones, Dirt::Noise(3)].map(|dirt| {
        let request = Request {
            asked: asked.clone(),
            answer,
            dirt,
        };
        let library = |_: &str, mut call: Call| {
            let number = reference::run(borrowed(&mut call));
            mistake(&mut call);
            changed(reference::returned(number))
        };
        let difference = check(&library, "a case", &request).difference;
        difference.map(|difference| difference.place)
    });
    assert_eq!(places[0], places[1]);
    places[0].clone()
}

/// The same call, lent on.
pub fn borrowed<'a>(call: &'a mut Call<'_>) -> Call<'a> {
    match call {
        Call::ReadRule {
            text,
            answer,
            nodes,
        } => Call::ReadRule {
            text,
            answer,
            nodes,
        },
        Call::ReadDay {
            file,
            letters,
            seconds,
            answer,
        } => Call::ReadDay {
            file,
            letters,
            seconds,
            answer,
        },
        Call::Judge {
            rule,
            word,
            limit,
            table,
            answer,
        } => Call::Judge {
            rule,
            word,
            limit: *limit,
            table,
            answer,
        },
        Call::RunJob { job, out, answer } => Call::RunJob { job, out, answer },
        Call::ReadRuleFile {
            file,
            answer,
            lines,
            nodes,
        } => Call::ReadRuleFile {
            file,
            answer,
            lines,
            nodes,
        },
        Call::JudgeRuleFile {
            file,
            word,
            limit,
            table,
            answer,
        } => Call::JudgeRuleFile {
            file,
            word,
            limit: *limit,
            table,
            answer,
        },
        Call::RewriteRule { text, out, answer } => Call::RewriteRule { text, out, answer },
        Call::MergeDays {
            first,
            second,
            letters,
            seconds,
            answer,
        } => Call::MergeDays {
            first,
            second,
            letters,
            seconds,
            answer,
        },
    }
}

/// The answer of any call.
pub fn answer<'a>(call: &'a mut Call<'_>) -> &'a mut [u64] {
    match call {
        Call::ReadRule { answer, .. }
        | Call::ReadDay { answer, .. }
        | Call::Judge { answer, .. }
        | Call::RunJob { answer, .. }
        | Call::ReadRuleFile { answer, .. }
        | Call::JudgeRuleFile { answer, .. }
        | Call::RewriteRule { answer, .. }
        | Call::MergeDays { answer, .. } => answer,
    }
}

/// Reads a rule of two nodes.
fn rule() -> Asked {
    Asked::Rule {
        text: b"!a".to_vec(),
        nodes: NODES + 2,
    }
}

/// Reads a day of one event.
fn day(letters: usize, seconds: usize) -> Asked {
    Asked::Day {
        file: b"E\t0\ta\n".to_vec(),
        letters,
        seconds,
    }
}

/// Judges with a table of 16 needed numbers and 5 more; the count is 7.
fn judgement(limit: u64) -> Asked {
    Asked::Judge {
        rule: b"!a".to_vec(),
        word: b"a".to_vec(),
        limit,
        table: 21,
    }
}

/// Runs document 01's whole case, whose text has 24 bytes.
fn job(out: usize) -> Asked {
    Asked::Job {
        job: b"R\t!a\nE\t0\ta\n".to_vec(),
        out,
    }
}

/// Reads a file of two lines with two nodes each.
fn rule_file(lines: usize) -> Asked {
    Asked::RuleFile {
        file: TWO_LINES.to_vec(),
        lines,
        nodes: FILE_NODES + 3,
    }
}

/// Judges by the last of two lines, with a table of 16 needed numbers and 5 more; the count is 7.
fn file_judgement(limit: u64) -> Asked {
    Asked::JudgeFile {
        file: TWO_LINES.to_vec(),
        word: b"a".to_vec(),
        limit,
        table: 21,
    }
}

/// Rewrites a text that becomes `(a*)*b*`, of 7 bytes.
fn rewriting(out: usize) -> Asked {
    Asked::Rewriting {
        text: b"(a**)***b**".to_vec(),
        out,
    }
}

/// Merges two days of two events and of one.
fn merging(letters: usize, seconds: usize) -> Asked {
    Asked::Merging {
        files: [&b"E\t5\ta\nE\t7\tc\n"[..], b"E\t5\tb\n"].map(<[u8]>::to_vec),
        letters,
        seconds,
    }
}

/// One of each call, accepted.
fn all() -> [Asked; 8] {
    [
        rule(),
        day(3, 4),
        judgement(7),
        job(40),
        rule_file(FILE_LINES + 2),
        file_judgement(7),
        rewriting(9),
        merging(4, 6),
    ]
}

#[test]
fn a_library_without_a_mistake_does_not_differ() {
    for asked in all() {
        for length in 0..10 {
            assert_eq!(place(asked.clone(), length, |_| ()), None);
        }
    }
}

#[test]
fn the_number_that_should_come_is_told() {
    let kind = |asked: Asked, answer: usize| {
        let request = Request {
            asked,
            answer,
            dirt: Dirt::Ones,
        };
        check(&|_, _| 0, "a case", &request).kind
    };
    assert_eq!(kind(judgement(7), 4), Kind::Number(0));
    assert_eq!(kind(judgement(6), 4), Kind::Number(10));
    assert_eq!(kind(judgement(6), 3), Kind::Unanswered);
    assert_eq!(kind(job(0), 5), Kind::Number(15));
    assert_eq!(kind(rule_file(31), 5), Kind::Unanswered);
    assert_eq!(kind(rule_file(32), 5), Kind::Number(0));
    assert_eq!(kind(file_judgement(6), 4), Kind::Number(10));
    assert_eq!(kind(rewriting(7), 5), Kind::Number(0));
    assert_eq!(kind(rewriting(6), 5), Kind::Number(15));
    assert_eq!(kind(rewriting(7), 4), Kind::Unanswered);
    assert_eq!(kind(merging(3, 3), 5), Kind::Number(0));
    assert_eq!(kind(merging(3, 2), 5), Kind::Number(15));
    assert_eq!(kind(merging(3, 3), 4), Kind::Unanswered);
}

#[test]
fn a_library_that_does_nothing_differs() {
    for asked in all() {
        let request = Request {
            asked,
            answer: 6,
            dirt: Dirt::Ones,
        };
        let difference = check(&|_, _| 0, "a case", &request).difference;
        assert_eq!(
            difference.unwrap().place,
            "answer[0], lent with a length of 6"
        );
    }
}

#[test]
fn the_returned_number_is_compared() {
    let calls = [rule(), day(3, 4), day(0, 4), judgement(7), judgement(6)];
    let mut calls = calls.to_vec();
    calls.extend([job(40), job(0), rule_file(FILE_LINES)]);
    calls.extend([file_judgement(7), file_judgement(6)]);
    calls.extend([rewriting(9), rewriting(7), rewriting(6)]);
    calls.extend([merging(4, 6), merging(2, 6)]);
    let place = |asked: &Asked, answer, changed| place_of(asked.clone(), answer, |_| (), changed);
    let found = Some("the number returned".to_string());
    for asked in &calls {
        // With an answer that is long enough and with one that is not.
        for answer in [8, 3, 0] {
            assert_eq!(place(asked, answer, |number| number ^ 1), found);
        }
        assert_eq!(place(asked, 3, |_| 0), found);
        assert_eq!(place(asked, 8, |_| u64::MAX), found);
    }
}

#[test]
fn a_wrong_number_is_shown() {
    let shown = |answer, returned: u64| {
        let request = Request {
            asked: judgement(6),
            answer,
            dirt: Dirt::Ones,
        };
        let library = move |_: &str, call: Call| {
            reference::run(call);
            returned
        };
        let difference = check(&library, "a case", &request).difference.unwrap();
        (difference.expected, difference.came)
    };
    let unanswered = "18446744073709551615, WUZ_UNANSWERED";
    assert_eq!(shown(4, 0), ("10".into(), "0".into()));
    assert_eq!(shown(3, 10), (unanswered.into(), "10".into()));
    assert_eq!(shown(4, u64::MAX), ("10".into(), unanswered.into()));
}

#[test]
fn every_element_of_the_answer_is_compared() {
    for asked in all() {
        for length in 1..9 {
            let found = place(asked.clone(), length, |call| {
                *answer(call).last_mut().unwrap() ^= 1;
            });
            let last = length - 1;
            let expected = format!("answer[{last}], lent with a length of {length}");
            assert_eq!(found, Some(expected));
        }
    }
}

#[test]
fn every_buffer_is_compared_to_its_last_element() {
    let mistake: Mistake = |call| match call {
        Call::ReadRule { nodes, .. } => *nodes.last_mut().unwrap() ^= 1,
        Call::ReadDay { letters, .. } => *letters.last_mut().unwrap() ^= 1,
        Call::Judge { table, .. } => *table.last_mut().unwrap() ^= 1,
        Call::RunJob { out, .. } => *out.last_mut().unwrap() ^= 1,
        Call::ReadRuleFile { nodes, .. } => *nodes.last_mut().unwrap() ^= 1,
        Call::JudgeRuleFile { table, .. } => *table.last_mut().unwrap() ^= 1,
        Call::RewriteRule { out, .. } => *out.last_mut().unwrap() ^= 1,
        Call::MergeDays { letters, .. } => *letters.last_mut().unwrap() ^= 1,
    };
    let places = [
        "nodes[129]",
        "letters[2]",
        "table[20]",
        "out[39]",
        "nodes[2050]",
        "table[20]",
        "out[8]",
        "letters[3]",
    ];
    for (asked, expected) in all().into_iter().zip(places) {
        // With an answer that is long enough and with one that is not.
        for length in [8, 3] {
            let found = place(asked.clone(), length, mistake).unwrap();
            assert!(found.starts_with(expected), "{found}");
        }
    }
    let found = place(day(3, 4), 5, |call| match call {
        Call::ReadDay { seconds, .. } => seconds[3] = 0,
        _ => unreachable!("a day is read"),
    });
    assert!(found.unwrap().starts_with("seconds[3]"));
    let found = place(rule_file(FILE_LINES + 2), 5, |call| match call {
        Call::ReadRuleFile { lines, .. } => lines[FILE_LINES + 1] ^= 1,
        _ => unreachable!("a rule file is read"),
    });
    assert!(found.unwrap().starts_with("lines[33]"));
    let found = place(merging(4, 6), 5, |call| match call {
        Call::MergeDays { seconds, .. } => seconds[5] = 0,
        _ => unreachable!("days are merged"),
    });
    assert!(found.unwrap().starts_with("seconds[5]"));
}

#[test]
fn a_buffer_touched_on_a_refusal_is_found() {
    let found = place(day(1, 0), 5, |call| match call {
        Call::ReadDay { letters, .. } => letters[0] = b'a',
        _ => unreachable!("a day is read"),
    });
    assert!(found.unwrap().starts_with("letters[0]"));
    let found = place(job(23), 5, |call| match call {
        Call::RunJob { out, .. } => out[0] = b'H',
        _ => unreachable!("a job is run"),
    });
    assert!(found.unwrap().starts_with("out[0]"));
    let found = place(rewriting(6), 5, |call| match call {
        Call::RewriteRule { out, .. } => out[5] = b'b',
        _ => unreachable!("a rule is rewritten"),
    });
    assert!(found.unwrap().starts_with("out[5]"));
    let found = place(merging(2, 3), 5, |call| match call {
        Call::MergeDays { seconds, .. } => seconds[2] = 7,
        _ => unreachable!("days are merged"),
    });
    assert!(found.unwrap().starts_with("seconds[2]"));
    // On 10 all of the needed numbers are 0, and no other changes.
    let mistakes: [(&str, Mistake); 3] = [
        ("table[0]", |call| change_table(call, 0)),
        ("table[15]", |call| change_table(call, 15)),
        ("table[16]", |call| change_table(call, 16)),
    ];
    for (expected, mistake) in mistakes {
        for asked in [judgement(6), file_judgement(6)] {
            let found = place(asked, 4, mistake);
            assert!(found.unwrap().starts_with(expected));
        }
    }
}

/// Changes one bit of the table.
fn change_table(call: &mut Call, at: usize) {
    match call {
        Call::Judge { table, .. } | Call::JudgeRuleFile { table, .. } => table[at] ^= 1,
        _ => unreachable!("a word is judged"),
    }
}

#[test]
fn very_long_bytes_are_shown_in_part() {
    assert_eq!(shown_bytes(b"R\tx"), "\"R\\tx\" (3 bytes)");
    let shown = shown_bytes(&[b'a'; 1_000_000]);
    let beginning = "a".repeat(10_000);
    assert_eq!(shown, format!("\"{beginning}\".. (1000000 bytes)"));
}
