//! The calls as the second program answers them, against numbers that document 01 and the C
//! interface give by hand.

use second::compare::call::Call;
use second::compare::reference::{returned, run};

/// What a buffer holds before a call.
const KEPT: u64 = 77;

/// The kind of the letter a, whose bit comes after those of the 26 capitals.
const A: u64 = 9_223_372_036_921_884_672;

/// Reads a rule; gives the number, the answer and the nodes.
fn read_rule(text: &[u8], answer: usize, nodes: usize) -> (Option<u32>, Vec<u64>, Vec<u64>) {
    let (mut answer, mut nodes) = (vec![KEPT; answer], vec![KEPT; nodes]);
    let number = run(Call::ReadRule {
        text,
        answer: &mut answer,
        nodes: &mut nodes,
    });
    (number, answer, nodes)
}

/// Judges a word; gives the number, the answer and the table.
fn judge(rule: &[u8], word: &[u8], limit: u64, table: usize) -> (Option<u32>, Vec<u64>, Vec<u64>) {
    let (mut answer, mut table) = (vec![KEPT; 5], vec![KEPT; table]);
    let number = run(Call::Judge {
        rule,
        word,
        limit,
        table: &mut table,
        answer: &mut answer,
    });
    (number, answer, table)
}

/// Runs a job; gives the number, the answer and the text's buffer.
fn run_job(job: &[u8], out: usize) -> (Option<u32>, Vec<u64>, Vec<u8>) {
    let (mut answer, mut out) = (vec![KEPT; 6], vec![b'?'; out]);
    let number = run(Call::RunJob {
        job,
        out: &mut out,
        answer: &mut answer,
    });
    (number, answer, out)
}

/// Reads a rule file; gives the number, the answer, the lines and the nodes.
fn read_rule_file(
    file: &[u8],
    [answer, lines, nodes]: [usize; 3],
) -> (Option<u32>, Vec<u64>, Vec<u64>, Vec<u64>) {
    let [mut answer, mut lines, mut nodes] =
        [answer, lines, nodes].map(|length| vec![KEPT; length]);
    let number = run(Call::ReadRuleFile {
        file,
        answer: &mut answer,
        lines: &mut lines,
        nodes: &mut nodes,
    });
    (number, answer, lines, nodes)
}

/// Judges a word by a rule file; gives the number, the answer and the table.
fn judge_rule_file(
    file: &[u8],
    word: &[u8],
    limit: u64,
    [answer, table]: [usize; 2],
) -> (Option<u32>, Vec<u64>, Vec<u64>) {
    let [mut answer, mut table] = [answer, table].map(|length| vec![KEPT; length]);
    let number = run(Call::JudgeRuleFile {
        file,
        word,
        limit,
        table: &mut table,
        answer: &mut answer,
    });
    (number, answer, table)
}

#[test]
fn a_rule_has_two_numbers_for_each_node() {
    let (number, answer, nodes) = read_rule(b"!(a0)*|1&Z", 8, 130);
    assert_eq!(number, Some(0));
    assert_eq!(answer, [0, 0, 0, 0, 9, 2, KEPT, KEPT]);
    let records = [
        (2, A),
        (3, 0),
        (3, 4),
        (5, 6),
        (0, 5),
        (7, 1),
        (9, (1 << 63) + (1 << 25)),
        (8, 3),
        (6, 2),
    ];
    let written: Vec<u64> = records.iter().flat_map(|&(at, kind)| [at, kind]).collect();
    assert_eq!(nodes[..18], written);
    assert_eq!(nodes[18..], [KEPT; 112]);
}

#[test]
fn a_set_of_letters_has_a_bit_for_each() {
    let kind = |text: &[u8]| read_rule(text, 6, 128).2[1];
    // A and Z are bits 0 and 25, a and z are bits 26 and 51.
    assert_eq!(kind(b"A"), 9_223_372_036_854_775_809);
    assert_eq!(kind(b"Z"), 9_223_372_036_888_330_240);
    assert_eq!(kind(b"a"), A);
    assert_eq!(kind(b"z"), 9_225_623_836_668_461_056);
    assert_eq!(kind(b"[ABCD]"), 9_223_372_036_854_775_823);
    assert_eq!(kind(b"[AZaz]"), 9_225_623_836_769_124_353);
    assert_eq!(kind(b"."), 9_227_875_636_482_146_303);
    let all = b"[ABCDEFGHIJKLMNOPQRSTUVWXYZabcdefghijklmnopqrstuvwxyz]";
    assert_eq!(kind(all), kind(b"."));
    for letter in (b'A'..=b'Z').chain(b'a'..=b'z') {
        assert_eq!(kind(&[b'[', letter, b']']), kind(&[letter]));
    }
    let (_, _, nodes) = read_rule(b"x[Aa]", 6, 128);
    let x = (1 << 63) + (1 << 49);
    assert_eq!(nodes[..6], [0, x, 1, A + 1, 1, 4]);
}

#[test]
fn letters_that_do_not_rise_are_20_in_every_call() {
    let refused = vec![20, 2, 0, 0, 0, 0];
    let kept = vec![KEPT; 128];
    assert_eq!(read_rule(b"[ba]", 6, 128), (Some(20), refused, kept));
    let (number, answer, table) = judge(b"x[aa]", b"_", 0, 3);
    assert_eq!((number, answer), (Some(20), vec![20, 3, 0, 0, KEPT]));
    assert_eq!(table, [KEPT; 3]);
    let (number, answer, out) = run_job(b"R\t[aZ]\nE\n", 2);
    assert_eq!((number, answer), (Some(20), vec![20, 2, 0, 0, 0, KEPT]));
    assert_eq!(out, b"??");
    let file = b"R\tx\ta\nR\ty\t<x>[ba]\n";
    let (number, answer, lines, nodes) = read_rule_file(file, [5, 32, 2_048]);
    assert_eq!((number, answer), (Some(20), vec![20, 2, 0, 0, 0]));
    assert_eq!((lines, nodes), (vec![KEPT; 32], vec![KEPT; 2_048]));
    let (number, answer, table) = judge_rule_file(file, b"_", 0, [4, 1]);
    assert_eq!((number, answer), (Some(20), vec![20, 2, 0, 0]));
    assert_eq!(table, [KEPT]);
}

#[test]
fn a_refused_rule_leaves_the_nodes() {
    let (number, answer, nodes) = read_rule(b"a|", 6, 128);
    assert_eq!((number, answer), (Some(4), vec![4, 2, 0, 0, 0, 0]));
    assert_eq!(nodes, [KEPT; 128]);
}

#[test]
fn what_is_too_short_to_answer_stays_as_it_is() {
    assert_eq!(
        read_rule(b"a", 5, 128),
        (None, vec![KEPT; 5], vec![KEPT; 128])
    );
    assert_eq!(
        read_rule(b"", 6, 127),
        (None, vec![KEPT; 6], vec![KEPT; 127])
    );
    let (mut letters, mut seconds, mut answer) = ([b'?'], [7], [KEPT; 4]);
    let number = run(Call::ReadDay {
        file: b"E\t0\ta\n",
        letters: &mut letters,
        seconds: &mut seconds,
        answer: &mut answer,
    });
    assert_eq!(number, None);
    assert_eq!((letters, seconds, answer), ([b'?'], [7], [KEPT; 4]));
}

#[test]
fn what_is_returned_is_the_number_or_none_that_there_is() {
    assert_eq!([Some(0), Some(16)].map(returned), [0, 16]);
    assert_eq!(returned(None), 18_446_744_073_709_551_615);
}

#[test]
fn a_day_fills_both_buffers_up_to_its_end() {
    let (mut letters, mut seconds, mut answer) = ([b'?'; 3], [7; 4], [KEPT; 6]);
    let number = run(Call::ReadDay {
        file: b"E\t86400\tx\nE\t89999\tY\n",
        letters: &mut letters,
        seconds: &mut seconds,
        answer: &mut answer,
    });
    assert_eq!(number, Some(0));
    assert_eq!((&letters, seconds), (b"xY?", [86_400, 89_999, 7, 7]));
    assert_eq!(answer, [0, 0, 0, 0, 2, KEPT]);
}

#[test]
fn a_judgement_fills_the_needed_numbers() {
    let (number, answer, table) = judge(b"!a", b"a", 7, 18);
    assert_eq!((number, answer), (Some(0), vec![0, 0, 2, 7, KEPT]));
    let block = [1, 0, 0, 0, 2, 0, 0, 0];
    assert_eq!(table, [&block[..], &block, &[KEPT; 2]].concat());
    let (number, answer, table) = judge(b"!a", b"a", 6, 18);
    assert_eq!((number, answer), (Some(10), vec![10, 0, 0, 6, KEPT]));
    assert_eq!(table, [&[0; 16][..], &[KEPT; 2]].concat());
    let (number, answer, table) = judge(b"!a", b"a_", 7, 18);
    assert_eq!((number, answer), (Some(8), vec![8, 1, 0, 0, KEPT]));
    assert_eq!(table, [KEPT; 18]);
}

#[test]
fn a_job_writes_its_text() {
    let (job, text) = (b"R\t!a\nE\t0\ta\n", b"H\t1\t2\t1\t2\t7\nS\t0\t0\nS\t1\t1\n");
    let length = text.len() as u64;
    let answer = vec![0, 0, 2, 7, length, KEPT];
    assert_eq!(
        run_job(job, text.len()),
        (Some(0), answer.clone(), text.to_vec())
    );
    let longer = [&text[..], b"??"].concat();
    assert_eq!(run_job(job, longer.len()), (Some(0), answer, longer));
    let refused = vec![15, 0, 0, 0, 0, KEPT];
    let short = vec![b'?'; text.len() - 1];
    assert_eq!(run_job(job, short.len()), (Some(15), refused, short));
    let refused = vec![13, 1, 0, 0, 0, KEPT];
    assert_eq!(
        run_job(b"R\ta\nE\t90000\ta\n", 0),
        (Some(13), refused, vec![])
    );
}

#[test]
fn a_rule_file_has_two_numbers_for_each_line_and_each_node() {
    let file = b"R\tx\ta\nR\ty\t!<x>&<x><x>*\n";
    let (number, answer, lines, nodes) = read_rule_file(file, [6, 33, 2_050]);
    assert_eq!((number, answer), (Some(0), vec![0, 0, 0, 0, 2, KEPT]));
    assert_eq!(lines[..4], [1, 0, 7, 2]);
    assert_eq!(lines[4..], [KEPT; 29]);
    assert_eq!(nodes[..2], [0, A]);
    assert_eq!(nodes[2..128], [KEPT; 126]);
    let second = [2, A, 0, 5, 6, A, 9, A, 11, 6, 8, 4, 4, 3];
    assert_eq!(nodes[128..142], second);
    assert_eq!(nodes[142..], [KEPT; 1_908]);
}

#[test]
fn the_last_of_sixteen_lines_has_the_last_nodes() {
    let line = |number: u8| [b"R\t", &[b'a' + number][..], b"\t", &[b'A' + number], b"\n"].concat();
    let file: Vec<u8> = (0..16).flat_map(line).collect();
    let (number, answer, lines, nodes) = read_rule_file(&file, [5, 32, 2_048]);
    assert_eq!((number, answer), (Some(0), vec![0, 0, 0, 0, 16]));
    assert_eq!(lines, [1, 0].repeat(16));
    for (line, nodes) in nodes.chunks(128).enumerate() {
        // Line 1 has A, whose bit is the lowest.
        assert_eq!(nodes[..2], [0, (1 << 63) + (1 << line)]);
        assert_eq!(nodes[2..], [KEPT; 126]);
    }
}

#[test]
fn a_refused_rule_file_leaves_the_lines_and_the_nodes() {
    let file = b"R\tx\ta\nR\tx\t)\n";
    let (number, answer, lines, nodes) = read_rule_file(file, [6, 32, 2_048]);
    assert_eq!((number, answer), (Some(18), vec![18, 2, 0, 0, 0, KEPT]));
    assert_eq!((lines, nodes), (vec![KEPT; 32], vec![KEPT; 2_048]));
}

#[test]
fn a_rule_file_without_room_for_its_answer_is_left() {
    for file in [&b"R\tx\ta\n"[..], b""] {
        for lengths in [[4, 32, 2_048], [5, 31, 2_048], [5, 32, 2_047], [0, 0, 0]] {
            let [answer, lines, nodes] = lengths.map(|length| vec![KEPT; length]);
            let left = (None, answer, lines, nodes);
            assert_eq!(read_rule_file(file, lengths), left);
        }
        let left = (None, vec![KEPT; 3], vec![KEPT; 99]);
        assert_eq!(judge_rule_file(file, b"a", 9, [3, 99]), left);
    }
}

#[test]
fn a_rule_file_is_judged_by_its_last_line() {
    let file = b"R\tx\ta|b\nR\ty\t<x>c\n";
    let (number, answer, table) = judge_rule_file(file, b"acbc", 30, [5, 22]);
    assert_eq!((number, answer), (Some(0), vec![0, 0, 2, 30, KEPT]));
    // Spans (0, 2) and (2, 4).
    let mut expected = [0; 20];
    (expected[0], expected[8]) = (4, 16);
    assert_eq!(table, [&expected[..], &[KEPT; 2]].concat());
    let (number, answer, table) = judge_rule_file(file, b"acbc", 29, [4, 21]);
    assert_eq!((number, answer), (Some(10), vec![10, 0, 0, 29]));
    assert_eq!(table, [&[0; 20][..], &[KEPT]].concat());
    for (word, length, refused) in [
        (&b"acbc"[..], 19, vec![9, 0, 0, 0]),
        (b"ac_c", 0, vec![8, 2, 0, 0]),
        (&[b'_'; 256], 0, vec![7, 0, 0, 0]),
    ] {
        let (number, answer, table) = judge_rule_file(file, word, 0, [4, length]);
        assert_eq!((number, &answer), (Some(answer[0] as u32), &refused));
        assert_eq!(table, vec![KEPT; length]);
    }
    let (number, answer, _) = judge_rule_file(b"R\tx\ta\nR\ty\t<z>\n", &[b'_'; 256], 0, [4, 0]);
    assert_eq!((number, answer), (Some(17), vec![17, 2, 0, 0]));
}

/// Rewrites a rule; gives the number, the answer and the text's buffer.
fn rewrite_rule(text: &[u8], out: usize, answer: usize) -> (Option<u32>, Vec<u64>, Vec<u8>) {
    let (mut answer, mut out) = (vec![KEPT; answer], vec![b'?'; out]);
    let number = run(Call::RewriteRule {
        text,
        out: &mut out,
        answer: &mut answer,
    });
    (number, answer, out)
}

#[test]
fn a_rewriting_writes_its_text_and_nothing_beyond() {
    let answer = vec![0, 0, 0, 0, 2, KEPT];
    assert_eq!(
        rewrite_rule(b"a***", 4, 6),
        (Some(0), answer.clone(), b"a*??".to_vec())
    );
    let exact = (Some(0), answer, b"a*".to_vec());
    assert_eq!(rewrite_rule(b"a***", 2, 6), exact);
    let (number, answer, out) = rewrite_rule(b"(a*)*", 5, 5);
    assert_eq!((number, answer), (Some(0), vec![0, 0, 0, 0, 5]));
    assert_eq!(out, b"(a*)*");
}

#[test]
fn a_refused_rewriting_leaves_its_buffer() {
    let many = |count: usize| [&b"a"[..], &vec![b'*'; count]].concat();
    let refused: [(&[u8], usize, [u64; 2]); 9] = [
        (b"", 3, [1, 0]),
        (&many(255), 3, [2, 0]),
        (b"a**_", 3, [3, 3]),
        (b"a**|", 3, [4, 4]),
        (b"a**[ba]", 3, [20, 5]),
        (&many(64), 3, [5, 0]),
        (b"!!!!!!!!a**", 3, [6, 0]),
        (b"a***", 1, [15, 0]),
        (b"a", 0, [15, 0]),
    ];
    for (text, out, [number, place]) in refused {
        let answer = vec![number, place, 0, 0, 0, KEPT];
        let expected = (Some(number as u32), answer, vec![b'?'; out]);
        assert_eq!(rewrite_rule(text, out, 6), expected);
    }
}

#[test]
fn a_rewriting_without_room_for_its_answer_is_left() {
    for answer in 0..5 {
        for text in [&b"a**"[..], b"a", b"", b"a**|"] {
            let left = (None, vec![KEPT; answer], vec![b'?'; 9]);
            assert_eq!(rewrite_rule(text, 9, answer), left);
        }
    }
}

#[test]
fn a_star_after_a_star_is_21_in_every_call_that_refuses_it() {
    let refused = vec![21, 2, 0, 0, 0, 0];
    let kept = vec![KEPT; 128];
    assert_eq!(read_rule(b"a**", 6, 128), (Some(21), refused, kept));
    let (number, answer, table) = judge(b"(a*)**", b"_", 0, 3);
    assert_eq!((number, answer), (Some(21), vec![21, 5, 0, 0, KEPT]));
    assert_eq!(table, [KEPT; 3]);
    let (number, answer, out) = run_job(b"R\ta**\nE\n", 2);
    assert_eq!((number, answer), (Some(21), vec![21, 2, 0, 0, 0, KEPT]));
    assert_eq!(out, b"??");
    let file = b"R\tx\ta*\nR\ty\t<x>**\n";
    let (number, answer, lines, nodes) = read_rule_file(file, [5, 32, 2_048]);
    assert_eq!((number, answer), (Some(21), vec![21, 2, 0, 0, 0]));
    assert_eq!((lines, nodes), (vec![KEPT; 32], vec![KEPT; 2_048]));
    let (number, answer, table) = judge_rule_file(file, b"_", 0, [4, 1]);
    assert_eq!((number, answer), (Some(21), vec![21, 2, 0, 0]));
    assert_eq!(table, [KEPT]);
}

/// Merges two days; gives the number, the answer, the letters and the seconds.
fn merge_days(
    [first, second]: [&[u8]; 2],
    [letters, seconds, answer]: [usize; 3],
) -> (Option<u32>, Vec<u64>, Vec<u8>, Vec<u32>) {
    let (mut letters, mut seconds) = (vec![b'?'; letters], vec![7; seconds]);
    let mut answer = vec![KEPT; answer];
    let number = run(Call::MergeDays {
        first,
        second,
        letters: &mut letters,
        seconds: &mut seconds,
        answer: &mut answer,
    });
    (number, answer, letters, seconds)
}

#[test]
fn merged_days_fill_both_buffers_up_to_their_end() {
    let files: [&[u8]; 2] = [b"E\t5\tx\nE\t86400\ty\n", b"E\t5\tA\nE\t89999\tB\n"];
    let (number, answer, letters, seconds) = merge_days(files, [5, 6, 7]);
    assert_eq!(number, Some(0));
    assert_eq!(answer, [0, 0, 0, 0, 4, KEPT, KEPT]);
    assert_eq!(letters, b"xAyB?");
    assert_eq!(seconds, [5, 5, 86_400, 89_999, 7, 7]);
    let exact = merge_days(files, [4, 4, 5]);
    let answer = vec![0, 0, 0, 0, 4];
    let seconds = vec![5, 5, 86_400, 89_999];
    assert_eq!(exact, (Some(0), answer, b"xAyB".to_vec(), seconds));
    let empty = merge_days([b"", b""], [0, 0, 5]);
    assert_eq!(empty, (Some(0), vec![0; 5], vec![], vec![]));
}

#[test]
fn refused_days_leave_both_buffers() {
    let (good, full) = (&b"E\t5\ta\n"[..], b"E\t5\ta\n".repeat(255));
    let long = [b'x'; 2_551];
    type Refused<'a> = ([&'a [u8]; 2], [usize; 2], [u64; 2]);
    let refused: [Refused; 10] = [
        ([&long, b"x"], [3, 3], [11, 0]),
        ([good, &long], [3, 3], [11, 0]),
        ([b"x", &long], [3, 3], [12, 1]),
        ([good, b"E\t5\ta\nE\t6\tb\nx"], [3, 3], [12, 3]),
        ([b"E\t5\ta\nE\t4\ta\n", b"x"], [3, 3], [13, 2]),
        ([&full, &[&full[..], b"E"].concat()], [0, 0], [14, 256]),
        ([&full, good], [0, 300], [22, 0]),
        ([good, &full], [256, 256], [22, 0]),
        ([good, good], [1, 2], [15, 0]),
        ([good, good], [2, 1], [15, 0]),
    ];
    for (files, [letters, seconds], [number, place]) in refused {
        let answer = vec![number, place, 0, 0, 0, KEPT];
        let (kept_letters, kept_seconds) = (vec![b'?'; letters], vec![7; seconds]);
        let expected = (Some(number as u32), answer, kept_letters, kept_seconds);
        assert_eq!(merge_days(files, [letters, seconds, 6]), expected);
    }
}

#[test]
fn merged_days_without_room_for_their_answer_are_left() {
    for answer in 0..5 {
        for files in [[&b"E\t5\ta\n"[..], b""], [b"x", b""], [b"", b""]] {
            let left = (None, vec![KEPT; answer], vec![b'?'; 3], vec![7; 3]);
            assert_eq!(merge_days(files, [3, 3, answer]), left);
        }
    }
}
