//! What is drawn for the library: fixed by seed and number, and at every bound.

use std::collections::BTreeSet;
use std::ops::RangeInclusive;

use second::compare::call::{FILE_LINES, FILE_NODES, NODES};
use second::compare::lent::Dirt;
use second::compare::random_requests::{source, Draws};
use second::compare::request::{Asked, Request};
use second::job;
use second::judge::{judge, judge_file};
use second::{day, rewrite, rule, rule_file};

/// Draws the first requests of a seed.
fn requests(seed: u64, count: usize) -> Vec<Request> {
    let draws = Draws::new();
    let request = |number| draws.request(&mut source(seed, number));
    (1..=count).map(request).collect()
}

#[test]
fn seed_and_number_fix_a_request() {
    let (few, many) = (requests(5, 20), requests(5, 40));
    assert_eq!(few, many[..20]);
    assert_ne!(few, requests(6, 20));
    let again = Draws::new().request(&mut source(5, 40));
    assert_eq!(again, many[39]);
}

/// Adds the name of a bound if it is met.
fn note(bounds: &mut BTreeSet<String>, met: bool, name: impl Into<String>) {
    if met {
        bounds.insert(name.into());
    }
}

/// Whether a capital stands among the bytes.
fn has_capital(bytes: &[u8]) -> bool {
    bytes.iter().any(u8::is_ascii_uppercase)
}

/// Whether a second of a day is one of these.
fn has_second(day: &[u8], seconds: RangeInclusive<u32>) -> bool {
    let fields = day.split(|&byte| byte == b'\t');
    let mut numbers = fields.filter_map(|field| std::str::from_utf8(field).ok()?.parse().ok());
    numbers.any(|number: u32| seconds.contains(&number))
}

/// Notes the bounds of seconds; the name is that of what they stand in.
fn note_seconds(bounds: &mut BTreeSet<String>, bytes: &[u8], name: &str) {
    let in_last = has_second(bytes, 86_400..=89_999);
    note(bounds, in_last, format!("{name} in hour 25"));
    let after = has_second(bytes, 90_002..=99_998);
    note(bounds, after, format!("{name} after hour 25"));
    for second in [86_399, 86_400, 89_999, 90_000] {
        let met = has_second(bytes, second..=second);
        note(bounds, met, format!("{name} at {second}"));
    }
}

/// Notes the bounds of a rule text.
fn note_rule(bounds: &mut BTreeSet<String>, text: &[u8], nodes: usize) {
    let length = text.len();
    note(
        bounds,
        (254..=257).contains(&length),
        format!("rule of {length}"),
    );
    note(bounds, nodes == NODES - 1, "nodes short");
    note(bounds, nodes > NODES, "nodes long");
    match rule::read(text) {
        Ok(rule) => {
            note(bounds, has_capital(text), "rule with capital");
            note(bounds, text.contains(&b'['), "rule with brackets");
            note(bounds, text.contains(&b'.'), "rule with dot");
            note(bounds, rule.m() >= 63, format!("m {}", rule.m()));
            note(bounds, rule.k() == 7, "k 7");
            note(bounds, length == 255, "sentence of 255");
            note(bounds, text.starts_with(&[b'('; 127]), "127 nested");
        }
        Err(refusal) => note(bounds, true, format!("rule {}", refusal.number())),
    }
}

/// Notes the bounds of a day.
fn note_day(bounds: &mut BTreeSet<String>, file: &[u8], letters: usize, seconds: usize) {
    let n = file.iter().filter(|&&byte| byte == b'\n').count();
    note(bounds, [255, 256].contains(&n), format!("{n} lines"));
    let length = file.len();
    note(
        bounds,
        [2_550, 2_551].contains(&length),
        format!("day of {length}"),
    );
    for (name, buffer) in [("letters", letters), ("seconds", seconds)] {
        note(bounds, n > 1 && buffer == 0, format!("{name} none"));
        note(bounds, buffer + 1 == n, format!("{name} short"));
        note(bounds, buffer == n, format!("{name} exact"));
        note(bounds, buffer == n + 3, format!("{name} long"));
    }
    note(bounds, letters != seconds, "buffers differ");
    note_seconds(bounds, file, "day");
}

/// Notes the bounds of a judge call.
fn note_judge(bounds: &mut BTreeSet<String>, rule: &[u8], word: &[u8], limit: u64, table: usize) {
    let n = word.len();
    note(bounds, true, format!("n {n}"));
    let reading = match rule::read(rule) {
        Ok(reading) => reading,
        Err(refusal) => return note(bounds, true, format!("judge {}", refusal.number())),
    };
    let need = (reading.k() + 1) * (n + 1) * 4;
    note(bounds, has_capital(rule) && has_capital(word), "capitals");
    note(bounds, rule.contains(&b'['), "judge with brackets");
    note(bounds, rule.contains(&b'.'), "judge with dot");
    note(
        bounds,
        !has_capital(rule) && has_capital(word),
        "word with capital",
    );
    note(bounds, table + 1 == need, "table short");
    note(bounds, table == need, "table exact");
    note(bounds, table == need + 5, "table long");
    note(bounds, n == 255 && reading.m() == 64, "largest");
    let count = judge(rule, word, u64::MAX, &mut vec![0; need]).count;
    note(bounds, limit == 0, "limit 0");
    note(bounds, limit + 1 == count, "limit below");
    note(bounds, limit == count, "limit exact");
    note(bounds, limit == count + 1, "limit above");
}

/// Notes the bounds of a job.
fn note_job(bounds: &mut BTreeSet<String>, bytes: &[u8], out: usize) {
    note(bounds, bytes.len() > 2_809, "job beyond");
    note(bounds, bytes.starts_with(b"R\tA"), "job with capital");
    note(bounds, bytes.ends_with(b"\tZ\n"), "day with capital");
    note(bounds, bytes.contains(&0), "job with NUL");
    note(bounds, bytes.contains(&255), "job with high byte");
    note(bounds, bytes.contains(&b'\r'), "job with CR");
    note_seconds(bounds, bytes, "job");
    match job::judge_job(bytes) {
        Ok(report) => {
            let length = report.lines().len();
            note(bounds, bytes.contains(&b'['), "job with brackets");
            note(bounds, bytes.contains(&b'.'), "job with dot");
            note_out(bounds, out, length, "out");
        }
        Err((number, _)) => note(bounds, true, format!("job {number}")),
    }
}

/// Notes the bounds of a buffer for a text; the name is that of the buffer.
fn note_out(bounds: &mut BTreeSet<String>, out: usize, length: usize, name: &str) {
    note(bounds, out == 0, format!("{name} none"));
    note(bounds, out + 1 == length, format!("{name} short"));
    note(bounds, out == length, format!("{name} exact"));
    note(bounds, out == length + 5, format!("{name} long"));
}

/// Notes the bounds of a rewriting.
fn note_rewriting(bounds: &mut BTreeSet<String>, text: &[u8], out: usize) {
    let rewritten = match rewrite::rewritten(text) {
        Ok(rewritten) => rewritten,
        Err(refusal) => return note(bounds, true, format!("rewriter {}", refusal.number())),
    };
    note_out(bounds, out, rewritten.len(), "rewriting");
    let lost = text.len() - rewritten.len();
    note(bounds, lost == 0, "rewritten to itself");
    note(bounds, lost == 1, "one star lost");
    note(bounds, lost > 30, "many stars lost");
    note(bounds, text.len() == 255, "rewritten from 255");
    note(bounds, text.contains(&b'['), "rewritten brackets");
    note(bounds, text.starts_with(b"!"), "rewritten complement");
}

/// Notes the bounds of two days that are merged.
fn note_merging(bounds: &mut BTreeSet<String>, files: [&[u8]; 2], letters: usize, seconds: usize) {
    let read = files.map(day::records);
    for (name, day) in ["first", "second"].iter().zip(&read) {
        match day {
            Ok(records) => note(bounds, records.is_empty(), format!("{name} empty")),
            Err(refusal) => note(bounds, true, format!("{name} {}", refusal.number())),
        }
    }
    let [Ok(first), Ok(second)] = read else {
        return note(bounds, read.iter().all(Result::is_err), "both bad");
    };
    let n = first.len() + second.len();
    note(bounds, (254..=257).contains(&n), format!("{n} together"));
    for (name, buffer) in [("letters", letters), ("seconds", seconds)] {
        note(bounds, buffer + 1 == n, format!("merged {name} short"));
        note(bounds, buffer == n, format!("merged {name} exact"));
        note(bounds, buffer > n, format!("merged {name} long"));
        let of_one = [first.len(), second.len()].contains(&buffer) && buffer < n;
        note(bounds, of_one, format!("merged {name} for one"));
    }
    let at = |second: u32| second == 0 || second == 86_399 || second == 86_400 || second == 89_999;
    for record in first
        .iter()
        .chain(&second)
        .filter(|record| at(record.second))
    {
        note(bounds, true, format!("merged at {}", record.second));
    }
    let second_has = |record: &day::Record| second.iter().any(|other| other == record);
    note(bounds, first.iter().any(second_has), "event in both");
}

/// Notes the bounds of a rule file.
fn note_file(bounds: &mut BTreeSet<String>, file: &[u8]) {
    let lines = match rule_file::read(file) {
        Ok(lines) => lines,
        Err(refusal) => return note(bounds, true, format!("file {}", refusal.number())),
    };
    note(bounds, lines.len() == 1, "1 rule");
    note(bounds, lines.len() == 16, "16 rules");
    note(bounds, file.contains(&b'<'), "file with names");
    note(bounds, file.contains(&b'['), "file with brackets");
    note(bounds, file.contains(&b'.'), "file with dot");
    let last = lines.last().unwrap();
    note(bounds, last.name.len() == 12, "name of 12");
    note(bounds, last.text.len() > 110_000, "long text");
    note(bounds, last.text.starts_with(&[b'('; 1_800]), "1800 nested");
    note(bounds, last.rule.m() == 64, "file m 64");
    note(bounds, last.rule.k() == 7, "file k 7");
}

/// Notes the bounds of a judge call with a rule file.
fn note_file_judge(
    bounds: &mut BTreeSet<String>,
    file: &[u8],
    word: &[u8],
    limit: u64,
    table: usize,
) {
    let n = word.len();
    note(bounds, n >= 255, format!("file n {n}"));
    let Ok(rule) = rule_file::read_last(file) else {
        return;
    };
    let need = (rule.k() + 1) * (n + 1) * 4;
    note(bounds, table + 1 == need, "file table short");
    note(bounds, table == need, "file table exact");
    note(bounds, table == need + 5, "file table long");
    let count = judge_file(file, word, u64::MAX, &mut vec![0; need]).count;
    note(bounds, limit.wrapping_add(1) == count, "file limit below");
    note(bounds, limit == count, "file limit exact");
}

#[test]
fn every_bound_is_drawn() {
    let mut bounds = BTreeSet::new();
    for request in requests(2, 7_000) {
        note(&mut bounds, request.dirt == Dirt::Ones, "ones");
        note(&mut bounds, request.dirt != Dirt::Ones, "noise");
        let need = request.asked.callee().answer_length();
        note(&mut bounds, request.answer < need, "answer short");
        note(&mut bounds, request.answer > need, "answer long");
        match &request.asked {
            Asked::Rule { text, nodes } => note_rule(&mut bounds, text, *nodes),
            Asked::Day {
                file,
                letters,
                seconds,
            } => note_day(&mut bounds, file, *letters, *seconds),
            Asked::Judge {
                rule,
                word,
                limit,
                table,
            } if *limit < u64::MAX => note_judge(&mut bounds, rule, word, *limit, *table),
            Asked::Judge { .. } => note(&mut bounds, true, "limit highest"),
            Asked::Job { job, out } => note_job(&mut bounds, job, *out),
            Asked::RuleFile { file, lines, nodes } => {
                note_file(&mut bounds, file);
                note(&mut bounds, *lines < FILE_LINES, "lines short");
                note(&mut bounds, *lines > FILE_LINES, "lines long");
                note(&mut bounds, *nodes < FILE_NODES, "file nodes short");
                note(&mut bounds, *nodes > FILE_NODES, "file nodes long");
            }
            Asked::JudgeFile {
                file,
                word,
                limit,
                table,
            } => note_file_judge(&mut bounds, file, word, *limit, *table),
            Asked::Rewriting { text, out } => note_rewriting(&mut bounds, text, *out),
            Asked::Merging {
                files,
                letters,
                seconds,
            } => {
                let files = files.each_ref().map(Vec::as_slice);
                note_merging(&mut bounds, files, *letters, *seconds);
            }
        }
    }
    let expected =
        "rule of 254;rule of 255;rule of 256;127 nested;nodes short;nodes long;m 63;m 64;\
        k 7;sentence of 255;rule 5;rule 6;255 lines;256 lines;day of 2550;day of 2551;letters none;\
        letters short;letters exact;letters long;seconds none;seconds short;seconds exact;\
        seconds long;buffers differ;n 0;n 1;n 63;n 64;n 65;n 127;n 128;n 254;n 255;n 256;\
        table short;table exact;table long;largest;limit 0;limit below;limit exact;limit above;\
        limit highest;job beyond;job with NUL;job with high byte;job with CR;out none;out short;\
        out exact;out long;job 1;job 2;job 3;job 4;job 5;job 6;job 11;job 12;job 13;job 14;job 16;\
        ones;noise;answer short;answer long;rule with capital;capitals;word with capital;\
        job with capital;day with capital;file 1;file 2;file 3;file 4;file 5;file 6;file 16;\
        file 17;file 18;file 19;1 rule;16 rules;file with names;name of 12;long text;1800 nested;\
        file m 64;file k 7;lines short;lines long;file nodes short;file nodes long;file n 255;\
        file n 256;file table short;file table exact;file table long;file limit below;\
        file limit exact;day in hour 25;day after hour 25;day at 86399;day at 86400;day at 89999;\
        day at 90000;job in hour 25;job after hour 25;job at 86399;job at 86400;job at 89999;\
        job at 90000;rule 20;judge 20;job 20;file 20;rule with brackets;rule with dot;\
        judge with brackets;judge with dot;job with brackets;job with dot;file with brackets;\
        file with dot;rule 21;judge 21;job 21;file 21;rewriter 1;rewriter 2;rewriter 3;rewriter 4;\
        rewriter 5;rewriter 6;rewriter 20;rewriting none;rewriting short;rewriting exact;\
        rewriting long;rewritten to itself;one star lost;many stars lost;rewritten from 255;\
        rewritten brackets;rewritten complement;first empty;first 11;first 12;first 13;first 14;\
        second empty;second 11;second 12;second 13;second 14;both bad;254 together;255 together;\
        256 together;257 together;merged letters short;merged letters exact;merged letters long;\
        merged letters for one;merged seconds short;merged seconds exact;merged seconds long;\
        merged seconds for one;merged at 0;merged at 86399;merged at 86400;merged at 89999;\
        event in both";
    for bound in expected.split(';') {
        assert!(bounds.contains(bound), "{bound} was not drawn");
    }
}
