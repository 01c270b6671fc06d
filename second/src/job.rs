//! The program: a job comes in, a few lines of text go out.

use std::io::{self, Read};

use crate::limits::{MAX_DAY_LINES, MAX_JOB_BYTES, MAX_LIMIT};
use crate::refusal::{Reason, Refusal};
use crate::{day, judge, rule, table};

/// Takes a job from its source and leaves what follows the longest job unread.
pub fn read(source: impl Read) -> io::Result<Vec<u8>> {
    let mut job = Vec::new();
    source.take(MAX_JOB_BYTES as u64).read_to_end(&mut job)?;
    Ok(job)
}

/// The output for a job.
pub fn output(job: &[u8]) -> String {
    match judge_job(job) {
        Ok(report) => report.lines(),
        Err((number, place)) => format!("X\t{number}\t{place}\n"),
    }
}

/// What the output for an accepted job says.
pub struct Report {
    n: usize,
    m: usize,
    k: usize,
    pub found: u64,
    pub count: u64,
    spans: Vec<(usize, usize)>,
}

impl Report {
    /// The heading line and then a line for each span.
    pub fn lines(&self) -> String {
        let Report {
            n,
            m,
            k,
            found,
            count,
            spans,
        } = self;
        let mut lines = format!("H\t{n}\t{m}\t{k}\t{found}\t{count}\n");
        for (i, j) in spans {
            lines.push_str(&format!("S\t{i}\t{j}\n"));
        }
        lines
    }
}

/// Passes a job through the rows of the refusal table; a refusal is a number and a place.
pub fn judge_job(job: &[u8]) -> Result<Report, (u32, usize)> {
    let plain = |refusal: Refusal| (refusal.number(), refusal.place);
    let (rule_text, day_file) = split_job(job).map_err(plain)?;
    let rule = rule::read(rule_text).map_err(plain)?;
    let mut letters = [0; MAX_DAY_LINES];
    let mut seconds = [0; MAX_DAY_LINES];
    let n = day::read(day_file, &mut letters, &mut seconds).map_err(plain)?;
    let (m, k) = (rule.m(), rule.k());
    let mut table = vec![0; table::need(k, n)];
    let answer = judge::judge(rule_text, &letters[..n], limit(m, n), &mut table);
    if answer.number != 0 {
        return Err((answer.number, answer.place));
    }
    let spans = table::found_spans(&table, n);
    Ok(Report {
        n,
        m,
        k,
        found: answer.found,
        count: answer.count,
        spans,
    })
}

/// Parts a job into its rule text and its day file.
pub fn split_job(job: &[u8]) -> Result<(&[u8], &[u8]), Refusal> {
    let refusal = Refusal::without_place(Reason::RuleLineForm);
    let rest = job.strip_prefix(b"R\t").ok_or(refusal)?;
    let end = rest.iter().position(|&byte| byte == b'\n').ok_or(refusal)?;
    Ok((&rest[..end], &rest[end + 1..]))
}

/// The limit the program gives a judge call.
pub fn limit(m: usize, n: usize) -> u64 {
    let bound = (m * (n + 1) * (n + 2)) as u64;
    bound.min(MAX_LIMIT)
}
