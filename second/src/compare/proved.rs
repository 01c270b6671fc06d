//! The proved library by its C interface, `include/wuzlevor.h`; all the unsafe code is here.

use std::thread;

use super::call::Call;

/// The stack on which the library is called: it has to do with this much, whatever it is asked.
const LIBRARY_STACK: usize = 512 * 1024;

extern "C" {
    fn wuz_read_rule(
        text: *const u8,
        text_len: usize,
        answer: *mut u64,
        answer_len: usize,
        nodes: *mut u64,
        nodes_len: usize,
    ) -> u64;
    fn wuz_read_day(
        file: *const u8,
        file_len: usize,
        letters: *mut u8,
        letters_len: usize,
        seconds: *mut u32,
        seconds_len: usize,
        answer: *mut u64,
        answer_len: usize,
    ) -> u64;
    fn wuz_judge(
        rule: *const u8,
        rule_len: usize,
        word: *const u8,
        word_len: usize,
        limit: u64,
        table: *mut u64,
        table_len: usize,
        answer: *mut u64,
        answer_len: usize,
    ) -> u64;
    fn wuz_run_job(
        job: *const u8,
        job_len: usize,
        out: *mut u8,
        out_len: usize,
        answer: *mut u64,
        answer_len: usize,
    ) -> u64;
    fn wuz_read_rule_file(
        file: *const u8,
        file_len: usize,
        answer: *mut u64,
        answer_len: usize,
        lines: *mut u64,
        lines_len: usize,
        nodes: *mut u64,
        nodes_len: usize,
    ) -> u64;
    fn wuz_judge_rule_file(
        file: *const u8,
        file_len: usize,
        word: *const u8,
        word_len: usize,
        limit: u64,
        table: *mut u64,
        table_len: usize,
        answer: *mut u64,
        answer_len: usize,
    ) -> u64;
    fn wuz_rewrite_rule(
        text: *const u8,
        text_len: usize,
        out: *mut u8,
        out_len: usize,
        answer: *mut u64,
        answer_len: usize,
    ) -> u64;
    fn wuz_merge_days(
        first: *const u8,
        first_len: usize,
        second: *const u8,
        second_len: usize,
        letters: *mut u8,
        letters_len: usize,
        seconds: *mut u32,
        seconds_len: usize,
        answer: *mut u64,
        answer_len: usize,
    ) -> u64;
}

/// Does a call on a small stack, in a thread with the case's name; gives what it returns.
///
/// If the stack overflows, the message that ends everything has that name.
pub fn run(case: &str, call: Call<'_>) -> u64 {
    let small = thread::Builder::new()
        .name(case.to_string())
        .stack_size(LIBRARY_STACK);
    thread::scope(|scope| {
        let called = small.spawn_scoped(scope, || run_here(call));
        let thread = called.unwrap_or_else(|error| panic!("no thread for {case}: {error}"));
        let returned = thread.join();
        returned.unwrap_or_else(|_| panic!("the library panicked in {case}"))
    })
}

/// Does a call on the stack that there is.
fn run_here(call: Call<'_>) -> u64 {
    match call {
        Call::ReadRule {
            text,
            answer,
            nodes,
        } => read_rule(text, answer, nodes),
        Call::ReadDay {
            file,
            letters,
            seconds,
            answer,
        } => read_day(file, letters, seconds, answer),
        Call::Judge {
            rule,
            word,
            limit,
            table,
            answer,
        } => judge(rule, word, limit, table, answer),
        Call::RunJob { job, out, answer } => run_job(job, out, answer),
        Call::ReadRuleFile {
            file,
            answer,
            lines,
            nodes,
        } => read_rule_file(file, answer, lines, nodes),
        Call::JudgeRuleFile {
            file,
            word,
            limit,
            table,
            answer,
        } => judge_rule_file(file, word, limit, table, answer),
        Call::RewriteRule { text, out, answer } => rewrite_rule(text, out, answer),
        Call::MergeDays {
            first,
            second,
            letters,
            seconds,
            answer,
        } => merge_days(first, second, letters, seconds, answer),
    }
}

// In each of the following the pointers and lengths are those of slices, and the slices that are
// written are borrowed by nobody else: that is all that the C interface asks of its caller.

fn read_rule(text: &[u8], answer: &mut [u64], nodes: &mut [u64]) -> u64 {
    unsafe {
        wuz_read_rule(
            text.as_ptr(),
            text.len(),
            answer.as_mut_ptr(),
            answer.len(),
            nodes.as_mut_ptr(),
            nodes.len(),
        )
    }
}

fn read_day(file: &[u8], letters: &mut [u8], seconds: &mut [u32], answer: &mut [u64]) -> u64 {
    unsafe {
        wuz_read_day(
            file.as_ptr(),
            file.len(),
            letters.as_mut_ptr(),
            letters.len(),
            seconds.as_mut_ptr(),
            seconds.len(),
            answer.as_mut_ptr(),
            answer.len(),
        )
    }
}

fn judge(rule: &[u8], word: &[u8], limit: u64, table: &mut [u64], answer: &mut [u64]) -> u64 {
    unsafe {
        wuz_judge(
            rule.as_ptr(),
            rule.len(),
            word.as_ptr(),
            word.len(),
            limit,
            table.as_mut_ptr(),
            table.len(),
            answer.as_mut_ptr(),
            answer.len(),
        )
    }
}

fn run_job(job: &[u8], out: &mut [u8], answer: &mut [u64]) -> u64 {
    unsafe {
        wuz_run_job(
            job.as_ptr(),
            job.len(),
            out.as_mut_ptr(),
            out.len(),
            answer.as_mut_ptr(),
            answer.len(),
        )
    }
}

fn read_rule_file(file: &[u8], answer: &mut [u64], lines: &mut [u64], nodes: &mut [u64]) -> u64 {
    unsafe {
        wuz_read_rule_file(
            file.as_ptr(),
            file.len(),
            answer.as_mut_ptr(),
            answer.len(),
            lines.as_mut_ptr(),
            lines.len(),
            nodes.as_mut_ptr(),
            nodes.len(),
        )
    }
}

fn judge_rule_file(
    file: &[u8],
    word: &[u8],
    limit: u64,
    table: &mut [u64],
    answer: &mut [u64],
) -> u64 {
    unsafe {
        wuz_judge_rule_file(
            file.as_ptr(),
            file.len(),
            word.as_ptr(),
            word.len(),
            limit,
            table.as_mut_ptr(),
            table.len(),
            answer.as_mut_ptr(),
            answer.len(),
        )
    }
}

fn rewrite_rule(text: &[u8], out: &mut [u8], answer: &mut [u64]) -> u64 {
    unsafe {
        wuz_rewrite_rule(
            text.as_ptr(),
            text.len(),
            out.as_mut_ptr(),
            out.len(),
            answer.as_mut_ptr(),
            answer.len(),
        )
    }
}

fn merge_days(
    first: &[u8],
    second: &[u8],
    letters: &mut [u8],
    seconds: &mut [u32],
    answer: &mut [u64],
) -> u64 {
    unsafe {
        wuz_merge_days(
            first.as_ptr(),
            first.len(),
            second.as_ptr(),
            second.len(),
            letters.as_mut_ptr(),
            letters.len(),
            seconds.as_mut_ptr(),
            seconds.len(),
            answer.as_mut_ptr(),
            answer.len(),
        )
    }
}
