//! How much stack the proved judge uses: the stack below it is painted, and what is no longer painted afterwards was used.

use std::hint::black_box;
use std::ptr;
use std::thread;

use bench::blocks::empty_table;
use bench::proved;
use bench::row::Row;
use bench::rules::Rule;
use bench::words::all_a;

use crate::target::print_target;

/// The stack of the thread that calls the judge.
const STACK: usize = 4 << 20;

/// The bytes that are painted.
const PAINTED: usize = 1 << 20;

/// The bytes between a variable of the caller and the painted ones: room for the frames of the painting itself.
const GAP: usize = 4096;

/// What is painted, a number of 8 bytes at a time.
const PAINT: u64 = 0x5AC3_96E1_0FD2_B478;

/// The most bytes of stack that a judgement is to use.
const TARGET: usize = 65_536;

/// The most bytes that a rule text has.
const MOST_TEXT: usize = 255;

/// Measures all rules and the texts that are read most deeply, each on 255 events.
pub fn print_stack(rules: &[Rule]) {
    println!("Stack that `wuz_judge` uses, with a few bytes of its caller's:");
    let of_rule = |rule: &Rule| (stack_of(rule.text.as_bytes(), &(rule.word)(255)), rule.name);
    print_most("the rules above", rules.iter().map(of_rule));
    let of_text = |(name, text): &(_, String)| (stack_of(text.as_bytes(), &all_a(255)), *name);
    print_most("the deepest rule texts", deep_texts().iter().map(of_text));
}

fn print_most<'a>(which: &str, used: impl Iterator<Item = (usize, &'a str)>) {
    let (bytes, name) = used.max().unwrap_or((0, "none"));
    let what = format!("most bytes of {which}, by \"{name}\"");
    print_target(&what, bytes as f64, 0, "at most 65,536", bytes <= TARGET);
}

/// Texts that a recursive reader goes deepest on; the last two are refused.
fn deep_texts() -> [(&'static str, String); 8] {
    [
        ("127 parentheses", filled("a".to_string())),
        ("parentheses, complements", filled(nested("!(", 7, ")"))),
        (
            "parentheses, unions from the left",
            filled(nested("(", 31, "|a)")),
        ),
        (
            "parentheses, unions from the right",
            filled(nested("(a|", 31, ")")),
        ),
        ("parentheses, sequences", filled(nested("(a", 31, ")"))),
        ("parentheses, stars", filled(nested("(", 63, ")*"))),
        ("255 opening parentheses", "(".repeat(MOST_TEXT)),
        ("254 complements", format!("{}a", "!".repeat(MOST_TEXT - 1))),
    ]
}

fn nested(open: &str, times: usize, close: &str) -> String {
    format!("{}a{}", open.repeat(times), close.repeat(times))
}

/// A text with as many parentheses around it as fit.
fn filled(text: String) -> String {
    let pairs = (MOST_TEXT - text.len()) / 2;
    format!("{}{text}{}", "(".repeat(pairs), ")".repeat(pairs))
}

/// The bytes of stack that a judgement uses, and a few of its caller's.
fn stack_of(text: &[u8], word: &[u8]) -> usize {
    let mut table = empty_table(word.len());
    let large = thread::Builder::new().stack_size(STACK);
    thread::scope(|scope| {
        let measured = large.spawn_scoped(scope, || used_by(text, word, &mut table));
        let thread = measured.expect("there is memory for a thread");
        thread.join().expect("the judge returns")
    })
}

fn used_by(text: &[u8], word: &[u8], table: &mut [Row]) -> usize {
    let here = 0u8;
    let top = (ptr::from_ref(black_box(&here)) as usize - GAP) & !7;
    paint(top);
    black_box(proved::judge(text, word, table));
    ptr::from_ref(black_box(&here)) as usize - lowest_used(top)
}

/// Paints the stack below an address of this thread's stack.
#[inline(never)]
fn paint(top: usize) {
    for address in (top - PAINTED..top).step_by(8) {
        // The address is on this thread's stack, a page below every frame in use.
        unsafe { ptr::write_volatile(address as *mut u64, PAINT) };
    }
}

/// The lowest painted address that has changed.
#[inline(never)]
fn lowest_used(top: usize) -> usize {
    (top - PAINTED..top)
        .step_by(8)
        // The address is on this thread's stack, and was painted.
        .find(|&address| unsafe { ptr::read_volatile(address as *const u64) } != PAINT)
        .unwrap_or(top)
}
