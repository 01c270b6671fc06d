//! How the time grows with the number of events, for the rule that takes the proved judge longest.

use crate::judging::{measure, Measured};

/// The numbers of events that are measured.
const EVENTS: [usize; 4] = [32, 64, 128, 255];

/// Measures that rule at rising numbers of events. The number of spans is (n + 1)(n + 2) / 2.
pub fn print_growth(measured: &[Measured]) -> Result<(), String> {
    let slowest = measured
        .iter()
        .filter(|one| one.n == 255)
        .max_by(|one, other| one.times.proved.total_cmp(&other.times.proved))
        .ok_or("no rule was measured at n = 255")?;
    println!(
        "Of \"{}\", which takes the proved judge longest at n = 255:",
        slowest.rule.name
    );
    println!();
    println!("| n | proved (µs) | baseline (µs) | ratio | proved / (n+1)(n+2) (ns) | baseline / (n+1)(n+2) (ns) |");
    println!("|--:|--:|--:|--:|--:|--:|");
    for n in EVENTS {
        let times = measure(slowest.rule, n)?.times;
        let spans = ((n + 1) * (n + 2)) as f64;
        println!(
            "| {n} | {:.1} | {:.1} | {:.2} | {:.1} | {:.1} |",
            times.proved,
            times.baseline,
            times.against_baseline(),
            times.proved * 1000.0 / spans,
            times.baseline * 1000.0 / spans
        );
    }
    Ok(())
}
