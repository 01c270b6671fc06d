//! Numbers that have a target. Whether one is met is said, and nothing else comes of it.

/// Writes a number with some decimals, its target, and whether it is met.
pub fn print_target(what: &str, value: f64, decimals: usize, target: &str, met: bool) {
    let said = if met { "met" } else { "not met" };
    println!("- {what}: {value:.decimals$} (target {target}: {said})");
}
