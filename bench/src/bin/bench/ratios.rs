//! What is asked of the judges' ratios: to the baseline, each beside its target, and to the tuned judge, for comparison; and of the proved
//! judge's ratio between rules with sets of letters.

use bench::rules::Group;

use crate::judging::Measured;
use crate::target::print_target;
use crate::timing::{median, Times};

/// Only rules that take the baseline longer than this, in microseconds, count for the ratios of slow rules.
const SLOW: f64 = 1000.0;

/// The ratios that are asked for, of one kind.
struct Ratios {
    /// The greatest and the median one of the slow rules, if there are any.
    slow: Option<(f64, f64)>,
    /// The greatest one of the everyday rules.
    everyday: f64,
}

impl Ratios {
    fn of(measured: &[Measured], ratio: fn(&Times) -> f64) -> Ratios {
        let mut slow: Vec<f64> = slow(measured).map(|one| ratio(&one.times)).collect();
        Ratios {
            slow: (!slow.is_empty()).then(|| (greatest(slow.iter().copied()), median(&mut slow))),
            everyday: greatest(everyday(measured).map(|one| ratio(&one.times))),
        }
    }
}

/// Writes the numbers that have a target, each beside it: the ratios to the baseline, the everyday time, and the ratios of sets.
pub fn print_targets(measured: &[Measured]) {
    let ratios = Ratios::of(measured, Times::against_baseline);
    println!(
        "Rules that take the baseline more than 1 ms: {}",
        slow(measured).count()
    );
    if let Some((most, middle)) = ratios.slow {
        print_target("greatest ratio", most, 2, "at most 1.0", most <= 1.0);
        print_target("median ratio", middle, 2, "at most 0.7", middle <= 0.7);
    }
    println!("Everyday rules, n = 255: {}", everyday(measured).count());
    let most = ratios.everyday;
    print_target("greatest ratio", most, 2, "at most 3.0", most <= 3.0);
    let time = greatest(everyday(measured).map(|one| one.times.proved));
    let what = "greatest proved time, in µs";
    print_target(what, time, 1, "at most 50", time <= 50.0);
    println!("Sets of letters, the proved judge alone:");
    print_sets(measured);
}

/// Writes how much longer the second rule of sets takes the proved judge than the first one, at each number of events.
fn print_sets(measured: &[Measured]) {
    let sets = measured.iter().filter(|one| one.rule.group == Group::Sets);
    let sets: Vec<&Measured> = sets.collect();
    // All that was measured of the first rule stands before all that was measured of the second one.
    let (first, second) = sets.split_at(sets.len() / 2);
    for (one, other) in first.iter().zip(second) {
        let ratio = other.times.proved / one.times.proved;
        let what = format!(
            "ratio of \"{}\" to \"{}\", n = {}",
            other.rule.name, one.rule.name, one.n
        );
        print_target(&what, ratio, 2, "at most 1.2", ratio <= 1.2);
    }
}

/// Writes the same ratios to the tuned judge, over the same rules.
pub fn print_comparison(measured: &[Measured]) {
    let ratios = Ratios::of(measured, Times::against_tuned);
    println!("For comparison, the same rules against the tuned judge, without a target:");
    println!();
    if let Some((most, middle)) = ratios.slow {
        println!("- slow rules, greatest ratio: {most:.2}");
        println!("- slow rules, median ratio: {middle:.2}");
    }
    println!("- everyday rules, greatest ratio: {:.2}", ratios.everyday);
}

/// The rules, with their words, that take the baseline long.
fn slow<'a>(measured: &'a [Measured<'a>]) -> impl Iterator<Item = &'a Measured<'a>> {
    measured.iter().filter(|one| one.times.baseline > SLOW)
}

fn everyday<'a>(measured: &'a [Measured<'a>]) -> impl Iterator<Item = &'a Measured<'a>> {
    measured
        .iter()
        .filter(|one| one.rule.group == Group::Everyday && one.n == 255)
}

fn greatest(values: impl IntoIterator<Item = f64>) -> f64 {
    values.into_iter().fold(0.0, f64::max)
}
