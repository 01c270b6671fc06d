//! Times of three ways to do the same thing, taken by turns, so that what disturbs the machine disturbs all.

use std::time::Instant;

/// How long a sample takes at least, about, in microseconds: long beside what reading the clock takes.
const SAMPLE: f64 = 2000.0;

/// The median times of one call, in microseconds.
#[derive(Clone, Copy)]
pub struct Times {
    pub proved: f64,
    pub baseline: f64,
    pub tuned: f64,
}

impl Times {
    pub fn against_baseline(&self) -> f64 {
        self.proved / self.baseline
    }

    pub fn against_tuned(&self) -> f64 {
        self.proved / self.tuned
    }

    /// Takes samples of the proved one, the baseline and the tuned one by turns, a number of rounds. The samples of all are about
    /// equally long, since a longer one is interrupted more often.
    pub fn of(rounds: usize, mut calls: [&mut dyn FnMut(); 3]) -> Times {
        let quickest = calls.each_mut().map(|call| quickest(call));
        let length = quickest.into_iter().fold(SAMPLE, f64::max);
        let mut samples = [const { Vec::new() }; 3];
        for _ in 0..rounds {
            for (way, call) in calls.iter_mut().enumerate() {
                samples[way].push(sample(call, length / quickest[way]));
            }
        }
        Times::medians(samples)
    }

    /// The times of the proved one, the baseline and the tuned one, from samples of each.
    pub fn medians(samples: [Vec<f64>; 3]) -> Times {
        let [proved, baseline, tuned] = samples.map(|mut times| median(&mut times));
        Times {
            proved,
            baseline,
            tuned,
        }
    }
}

/// The shortest of a few calls; the first one warms the caches.
fn quickest(call: &mut dyn FnMut()) -> f64 {
    (0..4).fold(f64::INFINITY, |least, _| least.min(sample(call, 1.0)))
}

/// The microseconds of one call, over a number of calls, which is rounded.
fn sample(call: &mut dyn FnMut(), calls: f64) -> f64 {
    let calls = calls.round() as u32;
    let begin = Instant::now();
    for _ in 0..calls {
        call();
    }
    begin.elapsed().as_secs_f64() * 1e6 / f64::from(calls)
}

/// The middle one of an odd number of values; halfway between the two in the middle otherwise.
pub fn median(values: &mut [f64]) -> f64 {
    values.sort_by(f64::total_cmp);
    let (low, high) = ((values.len() - 1) / 2, values.len() / 2);
    (values[low] + values[high]) / 2.0
}
