//! Races: all variants run by turns on the same inputs, and the ratios are taken within each round.

use std::time::Instant;

/// One variant of a race: prepares (not timed), then runs and gives a sum over all its results.
pub struct Variant<'a> {
    pub name: &'static str,
    pub prepare: Box<dyn FnMut() + 'a>,
    pub run: Box<dyn FnMut() -> u64 + 'a>,
}

/// The middle of a list of numbers.
pub fn median(mut numbers: Vec<f64>) -> f64 {
    numbers.sort_by(f64::total_cmp);
    numbers[numbers.len() / 2]
}

/// What came out of a race: the library's nanoseconds for one operation, and its ratio to each other variant.
pub struct Outcome {
    pub nanoseconds: f64,
    pub ratios: Vec<(&'static str, f64)>,
}

/// Runs a race of so many rounds, each of `operations` operations. The first variant is the library. All must give the
/// same sum.
pub fn race(rounds: usize, operations: usize, variants: &mut [Variant<'_>]) -> Outcome {
    let mut times: Vec<Vec<f64>> = vec![Vec::new(); variants.len()];
    for round in 0..rounds + 2 {
        let mut sums = vec![0; variants.len()];
        for turn in 0..variants.len() {
            // Another variant goes first in each round.
            let which = (turn + round) % variants.len();
            let variant = &mut variants[which];
            (variant.prepare)();
            let begun = Instant::now();
            sums[which] = (variant.run)();
            let taken = begun.elapsed().as_nanos() as f64 / operations as f64;
            // The first two rounds warm up.
            if round >= 2 {
                times[which].push(taken);
            }
        }
        for (variant, sum) in variants.iter().zip(&sums) {
            assert_eq!(*sum, sums[0], "{} does not give what the library gives", variant.name);
        }
    }
    let ratios = (1..variants.len())
        .map(|other| {
            let each = times[0].iter().zip(&times[other]).map(|(library, other)| library / other).collect();
            (variants[other].name, median(each))
        })
        .collect();
    Outcome { nanoseconds: median(times[0].clone()), ratios }
}
