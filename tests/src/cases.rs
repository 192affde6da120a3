//! Runs of numbered cases, and the count of the answers they met.

use crate::random::Random;
use std::collections::BTreeMap;
use std::env;
use std::thread;

/// The seed of a run that names none.
const USUAL_SEED: u64 = 20_010_601;

/// The seed: that of the environment variable LEVERPEACH_SEED, or the usual one.
pub fn seed() -> u64 {
    match env::var("LEVERPEACH_SEED") {
        Ok(text) => text.parse().expect("LEVERPEACH_SEED is a number"),
        Err(_) => USUAL_SEED,
    }
}

/// Runs `count` cases, each with a generator of its own. When one fails, the
/// name of the run, the seed and the case number tell how to make it again.
pub fn run(name: &'static str, count: u64, mut one: impl FnMut(u64, &mut Random)) {
    let seed = seed();
    println!("{name}: {count} cases, LEVERPEACH_SEED={seed}");
    for case in 0..count {
        let note = FailureNote { name, seed, case };
        one(case, &mut Random::of_case(seed, case));
        drop(note);
    }
}

/// Says where a run stood if it is dropped by a failing case.
struct FailureNote {
    name: &'static str,
    seed: u64,
    case: u64,
}

impl Drop for FailureNote {
    fn drop(&mut self) {
        if thread::panicking() {
            let FailureNote { name, seed, case } = self;
            eprintln!("{name}: case {case} failed; replay it with LEVERPEACH_SEED={seed}");
        }
    }
}

/// How often each answer was met: refusals by their number, sound, done and
/// accepted as 0.
#[derive(Default)]
pub struct Tally {
    counts: BTreeMap<u64, u64>,
}

impl Tally {
    pub fn count(&mut self, answer: u64) {
        let number = if answer > 16 { 0 } else { answer };
        *self.counts.entry(number).or_default() += 1;
    }

    /// How many answers were counted.
    pub fn total(&self) -> u64 {
        self.counts.values().sum()
    }

    /// Fails unless every one of these answers was met often enough: makers of
    /// cases that have gone stale must not pass for a clean run.
    pub fn assert_met(&self, answers: &[u64], at_least: u64) {
        println!("answers met: {:?}", self.counts);
        for answer in answers {
            let met = self.counts.get(answer).copied().unwrap_or(0);
            assert!(
                met >= at_least,
                "answer {answer} was met {met} times, not {at_least}"
            );
        }
    }
}
