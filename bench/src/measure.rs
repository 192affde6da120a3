//! Processor times: of work, and of two ways to do the same, taken in turn.

use std::ffi::c_long;

extern "C" {
    /// The C library's clock: the process's processor time in microseconds.
    fn clock() -> c_long;
}

/// The shortest turn, in seconds: far above what the clock can tell apart.
const SHORTEST_TURN: f64 = 0.002;

/// The shortest turn of reports, long enough for one turn to be enough.
const SHORTEST_REPORT_TURN: f64 = 0.1;

/// The time of one call in the library and in the model, in seconds.
pub struct Pair {
    pub library: f64,
    pub model: f64,
}

impl Pair {
    pub fn ratio(&self) -> f64 {
        self.library / self.model
    }
}

/// Times both ways, each of which does `calls` calls when it is run. The two
/// take turns, so that both see the same load of the machine, and the median of
/// the repetitions leaves out the turns it disturbed.
pub fn compare(
    mut library: impl FnMut(),
    mut model: impl FnMut(),
    calls: usize,
    repetitions: usize,
) -> Pair {
    // Warms both up, and settles how long a turn is.
    let mut runs = 1;
    while time(&mut model, runs).min(time(&mut library, runs)) < SHORTEST_TURN {
        runs *= 2;
    }
    let mut library_times = Vec::with_capacity(repetitions);
    let mut model_times = Vec::with_capacity(repetitions);
    for _ in 0..repetitions {
        library_times.push(time(&mut library, runs));
        model_times.push(time(&mut model, runs));
    }
    let all_calls = (runs * calls) as f64;
    Pair {
        library: median(library_times) / all_calls,
        model: median(model_times) / all_calls,
    }
}

/// The time of work that is done once.
pub fn seconds_of(mut work: impl FnMut()) -> f64 {
    time(&mut work, 1)
}

/// The time of one run of work, which is done as often as it takes for the
/// clock to tell.
pub fn seconds_per_run(mut work: impl FnMut()) -> f64 {
    let mut runs = 1;
    loop {
        let seconds = time(&mut work, runs);
        if seconds >= SHORTEST_REPORT_TURN {
            return seconds / runs as f64;
        }
        runs *= 2;
    }
}

fn time(work: &mut impl FnMut(), runs: usize) -> f64 {
    let start = processor_seconds();
    for _ in 0..runs {
        work();
    }
    processor_seconds() - start
}

/// Processor time, since other processes on the machine lengthen it least.
fn processor_seconds() -> f64 {
    // SAFETY: the function takes nothing and asks nothing of its caller.
    let microseconds = unsafe { clock() };
    microseconds as f64 / 1e6
}

pub fn median(mut times: Vec<f64>) -> f64 {
    times.sort_by(f64::total_cmp);
    times[times.len() / 2]
}
