//! Processor times of the programs that are run.

use std::ffi::{c_int, c_long};

/// The user's and the system's share, in seconds and microseconds each, and
/// counts that are not used here.
#[repr(C)]
struct Usage {
    user: [c_long; 2],
    system: [c_long; 2],
    counts: [c_long; 14],
}

/// All children of the process that have ended.
const CHILDREN: c_int = -1;

extern "C" {
    /// The C library's account of a process's use of the machine.
    fn getrusage(who: c_int, usage: *mut Usage) -> c_int;
}

/// The shortest time that is taken for a measured one, in seconds: far above
/// what the system tells apart.
const SHORTEST: f64 = 0.1;

/// The processor seconds that the programs run by this work take, and what the
/// work gives.
pub fn seconds_of<T>(work: impl FnOnce() -> T) -> (f64, T) {
    let before = seconds_of_children();
    let result = work();
    (seconds_of_children() - before, result)
}

/// The processor seconds of one run of work that is repeated until the sum can
/// be measured.
pub fn seconds_per_run(mut work: impl FnMut() -> Result<(), String>) -> Result<f64, String> {
    let mut runs = 1;
    loop {
        let (seconds, done) = seconds_of(|| (0..runs).try_for_each(|_| work()));
        done?;
        if seconds >= SHORTEST {
            return Ok(seconds / f64::from(runs));
        }
        runs *= 2;
    }
}

fn seconds_of_children() -> f64 {
    let mut usage = Usage {
        user: [0; 2],
        system: [0; 2],
        counts: [0; 14],
    };
    // SAFETY: the structure is laid out as the C library's and may be written.
    let status = unsafe { getrusage(CHILDREN, &mut usage) };
    assert_eq!(status, 0, "the system keeps no account");
    let seconds = |[seconds, microseconds]: [c_long; 2]| seconds as f64 + microseconds as f64 / 1e6;
    seconds(usage.user) + seconds(usage.system)
}
