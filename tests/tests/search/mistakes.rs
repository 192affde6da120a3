//! Mistakes in the finder's own search. The build script puts them into the
//! sources; here is said which of them is made.

use crate::port;
use std::cell::Cell;

/// The number of no mistake. Those below it are mistakes.
pub const NONE: usize = port::MISTAKES;

thread_local! {
    static WANTED: Cell<usize> = const { Cell::new(NONE) };
    static TIMES: Cell<u64> = const { Cell::new(0) };
}

/// From here on this mistake is made, and no other.
pub fn make(mistake: usize) {
    WANTED.set(mistake);
    TIMES.set(0);
}

/// Whether this mistake is made; counts it then.
pub fn made(mistake: usize) -> bool {
    let wanted = WANTED.get() == mistake;
    TIMES.set(TIMES.get() + u64::from(wanted));
    wanted
}

/// How often the mistake that is wanted was made.
pub fn times_made() -> u64 {
    TIMES.get()
}
