//! The splits that are worked out because no open set is found for them.

use std::cell::Cell;

/// How many splits were worked out, and how many of them stay open.
#[derive(Clone, Copy, Debug, Default, PartialEq, Eq)]
pub struct Splits {
    pub worked_out: u64,
    pub stay_open: u64,
}

thread_local! {
    static SPLITS: Cell<Splits> = const {
        Cell::new(Splits {
            worked_out: 0,
            stay_open: 0,
        })
    };
}

/// Counts a split that is worked out, and hands on whether it closes.
pub fn count(closes: bool) -> bool {
    let mut splits = SPLITS.get();
    splits.worked_out += 1;
    splits.stay_open += u64::from(!closes);
    SPLITS.set(splits);
    closes
}

/// What was counted since the last call.
pub fn take() -> Splits {
    SPLITS.take()
}
