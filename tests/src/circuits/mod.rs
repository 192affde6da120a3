//! Makers of netlists, of certificates and of calls: sound at random, sound with
//! a plan, damaged on purpose, and bytes that only look like a netlist; and the
//! circuits of 01.

pub mod calls;
pub mod certificates;
pub mod damaged;
pub mod decoder;
pub mod draft;
pub mod mix;
pub mod mutants;
pub mod raw;
pub mod small;
pub mod sound;
pub mod structured;
pub mod worked;

pub use draft::{Draft, Node};

use crate::model::kind;

/// Pin counts of wide gates: one more than gates had before request 1, some
/// between, and as many as there may be.
pub const WIDE: [usize; 4] = [9, 16, 63, kind::MOST_PINS];
