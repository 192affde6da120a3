//! What two libraries are timed by: the reports and the calls of the tables, by
//! the library alone.

use crate::calls::{MAKES, STEPS};
use crate::checks::Checks;
use crate::circuits::{Circuits, Make};
use crate::measure::seconds_per_run;
use crate::reports::{Case, Report, CASES, WITHOUT_MODEL};
use leverpeach_tests::{files, native};
use std::fmt::{Display, Formatter, Result};
use std::hash::{DefaultHasher, Hash, Hasher};

/// Work that is timed by itself.
pub enum Line {
    Report(&'static Case),
    /// Calls on circuits of one make.
    Read(Make),
    Simulate(Make),
    /// Calls on certificates of about so many steps.
    Check(usize),
}

/// What the library did in one turn of a line.
pub struct Turn {
    /// Of a whole report, or of one call for each circuit.
    pub seconds: f64,
    /// The same for the same answers and the same bytes written.
    pub checksum: u64,
}

/// Every line, in the order in which they are timed.
pub fn all() -> Vec<Line> {
    let reports = CASES.iter().chain(&WITHOUT_MODEL).map(Line::Report);
    let calls = |make| [Line::Read(make), Line::Simulate(make)];
    let checks = STEPS.into_iter().map(Line::Check);
    let lines = reports.chain(MAKES.into_iter().flat_map(calls));
    lines.chain(checks).collect()
}

impl Line {
    /// A turn of the library at the line; none where the library refuses the
    /// circuits, as one of an earlier state does where gates are wider than they
    /// could be then.
    pub fn turn(&self) -> Option<Turn> {
        self.is_taken().then(|| self.take_turn())
    }

    fn is_taken(&self) -> bool {
        let netlist = match *self {
            Line::Report(case) => files::example(case.circuit),
            Line::Read(make) | Line::Simulate(make) => make.netlist(),
            Line::Check(_) => return true,
        };
        // Below 2^32 an answer of the reader is a refusal.
        native::read(&netlist) >> 32 != 0
    }

    fn take_turn(&self) -> Turn {
        match *self {
            Line::Report(case) => turn(Report::new(case), Report::checksum, Report::run),
            Line::Read(make) => turn(
                Circuits::new(make),
                |circuits| circuits.reader_checksum(),
                |circuits| circuits.read_with_library(),
            ),
            Line::Simulate(make) => turn(
                Circuits::new(make),
                Circuits::simulator_checksum,
                Circuits::simulate_with_library,
            ),
            Line::Check(steps) => turn(
                Checks::new(steps),
                Checks::checksum,
                Checks::check_with_library,
            ),
        }
    }
}

/// Takes the checksum, which warms the work up, and then the time.
fn turn<W>(mut work: W, checksum: impl Fn(&mut W) -> u64, run: impl Fn(&mut W)) -> Turn {
    Turn {
        checksum: checksum(&mut work),
        seconds: seconds_per_run(|| run(&mut work)),
    }
}

impl Display for Line {
    fn fmt(&self, out: &mut Formatter) -> Result {
        match self {
            Line::Report(Case { circuit, b, f, .. }) => write!(out, "{circuit} {b}, {f}"),
            Line::Read(make) => write!(out, "read, {make}"),
            Line::Simulate(make) => write!(out, "simulate, {make}"),
            Line::Check(steps) => write!(out, "check, {steps} steps"),
        }
    }
}

/// The checksum of these things, in this order.
pub fn checksum_of(things: impl IntoIterator<Item = impl Hash>) -> u64 {
    let mut hasher = DefaultHasher::new();
    things.into_iter().for_each(|thing| thing.hash(&mut hasher));
    hasher.finish()
}
