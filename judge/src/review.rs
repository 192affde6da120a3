//! A report of the kit, judged mark by mark and fault by fault.

use crate::abc::{Abc, Verdict};
use crate::blif;
use crate::fault::{self, Fault};
use crate::measure::{seconds_of, seconds_per_run};
use crate::netlist::Netlist;
use crate::report::{Mark, Program, Report};

/// The most frames that a window may have.
const MOST_FRAMES: u8 = 15;

/// A report of an example circuit.
pub struct Case {
    pub circuit: &'static str,
    pub b: u8,
    pub f: u8,
}

impl Case {
    const fn new(circuit: &'static str, b: u8, f: u8) -> Self {
        Case { circuit, b, f }
    }
}

/// Every report that is judged.
pub const CASES: [Case; 11] = [
    Case::new("and2", 0, 0),
    Case::new("p1", 1, 0),
    Case::new("ffself", 1, 0),
    Case::new("s27", 3, 1),
    Case::new("mix30", 2, 1),
    Case::new("mix30", 7, 7),
    Case::new("random30", 2, 1),
    Case::new("random100", 2, 1),
    Case::new("mix100", 2, 1),
    Case::new("mix100", 7, 7),
    Case::new("decoder", 2, 1),
];

/// A claim, that from clock c on no output shows the fault, and its verdict.
pub struct Judged {
    pub fault: Fault,
    pub c: usize,
    pub verdict: Verdict,
}

/// Claims of one kind, and the processor seconds that it took to judge them.
pub struct Verdicts {
    pub claims: Vec<Judged>,
    pub seconds: f64,
}

impl Verdicts {
    /// Judges claims about a netlist, each a fault and its c.
    fn new(
        abc: &Abc,
        netlist: &Netlist,
        claims: impl Iterator<Item = (Fault, usize)>,
    ) -> Result<Self, String> {
        let judged = claims.map(|(fault, c)| {
            let verdict = abc.decide(&blif::claim(netlist, fault, c))?;
            Ok(Judged { fault, c, verdict })
        });
        let (seconds, claims) = seconds_of(|| judged.collect::<Result<_, String>>());
        let claims = claims?;
        Ok(Verdicts { claims, seconds })
    }

    pub fn count(&self, verdict: Verdict) -> usize {
        self.with(verdict).count()
    }

    fn with(&self, verdict: Verdict) -> impl Iterator<Item = Fault> + '_ {
        let claims = self.claims.iter();
        let claims = claims.filter(move |claim| claim.verdict == verdict);
        claims.map(|claim| claim.fault)
    }
}

/// What the judge says of a report.
pub struct Review {
    pub case: &'static Case,
    pub netlist: Netlist,
    /// The processor seconds of the report.
    pub report_seconds: f64,
    /// The marks, each at its own c.
    pub marks: Verdicts,
    /// All faults, at c = B.
    pub faults: Verdicts,
    pub unmarked: Unmarked,
    /// Marks that are not confirmed, in words.
    pub failures: Vec<String>,
}

/// The faults that are redundant and not marked.
pub struct Unmarked {
    pub faults: Vec<Fault>,
    /// How many of them are redundant at c = 0 already: from any latched values,
    /// whatever the clocks before would have left.
    pub from_any_state: usize,
    /// How many of them the report marks with the same B if it has as many
    /// frames behind the fault frame as there may be.
    pub with_most_frames: usize,
}

/// Runs a report and judges it.
pub fn review(case: &'static Case, program: &Program, abc: &Abc) -> Result<Review, String> {
    let Case { circuit, b, f } = *case;
    let bytes = program.example(circuit)?;
    let netlist = Netlist::read(&bytes)?;
    let all = fault::all_of(&netlist);
    let report = program.report(&bytes, b, f)?;
    see_that_it_fits(&report, &all, b)?;
    let report_seconds = seconds_per_run(|| program.print(&bytes, b, f).map(|_| ()))?;

    let marked = report.marks.iter().map(|mark| (mark.fault, mark.c));
    let marks = Verdicts::new(abc, &netlist, marked)?;
    let at_b = all.iter().map(|fault| (*fault, usize::from(b)));
    let faults = Verdicts::new(abc, &netlist, at_b)?;

    let redundant = faults.with(Verdict::Proved);
    let unmarked: Vec<Fault> = redundant.filter(|fault| !report.has(*fault)).collect();
    let at_0 = unmarked.iter().map(|fault| (*fault, 0));
    let at_0 = Verdicts::new(abc, &netlist, at_0)?;
    let longest = program.report(&bytes, b, MOST_FRAMES - 1 - b)?;
    Ok(Review {
        case,
        report_seconds,
        failures: failures(&report, &marks, &faults),
        marks,
        faults,
        unmarked: Unmarked {
            from_any_state: at_0.count(Verdict::Proved),
            with_most_frames: unmarked.iter().filter(|fault| longest.has(**fault)).count(),
            faults: unmarked,
        },
        netlist,
    })
}

/// Sees that the report is one on these faults: it counts as many, and marks
/// some of them, in their order, with a c up to B.
fn see_that_it_fits(report: &Report, faults: &[Fault], b: u8) -> Result<(), String> {
    let (counted, there) = (report.faults, faults.len());
    if counted != there {
        return Err(format!("the report counts {counted} faults, not {there}"));
    }
    let mut rest = faults.iter();
    for Mark { fault, c } in &report.marks {
        if !rest.any(|other| other == fault) {
            return Err(format!("the report marks {fault} out of turn"));
        }
        if *c > usize::from(b) {
            return Err(format!("the report marks {fault} with c {c}"));
        }
    }
    Ok(())
}

/// The marks that are not proved at their own c, and those refuted at B.
fn failures(report: &Report, marks: &Verdicts, faults: &Verdicts) -> Vec<String> {
    let marks = marks.claims.iter();
    let unconfirmed = marks.filter(|mark| mark.verdict != Verdict::Proved);
    let unconfirmed = unconfirmed.map(|Judged { fault, c, verdict }| {
        format!("the mark of {fault} with c {c} is {}", verdict.name())
    });
    let refuted = faults.with(Verdict::Refuted);
    let refuted = refuted.filter(|fault| report.has(*fault));
    let refuted = refuted.map(|fault| format!("the mark of {fault} is refuted at B"));
    unconfirmed.chain(refuted).collect()
}
