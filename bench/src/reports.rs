//! Whole reports: the finder on every fault of a circuit.

use crate::lines::checksum_of;
use crate::measure::{seconds_of, seconds_per_run};
use leverpeach_tests::circuits::calls::{self, Request};
use leverpeach_tests::files;
use leverpeach_tests::model::finder::Lent;
use leverpeach_tests::model::netlist::Netlist;
use leverpeach_tests::model::{self, report, Fault};
use leverpeach_tests::native;
use std::hint::black_box;

/// What the slices hold before a call.
const ANYTHING: u8 = 170;

/// A report of an example circuit.
pub struct Case {
    pub circuit: &'static str,
    pub b: u8,
    pub f: u8,
    /// The model's finder gets one fault of so many: it takes hours for a whole
    /// report of the largest circuits.
    pub one_of: usize,
    /// How many times faster than the model the library has to be.
    pub limit: Option<f64>,
}

impl Case {
    const fn new(circuit: &'static str, b: u8, f: u8, one_of: usize) -> Self {
        Case {
            circuit,
            b,
            f,
            one_of,
            limit: None,
        }
    }

    const fn at_least(self, limit: f64) -> Self {
        Case {
            limit: Some(limit),
            ..self
        }
    }
}

/// Every report that is timed, those with a limit and those that show how the
/// time grows.
pub const CASES: [Case; 12] = [
    Case::new("mix30", 2, 1, 1),
    Case::new("mix100", 2, 1, 1).at_least(300.0),
    Case::new("mix290", 2, 1, 31),
    Case::new("mix1000", 2, 1, 500),
    Case::new("random290", 2, 1, 15).at_least(300.0),
    Case::new("decoder", 2, 1, 31).at_least(20.0),
    Case::new("mix100", 4, 3, 9),
    Case::new("mix100", 5, 5, 15),
    Case::new("mix100", 7, 7, 31),
    Case::new("mix290", 4, 3, 91),
    Case::new("mix290", 5, 5, 121),
    Case::new("mix290", 7, 7, 121).at_least(20_000.0),
];

/// Reports of which only the library's time is taken.
pub const WITHOUT_MODEL: [Case; 2] = [Case::new("s27", 3, 1, 1), Case::new("random100", 7, 7, 1)];

/// A circuit's faults, and the slices that the finder is lent for them.
pub struct Report {
    netlist: Vec<u8>,
    b: u8,
    f: u8,
    faults: Vec<Fault>,
    slices: [Vec<u8>; 3],
    /// The library's answer for each fault.
    answers: Vec<u64>,
}

impl Report {
    pub fn new(case: &Case) -> Self {
        let netlist = files::example(case.circuit);
        let circuit = Netlist::sound(&netlist).expect("the example is sound");
        let faults: Vec<Fault> = report::faults(&circuit).collect();
        let (fault, b, f) = (faults[0], case.b, case.f);
        let lengths = Request { fault, b, f }.slice_lengths(circuit.node_count());
        Report {
            netlist,
            b,
            f,
            faults,
            slices: lengths.map(|length| vec![ANYTHING; length]),
            answers: Vec::new(),
        }
    }

    /// Asks the library for every fault.
    pub fn run(&mut self) {
        self.answers.clear();
        for place in 0..self.faults.len() {
            let answer = self.ask(place);
            self.answers.push(answer);
        }
    }

    /// Asks the library for the fault at this place.
    fn ask(&mut self, place: usize) -> u64 {
        let netlist = black_box(&self.netlist);
        let lent = lend(&mut self.slices);
        native::find(netlist, self.faults[place], self.b, self.f, lent)
    }

    /// Of the library's answers and certificates.
    pub fn checksum(&mut self) -> u64 {
        checksum_of((0..self.faults.len()).map(|place| {
            let answer = self.ask(place);
            let length = native::found_length(answer);
            (answer, self.slices[2][..length].to_vec())
        }))
    }

    /// The places of the faults that are marked, or of those that are not.
    fn places(&self, marked: bool) -> Vec<usize> {
        let places = (0..self.faults.len()).filter(|place| (self.answers[*place] > 0) == marked);
        places.collect()
    }

    /// The model's time for the fault at this place. Library and model must
    /// give the same answer, and leave the same bytes in all that they are lent.
    fn time_model(&mut self, place: usize) -> f64 {
        let Report { netlist, b, f, .. } = self;
        let fault = self.faults[place];
        let slices = &mut self.slices;
        let mut expected = slices.clone();
        for slice in slices.iter_mut().chain(&mut expected) {
            slice.fill(ANYTHING);
        }
        let answer = native::find(netlist, fault, *b, *f, lend(slices));
        let mut finding = None;
        let seconds = seconds_of(|| {
            let lent = lend(&mut expected);
            finding = Some(model::find(black_box(netlist), fault, *b, *f, lent));
        });
        let finding = finding.expect("the model was run");
        assert_eq!(answer, native::finding_number(finding), "{fault:?}");
        assert_eq!(answer, self.answers[place], "{fault:?}, asked again");
        assert!(*slices == expected, "other bytes for {fault:?}");
        seconds
    }
}

fn lend(slices: &mut [Vec<u8>; 3]) -> Lent<'_> {
    let [first, second, certificate] = slices;
    Lent {
        first,
        second,
        certificate,
    }
}

/// One of so many of these places, evenly spread and never none of them.
fn sample(places: &[usize], one_of: usize) -> Vec<usize> {
    let one_of = one_of.min(places.len()).max(1);
    let sampled = places.iter().skip(one_of / 2).step_by(one_of);
    sampled.copied().collect()
}

/// A report with the times of library and model, in seconds.
pub struct Timed {
    pub case: &'static Case,
    pub nodes: usize,
    pub faults: usize,
    pub marks: usize,
    /// How many faults the model was given.
    pub sampled: usize,
    pub library: f64,
    /// Of the whole report, as far as the sample tells.
    pub model: f64,
}

impl Timed {
    pub fn new(case: &'static Case) -> Self {
        let mut report = Report::new(case);
        let before = seconds_per_run(|| report.run());
        let (mut sampled, mut model) = (0, 0.0);
        // A mark ends the search, so that marked faults tell nothing of the
        // time of the others.
        for marked in [false, true] {
            let places = report.places(marked);
            let chosen = sample(&places, case.one_of);
            let seconds: f64 = chosen.iter().map(|place| report.time_model(*place)).sum();
            sampled += chosen.len();
            model += seconds * places.len() as f64 / chosen.len().max(1) as f64;
        }
        let after = seconds_per_run(|| report.run());
        Timed {
            case,
            nodes: calls::node_count(&report.netlist),
            faults: report.faults.len(),
            marks: report.places(true).len(),
            sampled,
            library: before.max(after),
            model,
        }
    }

    pub fn frames(&self) -> usize {
        usize::from(self.case.b) + usize::from(self.case.f) + 1
    }

    /// How many times faster the library is.
    pub fn gain(&self) -> f64 {
        self.model / self.library
    }

    pub fn is_within_limit(&self) -> bool {
        self.case.limit.is_none_or(|limit| self.gain() >= limit)
    }
}
