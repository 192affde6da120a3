//! Calls of the reader, the simulator and the checker on random circuits.

use crate::checks::Checks;
use crate::circuits::{Circuits, Make};
use crate::measure::{compare, Pair};

/// How many times the model's time the library may take for a call.
pub const LIMIT: f64 = 2.0;

/// Repetitions of each way to do a call.
const REPETITIONS: usize = 101;

/// The circuits that are read and stepped; the last two are as large as a netlist
/// may be.
pub const MAKES: [Make; 3] = [
    Make::Usual(300, 1_200),
    Make::Usual(4_096, 16_384),
    Make::Widest,
];

/// Steps of a certificate, about.
pub const STEPS: [usize; 2] = [1_000, 10_000];

pub struct Row {
    part: String,
    circuits: usize,
    nodes: usize,
    pins: usize,
    /// None where no certificate is checked.
    steps: Option<usize>,
    times: Pair,
}

impl Row {
    /// What the time of a call is shared out among.
    fn items(&self) -> usize {
        self.steps.unwrap_or(self.nodes + self.pins)
    }

    pub fn is_within_limit(&self) -> bool {
        self.times.ratio() <= LIMIT
    }
}

pub fn measure() -> Vec<Row> {
    let mut rows: Vec<Row> = MAKES.into_iter().flat_map(measure_make).collect();
    rows.extend(STEPS.map(measure_checks));
    rows
}

/// Times the reader and the simulator on circuits of one make.
fn measure_make(make: Make) -> [Row; 2] {
    let (mut model, mut library) = (Circuits::new(make), Circuits::new(make));
    let circuits = model.circuit_count();
    let read = compare(
        || library.read_with_library(),
        || model.read_with_model(),
        circuits,
        REPETITIONS,
    );
    let simulate = compare(
        || library.simulate_with_library(),
        || model.simulate_with_model(),
        circuits,
        REPETITIONS,
    );
    assert!(library == model, "library and model left different slices");
    [("read", read), ("simulate", simulate)].map(|(part, times)| Row {
        part: format!("{part}, {make}"),
        circuits,
        nodes: make.nodes(),
        pins: make.pins(),
        steps: None,
        times,
    })
}

/// Times the checker on certificates of about so many steps.
fn measure_checks(about_steps: usize) -> Row {
    let (mut model, mut library) = (Checks::new(about_steps), Checks::new(about_steps));
    let circuits = model.certificate_count();
    let times = compare(
        || library.check_with_library(),
        || model.check_with_model(),
        circuits,
        REPETITIONS,
    );
    assert!(library == model, "library and model left different slices");
    Row {
        part: format!("check, {about_steps} steps"),
        circuits,
        nodes: model.nodes,
        pins: model.pins,
        steps: Some(model.steps),
        times,
    }
}

pub fn print(rows: &[Row]) {
    print_heading();
    rows.iter().for_each(print_row);
}

fn print_heading() {
    println!("Library against Rust model; the limit of the ratio is {LIMIT:.2}.");
    println!("Processor time of a call on random circuits, each with a fault; the median of");
    println!(
        "{REPETITIONS} repetitions, in which library and model take turns. The slices are not"
    );
    println!("cleared first: a step starts from what the step before left in them.");
    println!("Certificates are of 15 frames and accepted; pins and steps are those of a");
    println!("circuit on average.");
    println!();
    println!(
        "{:<22} {:>8} {:>6} {:>6} {:>6} {:>11} {:>9} {:>6}  {:>19}",
        "part",
        "circuits",
        "nodes",
        "pins",
        "steps",
        "library us",
        "model us",
        "ratio",
        "ns per node and pin"
    );
    println!("{:>92} {:>9}", "or per step, library", "model");
}

fn print_row(row: &Row) {
    let Row {
        part,
        circuits,
        nodes,
        pins,
        steps,
        times,
    } = row;
    let steps = steps.map_or("-".to_string(), |steps| steps.to_string());
    let items = row.items() as f64;
    println!(
        "{part:<22} {circuits:>8} {nodes:>6} {pins:>6} {steps:>6} {:>11.3} {:>9.3} {:>6.2}  {:>9.3} {:>9.3}",
        times.library * 1e6,
        times.model * 1e6,
        times.ratio(),
        times.library * 1e9 / items,
        times.model * 1e9 / items
    );
}
