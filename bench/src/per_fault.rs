//! What a fault of the circuit with the widest gates takes, beside one of a
//! circuit of random narrow ones.

use crate::reports::{Case, Timed};
use crate::tables::three_digits;

/// The two circuits. Both reports are timed with this B and F.
const WIDE: &str = "decoder";
const NARROW: &str = "random290";
const B: u8 = 2;
const F: u8 = 1;

/// How many times the seconds of the other a fault of the wide one may take.
const LIMIT: f64 = 4.0;

/// The library's seconds a fault, in the report on a circuit.
fn seconds(reports: &[Timed], circuit: &str) -> f64 {
    let is_asked = |case: &Case| (case.circuit, case.b, case.f) == (circuit, B, F);
    let report = reports.iter().find(|report| is_asked(report.case));
    let report = report.unwrap_or_else(|| panic!("the report on {circuit} is timed"));
    report.library / report.faults as f64
}

fn ratio(reports: &[Timed]) -> f64 {
    seconds(reports, WIDE) / seconds(reports, NARROW)
}

pub fn print(reports: &[Timed]) {
    let [wide, narrow] = [WIDE, NARROW].map(|circuit| seconds(reports, circuit) * 1e3);
    println!();
    println!(
        "Milliseconds a fault, B {B} and F {F}: {WIDE} {}, {NARROW} {}, which is {:.2} times;",
        three_digits(wide),
        three_digits(narrow),
        ratio(reports)
    );
    println!("at most {LIMIT:.0} times.");
}

pub fn is_within_limit(reports: &[Timed]) -> bool {
    ratio(reports) <= LIMIT
}
