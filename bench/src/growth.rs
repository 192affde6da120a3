//! How the time of a whole report grows, over nodes and over frames.

use crate::reports::Timed;
use crate::tables::{self, model_seconds, three_digits};
use leverpeach_tests::files::top_folder;
use std::fmt::Write;
use std::fs;

/// The frames of the reports that are put side by side by their nodes.
const FRAMES: usize = 4;

/// The circuit whose reports are drawn by their frames.
const DRAWN: &str = "mix290";

/// Prints how the times grow over the nodes of the mixed circuits, and over the
/// frames.
pub fn print(reports: &[Timed]) {
    println!();
    println!("Over nodes, with B 2 and F 1, which is {FRAMES} frames:");
    println!();
    print_rows(over_nodes(reports));
    println!();
    println!("Over the frames of the widest window, W = B + F + 1:");
    println!();
    print_rows(over_frames(reports, "mix100").chain(over_frames(reports, "mix290")));
}

fn print_rows<'a>(reports: impl Iterator<Item = &'a Timed>) {
    let rows: Vec<[String; 8]> = reports.map(row).collect();
    let headings = [
        "Circuit",
        "Nodes",
        "W",
        "B, F",
        "Sampled",
        "Library s",
        "Literal model s",
        "Times faster",
    ];
    tables::print(headings, &rows);
}

fn row(report: &Timed) -> [String; 8] {
    [
        report.case.circuit.to_string(),
        report.nodes.to_string(),
        report.frames().to_string(),
        format!("{}, {}", report.case.b, report.case.f),
        format!("{} of {}", report.sampled, report.faults),
        three_digits(report.library),
        model_seconds(report),
        format!("{:.0}", report.gain()),
    ]
}

fn over_nodes(reports: &[Timed]) -> impl Iterator<Item = &Timed> {
    let mixed = reports
        .iter()
        .filter(|report| report.case.circuit.starts_with("mix"));
    mixed.filter(|report| report.frames() == FRAMES)
}

fn over_frames<'a>(reports: &'a [Timed], circuit: &'a str) -> impl Iterator<Item = &'a Timed> {
    let of_circuit = move |report: &&Timed| report.case.circuit == circuit;
    reports.iter().filter(of_circuit)
}

/// Writes what bench/plot.gp draws: blocks of a place on the axis and the times
/// of library and model.
pub fn write(reports: &[Timed]) {
    let path = top_folder().join("target/performance.dat");
    let nodes = over_nodes(reports).map(|report| (report.nodes, report));
    let frames = over_frames(reports, DRAWN).map(|report| (report.frames(), report));
    let text = block("nodes", nodes) + "\n\n" + &block("frames", frames);
    fs::write(path, text).expect("target/performance.dat can be written");
}

/// A block that gnuplot finds by its name.
fn block<'a>(name: &str, points: impl Iterator<Item = (usize, &'a Timed)>) -> String {
    let mut text = format!("# {name}\n# {name}, library s, literal model s\n");
    for (place, report) in points {
        let Timed { library, model, .. } = report;
        writeln!(text, "{place} {library:.6} {model:.6}").expect("a string takes any text");
    }
    text
}
