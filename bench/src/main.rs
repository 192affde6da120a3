//! Times the library against the Rust model: single calls, and whole reports,
//! in which the model's finder follows the definition to the letter. Ends with
//! status 1 if the library misses a limit.
//!
//! With the words `turns PROGRAM` it times the library against another, over
//! which that program, the same benchmark, was built.

mod calls;
mod checks;
mod circuits;
mod growth;
mod lines;
mod measure;
mod per_fault;
mod reports;
mod tables;
mod turns;

use reports::{Case, Timed};
use std::env;
use std::process::ExitCode;

fn main() -> ExitCode {
    let words: Vec<String> = env::args().skip(1).collect();
    match words.iter().map(String::as_str).collect::<Vec<_>>()[..] {
        [] => compare_with_model(),
        ["turns", before] => turns::take_all(before),
        [turns::LINE, place] => turns::take_one(place),
        _ => panic!("no words, or turns PROGRAM"),
    }
}

fn compare_with_model() -> ExitCode {
    let calls = calls::measure();
    calls::print(&calls);
    let reports: Vec<Timed> = reports::CASES.iter().map(measure).collect();
    tables::print_limits(&reports);
    per_fault::print(&reports);
    growth::print(&reports);
    growth::write(&reports);
    let calls_fit = calls.iter().all(calls::Row::is_within_limit);
    let reports_fit = reports.iter().all(Timed::is_within_limit);
    let faults_fit = per_fault::is_within_limit(&reports);
    println!();
    if !(calls_fit && reports_fit && faults_fit) {
        println!("a limit is missed");
        return ExitCode::FAILURE;
    }
    println!("every limit is kept");
    ExitCode::SUCCESS
}

/// Times a report, and says so first: some take a minute.
fn measure(case: &'static Case) -> Timed {
    let Case { circuit, b, f, .. } = case;
    eprintln!("timing the report on {circuit} with B {b} and F {f}");
    Timed::new(case)
}
