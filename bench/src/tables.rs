//! Tables of whole reports, in Markdown, so that docs/PERFORMANCE.md can take
//! them over as they are printed.

use crate::reports::Timed;

/// Prints a table of these headings and rows.
pub fn print<const COLUMNS: usize>(headings: [&str; COLUMNS], rows: &[[String; COLUMNS]]) {
    println!("| {} |", headings.join(" | "));
    println!("|{}", "---|".repeat(COLUMNS));
    for row in rows {
        println!("| {} |", row.join(" | "));
    }
}

/// Prints the reports that have a limit.
pub fn print_limits(reports: &[Timed]) {
    println!();
    println!("Whole reports: the finder on every fault of a circuit. Processor seconds; the");
    println!("library's are the slower of two reports, one before and one after the model's");
    println!("turn. With ~ the model had the sampled faults only, evenly spread among marked");
    println!("and unmarked ones, and its time is scaled to all. For each fault that it had,");
    println!("answer, certificate and all other lent bytes are the same.");
    println!();
    let rows: Vec<[String; 9]> = reports.iter().filter_map(limit_row).collect();
    let headings = [
        "Circuit",
        "B, F",
        "Faults",
        "Marks",
        "Sampled",
        "Library s",
        "Literal model s",
        "Times faster",
        "At least",
    ];
    print(headings, &rows);
}

/// The row of a report, if it has a limit.
fn limit_row(report: &Timed) -> Option<[String; 9]> {
    let limit = report.case.limit?;
    Some([
        report.case.circuit.to_string(),
        format!("{}, {}", report.case.b, report.case.f),
        report.faults.to_string(),
        report.marks.to_string(),
        report.sampled.to_string(),
        three_digits(report.library),
        model_seconds(report),
        format!("{:.0}", report.gain()),
        format!("{limit:.0}"),
    ])
}

/// The model's time, marked where it comes from a sample.
pub fn model_seconds(report: &Timed) -> String {
    let about = match report.sampled == report.faults {
        true => "",
        false => "~",
    };
    format!("{about}{}", three_digits(report.model))
}

/// A number with three digits that count, and no more than six behind the point.
pub fn three_digits(number: f64) -> String {
    let digits = (2.0 - number.log10().floor()).clamp(0.0, 6.0);
    format!("{number:.0$}", digits as usize)
}
