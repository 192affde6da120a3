//! What the judge found, in Markdown, so that docs/JUDGE.md can take it over as
//! it is printed.

use crate::abc::Verdict;
use crate::fault::Fault;
use crate::netlist::{Kind, Netlist};
use crate::review::{Review, Unmarked};

/// Prints marks, verdicts and times, a row for each report.
pub fn print_verdicts(reviews: &[Review]) {
    let headings = [
        "Circuit",
        "Nodes",
        "B, F",
        "Faults",
        "Marks",
        "Confirmed",
        "Redundant by the judge",
        "Undecided",
        "Share marked",
        "Report s",
        "Judge s (marks)",
        "Judge s (all faults)",
    ];
    let rows: Vec<[String; 12]> = reviews.iter().map(verdict_row).collect();
    print(headings, &rows);
}

fn verdict_row(review: &Review) -> [String; 12] {
    let Review { marks, faults, .. } = review;
    let redundant = faults.count(Verdict::Proved);
    [
        review.case.circuit.to_string(),
        review.netlist.nodes.len().to_string(),
        bounds(review),
        faults.claims.len().to_string(),
        marks.claims.len().to_string(),
        marks.count(Verdict::Proved).to_string(),
        redundant.to_string(),
        faults.count(Verdict::Undecided).to_string(),
        share(marks.claims.len(), redundant),
        three_digits(review.report_seconds),
        three_digits(marks.seconds),
        three_digits(faults.seconds),
    ]
}

/// Prints what is known of the faults that are redundant and not marked, a row
/// for each report that leaves some out.
pub fn print_unmarked(reviews: &[Review]) {
    let headings = [
        "Circuit",
        "B, F",
        "Redundant, not marked",
        "At c = 0 already",
        "Marked with the most frames",
        "By the kind of their node",
    ];
    let rows: Vec<[String; 6]> = reviews.iter().filter_map(unmarked_row).collect();
    print(headings, &rows);
}

/// The row of a report, if it leaves a redundant fault out.
fn unmarked_row(review: &Review) -> Option<[String; 6]> {
    let Unmarked {
        faults,
        from_any_state,
        with_most_frames,
    } = &review.unmarked;
    let row = || {
        [
            review.case.circuit.to_string(),
            bounds(review),
            faults.len().to_string(),
            from_any_state.to_string(),
            with_most_frames.to_string(),
            kinds(faults, &review.netlist),
        ]
    };
    (!faults.is_empty()).then(row)
}

/// How many of the faults are at nodes of each kind.
fn kinds(faults: &[Fault], netlist: &Netlist) -> String {
    let counts = Kind::ALL.iter().filter_map(|kind| {
        let at_kind = |fault: &&Fault| netlist.nodes[fault.node].kind == *kind;
        let count = faults.iter().filter(at_kind).count();
        (count > 0).then(|| format!("{} {count}", kind.name()))
    });
    counts.collect::<Vec<String>>().join(", ")
}

fn bounds(review: &Review) -> String {
    format!("{}, {}", review.case.b, review.case.f)
}

fn print<const COLUMNS: usize>(headings: [&str; COLUMNS], rows: &[[String; COLUMNS]]) {
    println!("| {} |", headings.join(" | "));
    println!("|{}", "---|".repeat(COLUMNS));
    for row in rows {
        println!("| {} |", row.join(" | "));
    }
}

fn share(part: usize, whole: usize) -> String {
    match whole {
        0 => "-".to_string(),
        _ => format!("{:.1} %", 100.0 * part as f64 / whole as f64),
    }
}

/// A number with three digits that count, and no more than six behind the point.
pub fn three_digits(number: f64) -> String {
    if number == 0.0 {
        return "0".to_string();
    }
    let digits = (2.0 - number.log10().floor()).clamp(0.0, 6.0);
    format!("{number:.0$}", digits as usize)
}
