//! Judges the marks of eleven reports on the examples. Ends with status 1 if a known
//! claim is answered wrongly or a mark is not confirmed.

use leverpeach_judge::abc::{Abc, Verdict};
use leverpeach_judge::report::Program;
use leverpeach_judge::review::{review, Case, Review, CASES};
use leverpeach_judge::{known, measure, table};
use std::path::Path;
use std::process::ExitCode;

/// The processor seconds that abc may take for a claim.
const LIMIT: u32 = 10;

fn main() -> ExitCode {
    let repository = Path::new(env!("CARGO_MANIFEST_DIR")).join("..");
    match judge(&repository) {
        Ok(true) => ExitCode::SUCCESS,
        Ok(false) => ExitCode::FAILURE,
        Err(error) => {
            eprintln!("{error}");
            ExitCode::FAILURE
        }
    }
}

/// Whether every mark is confirmed.
fn judge(repository: &Path) -> Result<bool, String> {
    let abc = Abc::new(&repository.join("target/judge"), LIMIT)?;
    let known = known::try_all(&abc)?;
    println!("{known} known claims are answered as they must be.");
    let start = measure::seconds_per_run(|| abc.start_only())?;
    println!(
        "Starting abc takes {} s of each claim.",
        table::three_digits(start)
    );
    let program = Program::of(repository);
    let reviews = CASES.iter().map(|case| judge_report(case, &program, &abc));
    let reviews = reviews.collect::<Result<Vec<Review>, String>>()?;
    println!();
    table::print_verdicts(&reviews);
    println!();
    table::print_unmarked(&reviews);
    println!();
    Ok(print_end(&reviews))
}

/// Judges a report, and says so first: some take a minute.
fn judge_report(case: &'static Case, program: &Program, abc: &Abc) -> Result<Review, String> {
    let Case { circuit, b, f } = case;
    eprintln!("judging the report on {circuit} with B {b} and F {f}");
    review(case, program, abc).map_err(|error| format!("{circuit}, B {b}, F {f}: {error}"))
}

/// Prints what is not confirmed, and the count of all marks. Gives whether every
/// mark is confirmed.
fn print_end(reviews: &[Review]) -> bool {
    for review in reviews {
        let Case { circuit, b, f } = review.case;
        for failure in &review.failures {
            println!("{circuit}, B {b}, F {f}: {failure}");
        }
    }
    let [confirmed, refuted, undecided] = [Verdict::Proved, Verdict::Refuted, Verdict::Undecided]
        .map(|verdict| {
            let counts = reviews.iter().map(|review| review.marks.count(verdict));
            counts.sum::<usize>()
        });
    println!("{confirmed} marks confirmed, {refuted} refuted, {undecided} undecided");
    reviews.iter().all(|review| review.failures.is_empty())
}
