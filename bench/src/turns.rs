//! Two libraries side by side. Both export the same names, so that the benchmark
//! is built over each of them, and the two programs take turns, a process for
//! each turn of a line.

use crate::lines::{self, Line, Turn};
use crate::measure::median;
use crate::tables::{self, three_digits};
use std::env;
use std::path::{Path, PathBuf};
use std::process::{Command, ExitCode};

/// Turns of each library at a line.
const TURNS: usize = 15;

/// Turns of each library at a line that takes long with both.
const LONG_TURNS: usize = 5;

/// The seconds from which on that is so.
const LONG: f64 = 1.0;

/// Turns of each library at a line that is short with both: what disturbs one
/// turn weighs more there.
const SHORT_TURNS: usize = 45;

/// The seconds up to which that is so.
const SHORT: f64 = 0.1;

/// What a program says in the place of a turn where its library refuses the
/// circuits of a line.
const REFUSED: &str = "refused";

/// The word by which this program is asked for one turn.
pub const LINE: &str = "line";

/// A line with the seconds of all turns, before and after.
struct Row {
    name: String,
    times: [Vec<f64>; 2],
}

impl Row {
    fn new(line: &Line) -> Self {
        Row {
            name: line.to_string(),
            times: [Vec::new(), Vec::new()],
        }
    }

    /// Whether both libraries have taken as many turns as the line is given.
    fn is_done(&self) -> bool {
        let medians = self.medians();
        let turns = if medians.iter().all(|seconds| *seconds >= LONG) {
            LONG_TURNS
        } else if medians.iter().all(|seconds| *seconds <= SHORT) {
            SHORT_TURNS
        } else {
            TURNS
        };
        self.times[0].len() >= turns
    }

    fn medians(&self) -> [f64; 2] {
        self.times.clone().map(median)
    }

    /// The median of the turns' own ratios: the two libraries take a turn one
    /// after the other, so that slow and quick times of the machine meet both.
    fn ratio(&self) -> f64 {
        let [before, after] = &self.times;
        median(
            after
                .iter()
                .zip(before)
                .map(|(after, before)| after / before)
                .collect(),
        )
    }

    /// The ratio of the turns that other work on the machine disturbed least.
    fn ratio_of_fastest(&self) -> f64 {
        let fastest = |times: &Vec<f64>| times.iter().copied().fold(f64::INFINITY, f64::min);
        let [before, after] = self.times.each_ref().map(fastest);
        after / before
    }
}

/// Takes one turn at the line of this place, and prints seconds and checksum, or
/// that its circuits are refused, for the program that asked for it.
pub fn take_one(place: &str) -> ExitCode {
    let place: usize = place.parse().expect("the place is a number");
    match lines::all()[place].turn() {
        Some(Turn { seconds, checksum }) => println!("{seconds} {checksum}"),
        None => println!("{REFUSED}"),
    }
    ExitCode::SUCCESS
}

/// Has the program at this path, which was built over the library of before,
/// take turns with this one at every line, and prints what they took. Ends with
/// status 1 where the two libraries answer differently.
pub fn take_all(before: &str) -> ExitCode {
    let after = env::current_exe().expect("this program knows where it is");
    let programs = [PathBuf::from(before), after];
    let mut rows = Vec::new();
    for (place, line) in lines::all().iter().enumerate() {
        eprintln!("timing {line}");
        match compare(&programs, place, line) {
            Compared::Times(row) => rows.push(row),
            Compared::NewHere => {
                println!("{line}: left out, since the library of before refuses its circuits")
            }
            Compared::Different => {
                println!("{line}: the two libraries give different answers or certificates");
                return ExitCode::FAILURE;
            }
        }
    }
    print(&rows);
    ExitCode::SUCCESS
}

/// What the turns of both programs at a line show.
enum Compared {
    Times(Row),
    /// The library of before refuses the line's circuits.
    NewHere,
    Different,
}

/// Compares both programs at a line. Each of the two goes first in every other
/// turn, the one of before in the first.
fn compare(programs: &[PathBuf; 2], place: usize, line: &Line) -> Compared {
    let mut row = Row::new(line);
    for turn in 0.. {
        if turn >= LONG_TURNS && row.is_done() {
            break;
        }
        let mut checksums = [0; 2];
        for side in [turn % 2, 1 - turn % 2] {
            let Some(Turn { seconds, checksum }) = ask(&programs[side], place) else {
                return match side {
                    0 => Compared::NewHere,
                    _ => Compared::Different,
                };
            };
            checksums[side] = checksum;
            row.times[side].push(seconds);
        }
        if checksums[0] != checksums[1] {
            return Compared::Different;
        }
    }
    Compared::Times(row)
}

/// Has a program take a turn at the line of this place; none where its library
/// refuses the line's circuits.
fn ask(program: &Path, place: usize) -> Option<Turn> {
    let asked = Command::new(program)
        .args([LINE, &place.to_string()])
        .output();
    let output = asked.unwrap_or_else(|why| panic!("{}: {why}", program.display()));
    let said = String::from_utf8_lossy(&output.stdout);
    let wrong = || -> ! {
        let why = String::from_utf8_lossy(&output.stderr);
        panic!("{} took no turn: {said}{why}", program.display())
    };
    if said.trim() == REFUSED {
        return None;
    }
    let Some((seconds, checksum)) = said.trim().split_once(' ') else {
        wrong()
    };
    Some(Turn {
        seconds: seconds.parse().unwrap_or_else(|_| wrong()),
        checksum: checksum.parse().unwrap_or_else(|_| wrong()),
    })
}

fn print(rows: &[Row]) {
    println!("Processor seconds of a whole report, which is the finder on every fault, and of");
    println!("one call on each of the circuits or certificates of a size: medians of turns,");
    println!("which the two libraries took one after the other. The ratio is the median of the");
    println!("turns' own ratios. Answers and certificates are the same. Where the two ratios");
    println!("are far apart, other work disturbed the turns.");
    println!();
    let headings = [
        "Line",
        "Before s",
        "After s",
        "Ratio",
        "Ratio of the fastest turns",
        "Turns",
    ];
    let cells: Vec<[String; 6]> = rows.iter().map(cells).collect();
    tables::print(headings, &cells);
    println!();
    let largest = rows.iter().max_by(|a, b| a.ratio().total_cmp(&b.ratio()));
    if let Some(row) = largest {
        println!("The largest ratio is {:.3}, of {}.", row.ratio(), row.name);
    }
}

fn cells(row: &Row) -> [String; 6] {
    let [before, after] = row.medians();
    [
        row.name.clone(),
        three_digits(before),
        three_digits(after),
        format!("{:.3}", row.ratio()),
        format!("{:.3}", row.ratio_of_fastest()),
        row.times[0].len().to_string(),
    ]
}
