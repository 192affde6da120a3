//! The kit's report program, the examples, and what is printed on them.

use crate::fault::{Fault, Site};
use std::fs;
use std::io::{self, Write};
use std::path::{Path, PathBuf};
use std::process::{Command, Stdio};

/// A fault that the report marks, and the clock from which on it says that no
/// output shows it.
#[derive(Clone, Copy, Debug)]
pub struct Mark {
    pub fault: Fault,
    pub c: usize,
}

pub struct Report {
    pub marks: Vec<Mark>,
    /// How many faults the report counts.
    pub faults: usize,
}

impl Report {
    /// Whether the report marks a fault.
    pub fn has(&self, fault: Fault) -> bool {
        self.marks.iter().any(|mark| mark.fault == fault)
    }

    /// Reads a report: a line for each mark, and last `K of M`.
    pub fn read(text: &str) -> Result<Report, String> {
        let unreadable = |line: &str| format!("a report cannot have the line '{line}'");
        let mut lines: Vec<&str> = text.lines().collect();
        let last = lines.pop().ok_or("the report is empty")?;
        let marks = lines
            .iter()
            .map(|line| Mark::read(line).ok_or(unreadable(line)));
        let marks = marks.collect::<Result<Vec<Mark>, String>>()?;
        let (count, faults) = last.split_once(" of ").ok_or(unreadable(last))?;
        if count.parse() != Ok(marks.len()) {
            return Err(format!("{} marks stand before '{last}'", marks.len()));
        }
        let faults = faults.parse().map_err(|_| unreadable(last))?;
        Ok(Report { marks, faults })
    }
}

impl Mark {
    /// Reads node, site, stuck value and c. The node and frame of the split are
    /// the certificate's, and not looked at.
    fn read(line: &str) -> Option<Mark> {
        let numbers: Result<Vec<usize>, _> = line.split(' ').map(str::parse).collect();
        let [node, site, stuck, c, _, _] = numbers.ok()?[..] else {
            return None;
        };
        let site = match site {
            255 => Site::Node,
            pin => Site::Pin(pin),
        };
        let stuck = match stuck {
            0 => false,
            1 => true,
            _ => return None,
        };
        let fault = Fault { node, site, stuck };
        Some(Mark { fault, c })
    }
}

/// The report program of a repository.
pub struct Program {
    repository: PathBuf,
}

impl Program {
    pub fn of(repository: &Path) -> Self {
        let repository = repository.to_path_buf();
        Program { repository }
    }

    /// The bytes of an example.
    pub fn example(&self, circuit: &str) -> Result<Vec<u8>, String> {
        let path = self.repository.join("examples").join(circuit);
        let path = path.with_extension("net");
        fs::read(&path).map_err(|error| format!("{}: {error}", path.display()))
    }

    /// The report on a netlist, with c up to B and F frames behind the fault
    /// frame.
    pub fn report(&self, netlist: &[u8], b: u8, f: u8) -> Result<Report, String> {
        Report::read(&self.print(netlist, b, f)?)
    }

    /// The text of the report.
    pub fn print(&self, netlist: &[u8], b: u8, f: u8) -> Result<String, String> {
        let path = self.repository.join("target/bin/report");
        let failed = |error: io::Error| format!("{}: {error}", path.display());
        let mut command = Command::new(&path);
        let command = command.stdin(Stdio::piped()).stdout(Stdio::piped());
        let mut program = command.spawn().map_err(failed)?;
        let mut input = program.stdin.take().expect("the input is a pipe");
        let given = [&[b, f], netlist].concat();
        // The program reads all of its input before it prints.
        input.write_all(&given).map_err(failed)?;
        drop(input);
        let output = program.wait_with_output().map_err(failed)?;
        if !output.status.success() {
            return Err(format!("{}: {}", path.display(), output.status));
        }
        String::from_utf8(output.stdout).map_err(|error| error.to_string())
    }
}
