//! Berkeley's abc, which decides whether a circuit's output is ever 1.

use crate::blif::MODEL;
use std::fmt::Display;
use std::fs;
use std::path::{Path, PathBuf};
use std::process::Command;
use std::sync::atomic::{AtomicUsize, Ordering};

/// Debian's name of the program.
const PROGRAM: &str = "berkeley-abc";

/// What abc says of a claim.
#[derive(Clone, Copy, Debug, PartialEq, Eq)]
pub enum Verdict {
    /// The output is never 1: the claim holds.
    Proved,
    /// The output is 1 in some run: the claim fails.
    Refuted,
    /// The time was up.
    Undecided,
}

impl Verdict {
    pub fn name(self) -> &'static str {
        match self {
            Verdict::Proved => "proved",
            Verdict::Refuted => "refuted",
            Verdict::Undecided => "undecided",
        }
    }
}

/// How abc is called.
pub struct Abc {
    /// Where the claim that is being decided is written.
    directory: PathBuf,
    /// The processor seconds that it may take for a claim.
    limit: u32,
}

impl Abc {
    pub fn new(directory: &Path, limit: u32) -> Result<Self, String> {
        let directory = directory.to_path_buf();
        fs::create_dir_all(&directory).map_err(|error| at(&directory, error))?;
        Ok(Abc { directory, limit })
    }

    /// Decides whether the output of a circuit is never 1. Where that fails the
    /// circuit's file is left to be looked at.
    pub fn decide(&self, blif: &str) -> Result<Verdict, String> {
        // Names of their own, since several may be decided at once.
        static CLAIMS: AtomicUsize = AtomicUsize::new(0);
        let number = CLAIMS.fetch_add(1, Ordering::Relaxed);
        let name = format!("claim{number}.blif");
        let path = self.directory.join(&name);
        fs::write(&path, blif).map_err(|error| at(&path, error))?;
        let script = format!("read_blif {name}; strash; pdr -T {}", self.limit);
        let verdict = self.run(&script).and_then(|text| verdict(&text));
        let verdict = verdict.map_err(|error| at(&path, error))?;
        fs::remove_file(&path).map_err(|error| at(&path, error))?;
        Ok(verdict)
    }

    /// Starts abc and ends it, which is a part of the time of every claim.
    pub fn start_only(&self) -> Result<(), String> {
        self.run("quit").map(|_| ())
    }

    /// What abc prints for a script.
    fn run(&self, script: &str) -> Result<String, String> {
        let mut command = Command::new(PROGRAM);
        let command = command.args(["-q", script]).current_dir(&self.directory);
        let output = command.output().map_err(|error| at(PROGRAM, error))?;
        let [text, errors] =
            [&output.stdout, &output.stderr].map(|bytes| String::from_utf8_lossy(bytes));
        if !output.status.success() || !errors.is_empty() {
            let status = output.status;
            return Err(format!("{PROGRAM} ended with {status}: {text}{errors}"));
        }
        Ok(text.into_owned())
    }
}

/// An error and what it is about.
fn at(subject: impl AsRef<Path>, error: impl Display) -> String {
    format!("{}: {error}", subject.as_ref().display())
}

/// The verdict in abc's words. Every line must be one that is expected: a warning
/// may say that abc decided another circuit than the one meant.
fn verdict(text: &str) -> Result<Verdict, String> {
    let lines: Vec<&str> = text.lines().collect();
    match lines[..] {
        [invariant, verified, answer]
            if invariant.starts_with("Invariant F[")
                && verified.starts_with("Verification of invariant with ")
                && verified.contains(" was successful. ")
                && answer.starts_with("Property proved. ") =>
        {
            Ok(Verdict::Proved)
        }
        [answer] if answer.starts_with(&asserted()) => Ok(Verdict::Refuted),
        [reason, answer]
            if reason.starts_with("Reached timeout (")
                && answer.starts_with("Property UNDECIDED. ") =>
        {
            Ok(Verdict::Undecided)
        }
        _ => Err(format!("{PROGRAM} says what is not expected: {text}")),
    }
}

/// What abc says first where the output is 1 in some run.
fn asserted() -> String {
    format!("Output 0 of miter \"{MODEL}\" was asserted in frame ")
}

#[cfg(test)]
mod tests {
    use super::*;

    const PROVED: [&str; 3] = [
        "Invariant F[1] : 1 clauses with 1 flops (out of 1) (cex = 0, ave = 1.00)",
        "Verification of invariant with 1 clauses was successful.  Time =     0.00 sec",
        "Property proved.  Time =     0.01 sec",
    ];

    #[test]
    fn the_three_answers() {
        assert_eq!(verdict(&PROVED.join("\n")), Ok(Verdict::Proved));
        let refuted = "Output 0 of miter \"claim\" was asserted in frame 2.  Time =     0.01 sec\n";
        assert_eq!(verdict(refuted), Ok(Verdict::Refuted));
        let undecided = "Reached timeout (2 seconds) in frame 1.\n\
                         Property UNDECIDED.  Time =     2.01 sec\n";
        assert_eq!(verdict(undecided), Ok(Verdict::Undecided));
    }

    #[test]
    fn anything_else_is_an_error() {
        let warning =
            "Warning: Constant-0 drivers added to 1 non-driven nets in network \"claim\":";
        let warned = [&[warning, "x"], &PROVED[..]].concat().join("\n");
        let unverified = [PROVED[0], PROVED[2]].join("\n");
        let other_circuit = "Output 0 of miter \"m\" was asserted in frame 2.  Time =     0.01 sec";
        let texts = [&warned, &unverified, PROVED[2], other_circuit, ""];
        for text in texts {
            assert!(verdict(text).is_err(), "{text}");
        }
    }
}
