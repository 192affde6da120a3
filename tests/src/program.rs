//! The report program, run as its users run it.

use crate::files::top_folder;
use std::io::{ErrorKind, Write};
use std::process::{Child, Command, Output, Stdio};
use std::thread;
use std::time::Duration;

/// The program's input: B, F and the netlist.
pub fn input(b: u8, f: u8, netlist: &[u8]) -> Vec<u8> {
    [&[b, f], netlist].concat()
}

/// What the program prints for this input.
pub fn printed(input: &[u8]) -> String {
    printed_for_pieces(&[input])
}

/// What the program prints when its input comes in these pieces, one after the
/// other.
pub fn printed_for_pieces(pieces: &[&[u8]]) -> String {
    let output = print_to(Stdio::piped(), pieces);
    assert!(output.status.success(), "{}", output.status);
    assert_eq!(String::from_utf8_lossy(&output.stderr), "");
    String::from_utf8(output.stdout).expect("the report is text")
}

/// How the program ends that prints to this output when its input comes in these
/// pieces, one after the other. Of an output that is not piped here nothing is
/// among what it printed.
pub fn print_to(output: impl Into<Stdio>, pieces: &[&[u8]]) -> Output {
    let mut program = start(Stdio::piped(), output);
    let mut input = program.stdin.take().expect("the input is a pipe");
    // Beside the program, since neither may wait for the other's pipe.
    thread::scope(|scope| {
        scope.spawn(move || write_pieces(&mut input, pieces));
        program.wait_with_output().expect("the program ends")
    })
}

/// How the program ends that reads from this input.
pub fn read_from(input: impl Into<Stdio>) -> Output {
    let program = start(input, Stdio::piped());
    program.wait_with_output().expect("the program ends")
}

/// Fails unless the program ended with an error of this kind, and said so.
pub fn assert_failed(output: &Output, kind: ErrorKind) {
    assert_eq!(output.status.code(), Some(1), "{}", output.status);
    let said = String::from_utf8_lossy(&output.stderr);
    assert!(said.contains(&format!("{kind:?}")), "{kind:?}: {said}");
}

fn start(input: impl Into<Stdio>, output: impl Into<Stdio>) -> Child {
    let path = top_folder().join("target/bin/report");
    assert!(
        path.is_file(),
        "{} is missing: build it with scripts/build program report",
        path.display()
    );
    Command::new(path)
        .stdin(input)
        .stdout(output)
        .stderr(Stdio::piped())
        .spawn()
        .expect("the program starts")
}

fn write_pieces(input: &mut impl Write, pieces: &[&[u8]]) {
    for (place, piece) in pieces.iter().enumerate() {
        if place > 0 {
            // Long enough for the program to have read what came before.
            thread::sleep(Duration::from_millis(20));
        }
        match input.write_all(piece) {
            // What is longer than the buffer need not be read to its end.
            Err(error) if error.kind() == ErrorKind::BrokenPipe => return,
            written => written.expect("the program takes its input"),
        }
    }
}
