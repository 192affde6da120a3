//! The C header and the library have the same functions, and the C program
//! `tests/c/every_call.c`, which calls each of them, finds all as it should be.

use leverpeach_tests::documents::names_in;
use leverpeach_tests::files::{text_of, top_folder};
use std::collections::BTreeSet;
use std::path::Path;
use std::process::{Command, Output};

const HEADER: &str = "include/leverpeach.h";
const PROGRAM: &str = "tests/c/every_call.c";

/// The library that the tests are linked with.
const ARCHIVE: &str = env!("LEVERPEACH_ARCHIVE");

/// What the C program prints.
const LINES: &str = "\
leverpeach_read: sound, 6 nodes, 6 pins
leverpeach_read, a byte short: refused 3
leverpeach_read, empty netlist: refused 1
leverpeach_simulate: done, seen 1 0 1 0 0 1
leverpeach_simulate, pin 0 of node 3 stuck at 1: done, seen 1 0 1 1 1 1
leverpeach_simulate, no such node: refused 9
leverpeach_simulate, an input of 2: refused 16
leverpeach_simulate, empty netlist: refused 1
leverpeach_simulate, empty first: refused 16
leverpeach_simulate, empty second: refused 16
leverpeach_simulate, both slices empty: refused 16
leverpeach_simulate, all empty: refused 1
leverpeach_check: accepted, c 1
leverpeach_check, another value in a step: refused 14
leverpeach_check, a byte short: refused 8
leverpeach_check, empty netlist: refused 1
leverpeach_check, empty certificate: refused 8
leverpeach_check, empty first: refused 11
leverpeach_check, empty second: refused 11
leverpeach_check, empty work slices: refused 11
leverpeach_check, all empty but the netlist: refused 8
leverpeach_check, all empty: refused 1
leverpeach_find: found, c 1, 95 bytes
leverpeach_find, c 0 only: none
leverpeach_find, certificate a byte short: refused 12
leverpeach_find, empty netlist: refused 1
leverpeach_find, empty first: refused 11
leverpeach_find, empty second: refused 11
leverpeach_find, empty work slices: refused 11
leverpeach_find, empty certificate: refused 12
leverpeach_find, all empty but the netlist: refused 11
leverpeach_find, all empty: refused 1
";

fn run(command: &mut Command) -> Output {
    let output = command.output();
    output.unwrap_or_else(|why| panic!("{command:?} does not start: {why}"))
}

/// Fails unless the C program, built at this place, is content.
fn assert_content(program: &Path) {
    let output = run(&mut Command::new(program));
    assert_eq!(String::from_utf8_lossy(&output.stdout), LINES);
    assert_eq!(String::from_utf8_lossy(&output.stderr), "");
    assert!(output.status.success(), "{}", output.status);
}

/// The functions that a header declares.
fn declared(header: &str) -> BTreeSet<&str> {
    let names = names_in(HEADER, header).expect("names are looked up in headers");
    names.into_iter().collect()
}

/// Those of the functions that a C program does not call.
fn not_called<'a>(functions: &BTreeSet<&'a str>, program: &str) -> Vec<&'a str> {
    let called = |name: &&str| program.contains(&format!("{name}("));
    let names = functions.iter().copied();
    names.filter(|name| !called(name)).collect()
}

/// The functions that a library exports, by a listing of its symbols: place,
/// sort and name on a line.
fn exported(listing: &str) -> BTreeSet<&str> {
    let words = listing.lines().map(|line| line.split_whitespace());
    words.filter_map(|mut words| words.nth(2)).collect()
}

/// What a library needs from elsewhere, by a listing of such symbols: sort and
/// name on a line.
fn needed(listing: &str) -> BTreeSet<&str> {
    let words = listing.lines().map(|line| line.split_whitespace());
    words.filter_map(|mut words| words.nth(1)).collect()
}

#[test]
fn the_c_program_finds_all_as_it_should_be() {
    assert_content(&top_folder().join("target/examples/every-call"));
}

#[test]
fn the_c_program_calls_every_function() {
    let header = text_of(HEADER);
    let functions = declared(&header);
    assert!(!functions.is_empty(), "{HEADER} declares nothing");
    assert_eq!(not_called(&functions, &text_of(PROGRAM)), [""; 0]);
}

#[test]
fn the_library_exports_what_the_header_declares() {
    let output = run(Command::new("nm").args(["-g", "--defined-only", ARCHIVE]));
    let listing = String::from_utf8_lossy(&output.stdout);
    assert_eq!(exported(&listing), declared(&text_of(HEADER)));
}

/// A program without a C library brings these two along, since compilers call
/// them for any code.
#[test]
fn the_library_needs_two_functions_from_elsewhere() {
    let output = run(Command::new("nm").args(["-u", ARCHIVE]));
    let listing = String::from_utf8_lossy(&output.stdout);
    assert_eq!(needed(&listing), BTreeSet::from(["memcpy", "memset"]));
}

/// The C compiler as one of C++, in the top folder.
fn cpp_compiler() -> Command {
    let mut compiler = Command::new("cc");
    compiler.args(["-x", "c++"]).current_dir(top_folder());
    compiler
}

/// Without the header's words for C++ the program would not be linked: C++ has
/// other names for functions.
#[test]
fn the_header_serves_cpp_too() {
    let nothing = run(cpp_compiler().args(["-fsyntax-only", "/dev/null"]));
    if !nothing.status.success() {
        println!("There is no C++ compiler here: nothing is compiled.");
        return;
    }
    let built = Path::new(env!("CARGO_TARGET_TMPDIR")).join("every-call");
    let mut compiler = cpp_compiler();
    compiler.args(["-Wall", "-Wextra", "-Wpedantic", "-Werror", "-Iinclude"]);
    compiler.args([PROGRAM, "-x", "none", ARCHIVE, "-o"]);
    let compiled = run(compiler.arg(&built));
    let said = String::from_utf8_lossy(&compiled.stderr);
    assert!(compiled.status.success(), "{said}");
    assert_content(&built);
}

#[test]
fn a_function_too_few_or_too_many_is_noticed() {
    let header = "/* one (of\n   them) */\nuint64_t one(const uint8_t *a);\nvoid two(size_t a,\n         int b);\n";
    let functions = declared(header);
    assert_eq!(functions, BTreeSet::from(["one", "two"]));
    assert_eq!(
        not_called(&functions, "one (1); two_more(2);"),
        ["one", "two"]
    );
    assert_eq!(not_called(&functions, "one(1); three(2);"), ["two"]);
    let listing = "\nkit.o:\n0000000000000000 T one\n0000000000000010 T three\n";
    assert_eq!(exported(listing), BTreeSet::from(["one", "three"]));
    let listing = "\nkit.o:\n                 U five\n                 U four\n";
    assert_eq!(needed(listing), BTreeSet::from(["five", "four"]));
}
