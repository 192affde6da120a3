//! The layout of the sources that no formatter sees to.

use leverpeach_tests::files::{files_below, text_of};

/// The most characters of a line of a function's proof. A longer one no longer
/// shows what it does when it is read or compared.
const LONGEST_LINE: usize = 200;

/// The lines of a text that are too long, each with its number and length.
fn too_long(text: &str) -> Vec<(usize, usize)> {
    let lengths = text.lines().map(|line| line.chars().count());
    let numbered = (1..).zip(lengths);
    numbered.filter(|line| line.1 > LONGEST_LINE).collect()
}

/// The files that a function's proof may have.
const OF_A_FUNCTION: [&str; 3] = ["Invariants.antt", "Answers.antt", "Proof.antt"];

/// Whether a file is of the proof of a function, as laws are not.
fn is_of_a_function(path: &str) -> bool {
    let name = path.rsplit('/').next();
    path.contains("/proofs/") && name.is_some_and(|name| OF_A_FUNCTION.contains(&name))
}

#[test]
fn no_line_of_a_function_s_proof_is_too_long() {
    let mut proofs = files_below("crates");
    proofs.retain(|path| is_of_a_function(path));
    assert!(proofs.len() >= 60, "only {} proofs", proofs.len());
    let complaints: Vec<String> = proofs
        .iter()
        .flat_map(|path| {
            let lines = too_long(&text_of(path)).into_iter();
            lines.map(move |(line, length)| format!("{path}, line {line}: {length} characters"))
        })
        .collect();
    let count = complaints.len();
    assert!(
        count == 0,
        "{count} lines are longer than {LONGEST_LINE} characters:\n{}",
        complaints.join("\n")
    );
}

#[test]
fn characters_are_counted_not_bytes() {
    let fits = "≡".repeat(LONGEST_LINE);
    let text = format!("{fits}\nshort\n{fits}x\n");
    assert_eq!(too_long(&text), [(3, LONGEST_LINE + 1)]);
}

/// The lines of the sources in a folder of each crate that hold a word by itself;
/// lines of comments are left out.
fn lines_with(folder: &str, word: &str) -> Vec<String> {
    let mut files = files_below("crates");
    files.retain(|path| path.contains(folder));
    let lines = files.iter().flat_map(|path| {
        let text = text_of(path);
        let lines: Vec<String> = text.lines().map(|line| line.trim().to_string()).collect();
        lines
    });
    let part_of_a_name = |letter: char| letter.is_alphanumeric() || letter == '_';
    let holds = |line: &String| line.split(|it| !part_of_a_name(it)).any(|it| it == word);
    let code = lines.filter(|line| !line.starts_with("--") && !line.starts_with("//"));
    code.filter(holds).collect()
}

/// Whether a line reads the field `most` of something: the end of a range is
/// none.
fn reads_most(line: &str) -> bool {
    let mut places = line.match_indices(".most");
    places.any(|(place, _)| !line[..place].ends_with('.'))
}

// 02, request 1: "Netlists that were sound before get the answers they had". No
// answer can depend on the limit but by the rules of the kinds, and of a rule's
// limit nothing but by the test of pin counts.
#[test]
fn only_the_rules_of_kinds_cite_the_pin_limit() {
    let cited = [
        "abbrev pub most_pins : ℕ",
        "most_pins = 64",
        "rules = rules_up_to most_pins",
    ];
    assert_eq!(lines_with("/specs/", "most_pins"), cited);
    assert!(lines_with("/src/", "most_pins").is_empty());
    let tables = [
        "abbrev pub rules_up_to : ℕ → List Rule",
        "rules_up_to most =",
        "rules = rules_up_to most_pins",
    ];
    assert_eq!(lines_with("/specs/", "rules_up_to"), tables);
    let mut read = lines_with("/specs/", "most");
    read.retain(|line| reads_most(line));
    assert!(matches!(&read[..], [line] if line.starts_with("count_fits n =")));
    let cited = [
        "const MOST_PINS: u16 = 64;",
        "5..=6 => (2, MOST_PINS, Gate::And, number == 6),",
        "7..=8 => (2, MOST_PINS, Gate::Or, number == 8),",
    ];
    assert_eq!(lines_with("/src/", "MOST_PINS"), cited);
    let mut read = lines_with("/src/", "most");
    read.retain(|line| reads_most(line));
    assert_eq!(read, ["rule.least <= count && count <= rule.most"]);
}
