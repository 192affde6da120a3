//! What the documents name is there, and is what they say it is.

use leverpeach_tests::documents::{
    check_places, check_reading, check_trace, in_repository, Findings, Found,
};
use leverpeach_tests::files::text_of;

/// Fails with all complaints, one a line.
fn assert_clean(path: &str, findings: &Findings) {
    let complaints = &findings.complaints;
    let count = complaints.len();
    assert!(
        count == 0,
        "{path}, {count} complaints:\n{}",
        complaints.join("\n")
    );
}

/// Looks at a trace, which must have nothing to complain of.
fn trace(path: &str) -> Findings {
    let findings = check_trace(&text_of(path), in_repository);
    println!("{path}: {} rows, {} names", findings.rows, findings.names);
    assert_clean(path, &findings);
    findings
}

#[test]
fn the_trace_of_01_names_what_exists() {
    let path = "docs/TRACE-01.md";
    let findings = trace(path);
    assert!(findings.rows >= 100, "{path}: only {} rows", findings.rows);
    assert!(
        findings.names >= 100,
        "{path}: only {} names",
        findings.names
    );
}

#[test]
fn the_trace_of_02_names_what_exists() {
    let path = "docs/TRACE-02.md";
    let says_empty = text_of(path).contains("No request is built yet.");
    assert_eq!(says_empty, trace(path).rows == 0, "{path}");
}

#[test]
fn the_way_through_the_proof_names_what_exists() {
    let path = "docs/READING.md";
    let findings = check_reading(&text_of(path), in_repository);
    println!(
        "{path}: {} names, {} line counts",
        findings.names, findings.counts
    );
    assert_clean(path, &findings);
    assert!(findings.names > 0, "{path} names nothing");
    assert!(findings.counts > 0, "{path} counts no lines");
}

#[test]
fn architecture_and_performance_name_what_exists() {
    for path in ["docs/ARCHITECTURE.md", "docs/PERFORMANCE.md"] {
        let findings = check_places(&text_of(path), in_repository);
        println!("{path}: {} rows, {} names", findings.rows, findings.names);
        assert_clean(path, &findings);
        assert!(
            findings.names >= 20,
            "{path}: only {} names",
            findings.names
        );
    }
}

/// Definitions and a proof, as the kit's are written.
const LAWS: &str = "\
use Rattle.std.specs.Prelude.{◌≡◌, ℕ, List}
use Rattle.kit.specs.Own.{imported}

-- spoken : of
pub record Net (n : ℕ) : Type 0 where
  pub size : ℕ

pub data Answer : Type 0 where
  no_answer : Answer

module _ (bs : List ℕ) where
  abbrev pub node_count : ℕ
  node_count = imported bs

unfoldable hidden₂ : ℕ
hidden₂ = used 3

pub a-law : (x : ℕ)
    → x ≡ x
a-law x = let bound : ℕ = x in go x
  where
    go : ℕ
    go = refl
";

/// Code, as the kit's is written.
const CODE: &str = "\
// spoken fn of
#![tactic(auto)]

ghost use Rattle.kit.specs.Laws.{imported};

use values::imported;
mod inner;

#[derive(Clone, Copy)]
pub enum Reading {
    Sound(u16, u16),
    Refused,
}

pub struct Rule<'a> {
    pub least: &'a [u8],
    most: u8,
}

const LENGTH: usize = 7;

pub trait Joined {
    ghost spoken: { Self → ℕ };

    fn joined(&self) -> u8
        ensures { result ≡ spoken self.now };
}

impl Rule {
    #[tactic(auto, using(crate::proofs::Laws::used))]
    pub(crate) fn next(self) -> Rule
        requires { used }
        ensures value { result ≡ used }
    {
        let bound: u8 = LENGTH;
        Rule { least: bound, built: 0 }
    }
}

#[unsafe(no_mangle)]
pub extern \"C\" fn exported<'a>(given: u8) -> u8 {}
";

/// A header, as one that C programs include is written.
const HEADER: &str = "\
/* spoken (of) */
uint64_t leverpeach_read(const uint8_t *netlist, size_t netlist_length);
";

/// The files that the samples speak of.
fn in_sample(path: &str) -> Option<Found> {
    let folder = |files: &[&str]| {
        let paths = files.iter().map(|file| file.to_string());
        Some(Found::Folder(paths.collect()))
    };
    let text = match path {
        "specs/" | "specs" => return folder(&["specs/Laws.antt"]),
        "crates/kit/" => return folder(&["crates/kit/src/code.rt", "crates/kit/specs/Own.antt"]),
        "specs/Laws.antt" | "crates/kit/specs/Own.antt" => LAWS,
        "src/code.rt" | "crates/kit/src/code.rt" => CODE,
        "kit.h" => HEADER,
        "notes.txt" => "one\ntwo\n",
        _ => return None,
    };
    Some(Found::File(text.to_string()))
}

/// The complaints about a trace whose one row has this cell.
fn complaints_of_cell(cell: &str) -> Vec<String> {
    let document = format!(
        "# Trace\n\n| Sentence | Defined | Proved or promised | Tested |\n|---|---|---|---|\n\
         | A `word` of it. | {cell} | by hand | `notes.txt` |\n"
    );
    check_trace(&document, in_sample).complaints
}

/// Fails unless a name of a file is found, or is not found, as it should be.
fn assert_names(file: &str, defined: &[&str], not_defined: &[&str]) {
    for name in defined {
        let complaints = complaints_of_cell(&format!("`{file}`: `{name}`"));
        assert!(complaints.is_empty(), "{complaints:?}");
    }
    for name in not_defined {
        let complaints = complaints_of_cell(&format!("`{file}`: `{name}`"));
        let expected = format!("line 5: `{name}` is not defined in `{file}`");
        assert_eq!(complaints, [expected]);
    }
}

#[test]
fn names_are_looked_for_where_they_are_defined() {
    assert_names(
        "specs/Laws.antt",
        &[
            "Net",
            "size",
            "Answer",
            "no_answer",
            "node_count",
            "hidden₂",
            "a-law",
        ],
        &[
            "imported",
            "spoken",
            "used",
            "bound",
            "go",
            "x",
            "n",
            "absent",
            "_",
            "node",
            "bs",
            "◌≡◌",
            "ℕ",
        ],
    );
    assert_names(
        "src/code.rt",
        &[
            "inner", "Reading", "Sound", "Refused", "Rule", "least", "most", "LENGTH", "Joined",
            "joined", "next", "exported",
        ],
        &[
            "imported",
            "spoken",
            "used",
            "bound",
            "built",
            "given",
            "absent",
            "tactic",
            "derive",
            "Clone",
            "Laws",
            "value",
            "result",
            "no_mangle",
        ],
    );
    assert_names("kit.h", &["leverpeach_read"], &["netlist", "spoken"]);
}

#[test]
fn a_right_trace_has_no_complaints() {
    for cell in [
        "`specs/Laws.antt`: `node_count`, `Net`; `src/code.rt`: `next`",
        "`specs/Laws.antt`, `specs/`; also `notes.txt`",
        "plain words",
    ] {
        assert_eq!(complaints_of_cell(cell), [""; 0], "{cell}");
    }
}

#[test]
fn a_wrong_trace_is_complained_of() {
    for (cell, complaint) in [
        ("`specs/Lost.antt`", "there is no `specs/Lost.antt`"),
        ("`lost.md`: `Net`", "there is no `lost.md`"),
        (
            "`specs`",
            "`specs` is neither a path nor one of a path's names",
        ),
        ("`notes.txt/`", "there is no `notes.txt/`"),
        (
            "`notes.txt`: `one`",
            "`one`: no names are looked up in `notes.txt`",
        ),
        (
            "`specs/`: `Net`",
            "`Net`: no names are looked up in `specs/`",
        ),
        (
            "`node_count`",
            "`node_count` is neither a path nor one of a path's names",
        ),
        (
            "`specs/Laws.antt`, `Net`",
            "`Net` is neither a path nor one of a path's names",
        ),
        (
            "`specs/Laws.antt`: `Net`, `notes.txt`, `size`",
            "`size` is neither a path nor one of a path's names",
        ),
        ("`notes.txt", "`notes.txt is not closed"),
        ("", "the cell Defined says nothing"),
        ("—", "the cell Defined says nothing"),
    ] {
        assert_eq!(complaints_of_cell(cell), [format!("line 5: {complaint}")]);
    }
}

#[test]
fn a_trace_of_another_shape_is_complained_of() {
    let document = "| Sentence | Defined | Tested |\n|---|---|---|\n| One. | words | words |\n";
    let findings = check_trace(document, in_sample);
    assert_eq!(
        findings.complaints,
        [
            "line 1: the columns are not Sentence, Defined, Proved or promised, Tested",
            "line 3: 3 cells instead of 4"
        ]
    );
    assert_eq!(findings.rows, 1);
}

/// A way through a proof: a paragraph, and a row of a table of line counts.
fn reading_with(paragraph: &str, row: &str) -> Findings {
    let document = format!(
        "# Reading\n\nRun `make test` first.\n{paragraph}\n\n```\n`not/looked/at`\n```\n\n\
         | File | Lines | What |\n|---|---|---|\n| {row} | two lines |\n"
    );
    check_reading(&document, in_sample)
}

#[test]
fn a_right_reading_has_no_complaints() {
    let paragraph = "Then `specs/Laws.antt`: `Net`,\n`size`.\n- `make run`.";
    for (row, names) in [
        ("`notes.txt` | 2", 2),
        ("`specs/Laws.antt`: `Net`, `size` | 23", 4),
    ] {
        let findings = reading_with(paragraph, row);
        assert_clean("the sample", &findings);
        assert_eq!((findings.names, findings.counts), (names, 1));
    }
}

#[test]
fn a_wrong_reading_is_complained_of() {
    for (paragraph, complaint) in [
        ("See `lost/`.", "line 4: there is no `lost/`"),
        (
            "See `specs/Laws.antt`: `Net`,\n`lost`.",
            "line 5: `lost` is not defined in `specs/Laws.antt`",
        ),
        (
            "See `specs/Laws.antt`: `imported`.",
            "line 4: `imported` is not defined in `specs/Laws.antt`",
        ),
    ] {
        let findings = reading_with(paragraph, "`notes.txt` | 2");
        assert_eq!(findings.complaints, [complaint]);
    }
}

#[test]
fn a_wrong_line_count_is_complained_of() {
    for (row, complaint) in [
        ("`notes.txt` | 3", "`notes.txt` has 2 lines, not 3"),
        ("`notes.txt` | two", "`notes.txt` has 2 lines, not two"),
        ("`lost.txt` | 2", "there is no `lost.txt`"),
        ("`specs/` | 2", "`specs/` is no file"),
        ("together | 2", "together does not name one file"),
        (
            "`notes.txt`, `kit.h` | 2",
            "`notes.txt`, `kit.h` does not name one file",
        ),
    ] {
        let findings = reading_with("Fine.", row);
        assert_eq!(findings.complaints, [format!("line 12: {complaint}")]);
    }
}

/// What is said of a table with two columns and one row.
fn places_with(head: &str, row: &str) -> Findings {
    let document = format!("# Rooms\n\n| {head} |\n|---|---|\n| {row} |\n");
    check_places(&document, in_sample)
}

#[test]
fn a_right_row_of_places_has_no_complaints() {
    for (head, row, names) in [
        (
            "Crate | Public",
            "`kit` | `next`, the type `Rule`; `Own`",
            3,
        ),
        ("Law | File", "a law (`a-law`) | `specs/Laws.antt`", 1),
        ("Module | What", "`src/code.rt` | `next` and `exported`", 2),
        ("Law | File", "plain words | `specs/`", 0),
        ("Before | Now", "`gone`: `lost` | `kit`: `code`", 1),
        (
            "Before | Now",
            "`lost/` | `kit`: `size` in `specs/Own.antt`",
            1,
        ),
    ] {
        let findings = places_with(head, row);
        assert_clean(row, &findings);
        assert_eq!((findings.rows, findings.names), (1, names), "{row}");
    }
}

#[test]
fn a_wrong_row_of_places_is_complained_of() {
    for (head, row, complaint) in [
        (
            "Crate | Public",
            "`kit` | `next`, `lost`",
            "`lost` is not defined in: crates/kit/",
        ),
        (
            "Crate | Public",
            "kit | `next`",
            "`next` stands beside no file",
        ),
        (
            "Law | File",
            "a law (`next`) | `specs/Laws.antt`",
            "`next` is not defined in: specs/Laws.antt",
        ),
        (
            "Law | File",
            "a law | `specs/Lost.antt`",
            "there is no `specs/Lost.antt`",
        ),
        (
            "Law | File",
            "a law | `specs/Laws.antt`: `lost`",
            "`lost` is not defined in `specs/Laws.antt`",
        ),
        (
            "Before | Now",
            "`gone` | `kit`: `gone`",
            "`gone` is not defined in: crates/kit/",
        ),
        (
            "Before | Now",
            "`gone` | `kit`: `specs/Laws.txt`",
            "there is no `specs/Laws.txt`",
        ),
    ] {
        let complaints = places_with(head, row).complaints;
        assert_eq!(complaints, [format!("line 5: {complaint}")]);
    }
}
