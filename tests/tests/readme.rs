//! The README's quotes of files and of what commands print are right.

use leverpeach_tests::documents::{check_quotes, in_repository, Found, Quotes};
use leverpeach_tests::files::text_of;

#[test]
fn the_readme_quotes_files_and_commands_as_they_are() {
    let quotes = check_quotes(&text_of("README.md"), in_repository);
    let complaints = quotes.complaints.join("\n");
    assert!(complaints.is_empty(), "README.md:\n{complaints}");
    assert!(quotes.files > 0, "README.md quotes no file");
    assert!(quotes.outputs > 0, "README.md quotes no command");
}

/// The file that the samples speak of.
fn in_sample(path: &str) -> Option<Found> {
    let text = "int main(void) {\n    return 0;\n}\n";
    (path == "main.c").then(|| Found::File(text.to_string()))
}

/// A document with a block behind a line.
fn quote(before: &str, block: &str) -> Quotes {
    let document = format!("# Sample\n\n{before}\n```c\n{block}```\n\n```\nfree\n```\n");
    check_quotes(&document, in_sample)
}

const FILE_MARK: &str = "<!-- file: main.c -->";
const OUTPUT_MARK: &str = "<!-- prints: echo one; echo two -->";

#[test]
fn right_quotes_have_no_complaints() {
    let file = quote(FILE_MARK, "int main(void) {\n    return 0;\n}\n");
    assert_eq!(file.complaints, [""; 0]);
    assert_eq!((file.files, file.outputs), (1, 0));
    let output = quote(OUTPUT_MARK, "one\ntwo\n");
    assert_eq!(output.complaints, [""; 0]);
    assert_eq!((output.files, output.outputs), (0, 1));
}

#[test]
fn blocks_without_a_mark_quote_nothing() {
    for before in ["", "Text.", "<!-- a remark -->"] {
        let quotes = quote(before, "one\n");
        assert_eq!(quotes.complaints, [""; 0]);
        assert_eq!((quotes.files, quotes.outputs), (0, 0));
    }
}

#[test]
fn commands_run_in_the_top_folder() {
    let quotes = quote("<!-- prints: ls README.md -->", "README.md\n");
    assert_eq!(quotes.complaints, [""; 0]);
}

#[test]
fn wrong_quotes_are_complained_of() {
    for (before, block, complaint) in [
        (
            FILE_MARK,
            "int main(void) {\n    return 1;\n}\n",
            "line 2 of the block is \"    return 1;\", not \"    return 0;\"",
        ),
        (
            FILE_MARK,
            "int main(void) {\n",
            "the block has 1 lines, what it quotes 3",
        ),
        (
            "<!-- file: lost.c -->",
            "int main(void) {\n",
            "there is no file lost.c",
        ),
        (
            OUTPUT_MARK,
            "one\ntwo\nthree\n",
            "the block has 3 lines, what it quotes 2",
        ),
        (
            OUTPUT_MARK,
            "one\n two\n",
            "line 2 of the block is \" two\", not \"two\"",
        ),
        (
            "<!-- prints: echo lost >&2 -->",
            "",
            "echo lost >&2 prints nothing: lost",
        ),
    ] {
        let quotes = quote(before, block);
        assert_eq!(quotes.complaints, [format!("line 4: {complaint}")]);
    }
}

#[test]
fn a_mark_without_its_block_is_complained_of() {
    for before in [
        "<!-- file: main.c -->\n",
        "<!-- prints: echo one -->\nText.",
    ] {
        let complaints = quote(before, "one\n").complaints;
        assert_eq!(complaints, ["line 3: no block follows this mark"]);
    }
}
