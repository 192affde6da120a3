//! The checks of a document: whatever it says wrongly is complained of, line by
//! line.

use super::definitions::names_in;
use super::markdown::{blocks, Block, Line, Row};
use super::mentions::{mentions_of_cell, Mention, Passage};
use super::{Found, LookUp};

/// The columns of each table of `docs/TRACE-01.md` and `docs/TRACE-02.md`.
const TRACE_COLUMNS: [&str; 4] = ["Sentence", "Defined", "Proved or promised", "Tested"];

/// What a look at a document found.
#[derive(Default)]
pub struct Findings {
    /// What is wrong, each with the number of its line.
    pub complaints: Vec<String>,
    /// How many rows its tables have.
    pub rows: usize,
    /// How many names were looked up in a file.
    pub names: usize,
    /// How many line counts were compared.
    pub counts: usize,
}

/// Looks at `docs/TRACE-01.md` or `docs/TRACE-02.md`: tables of sentences, and
/// where each is defined, proved and tested. Code spans in the last three
/// columns are references.
pub fn check_trace(document: &str, look_up: LookUp) -> Findings {
    check(document, look_up, Check::trace_table)
}

/// Looks at `docs/READING.md`: text with references, and tables of files with
/// their line counts.
pub fn check_reading(document: &str, look_up: LookUp) -> Findings {
    check(document, look_up, Check::reading_table)
}

/// Looks at `docs/ARCHITECTURE.md` or `docs/PERFORMANCE.md`: text with
/// references, and tables whose rows name places, and names that are defined
/// there.
pub fn check_places(document: &str, look_up: LookUp) -> Findings {
    check(document, look_up, Check::places_table)
}

fn check(document: &str, look_up: LookUp, table: fn(&mut Check, &Row, &[Row])) -> Findings {
    let findings = Findings::default();
    let mut check = Check { look_up, findings };
    for block in blocks(document) {
        match block {
            Block::Text(lines) => check.passage(&lines),
            Block::Table(head, rows) => {
                check.findings.rows += rows.len();
                table(&mut check, &head, &rows);
            }
            Block::Fence(_) => {}
        }
    }
    check.findings
}

/// A check under way.
pub(super) struct Check {
    pub(super) look_up: LookUp,
    pub(super) findings: Findings,
}

impl Check {
    pub(super) fn complain(&mut self, line: usize, complaint: String) {
        let complaints = &mut self.findings.complaints;
        complaints.push(format!("line {line}: {complaint}"));
    }

    /// The lines of a passage, in which other code spans are allowed.
    fn passage(&mut self, lines: &[Line]) {
        let mut passage = Passage::default();
        for line in lines {
            for mention in passage.mentions(line.text) {
                self.mention(line.number, &mention);
            }
        }
    }

    pub(super) fn mention(&mut self, line: usize, mention: &Mention) {
        let complaint = match *mention {
            Mention::Path(path) => self.wrong_path(path),
            Mention::Name { name, file } => self.wrong_name(name, file),
            Mention::Other(_) => None,
            Mention::Open(code) => Some(format!("`{code} is not closed")),
        };
        if let Some(complaint) = complaint {
            self.complain(line, complaint);
        }
    }

    fn wrong_path(&self, path: &str) -> Option<String> {
        match ((self.look_up)(path), path.ends_with('/')) {
            (None, _) => Some(format!("there is no `{path}`")),
            (Some(Found::Folder(_)), false) => Some(format!("`{path}` is a folder")),
            (Some(Found::File(_)), true) => Some(format!("`{path}` is no folder")),
            _ => None,
        }
    }

    fn wrong_name(&mut self, name: &str, file: &str) -> Option<String> {
        self.findings.names += 1;
        let defined = match (self.look_up)(file) {
            // A path at which nothing stands has its own complaint.
            None => return None,
            Some(Found::Folder(_)) => None,
            Some(Found::File(text)) => names_in(file, &text).map(|names| names.contains(&name)),
        };
        match defined {
            Some(true) => None,
            Some(false) => Some(format!("`{name}` is not defined in `{file}`")),
            None => Some(format!("`{name}`: no names are looked up in `{file}`")),
        }
    }

    fn trace_table(&mut self, head: &Row, rows: &[Row]) {
        if head.cells != TRACE_COLUMNS {
            let columns = TRACE_COLUMNS.join(", ");
            self.complain(head.number, format!("the columns are not {columns}"));
        }
        for row in rows {
            if row.cells.len() != TRACE_COLUMNS.len() {
                let count = row.cells.len();
                self.complain(row.number, format!("{count} cells instead of 4"));
            }
            for (cell, column) in row.cells.iter().zip(TRACE_COLUMNS) {
                if says_nothing(cell) {
                    self.complain(row.number, format!("the cell {column} says nothing"));
                }
            }
            for cell in row.cells.iter().skip(1) {
                self.references(row.number, cell);
            }
        }
    }

    /// A cell in which every code span is a reference.
    fn references(&mut self, line: usize, cell: &str) {
        for mention in mentions_of_cell(cell) {
            self.mention(line, &mention);
            if let Mention::Other(code) = mention {
                let complaint = format!("`{code}` is neither a path nor one of a path's names");
                self.complain(line, complaint);
            }
        }
    }

    fn reading_table(&mut self, head: &Row, rows: &[Row]) {
        let counted = head.cells.get(1) == Some(&"Lines");
        for row in rows {
            for text in &row.cells {
                let number = row.number;
                self.passage(&[Line { number, text }]);
            }
            if counted {
                self.line_count(row);
            }
        }
    }

    /// A row that begins with a file, of which it may list names, and the file's
    /// line count.
    fn line_count(&mut self, row: &Row) {
        self.findings.counts += 1;
        let [file, written, ..] = row.cells[..] else {
            return self.complain(row.number, "no line count".to_string());
        };
        let mut mentions = mentions_of_cell(file);
        mentions.retain(|mention| matches!(mention, Mention::Path(_)));
        let [Mention::Path(path)] = mentions[..] else {
            return self.complain(row.number, format!("{file} does not name one file"));
        };
        let lines = match (self.look_up)(path) {
            Some(Found::File(text)) => text.matches('\n').count(),
            Some(Found::Folder(_)) => {
                return self.complain(row.number, format!("`{path}` is no file"));
            }
            // A path at which nothing stands has its own complaint.
            None => return,
        };
        if written.replace(',', "") != lines.to_string() {
            let complaint = format!("`{path}` has {lines} lines, not {written}");
            self.complain(row.number, complaint);
        }
    }
}

/// Whether a cell has neither words nor a code span.
fn says_nothing(cell: &str) -> bool {
    !cell.contains(char::is_alphanumeric)
}
