//! The few forms of Markdown that the documents use: running text, tables and
//! fenced blocks.

/// A line of a document, and its number counted from 1.
#[derive(Clone, Copy)]
pub struct Line<'a> {
    pub number: usize,
    pub text: &'a str,
}

/// A row of a table: the number of its line, and its cells without the blanks
/// around them.
pub struct Row<'a> {
    pub number: usize,
    pub cells: Vec<&'a str>,
}

/// A fenced block.
pub struct Fence<'a> {
    /// The number of the line that opens it.
    pub number: usize,
    /// The line right before that one.
    pub before: &'a str,
    /// The lines between the fences, each with its line end.
    pub text: String,
}

/// A part of a document.
pub enum Block<'a> {
    /// Lines that belong together: a paragraph, an item of a list, a heading.
    Text(Vec<Line<'a>>),
    /// The head of a table, and the rows below its line of dashes.
    Table(Row<'a>, Vec<Row<'a>>),
    Fence(Fence<'a>),
}

/// The parts of a document, in order.
pub fn blocks(document: &str) -> Vec<Block<'_>> {
    let lines: Vec<Line> = (1..)
        .zip(document.lines())
        .map(|(number, text)| Line { number, text })
        .collect();
    let mut blocks = Vec::new();
    let mut at = 0;
    while at < lines.len() {
        let text = lines[at].text;
        if text.trim().is_empty() {
            at += 1;
        } else if is_fence(text) {
            let end = end_of(&lines, at, |line| !is_fence(line));
            let before = if at == 0 { "" } else { lines[at - 1].text };
            blocks.push(Block::Fence(fence(&lines[at..end], before)));
            at = end + 1;
        } else if is_row(text) {
            let end = end_of(&lines, at, is_row);
            blocks.push(table(&lines[at..end]));
            at = end;
        } else {
            let end = end_of(&lines, at, goes_on);
            blocks.push(Block::Text(lines[at..end].to_vec()));
            at = end;
        }
    }
    blocks
}

/// The place of the first line after this one for which it does not hold.
fn end_of(lines: &[Line], start: usize, holds: impl Fn(&str) -> bool) -> usize {
    let rest = &lines[start + 1..];
    let more = rest.iter().take_while(|line| holds(line.text)).count();
    start + 1 + more
}

fn is_fence(line: &str) -> bool {
    line.starts_with("```")
}

fn is_row(line: &str) -> bool {
    line.starts_with('|')
}

/// Whether a line of text belongs to the one before it.
fn goes_on(line: &str) -> bool {
    let start = line.trim_start();
    let digits = start.trim_start_matches(|c: char| c.is_ascii_digit());
    let numbered = digits.len() < start.len() && digits.starts_with(". ");
    let begins = numbered || start.starts_with("- ") || start.starts_with("* ");
    !(start.is_empty() || line.starts_with('#') || begins || is_fence(line) || is_row(line))
}

/// The block that these lines hold, the first of which opens it.
fn fence<'a>(lines: &[Line<'a>], before: &'a str) -> Fence<'a> {
    let number = lines[0].number;
    let text = lines[1..].iter().flat_map(|line| [line.text, "\n"]);
    Fence {
        number,
        before,
        text: text.collect(),
    }
}

fn table<'a>(lines: &[Line<'a>]) -> Block<'a> {
    let mut rows = lines.iter().map(|line| row(*line));
    let head = rows.next().expect("a table has a line");
    Block::Table(head, rows.skip_while(is_rule).collect())
}

/// Whether a row is the line of dashes below a table's head.
fn is_rule(row: &Row) -> bool {
    let dashes = |cell: &&str| !cell.is_empty() && cell.chars().all(|c| "-:".contains(c));
    row.cells.iter().all(dashes)
}

/// A row: cells stand between bars, but for a bar behind a backslash.
fn row(line: Line) -> Row {
    let mut cells = Vec::new();
    let mut start = 1;
    for (at, _) in line.text.match_indices('|').skip(1) {
        if !line.text[..at].ends_with('\\') {
            cells.push(line.text[start..at].trim());
            start = at + 1;
        }
    }
    let behind = line.text[start..].trim();
    if !behind.is_empty() {
        cells.push(behind);
    }
    Row {
        number: line.number,
        cells,
    }
}
