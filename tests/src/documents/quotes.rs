//! Fenced blocks that quote a file, or what a command prints.
//!
//! The line before such a block says which: `<!-- file: PATH -->` with a path
//! from the repository's top, or `<!-- prints: COMMAND -->` with a command that
//! is run there.

use super::markdown::{blocks, Block, Fence};
use super::{Found, LookUp};
use crate::files::top_folder;
use std::process::Command;

/// What a look at a document found.
#[derive(Default)]
pub struct Quotes {
    /// What is wrong, each with the number of its line.
    pub complaints: Vec<String>,
    /// How many blocks quote a file.
    pub files: usize,
    /// How many blocks quote what a command prints.
    pub outputs: usize,
}

/// What a block quotes.
enum Source<'a> {
    File(&'a str),
    Output(&'a str),
}

fn source(line: &str) -> Option<Source<'_>> {
    let mark = line.strip_prefix("<!--")?.strip_suffix("-->")?;
    let (kind, named) = mark.split_once(':')?;
    match kind.trim() {
        "file" => Some(Source::File(named.trim())),
        "prints" => Some(Source::Output(named.trim())),
        _ => None,
    }
}

/// Looks at all quotes of a document.
pub fn check_quotes(document: &str, look_up: LookUp) -> Quotes {
    let mut quotes = Quotes::default();
    let mut marks = Vec::new();
    for block in blocks(document) {
        match block {
            Block::Text(lines) => {
                let marked = lines.iter().filter(|line| source(line.text).is_some());
                marks.extend(marked.map(|line| line.number));
            }
            Block::Fence(fence) => {
                marks.retain(|mark| mark + 1 != fence.number);
                quotes.check(&fence, look_up);
            }
            Block::Table(..) => {}
        }
    }
    for mark in marks {
        quotes.complain(mark, "no block follows this mark");
    }
    quotes
}

impl Quotes {
    fn check(&mut self, fence: &Fence, look_up: LookUp) {
        let quoted = match source(fence.before) {
            None => return,
            Some(Source::File(path)) => {
                self.files += 1;
                match look_up(path) {
                    Some(Found::File(text)) => Ok(text),
                    _ => Err(format!("there is no file {path}")),
                }
            }
            Some(Source::Output(command)) => {
                self.outputs += 1;
                output(command)
            }
        };
        let complaint = quoted.map_or_else(Some, |text| difference(&fence.text, &text));
        if let Some(complaint) = complaint {
            self.complain(fence.number, &complaint);
        }
    }

    fn complain(&mut self, line: usize, complaint: &str) {
        self.complaints.push(format!("line {line}: {complaint}"));
    }
}

/// What a command prints, or why that is nothing.
fn output(command: &str) -> Result<String, String> {
    let mut shell = Command::new("sh");
    shell.args(["-c", command]).current_dir(top_folder());
    // A make that knows that it runs below another one says so.
    shell.env_remove("MAKELEVEL").env_remove("MAKEFLAGS");
    let ran = shell.output().expect("there is a shell");
    if ran.stdout.is_empty() {
        let why = String::from_utf8_lossy(&ran.stderr);
        return Err(format!("{command} prints nothing: {}", why.trim_end()));
    }
    Ok(String::from_utf8_lossy(&ran.stdout).into_owned())
}

/// Where a block first differs from what it quotes.
fn difference(block: &str, quoted: &str) -> Option<String> {
    if block == quoted {
        return None;
    }
    let mut pairs = (1..).zip(block.lines().zip(quoted.lines()));
    let first = pairs.find(|(_, (written, right))| written != right);
    Some(match first {
        Some((at, (written, right))) => {
            format!("line {at} of the block is {written:?}, not {right:?}")
        }
        None => {
            let (written, right) = (block.lines().count(), quoted.lines().count());
            format!("the block has {written} lines, what it quotes {right}")
        }
    })
}
