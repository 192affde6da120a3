//! What running text mentions in its code spans: files, and names that files
//! define.
//!
//! A code span with a file's path and a colon behind it is followed by names
//! that the file defines, in code spans of their own, up to the next path or
//! the end of the passage. A path without a colon is a file, or a folder where
//! it ends with a slash.

/// What a code span is.
#[derive(Debug, PartialEq)]
pub enum Mention<'a> {
    Path(&'a str),
    /// A name, and the file that is said to define it.
    Name {
        name: &'a str,
        file: &'a str,
    },
    /// Neither a path nor one of a path's names.
    Other(&'a str),
    /// A code span that does not end on its line.
    Open(&'a str),
}

/// The ends of file names that are paths even without a slash.
const FILE_ENDS: [&str; 9] = [
    ".md", ".antt", ".rt", ".rs", ".edit", ".txt", ".net", ".h", ".c",
];

fn is_path(code: &str) -> bool {
    let file = code.contains('/') || FILE_ENDS.iter().any(|end| code.ends_with(end));
    file && !code.contains(' ')
}

/// A passage that is read line by line: a paragraph, or a cell of a table.
#[derive(Default)]
pub struct Passage<'a> {
    /// The file of which names may follow.
    file: Option<&'a str>,
}

impl<'a> Passage<'a> {
    /// What the next line of the passage mentions.
    pub fn mentions(&mut self, line: &'a str) -> Vec<Mention<'a>> {
        let parts: Vec<&str> = line.split('`').collect();
        let mut mentions = Vec::new();
        for at in (1..parts.len()).step_by(2) {
            let code = parts[at];
            mentions.push(match parts.get(at + 1) {
                None => Mention::Open(code),
                Some(behind) => self.mention(code, behind),
            });
        }
        mentions
    }

    /// What a code span mentions, given the words behind it.
    fn mention(&mut self, code: &'a str, behind: &str) -> Mention<'a> {
        if is_path(code) {
            self.file = behind.starts_with(':').then_some(code);
            return Mention::Path(code);
        }
        match self.file {
            Some(file) => Mention::Name { name: code, file },
            None => Mention::Other(code),
        }
    }
}

/// What a cell of a table mentions.
pub fn mentions_of_cell(cell: &str) -> Vec<Mention<'_>> {
    Passage::default().mentions(cell)
}
