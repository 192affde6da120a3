//! The names that a source file defines: where they stand as definitions, not
//! where they are used.

/// The names that a file with this text defines, none where names are not
/// looked up in files of its kind.
pub fn names_in<'a>(path: &str, text: &'a str) -> Option<Vec<&'a str>> {
    let (_, end) = path.rsplit_once('.')?;
    match end {
        "antt" => Some(names_in_proofs(text)),
        "rt" | "rs" => Some(names_in_code(text)),
        "c" | "h" => Some(text.lines().filter_map(name_in_c).collect()),
        _ => None,
    }
}

/// How far a line is indented.
fn indent(line: &str) -> usize {
    line.len() - line.trim_start().len()
}

/// Definitions and proofs: the name stands before a colon, or behind the word
/// that it is a record or a data type. A `where` on a line of its own begins
/// names that only the definition before it has.
fn names_in_proofs(text: &str) -> Vec<&str> {
    let mut names = Vec::new();
    let mut local_behind: Option<usize> = None;
    for line in text.lines().filter(|line| !line.trim().is_empty()) {
        if local_behind.is_some_and(|place| indent(line) > place) {
            continue;
        }
        local_behind = (line.trim() == "where").then_some(indent(line));
        names.extend(name_in_proof_line(line));
    }
    names
}

fn name_in_proof_line(line: &str) -> Option<&str> {
    let mut words = line.split_whitespace();
    let mut word = words.next()?;
    while ["pub", "abbrev", "unfoldable"].contains(&word) {
        word = words.next()?;
    }
    if ["record", "data"].contains(&word) {
        return words.next();
    }
    let colon = words.next() == Some(":");
    (colon && !word.starts_with(['(', '{', '-'])).then_some(word)
}

/// Rattle and Rust: items by their word, fields and variants by their place
/// between the braces of a struct or an enum.
fn names_in_code(text: &str) -> Vec<&str> {
    let mut names = Vec::new();
    let mut braces_at: Option<usize> = None;
    for line in text.lines().filter(|line| !line.trim().is_empty()) {
        if braces_at.is_some_and(|place| indent(line) <= place) {
            braces_at = None;
        }
        match item_in_line(line) {
            Some((word, name)) => {
                let opens = ["struct", "enum"].contains(&word) && line.ends_with('{');
                braces_at = opens.then_some(indent(line));
                names.push(name);
            }
            None if braces_at.is_some() => names.extend(member_in_line(line)),
            None => {}
        }
    }
    names
}

/// The characters of a name at the start of a text.
fn name_at_start(text: &str) -> Option<&str> {
    let within = |c: char| c.is_alphanumeric() || c == '_';
    let name = &text[..text.find(|c| !within(c)).unwrap_or(text.len())];
    (!name.is_empty()).then_some(name)
}

/// The word that says what is defined, and the name.
fn item_in_line(line: &str) -> Option<(&str, &str)> {
    const BEFORE: [&str; 4] = ["pub", "pub(crate)", "extern", "\"C\""];
    const ITEMS: [&str; 7] = ["fn", "struct", "enum", "trait", "const", "type", "mod"];
    let mut words = line.split_whitespace().skip_while(|w| BEFORE.contains(w));
    let word = words.next().filter(|word| ITEMS.contains(word))?;
    let mut next = words.next()?;
    if (word, next) == ("const", "fn") {
        next = words.next()?;
    }
    Some((word, name_at_start(next)?))
}

/// A field, whose name has a colon behind it, or a variant, which begins with a
/// capital letter.
fn member_in_line(line: &str) -> Option<&str> {
    let text = line.trim_start();
    let text = text.strip_prefix("pub(crate) ").unwrap_or(text);
    let text = text.strip_prefix("pub ").unwrap_or(text);
    let name = name_at_start(text)?;
    let field = text[name.len()..].starts_with(':');
    (field || name.starts_with(char::is_uppercase)).then_some(name)
}

/// C: a function or its prototype begins at the start of a line, with a type.
fn name_in_c(line: &str) -> Option<&str> {
    let (before, _) = line.split_once('(')?;
    let (kind, name) = before.rsplit_once([' ', '*'])?;
    let function = kind.starts_with(char::is_alphabetic) && name_at_start(name) == Some(name);
    function.then_some(name)
}
