//! What the documents name, held against the repository: that files exist and
//! define the names that are said to be theirs, that files have as many lines
//! as is written, and that quotes are right.

mod checks;
mod definitions;
mod markdown;
mod mentions;
mod places;
mod quotes;

pub use checks::{check_places, check_reading, check_trace, Findings};
pub use definitions::names_in;
pub use quotes::{check_quotes, Quotes};

use crate::files::{files_below, top_folder};
use std::fs;

/// What stands at a path.
pub enum Found {
    /// A file, with its text.
    File(String),
    /// A folder, with the paths of all files below it.
    Folder(Vec<String>),
}

/// Tells what stands at a path, if anything does.
pub type LookUp = fn(&str) -> Option<Found>;

/// What stands at a path from the repository's top.
pub fn in_repository(path: &str) -> Option<Found> {
    if path.starts_with('/') || path.split('/').any(|part| part == "..") {
        return None;
    }
    let place = top_folder().join(path);
    if place.is_dir() {
        let files = files_below(path.trim_end_matches('/'));
        return Some(Found::Folder(files));
    }
    let bytes = fs::read(place).ok()?;
    Some(Found::File(String::from_utf8_lossy(&bytes).into_owned()))
}
