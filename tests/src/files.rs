//! The repository's files.

use std::fs;
use std::path::{Path, PathBuf};

/// The repository's top folder.
pub fn top_folder() -> PathBuf {
    Path::new(env!("CARGO_MANIFEST_DIR")).join("..")
}

/// The text of a file, by its path from the top folder.
pub fn text_of(path: &str) -> String {
    fs::read_to_string(top_folder().join(path)).unwrap_or_else(|why| panic!("{path}: {why}"))
}

/// The folder in which the toolchain keeps what it makes of a crate. It is no
/// part of the repository.
const MADE: &str = "out";

/// The paths of all files below a folder, all from the top folder, in order.
pub fn files_below(folder: &str) -> Vec<String> {
    let entries = fs::read_dir(top_folder().join(folder));
    let entries = entries.unwrap_or_else(|why| panic!("{folder}: {why}"));
    let mut paths: Vec<String> = entries
        .map(|entry| entry.expect("the entry can be read"))
        .filter(|entry| entry.file_name() != MADE)
        .flat_map(|entry| {
            let path = format!("{folder}/{}", entry.file_name().display());
            if entry.path().is_dir() {
                files_below(&path)
            } else {
                vec![path]
            }
        })
        .collect();
    paths.sort();
    paths
}

/// The netlist of an example, by its name without the end `.net`.
pub fn example(name: &str) -> Vec<u8> {
    let path = top_folder().join("examples").join(format!("{name}.net"));
    fs::read(&path).unwrap_or_else(|why| panic!("{}: {why}", path.display()))
}

/// The names of all examples, in order. There are ten of them at least.
pub fn example_names() -> Vec<String> {
    let entries = fs::read_dir(top_folder().join("examples")).expect("the examples are there");
    let names = entries.map(|entry| entry.expect("the entry can be read").file_name());
    let mut names: Vec<String> = names
        .filter_map(|name| Some(name.to_str()?.strip_suffix(".net")?.to_string()))
        .collect();
    names.sort();
    assert!(names.len() >= 10, "only {} examples", names.len());
    names
}
