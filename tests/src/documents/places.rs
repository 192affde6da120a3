//! Tables whose rows name files, folders or crates, and beside them names that
//! are defined there.

use super::checks::Check;
use super::definitions::names_in;
use super::markdown::Row;
use super::mentions::{mentions_of_cell, Mention};
use super::{Found, LookUp};

/// The columns in which a crate is named without the folder that crates are in.
const CRATE_COLUMNS: [&str; 2] = ["Crate", "Now"];

/// The column of what is no longer there.
const GONE: &str = "Before";

/// What a row has in its code spans.
#[derive(Default)]
struct Named<'a> {
    /// Paths of files and folders.
    places: Vec<String>,
    /// Names that one of these places has to define.
    names: Vec<&'a str>,
}

impl Check {
    pub(super) fn places_table(&mut self, head: &Row, rows: &[Row]) {
        for row in rows {
            let mut named = Named::default();
            for (column, cell) in head.cells.iter().zip(&row.cells) {
                if *column != GONE {
                    self.cell_of_places(row.number, column, cell, &mut named);
                }
            }
            self.names_at_places(row.number, &named);
        }
    }

    fn cell_of_places<'a>(
        &mut self,
        line: usize,
        column: &str,
        cell: &'a str,
        named: &mut Named<'a>,
    ) {
        for mention in mentions_of_cell(cell) {
            match mention {
                Mention::Path(path) => {
                    let place = place_of(path, &named.places, self.look_up);
                    self.mention(line, &Mention::Path(&place));
                    named.places.push(place);
                }
                Mention::Other(name) => {
                    let folder = format!("crates/{name}/");
                    if CRATE_COLUMNS.contains(&column) && (self.look_up)(&folder).is_some() {
                        named.places.push(folder);
                    } else {
                        named.names.push(name);
                    }
                }
                named_by_file => self.mention(line, &named_by_file),
            }
        }
    }

    fn names_at_places(&mut self, line: usize, named: &Named) {
        if named.names.is_empty() {
            return;
        }
        let defined: Vec<String> = named
            .places
            .iter()
            .flat_map(|place| names_at(place, self.look_up))
            .collect();
        for name in &named.names {
            self.findings.names += 1;
            if named.places.is_empty() {
                self.complain(line, format!("`{name}` stands beside no file"));
            } else if !defined.iter().any(|known| known == name) {
                let places = named.places.join(", ");
                self.complain(line, format!("`{name}` is not defined in: {places}"));
            }
        }
    }
}

/// Where a path leads: from the top, or from a crate that the row has named.
fn place_of(path: &str, places: &[String], look_up: LookUp) -> String {
    let crates = places.iter().filter(|place| place.ends_with('/'));
    let mut within = crates.map(|folder| format!("{folder}{path}"));
    match look_up(path) {
        Some(_) => None,
        None => within.find(|place| look_up(place).is_some()),
    }
    .unwrap_or_else(|| path.to_string())
}

/// The names that are defined at a place: in a file, or in all files below a
/// folder, whose own names count too, since modules have them.
fn names_at(place: &str, look_up: LookUp) -> Vec<String> {
    match look_up(place) {
        Some(Found::File(text)) => {
            let names = names_in(place, &text).unwrap_or_default();
            names.into_iter().map(str::to_string).collect()
        }
        Some(Found::Folder(files)) => files
            .iter()
            .flat_map(|file| {
                let mut names = names_at(file, look_up);
                names.extend(stem(file));
                names
            })
            .collect(),
        None => Vec::new(),
    }
}

/// The name of a file, without its folder and its end.
fn stem(path: &str) -> Option<String> {
    let name = path.rsplit('/').next()?;
    Some(name.split_once('.')?.0.to_string())
}
