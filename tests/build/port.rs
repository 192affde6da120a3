//! Writes the finder and the crates beneath it as Rust: the sources without
//! their contracts, each crate a module. Of the finder and its search there are
//! several copies, each but the first with a few lines altered, so that tests
//! can give it another search, or have it believe what it ought to verify.

use std::collections::BTreeMap;
use std::fs;
use std::path::Path;

/// The crates beneath the finder's search. Nothing is altered in them.
const BENEATH: [&str; 12] = [
    "values",
    "gates",
    "netlist",
    "circuit",
    "simulator",
    "certificate",
    "knowledge",
    "trace",
    "checker",
    "witness",
    "splits",
    "sweeps",
];

/// The crates of which copies are altered, each after those it stands on; the
/// finder is the last.
const COPIED: [&str; 2] = ["search", "finder"];

/// A text that stands once in a file of a copied crate, and what stands there
/// instead.
struct Edit {
    file: &'static str,
    old: &'static str,
    new: &'static str,
}

/// The finder under this name, altered so.
struct Copy {
    name: &'static str,
    edits: &'static [&'static [Edit]],
}

/// In place of the search stands one that finds nothing.
const FINDS_NOTHING: Edit = Edit {
    file: "search/lib.rt",
    old: "mod quick;",
    new: "pub use crate::searches::nothing as quick;",
};

/// In place of the search stands one that lies.
const LIES: Edit = Edit {
    file: "search/lib.rt",
    old: "mod quick;",
    new: "pub use crate::searches::lies as quick;",
};

/// A run that is named is not run again.
const BELIEVES_RUNS: Edit = Edit {
    file: "search/trial.rt",
    old: "else {\n            return false;\n        };",
    new: "else {\n            return false;\n        };\n        if true {\n            return true;\n        }",
};

/// A set that is proposed is not swept.
const BELIEVES_PROPOSED: Edit = Edit {
    file: "search/notes.rt",
    old: "noted) {
            self.note_open(c);",
    new: "noted) {
            splits::note_known(known, c, noted);",
};

/// A set that is guessed is not swept.
const BELIEVES_GUESSED: Edit = Edit {
    file: "search/notes.rt",
    old: "keep_small(known);
        self.note_open(c);",
    new: "keep_small(known);
        splits::note_known(known, c, noted);",
};

/// A guess may hold notes.
const BELIEVES_NOTES: Edit = Edit {
    file: "search/guess.rt",
    old: "keep_small(values);",
    new: "",
};

/// A split for which no set is noted is not worked out.
const BELIEVES_CLOSINGS: Edit = Edit {
    file: "search/branch.rt",
    old: "if sweeps::both_close(",
    new: "if true || sweeps::both_close(",
};

/// A split that is worked out is counted.
const COUNTED: Edit = Edit {
    file: "search/branch.rt",
    old: "if sweeps::both_close(
            question.netlist,
            question.fault,
            question.f,
            split,
            known,
            spare,
        ) {",
    new: "if crate::counts::count(sweeps::both_close(
            question.netlist,
            question.fault,
            question.f,
            split,
            known,
            spare,
        )) {",
};

/// The copies that the tests call.
const COPIES: [Copy; 10] = [
    Copy {
        name: "as_it_is",
        edits: &[],
    },
    Copy {
        name: "finds_nothing",
        edits: &[&[FINDS_NOTHING]],
    },
    Copy {
        name: "lies",
        edits: &[&[LIES]],
    },
    Copy {
        name: "mistaken",
        edits: &[&MISTAKES],
    },
    Copy {
        name: "believes_runs",
        edits: &[&[LIES, BELIEVES_RUNS]],
    },
    Copy {
        name: "believes_sets",
        edits: &[&[LIES, BELIEVES_PROPOSED, BELIEVES_GUESSED]],
    },
    Copy {
        name: "believes_notes",
        edits: &[&[LIES, BELIEVES_NOTES]],
    },
    Copy {
        name: "believes_closings",
        edits: &[&[LIES, BELIEVES_CLOSINGS]],
    },
    Copy {
        name: "believes_mistakes",
        edits: &[
            &MISTAKES,
            &[
                BELIEVES_RUNS,
                BELIEVES_PROPOSED,
                BELIEVES_GUESSED,
                BELIEVES_CLOSINGS,
            ],
        ],
    },
    Copy {
        name: "counted",
        edits: &[&[COUNTED]],
    },
];

/// Mistakes in the search itself, by their numbers: each is made while a test
/// wants it.
const MISTAKES: [Edit; 7] = [
    // A gate concludes the wrong value.
    Edit {
        file: "search/quick/relation.rt",
        old: "let value = inverted_if(self.inverted, value);",
        new: "let value = inverted_if(self.inverted ^ crate::mistakes::made(0), value);",
    },
    // A faulted line is as it would be without the fault.
    Edit {
        file: "search/quick/relation.rt",
        old: "circuit: if fault.node == node {",
        new: "circuit: if fault.node == node && !crate::mistakes::made(1) {",
    },
    // Values that contradict the set stay in it.
    Edit {
        file: "search/quick/trail.rt",
        old: "for &place in self.places.get(from..self.end).unwrap_or(&[]) {",
        new: "let places = self.places.get(from..self.end).unwrap_or(&[]).iter();
        for &place in places.take_while(|_| !crate::mistakes::made(2)) {",
    },
    // The effect never dies.
    Edit {
        file: "search/quick/effect.rt",
        old: "effect.lives()",
        new: "crate::mistakes::made(3) || effect.lives()",
    },
    // A node is missing in the lists of who reads whom.
    Edit {
        file: "search/quick/fan.rt",
        old: "*reader = node;",
        new: "*reader = if crate::mistakes::made(4) { 0 } else { node };",
    },
    // A run is named though none shows the fault.
    Edit {
        file: "search/quick/lanes.rt",
        old: "(differ != 0).then(|| differ.trailing_zeros() as u8)
        })",
        new: "(differ != 0).then(|| differ.trailing_zeros() as u8)
        })
        .or_else(|| crate::mistakes::made(5).then_some(0))",
    },
    // A set is proposed where both branches seem to close.
    Edit {
        file: "search/quick/extend.rt",
        old: "if !self.either_open(",
        new: "if !crate::mistakes::made(6) && !self.either_open(",
    },
];

/// The sources of crates, by a crate's name and their names in its folder `src`.
type Sources = BTreeMap<String, String>;

/// Writes the crates in this folder, as Rust, into this file.
pub fn write(crates: &Path, target: &Path) {
    let mut text = String::new();
    for name in BENEATH {
        let sources = sources_of(crates, &[name]);
        text += &as_module(name, "crate::port", &sources, &BENEATH);
    }
    let copied = sources_of(crates, &COPIED);
    for copy in &COPIES {
        let mut altered = copied.clone();
        for edit in copy.edits.iter().copied().flatten() {
            alter(&mut altered, edit);
        }
        text += &as_copy(copy.name, &altered);
    }
    text += &format!("pub const MISTAKES: usize = {};\n", MISTAKES.len());
    fs::write(target, text).unwrap_or_else(|why| panic!("{}: {why}", target.display()));
}

fn sources_of(crates: &Path, names: &[&str]) -> Sources {
    let mut sources = Sources::new();
    for name in names {
        let folder = crates.join(name).join("src");
        println!("cargo:rerun-if-changed={}", folder.display());
        read_folder(&folder, &format!("{name}/"), &mut sources);
    }
    sources
}

/// Reads the sources in a folder and those beneath it, by names that begin so.
fn read_folder(folder: &Path, before: &str, sources: &mut Sources) {
    let entries = fs::read_dir(folder).unwrap_or_else(|why| panic!("{}: {why}", folder.display()));
    for entry in entries {
        let path = entry.expect("the entry can be read").path();
        let name = path.file_name().and_then(|name| name.to_str());
        let name = format!("{before}{}", name.expect("the name is UTF-8"));
        if path.is_dir() {
            read_folder(&path, &format!("{name}/"), sources);
        } else {
            let text = fs::read_to_string(&path);
            let text = text.unwrap_or_else(|why| panic!("{}: {why}", path.display()));
            sources.insert(name, text);
        }
    }
}

/// Alters a source. The text must stand there once: where the source has moved
/// on, a test must not go on with an edit that does nothing.
fn alter(sources: &mut Sources, edit: &Edit) {
    let Edit { file, old, new } = edit;
    let source = sources.get_mut(*file);
    let source = source.unwrap_or_else(|| panic!("there is no {file}"));
    let times = source.matches(old).count();
    assert_eq!(times, 1, "so often stands in {file}: {old}");
    *source = source.replace(old, new);
}

/// The copied crates as modules in one of this name, which has what the finder
/// has.
fn as_copy(name: &str, sources: &Sources) -> String {
    let place = format!("crate::port::{name}");
    let mut text = format!("pub mod {name} {{\nuse crate::port::*;\n");
    for (index, krate) in COPIED.iter().enumerate() {
        let beneath = [&BENEATH[..], &COPIED[..index]].concat();
        text += &as_module(krate, &place, sources, &beneath);
    }
    text + "pub use self::finder::*;\n}\n"
}

/// A crate as a module at a place where the crates beneath it are.
fn as_module(name: &str, place: &str, sources: &Sources, beneath: &[&str]) -> String {
    let krate = Crate {
        path: format!("{place}::{name}"),
        uses: format!("use {place}::{{{}}};\n", beneath.join(", ")),
    };
    let body = translate(&krate, sources, &format!("{name}/lib"));
    format!("pub mod {name} {{\n{body}}}\n")
}

/// Where a crate's module is, and how it finds the crates beneath it.
struct Crate {
    path: String,
    uses: String,
}

/// A source as the body of a module. The modules that it names lie in the folder
/// of its name, those of a crate in the crate's.
fn translate(krate: &Crate, sources: &Sources, file: &str) -> String {
    let source = sources.get(&format!("{file}.rt"));
    let source = source.unwrap_or_else(|| panic!("there is no {file}.rt"));
    let folder = file.strip_suffix("/lib").unwrap_or(file);
    let mut text = krate.uses.clone();
    for line in code_of(source, file) {
        match module_named(line) {
            Some(module) => {
                let body = translate(krate, sources, &format!("{folder}/{module}"));
                text += &format!("pub mod {module} {{\n{body}}}\n");
            }
            None => text += &as_rust(&krate.path, line),
        }
    }
    text
}

/// The words with which a clause of a function's contract begins.
const CLAUSES: [&str; 2] = ["requires ", "ensures "];

/// Those with which begins what else is for the prover alone: ghost members and
/// fields, imports, and hints.
const OTHER_PROMISES: [&str; 3] = ["ghost ", "#[tactic(", "#![tactic("];

/// The lines of a source but for those that are for the prover alone. What is for
/// it begins with a line of its own, and ends with the line on which all brackets
/// are closed that it has opened.
fn code_of<'a>(source: &'a str, file: &str) -> Vec<&'a str> {
    let mut code = Vec::new();
    let mut lines = source.lines();
    while let Some(line) = lines.next() {
        let is_clause = begins_with_one(line, &CLAUSES);
        if !is_clause && !begins_with_one(line, &OTHER_PROMISES) {
            code.push(line);
            continue;
        }
        let mut last = line;
        let mut open = brackets_left_open(line);
        while open > 0 {
            last = lines.next().unwrap_or_else(|| panic!("{file}: {line}"));
            open += brackets_left_open(last);
        }
        let ends = ["}", ";", ",", ")]"].iter().any(|end| last.ends_with(end));
        assert!(open == 0 && ends, "{file}: {line}");
        // a trait's method without a body ends behind its last clause
        if is_clause && last.ends_with(';') {
            code.push(";");
        }
    }
    code
}

fn begins_with_one(line: &str, words: &[&str]) -> bool {
    words.iter().any(|word| line.trim_start().starts_with(word))
}

/// How many more brackets a line opens than it closes.
fn brackets_left_open(line: &str) -> isize {
    let sides = line.chars().map(|letter| match letter {
        '(' | '[' | '{' => 1,
        ')' | ']' | '}' => -1,
        _ => 0,
    });
    sides.sum()
}

/// The module that a line names, if it does.
fn module_named(line: &str) -> Option<&str> {
    line.strip_prefix("mod ")?.strip_suffix(';')
}

/// A line as Rust: the crate is a module, and a value may be dropped without a
/// derive that says so.
fn as_rust(path: &str, line: &str) -> String {
    match (line.strip_prefix("use crate::"), traits_derived(line)) {
        (Some(item), _) => format!("use {path}::{item}\n"),
        (_, Some(traits)) => format!("#[derive({})]\n", without_drop(traits)),
        _ => format!("{line}\n"),
    }
}

/// The traits that a line derives, if it does.
fn traits_derived(line: &str) -> Option<&str> {
    line.trim().strip_prefix("#[derive(")?.strip_suffix(")]")
}

fn without_drop(traits: &str) -> String {
    let traits = traits.split(", ").filter(|name| *name != "Drop");
    traits.collect::<Vec<&str>>().join(", ")
}
