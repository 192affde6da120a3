//! The judge on reports that are wrong, printed by a script in the place of the
//! report program.

use leverpeach_judge::abc::{Abc, Verdict};
use leverpeach_judge::report::Program;
use leverpeach_judge::review::{review, Case, Review};
use std::fs::{self, Permissions};
use std::os::unix::fs::PermissionsExt;
use std::path::Path;

/// An AND of one input twice, which has 12 faults.
static AND_TWICE: Case = Case {
    circuit: "and2",
    b: 0,
    f: 0,
};

/// Judges this text as the report on the AND.
fn review_of(text: &str) -> Result<Review, String> {
    let directory = Path::new(env!("CARGO_TARGET_TMPDIR"));
    let repository = directory.join("wrong");
    let [examples, programs] = ["examples", "target/bin"].map(|name| repository.join(name));
    for directory in [&examples, &programs] {
        fs::create_dir_all(directory).expect("a directory can be made");
    }
    let example = Path::new(env!("CARGO_MANIFEST_DIR")).join("../examples/and2.net");
    fs::copy(example, examples.join("and2.net")).expect("the example is there");
    let script = programs.join("report");
    let lines = format!("#!/bin/sh\ncat >/dev/null\nprintf '{text}'\n");
    fs::write(&script, lines).expect("a script can be written");
    fs::set_permissions(&script, Permissions::from_mode(0o755)).expect("it can be run");
    let abc = Abc::new(directory, 10).expect("claims can be written");
    review(&AND_TWICE, &Program::of(&repository), &abc)
}

// One test, since the script is one file.
#[test]
fn wrong_reports_are_noticed() {
    let right = review_of("1 0 1 0 0 0\\n1 1 1 0 0 0\\n2 of 12\\n").expect("it can be judged");
    assert!(right.failures.is_empty());
    // The input stuck at 1 is seen.
    let wrong = review_of("0 255 1 0 0 0\\n1 0 1 0 0 0\\n2 of 12\\n").expect("it can be judged");
    assert_eq!(wrong.marks.count(Verdict::Refuted), 1);
    assert!(!wrong.failures.is_empty());
    let unreadable = [
        "1 0 1 0 0 0\\n1 of 13\\n",
        "1 0 1 0 0 0\\n2 of 12\\n",
        "1 1 1 0 0 0\\n1 0 1 0 0 0\\n2 of 12\\n",
        "1 2 1 0 0 0\\n1 of 12\\n",
        "1 0 1 1 0 0\\n1 of 12\\n",
        "1 0 2 0 0 0\\n1 of 12\\n",
        "refused 3\\n",
        "",
    ];
    for text in unreadable {
        assert!(review_of(text).is_err(), "{text}");
    }
}
