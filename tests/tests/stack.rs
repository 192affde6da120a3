//! The finder's stack: each call gets by in a thread with 256 KiB.
//!
//! A call that needs more takes the whole process with it, so no test of this
//! file is then said to have failed: the run ends with "has overflowed its
//! stack" and the signal SIGABRT, or without a word with SIGSEGV, and cargo says
//! that the test did not exit normally.

use leverpeach_tests::circuits::calls::{self, Request};
use leverpeach_tests::circuits::{mix, structured, worked, Draft};
use leverpeach_tests::files::{example, text_of};
use leverpeach_tests::model::finder::Lent;
use leverpeach_tests::model::netlist::{Netlist, MOST_PINS_IN_ALL};
use leverpeach_tests::model::report::faults;
use leverpeach_tests::model::{kind, Fault, Site};
use leverpeach_tests::native;
use leverpeach_tests::random::Random;
use std::thread;

/// Bytes of stack that a caller has to spare, for the thread itself too.
const STACK: usize = 256 * 1024;

/// The most nodes of a netlist.
const MOST_NODES: u16 = 4_096;

/// The finder's answer for each of these faults, all asked in one thread with
/// little stack. What is lent is not on that stack.
fn find_all(netlist: &[u8], faults: &[Fault], b: u8, f: u8) -> Vec<u64> {
    let fault = faults[0];
    let lengths = Request { fault, b, f }.slice_lengths(calls::node_count(netlist));
    let [mut first, mut second, mut certificate] = lengths.map(|length| vec![170; length]);
    let find = |fault: &Fault| {
        let lent = Lent {
            first: &mut first,
            second: &mut second,
            certificate: &mut certificate,
        };
        native::find(netlist, *fault, b, f, lent)
    };
    thread::scope(|scope| {
        let thread = thread::Builder::new()
            .name("a call of the finder".to_string())
            .stack_size(STACK)
            .spawn_scoped(scope, || faults.iter().map(find).collect())
            .expect("the thread can be started");
        thread.join().expect("the calls come back")
    })
}

/// Asks for one fault of so many. Gives back how many are marked with c 0, how
/// many with a greater c, and how many not at all.
fn count_answers(netlist: &[u8], b: u8, f: u8, one_of: usize) -> [usize; 3] {
    let circuit = Netlist::sound(netlist).expect("the netlist is sound");
    let asked: Vec<Fault> = faults(&circuit).step_by(one_of).collect();
    let answers = find_all(netlist, &asked, b, f);
    let count = |wanted: fn(u64) -> bool| answers.iter().filter(|answer| wanted(**answer)).count();
    assert_eq!(count(|answer| (1..=16).contains(&answer)), 0, "refused");
    [
        count(|answer| answer >> 32 == 1),
        count(|answer| answer >> 32 > 1),
        count(|answer| answer == 0),
    ]
}

#[test]
fn callers_are_told_of_this_stack() {
    let size = format!("{} KiB", STACK / 1024);
    for (path, said) in [
        ("README.md", "| stack of a call of the finder | at most "),
        ("include/leverpeach.h", "leverpeach_find takes at most "),
        ("docs/PERFORMANCE.md", "A thread with "),
    ] {
        // The header breaks its lines where they are full.
        let text = text_of(path);
        let words: Vec<&str> = text.split_whitespace().collect();
        let right = words.join(" ").contains(&format!("{said}{size}"));
        assert!(right, "{path} does not say: {said}{size}");
    }
}

#[test]
fn small_circuits() {
    assert_eq!(count_answers(&worked::AND_TWICE, 0, 0, 1), [2, 0, 10]);
    assert_eq!(count_answers(&worked::P1, 14, 0, 1), [0, 3, 21]);
    assert_eq!(count_answers(&worked::SELF_FED, 7, 7, 1), [0, 4, 0]);
    assert_eq!(count_answers(&example("s27"), 7, 7, 1), [0, 0, 80]);
}

#[test]
fn planned_circuits() {
    // Few inputs show a fault of the last two plans, so that the search has to
    // go through the splits.
    for nodes in [5, 20, 100] {
        let all = structured::all(nodes).into_iter();
        for draft in all.chain(structured::with_outputs(nodes)) {
            for (b, f) in [(0, 0), (2, 1), (7, 7)] {
                count_answers(&draft.to_bytes(), b, f, 3);
            }
        }
    }
}

/// Counts over several reports: each sort of answer comes up.
fn assert_all_sorts(reports: impl Iterator<Item = [usize; 3]>) {
    let sum = reports.reduce(|sum, counts| [0, 1, 2].map(|sort| sum[sort] + counts[sort]));
    let counts = sum.expect("there is a report");
    println!("marked with c 0, with a greater c, not at all: {counts:?}");
    assert!(counts.iter().all(|count| *count > 0));
}

#[test]
fn middling_circuits() {
    let names = ["mix100", "random100", "mix290", "random290"].into_iter();
    let bounds = [(0, 0), (2, 1), (0, 14), (14, 0)];
    assert_all_sorts(names.flat_map(|name| {
        let netlist = example(name);
        bounds.map(|(b, f)| count_answers(&netlist, b, f, 7))
    }));
}

#[test]
fn large_circuits() {
    let netlist = mix::usual(MOST_NODES.into()).to_bytes();
    let bounds = [(1, 0, 23), (2, 1, 53), (7, 7, 101)].into_iter();
    assert_all_sorts(bounds.map(|(b, f, one_of)| count_answers(&netlist, b, f, one_of)));
}

#[test]
fn faults_that_runs_show() {
    // The last node is an output, whose faults are seen without any way there.
    for nodes in [100, 1_000, MOST_NODES] {
        let netlist = mix::usual(nodes.into()).to_bytes();
        let (node, site) = (nodes - 1, Site::Whole);
        let both = [0, 1].map(|u| Fault { node, site, u });
        for (b, f) in [(0, 0), (7, 7), (14, 0), (0, 14)] {
            assert_eq!(find_all(&netlist, &both, b, f), [0, 0]);
        }
    }
}

/// A flip-flop fed by itself, some NOTs behind it, and an output that shows the
/// last of them only while 21 inputs are 1 and 14 others are 0; the other nodes
/// are outputs of the inputs. No run at random shows a fault of a NOT, and yet
/// none of them is redundant.
fn lock(nodes: u16) -> Draft {
    let inputs: Vec<u16> = (0..35).collect();
    let mut draft = Draft::inputs(inputs.len());
    draft.push(kind::FLIP_FLOP, &[35]);
    for node in 36..60 {
        draft.push(kind::NOT, &[node - 1]);
    }
    let gates = [kind::AND, kind::OR, kind::AND, kind::OR, kind::AND];
    for (kind, keys) in gates.into_iter().zip(inputs.chunks(7)) {
        let last = draft.nodes.len() as u16 - 1;
        draft.push(kind, &[keys, &[last]].concat());
    }
    draft.push(kind::OUTPUT, &[64]);
    for node in 66..nodes {
        draft.push(kind::OUTPUT, &[node % 35]);
    }
    draft
}

#[test]
fn faults_that_no_run_shows() {
    let (node, site, u) = (40, Site::Pin(0), 1);
    for (nodes, b, f) in [
        (100, 7, 7),
        (1_000, 14, 0),
        (MOST_NODES, 1, 0),
        (MOST_NODES, 7, 7),
        (MOST_NODES, 1, 13),
    ] {
        let netlist = lock(nodes).to_bytes();
        assert_eq!(find_all(&netlist, &[Fault { node, site, u }], b, f), [0]);
    }
}

/// As many nodes and pins as there may be: inputs, gates of 64 pins that read any
/// smaller nodes, and outputs of the last 64 gates.
fn widest_gates(random: &mut Random) -> Draft {
    let outputs = kind::MOST_PINS;
    let gates = MOST_PINS_IN_ALL / kind::MOST_PINS - 1;
    let mut draft = Draft::inputs(usize::from(MOST_NODES) - gates - outputs);
    for kind in (kind::AND..=kind::NOR).cycle().take(gates) {
        let node = draft.nodes.len();
        let sources = [0; kind::MOST_PINS].map(|_| random.below(node) as u16);
        draft.push(kind, &sources);
    }
    let last = draft.nodes.len() - outputs;
    for gate in last..last + outputs {
        draft.push(kind::OUTPUT, &[gate as u16]);
    }
    draft
}

#[test]
fn the_widest_gates() {
    let draft = widest_gates(&mut Random::new(1));
    assert_eq!(draft.pin_count(), MOST_PINS_IN_ALL);
    let netlist = draft.to_bytes();
    for (b, f) in [(0, 0), (2, 1), (7, 7)] {
        // Without flip-flops no fault is marked with a greater c than 0.
        let [marked, 0, unmarked] = count_answers(&netlist, b, f, 2_999) else {
            panic!("marked with c above 0");
        };
        assert!(marked >= 3 && unmarked >= 3, "{marked}, {unmarked}");
    }
}

#[test]
fn the_longest_certificates() {
    let netlist = structured::settled_chain(MOST_NODES).to_bytes();
    let (node, site, u) = (1, Site::Pin(0), 1);
    for (b, f) in [(0, 0), (14, 0), (7, 7), (0, 14)] {
        let answers = find_all(&netlist, &[Fault { node, site, u }], b, f);
        assert_eq!(answers[0] >> 32, 1);
    }
}
