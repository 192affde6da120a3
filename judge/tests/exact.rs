//! The judge against an exact search, on circuits so small that every state and
//! every input can be tried.

use leverpeach_judge::abc::{Abc, Verdict};
use leverpeach_judge::blif;
use leverpeach_judge::fault::{Fault, Site};
use leverpeach_judge::netlist::Netlist;
use leverpeach_tests::cases::run;
use leverpeach_tests::circuits::{calls, small, Draft};
use leverpeach_tests::claim::Claim;
use leverpeach_tests::model;
use leverpeach_tests::random::Random;
use std::path::Path;

/// How many circuits are tried, each with one fault and c from 0 to 3.
const CIRCUITS: u64 = 250;

/// How many more are tried with a fault of a wide gate.
const WIDE: u64 = 50;

/// The judge's own form of a fault.
fn judged(fault: model::Fault) -> Fault {
    Fault {
        node: fault.node.into(),
        site: match fault.site {
            model::Site::Whole => Site::Node,
            model::Site::Pin(pin) => Site::Pin(pin.into()),
        },
        stuck: fault.u == 1,
    }
}

/// Has so many claims judged, on circuits and faults drawn like this. Each verdict
/// must be met so often, for the comparison to tell something.
fn judge(
    circuits: u64,
    draw: fn(&mut Random) -> Draft,
    draw_fault: fn(&mut Random, &Draft) -> model::Fault,
    often: usize,
) {
    let directory = Path::new(env!("CARGO_TARGET_TMPDIR"));
    let abc = Abc::new(directory, 10).expect("claims can be written");
    let (mut proved, mut refuted) = (0, 0);
    run("claims judged", circuits, |_, random| {
        let draft = draw(random);
        let fault = draw_fault(random, &draft);
        let bytes = draft.to_bytes();
        let claim = Claim::new(&bytes, fault);
        let netlist = Netlist::read(&bytes).expect("the circuit is sound");
        for c in 0..4 {
            let expected = match claim.holds(c) {
                true => Verdict::Proved,
                false => Verdict::Refuted,
            };
            let circuit = blif::claim(&netlist, judged(fault), c.into());
            let verdict = abc.decide(&circuit);
            assert_eq!(verdict, Ok(expected), "{fault:?}, c {c}, in {draft:?}");
            match expected {
                Verdict::Proved => proved += 1,
                _ => refuted += 1,
            }
        }
    });
    println!("{proved} claims hold, {refuted} fail");
    assert!(proved >= often && refuted >= often);
}

// One test, since the claims are written to one file.
#[test]
fn the_exact_search_agrees() {
    judge(CIRCUITS, small::any, calls::fault, 150);
    judge(WIDE, small::of_wide_gate, calls::fault_of_widest, 50);
}
