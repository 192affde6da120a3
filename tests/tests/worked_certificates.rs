//! Certificates worked by hand from 01. The bytes and the checker's
//! answers are written out, and library and model must both give them; what is
//! found here is found by the model.

use leverpeach_tests::circuits::worked::{
    AND_TWICE, INPUT, P1, P1_CERTIFICATE, P7_CERTIFICATE, SELF_FED, SELF_FED_PIN,
};
use leverpeach_tests::circuits::{certificates, Draft};
use leverpeach_tests::compare;
use leverpeach_tests::model::finder::{find, Finding, Lent};
use leverpeach_tests::model::{Fault, Site};
use leverpeach_tests::random::Random;

/// Accepted with c 0, and with c 1.
const ACCEPTED_0: u64 = 4_294_967_296;
const ACCEPTED_1: u64 = 4_294_967_297;

/// Checks in work slices of these lengths, full of 170.
fn check_in(netlist: &[u8], certificate: &[u8], lengths: [usize; 2]) -> u64 {
    let [first, second] = lengths.map(|length| vec![170; length]);
    compare::check(&mut Random::new(1), netlist, certificate, &first, &second)
}

fn check(netlist: &[u8], certificate: &[u8]) -> u64 {
    check_in(netlist, certificate, [100, 100])
}

fn fault(node: u16, site: u8, u: u8) -> Fault {
    let site = Site::from_byte(site);
    Fault { node, site, u }
}

/// A certificate from what stands before the pairs and the steps of its
/// branches, all written out.
fn with_runs(subject: [u8; 9], runs: [&[[u8; 7]]; 2]) -> Vec<u8> {
    let lengths = runs.map(|run| 7 * run.len() as u8);
    let mut certificate = subject.to_vec();
    certificate.extend([25, 0, 0, 0, lengths[0], 0, 0, 0]);
    certificate.extend([25 + lengths[0], 0, 0, 0, lengths[1], 0, 0, 0]);
    certificate.extend(runs.concat().as_flattened());
    certificate
}

fn stepless(subject: [u8; 9]) -> Vec<u8> {
    with_runs(subject, [&[], &[]])
}

#[test]
fn p1_is_found_and_accepted_with_c_1() {
    let found = certificates::found(None, &P1, fault(3, 1, 1), 1, 0);
    assert_eq!(found.as_deref(), Some(&P1_CERTIFICATE[..]));
    assert_eq!(check(&P1, &P1_CERTIFICATE), ACCEPTED_1);
    assert_eq!(check_in(&P1, &P1_CERTIFICATE, [12, 12]), ACCEPTED_1);
    assert_eq!(check_in(&P1, &P1_CERTIFICATE, [11, 12]), 11);
    assert_eq!(check_in(&P1, &P1_CERTIFICATE, [12, 11]), 11);
}

#[test]
fn the_finder_counts_the_steps_of_p1_and_clears_its_work() {
    let (mut first, mut second) = ([7; 13], [7; 14]);
    let mut certificate = [9; 25 + 14 * 12 + 1];
    let lent = Lent {
        first: &mut first,
        second: &mut second,
        certificate: &mut certificate,
    };
    let (c, length, steps) = (1, 95, 10);
    let finding = find(&P1, fault(3, 1, 1), 1, 0, lent);
    assert_eq!(finding, Finding::Found { c, length, steps });
    assert_eq!(certificate[..95], P1_CERTIFICATE);
    assert!(certificate[95..].iter().all(|byte| *byte == 9));
    assert_eq!(first, [0, 0, 0, 0, 0, 0, 0, 0, 0, 0, 0, 0, 7]);
    assert_eq!(second, [0, 0, 0, 0, 0, 0, 0, 0, 0, 0, 0, 0, 7, 7]);
}

#[test]
fn p2_at_c_0_is_not_found() {
    assert_eq!(certificates::found(None, &P1, fault(3, 1, 1), 0, 0), None);
}

#[test]
fn p1_with_its_steps_spoiled() {
    // Only b and c matter at frame 1: in branch 0 the AND's untouched pin must
    // be known 0, in branch 1 its faulted pin known to be u.
    let check = |nodes: &[u8]| {
        let subject = [3, 0, 1, 1, 1, 0, 0, 0, 0];
        let runs = [0, 1].map(|value| {
            let steps = nodes.iter().map(|node| [*node, 0, 1, value, *node, 0, 1]);
            steps.collect::<Vec<[u8; 7]>>()
        });
        check(&P1, &with_runs(subject, [&runs[0], &runs[1]]))
    };
    assert_eq!(check(&[1, 2, 3, 4, 5]), ACCEPTED_1);
    assert_eq!(check(&[1, 2]), ACCEPTED_1);
    assert_eq!(check(&[2, 1]), ACCEPTED_1);
    assert_eq!(check(&[1]), 15);
    assert_eq!(check(&[2]), 15);
    assert_eq!(check(&[]), 15);
    assert_eq!(check(&[4, 3, 1, 2]), 14); // an output before what it shows
    assert_eq!(check(&[1, 1]), 14); // known already
}

#[test]
fn p3_to_p5_the_and_of_one_input_twice() {
    let found = |node, site, u| certificates::found(None, &AND_TWICE, fault(node, site, u), 0, 0);
    let certificate = found(1, 0, 1).expect("P3 is found");
    assert_eq!(certificate[..9], [1, 0, 0, 1, 0, 0, 0, 0, 0]);
    assert_eq!(check(&AND_TWICE, &certificate), ACCEPTED_0);
    assert_eq!(found(1, 0, 0), None);
    assert_eq!(found(0, 255, 1), None);
    // No steps are needed: branch 0 knows the untouched pin 1, branch 1 that
    // the faulted pin is u.
    let none = stepless([1, 0, 0, 1, 0, 0, 0, 0, 0]);
    assert_eq!(check(&AND_TWICE, &none), ACCEPTED_0);
    // P5: in branch 0 both pins are touched, and a touched pin blocks nothing.
    let p5 = stepless([0, 0, 255, 1, 0, 0, 0, 0, 0]);
    assert_eq!(check(&AND_TWICE, &p5), 15);
    let subject = [0, 0, 255, 1, 0, 0, 0, 0, 0];
    let p5 = with_runs(subject, [&[[1, 0, 0, 0, 1, 0, 0]], &[]]);
    assert_eq!(check(&AND_TWICE, &p5), 15);
}

#[test]
fn p6_and_p7_the_flip_flop_fed_by_itself() {
    let found = |b| certificates::found(None, &SELF_FED, fault(0, 255, 0), b, 0);
    assert_eq!(found(0), None);
    assert_eq!(found(1).as_deref(), Some(&P7_CERTIFICATE[..]));
    assert_eq!(check(&SELF_FED, &P7_CERTIFICATE), ACCEPTED_1);
    assert_eq!(check_in(&SELF_FED, &P7_CERTIFICATE, [2, 2]), ACCEPTED_1);
    assert_eq!(check_in(&SELF_FED, &P7_CERTIFICATE, [2, 1]), 11);
    // P6: at c 0 the flip-flop is touched in the last frame in branch 1.
    let p6 = stepless([0, 0, 255, 0, 0, 0, 0, 0, 0]);
    assert_eq!(check(&SELF_FED, &p6), 15);
    // Without its step, branch 0 does not close; a step after branch 1's
    // contradiction is not allowed.
    let no_step = stepless([0, 0, 255, 0, 1, 0, 0, 0, 0]);
    assert_eq!(check(&SELF_FED, &no_step), 15);
    let step = [0, 0, 1, 0, 0, 0, 1];
    let late = with_runs([0, 0, 255, 0, 1, 0, 0, 0, 0], [&[step], &[step]]);
    assert_eq!(check(&SELF_FED, &late), 14);
}

#[test]
fn a_stuck_pin_of_a_flip_flop_is_stuck_by_its_own_frame() {
    let found = |b| certificates::found(None, &SELF_FED, fault(0, 0, 0), b, 0);
    assert_eq!(found(1).as_deref(), Some(&SELF_FED_PIN[..]));
    assert_eq!(check(&SELF_FED, &SELF_FED_PIN), ACCEPTED_1);
    // Split at frame 1: the stuck pin gives 0 there, which branch 0 knows
    // already and which is opposite to branch 1.
    let check =
        |runs: [&[[u8; 7]]; 2]| check(&SELF_FED, &with_runs([0, 0, 0, 0, 1, 0, 0, 0, 1], runs));
    let step = [0, 0, 1, 0, 0, 0, 1];
    assert_eq!(check([&[], &[step]]), ACCEPTED_1);
    assert_eq!(check([&[step], &[step]]), 14);
    // Nothing is concluded of the source through the stuck pin.
    assert_eq!(check([&[], &[[0, 0, 0, 1, 0, 0, 1]]]), 14);
    assert_eq!(check([&[[0, 0, 0, 0, 0, 0, 1]], &[step]]), 14);
}

#[test]
fn pins_are_separate_even_with_one_source() {
    // The AND's pin 0 stuck at u in frame 0, split at the AND there. These
    // steps tell of the input in frame 0, which closes nothing in frame 1.
    let check = |u, runs: [&[[u8; 7]]; 2]| {
        let subject = [1, 0, 0, u, 1, 0, 1, 0, 0];
        check(&AND_TWICE, &with_runs(subject, runs))
    };
    let input = |value| [0, 0, 0, value, 1, 0, 0];
    // Stuck at 1: what the AND is, its other pin is.
    assert_eq!(check(1, [&[input(0)], &[input(1)]]), 15);
    assert_eq!(check(1, [&[input(1)], &[input(1)]]), 14);
    assert_eq!(check(1, [&[input(0)], &[input(0)]]), 14);
    // Stuck at 0: an AND of 0 tells nothing of the other pin, and an AND of 1
    // cannot be.
    assert_eq!(check(0, [&[input(0)], &[]]), 14);
    assert_eq!(check(0, [&[], &[input(1)]]), 15);
    let contradiction = [1, 0, 0, 0, 1, 0, 0];
    assert_eq!(check(0, [&[], &[input(1), contradiction]]), 15);
    assert_eq!(check(0, [&[], &[contradiction, input(1)]]), 14);
}

#[test]
fn no_steps_at_all() {
    let found = certificates::found(None, &INPUT, fault(0, 255, 0), 0, 0);
    let certificate = stepless([0, 0, 255, 0, 0, 0, 0, 0, 0]);
    assert_eq!(found, Some(certificate.clone()));
    assert_eq!(check_in(&INPUT, &certificate, [1, 1]), ACCEPTED_0);
}

#[test]
fn examples_of_the_refusals() {
    let certificate = stepless([0, 0, 255, 0, 0, 0, 0, 0, 0]);
    assert_eq!(check(&INPUT[..3], &certificate), 1);
    assert_eq!(check(&INPUT, &certificate[..24]), 8);
    assert_eq!(check(&INPUT, &stepless([0, 0, 0, 0, 0, 0, 0, 0, 0])), 9); // pin 0 of an input
    assert_eq!(check(&INPUT, &stepless([1, 0, 255, 0, 0, 0, 0, 0, 0])), 9); // no such node
    assert_eq!(check(&INPUT, &stepless([0, 0, 255, 2, 0, 0, 0, 0, 0])), 9); // u 2
    assert_eq!(check(&INPUT, &stepless([0, 0, 255, 0, 14, 1, 0, 0, 0])), 10);
    assert_eq!(
        check(&INPUT, &stepless([0, 0, 255, 0, 255, 0, 0, 0, 0])),
        10
    );
    let widest = stepless([0, 0, 255, 0, 14, 0, 0, 0, 0]);
    assert_eq!(check_in(&INPUT, &widest, [15, 15]), 4_294_967_310);
    assert_eq!(check_in(&INPUT, &certificate, [0, 1]), 11);
    assert_eq!(check_in(&INPUT, &certificate, [1, 0]), 11);
    assert_eq!(check(&INPUT, &stepless([0, 0, 255, 0, 0, 0, 1, 0, 0])), 13); // node N
    assert_eq!(check(&INPUT, &stepless([0, 0, 255, 0, 0, 0, 0, 0, 1])), 13); // frame W
    let subject = [0, 0, 255, 0, 0, 0, 0, 0, 0];
    let node_n = with_runs(subject, [&[[1, 0, 0, 0, 0, 0, 0]], &[]]);
    assert_eq!(check(&INPUT, &node_n), 14);
    // No steps, output touched: a wire, split elsewhere than at the fault.
    let wire = Draft::of(&[(0, &[]), (1, &[0]), (0, &[])]).to_bytes();
    assert_eq!(check(&wire, &stepless([0, 0, 255, 0, 0, 0, 2, 0, 0])), 15);
}

#[test]
fn a_bad_step_in_branch_1_comes_before_an_open_branch_0() {
    let wire = Draft::of(&[(0, &[]), (1, &[0])]).to_bytes();
    // Split at the input, which is stuck at 1: branch 0 is open, branch 1 shut.
    let subject = [0, 0, 255, 1, 0, 0, 0, 0, 0];
    assert_eq!(check(&wire, &stepless(subject)), 15);
    // The output is 1 in branch 1, not 0.
    let with_value = |value| with_runs(subject, [&[], &[[1, 0, 0, value, 1, 0, 0]]]);
    assert_eq!(check(&wire, &with_value(0)), 14);
    assert_eq!(check(&wire, &with_value(1)), 15);
}

#[test]
fn the_last_pin_may_be_known_already() {
    // p; g AND(p, p); h NOT(p); k NOR(g, h) is never 1; output of k.
    let nodes: [(u8, &[u16]); 5] = [(0, &[]), (5, &[0, 0]), (4, &[0]), (8, &[1, 2]), (1, &[3])];
    let netlist = Draft::of(&nodes).to_bytes();
    // k stuck at 0, split at k: branch 0 closes at once, branch 1 goes on.
    let subject = [3, 0, 255, 0, 0, 0, 3, 0, 0];
    let steps = [
        [1, 0, 0, 0, 3, 0, 0], // k is 1, so g is 0
        [2, 0, 0, 0, 3, 0, 0], // and h is 0
        [0, 0, 0, 1, 2, 0, 0], // so p is 1
        [0, 0, 0, 0, 1, 0, 0], // g is 0 and its other pin 1, so p is 0
    ];
    let check = |steps: &[[u8; 7]]| check(&netlist, &with_runs(subject, [&[], steps]));
    assert_eq!(check(&steps), ACCEPTED_0);
    assert_eq!(check(&steps[..3]), 15);
    // The same contradiction, seen at g itself.
    let at_g = [steps[0], steps[1], steps[2], [1, 0, 0, 1, 1, 0, 0]];
    assert_eq!(check(&at_g), ACCEPTED_0);
    // Before p is known nothing gives it by way of g, and nothing may follow a
    // contradiction.
    assert_eq!(check(&[steps[0], steps[3]]), 14);
    assert_eq!(
        check(&[steps[0], steps[1], steps[2], steps[3], at_g[3]]),
        14
    );
}
