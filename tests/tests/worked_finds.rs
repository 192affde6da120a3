//! The finder's answers worked by hand from 01. They are written out, and
//! library and model must both give them.

use leverpeach_tests::circuits::calls::Request;
use leverpeach_tests::circuits::worked::{
    AND_TWICE, INPUT, P1, P1_CERTIFICATE, P7_CERTIFICATE, SELF_FED, SELF_FED_PIN,
};
use leverpeach_tests::circuits::Draft;
use leverpeach_tests::compare;
use leverpeach_tests::model::{Fault, Site};
use leverpeach_tests::random::Random;

/// Found with c 0 and with c 1, without the certificate's length.
const FOUND_0: u64 = 4_294_967_296;
const FOUND_1: u64 = 8_589_934_592;

const NONE: (u64, Vec<u8>) = (0, vec![]);

/// Finds in slices of these lengths, full of 170; the answer and the
/// certificate.
fn find_in(
    lengths: [usize; 3],
    netlist: &[u8],
    fault: [u16; 3],
    bounds: [u8; 2],
) -> (u64, Vec<u8>) {
    let [node, site, u] = fault;
    let request = Request {
        fault: Fault {
            node,
            site: Site::from_byte(site as u8),
            u: u as u8,
        },
        b: bounds[0],
        f: bounds[1],
    };
    let slices = lengths.map(|length| vec![170; length]);
    compare::find(&mut Random::new(2), netlist, request, &slices)
}

fn find(netlist: &[u8], fault: [u16; 3], bounds: [u8; 2]) -> (u64, Vec<u8>) {
    find_in([300, 300, 5_000], netlist, fault, bounds)
}

fn found(answer: u64, certificate: &[u8]) -> (u64, Vec<u8>) {
    (answer, certificate.to_vec())
}

#[test]
fn p1_is_found_with_c_1_in_95_bytes() {
    let expected = found(FOUND_1 + 95, &P1_CERTIFICATE);
    assert_eq!(find(&P1, [3, 1, 1], [1, 0]), expected);
    // Six nodes and two frames.
    let exact = [12, 12, 25 + 14 * 12];
    assert_eq!(find_in(exact, &P1, [3, 1, 1], [1, 0]), expected);
    // A wider bound finds the same, since c rises.
    assert_eq!(find(&P1, [3, 1, 1], [14, 0]), expected);
}

#[test]
fn p2_at_c_0_is_not_found() {
    assert_eq!(find(&P1, [3, 1, 1], [0, 0]), NONE);
}

#[test]
fn p3_to_p5_the_and_of_one_input_twice() {
    // In both branches the AND and the output follow.
    let p3 = [
        1, 0, 0, 1, 0, 0, 0, 0, 0, //
        25, 0, 0, 0, 14, 0, 0, 0, //
        39, 0, 0, 0, 14, 0, 0, 0, //
        1, 0, 0, 0, 1, 0, 0, //
        2, 0, 0, 0, 2, 0, 0, //
        1, 0, 0, 1, 1, 0, 0, //
        2, 0, 0, 1, 2, 0, 0, //
    ];
    let find = |fault| find(&AND_TWICE, fault, [0, 0]);
    assert_eq!(find([1, 0, 1]), found(FOUND_0 + 53, &p3));
    assert_eq!(find([1, 0, 0]), NONE);
    assert_eq!(find([0, 255, 1]), NONE);
}

#[test]
fn p6_and_p7_the_flip_flop_fed_by_itself() {
    assert_eq!(find(&SELF_FED, [0, 255, 0], [0, 0]), NONE);
    let p7 = found(FOUND_1 + 32, &P7_CERTIFICATE);
    assert_eq!(find(&SELF_FED, [0, 255, 0], [1, 0]), p7);
}

#[test]
fn p8_the_widest_window() {
    let stepless = [
        0, 0, 255, 0, 0, 0, 0, 0, 0, 25, 0, 0, 0, 0, 0, 0, 0, 25, 0, 0, 0, 0, 0, 0, 0,
    ];
    let expected = found(FOUND_0 + 25, &stepless);
    assert_eq!(find(&INPUT, [0, 255, 0], [14, 0]), expected);
    assert_eq!(find(&INPUT, [0, 255, 0], [14, 1]).0, 10);
}

#[test]
fn p9_a_pin_of_an_and_of_64_is_found_and_an_and_of_65_is_refused() {
    let netlist = |pins| Draft::of(&[(0, &[]), (5, &[0; 65][..pins]), (1, &[1])]).to_bytes();
    // As with two pins: the others read what the stuck one would.
    for last in [7, 8, 63] {
        let (answer, certificate) = find(&netlist(last + 1), [1, last as u16, 1], [0, 0]);
        assert_eq!(answer, FOUND_0 + 53);
        assert_eq!(certificate[..9], [1, 0, last as u8, 1, 0, 0, 0, 0, 0]);
    }
    assert_eq!(find(&netlist(65), [1, 63, 1], [0, 0]).0, 6);
}

#[test]
fn a_stuck_pin_of_a_flip_flop_is_stuck_by_its_own_frame() {
    let expected = found(FOUND_1 + 39, &SELF_FED_PIN);
    assert_eq!(find(&SELF_FED, [0, 0, 0], [1, 0]), expected);
    assert_eq!(find(&SELF_FED, [0, 0, 0], [0, 0]), NONE);
}

#[test]
fn an_input_alone_takes_no_step() {
    for u in [0, 1] {
        let (answer, certificate) = find_in([1, 1, 39], &INPUT, [0, 255, u], [0, 0]);
        assert_eq!(answer, FOUND_0 + 25);
        assert_eq!(certificate[..9], [0, 0, 255, u as u8, 0, 0, 0, 0, 0]);
    }
}

#[test]
fn a_branch_that_ends_with_a_contradiction() {
    // p; r; z NAND(p, r); g AND(p, r, z) is never 1; output of g.
    let nodes: [(u8, &[u16]); 5] = [(0, &[]), (0, &[]), (6, &[0, 1]), (5, &[0, 1, 2]), (1, &[3])];
    let netlist = Draft::of(&nodes).to_bytes();
    // With p, r or z 1 nothing tells that g is 0: the first split is g.
    let expected = [
        3, 0, 255, 0, 0, 0, 3, 0, 0, //
        25, 0, 0, 0, 7, 0, 0, 0, //
        32, 0, 0, 0, 35, 0, 0, 0, //
        4, 0, 0, 0, 4, 0, 0, // g is 0, so the output is
        0, 0, 0, 1, 3, 0, 0, // g is 1, so p is 1
        1, 0, 0, 1, 3, 0, 0, // and r
        2, 0, 0, 1, 3, 0, 0, // and z
        4, 0, 0, 1, 4, 0, 0, // and the output
        2, 0, 0, 0, 2, 0, 0, // p and r are 1, so z is 0
    ];
    let finding = find(&netlist, [3, 255, 0], [0, 0]);
    assert_eq!(finding, found(FOUND_0 + 67, &expected));
    assert_eq!(find(&netlist, [3, 255, 1], [0, 0]), NONE);
}

#[test]
fn frames_come_before_nodes() {
    // P1 with its input behind the flip-flops: b(a); c(a); a; AND(b, c); output.
    let nodes: [(u8, &[u16]); 5] = [(2, &[2]), (2, &[2]), (0, &[]), (5, &[0, 1]), (1, &[3])];
    let netlist = Draft::of(&nodes).to_bytes();
    // b at frame 1 would close too, by way of a at frame 0.
    let (answer, certificate) = find(&netlist, [3, 1, 1], [1, 0]);
    assert_eq!(answer, FOUND_1 + 25 + 8 * 7);
    assert_eq!(certificate[..9], [3, 0, 1, 1, 1, 0, 2, 0, 0]);
}

#[test]
fn examples_of_the_refusals() {
    let refused = |netlist: &[u8]| find(netlist, [0, 255, 0], [0, 0]).0;
    assert_eq!(refused(&INPUT[..3]), 1);
    let mut many = INPUT;
    many[..2].copy_from_slice(&4_097u16.to_le_bytes());
    assert_eq!(refused(&many), 2);
    assert_eq!(refused(&[1, 0, 0, 0, 0, 0, 0, 0, 0, 0]), 3);
    assert_eq!(refused(&[1, 0, 0, 0, 11, 0, 0, 0, 0]), 4);
    assert_eq!(refused(&[1, 0, 0, 0, 0, 1, 0, 0, 0]), 5);
    let not_of_itself = Draft::of(&[(0, &[]), (0, &[]), (4, &[2])]).to_bytes();
    assert_eq!(refused(&not_of_itself), 7);
    assert_eq!(find(&INPUT, [0, 0, 0], [0, 0]).0, 9); // pin 0 of an input
    assert_eq!(find(&INPUT, [1, 255, 0], [0, 0]).0, 9); // no such node
    assert_eq!(find(&INPUT, [0, 255, 2], [0, 0]).0, 9); // u 2
    assert_eq!(find(&INPUT, [0, 255, 0], [255, 255]).0, 10);
    let lent = |lengths| find_in(lengths, &INPUT, [0, 255, 0], [0, 0]).0;
    assert_eq!(lent([0, 1, 39]), 11);
    assert_eq!(lent([1, 0, 39]), 11);
    assert_eq!(lent([1, 1, 38]), 12);
    assert_eq!(lent([1, 1, 39]), FOUND_0 + 25);
}
