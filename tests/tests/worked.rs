//! Cases worked by hand from 01. The expected values are written out,
//! and library and model must both give them.

use leverpeach_tests::circuits::worked::{AND_TWICE, INPUT, P1, SELF_FED};
use leverpeach_tests::circuits::Draft;
use leverpeach_tests::compare;
use leverpeach_tests::files::example;
use leverpeach_tests::native::FaultBytes;
use leverpeach_tests::random::Random;

fn simulate(netlist: &[u8], fault: FaultBytes, first: &[u8]) -> (u64, Vec<u8>, Vec<u8>) {
    let second = vec![170; first.len()];
    compare::simulate(&mut Random::new(1), netlist, fault, first, &second)
}

#[test]
fn examples_of_the_refusals_of_a_netlist() {
    assert_eq!(compare::read(&[1, 0, 0]), 1);
    assert_eq!(compare::read(&[]), 1);
    assert_eq!(compare::read(&[1, 16, 0, 0]), 2); // N 4,097
    assert_eq!(compare::read(&[0, 0, 0, 0]), 2); // N 0
    assert_eq!(compare::read(&[1, 0, 1, 64]), 2); // P 16,385
    assert_eq!(compare::read(&[1, 0, 0, 0, 0, 0, 0, 0, 0, 0]), 3); // 10 bytes
    assert_eq!(compare::read(&[1, 0, 0, 0, 11, 0, 0, 0, 0]), 4); // kind 11
    assert_eq!(compare::read(&[1, 0, 0, 0, 0, 1, 0, 0, 0]), 5); // offset 1
    let wide = Draft::of(&[(0, &[]), (5, &[0; 65])]);
    assert_eq!(compare::read(&wide.to_bytes()), 6);
    let not_of_itself = Draft::of(&[(0, &[]), (0, &[]), (4, &[2])]);
    assert_eq!(compare::read(&not_of_itself.to_bytes()), 7);
}

#[test]
fn examples_of_the_refusals_of_a_clock_step() {
    let unaltered = |number, first: &[u8]| (number, first.to_vec(), vec![170; first.len()]);
    let pin_of_input = FaultBytes::new(0, 0, 0);
    assert_eq!(simulate(&INPUT, pin_of_input, &[1]), unaltered(9, &[1]));
    assert_eq!(simulate(&INPUT, pin_of_input, &[2]), unaltered(9, &[2]));
    assert_eq!(
        simulate(&INPUT, FaultBytes::NONE, &[2]),
        unaltered(16, &[2])
    );
    // The place of a faulted input is read too.
    let stuck = FaultBytes::new(0, 255, 1);
    assert_eq!(simulate(&INPUT, stuck, &[2]), unaltered(16, &[2]));
    assert_eq!(simulate(&INPUT, stuck, &[0]), (0, vec![1], vec![0]));
    assert_eq!(simulate(&INPUT, stuck, &[]), unaltered(16, &[]));
    assert_eq!(simulate(&INPUT, stuck, &[0, 0]), unaltered(16, &[0, 0]));
}

#[test]
fn the_smallest_sound_netlist_is_an_input() {
    let answer = compare::read(&INPUT);
    assert_eq!(answer, 4_294_967_296 + 65_536);
}

#[test]
fn the_and_of_one_input_twice() {
    assert_eq!(compare::read(&AND_TWICE), 4_294_967_296 + 65_536 * 3 + 3);
    let seen_with = |fault, input| simulate(&AND_TWICE, fault, &[input, 77, 88]).1;
    assert_eq!(seen_with(FaultBytes::NONE, 0), [0, 0, 0]);
    assert_eq!(seen_with(FaultBytes::NONE, 1), [1, 1, 1]);
    // A pin stuck at 1 does not show, stuck at 0 it does.
    assert_eq!(seen_with(FaultBytes::new(1, 0, 1), 0), [0, 0, 0]);
    assert_eq!(seen_with(FaultBytes::new(1, 1, 1), 1), [1, 1, 1]);
    assert_eq!(seen_with(FaultBytes::new(1, 1, 0), 1), [1, 0, 0]);
    // A faulted output is seen at u, whatever its pin reads.
    assert_eq!(seen_with(FaultBytes::new(2, 255, 1), 0), [0, 0, 1]);
    assert_eq!(seen_with(FaultBytes::new(2, 0, 0), 1), [1, 1, 0]);
}

#[test]
fn p1_is_sound_and_is_the_example_file() {
    assert_eq!(compare::read(&P1), 4_294_967_296 + 65_536 * 6 + 6);
    assert_eq!(example("p1"), P1);
}

#[test]
fn a_clock_step_of_p1() {
    // a 1, b 1, c 0: the AND is 0, so the outputs are 0 and 0; b and c latch a.
    let first = [1, 1, 0, 200, 201, 202];
    let (seen, latched) = (vec![1, 1, 0, 0, 0, 0], vec![0, 1, 1, 0, 0, 0]);
    assert_eq!(simulate(&P1, FaultBytes::NONE, &first), (0, seen, latched));
    // The AND's pin from c reads 1: the AND and its output are 1.
    let fault = FaultBytes::new(3, 1, 1);
    let (seen, latched) = (vec![1, 1, 0, 1, 1, 0], vec![0, 1, 1, 0, 0, 0]);
    assert_eq!(simulate(&P1, fault, &first), (0, seen, latched));
    // a 0, b 0, c 1: the fault does not show, and c is seen at its output.
    let first = [0, 0, 1, 200, 201, 202];
    let (seen, latched) = (vec![0, 0, 1, 0, 0, 1], vec![0, 0, 0, 0, 0, 0]);
    assert_eq!(simulate(&P1, fault, &first), (0, seen, latched));
}

#[test]
fn p9_an_and_of_64_pins_is_sound_and_of_65_is_not() {
    let widest = Draft::of(&[(0, &[]), (5, &[0; 64])]).to_bytes();
    assert_eq!(compare::read(&widest), 4_294_967_296 + 65_536 * 2 + 64);
    let wider = Draft::of(&[(0, &[]), (5, &[0; 65])]).to_bytes();
    assert_eq!(compare::read(&wider), 6);
}

#[test]
fn truth_tables_of_the_gates() {
    // For pins 00, 01, 10, 11.
    let tables: [(u8, [u8; 4]); 6] = [
        (5, [0, 0, 0, 1]),
        (6, [1, 1, 1, 0]),
        (7, [0, 1, 1, 1]),
        (8, [1, 0, 0, 0]),
        (9, [0, 1, 1, 0]),
        (10, [1, 0, 0, 1]),
    ];
    for (kind, table) in tables {
        let netlist = Draft::of(&[(0, &[]), (0, &[]), (kind, &[0, 1])]).to_bytes();
        for (row, value) in table.into_iter().enumerate() {
            let (left, right) = (row as u8 >> 1, row as u8 & 1);
            let expected = (0, vec![left, right, value], vec![0, 0, 0]);
            let first = [left, right, 99];
            assert_eq!(simulate(&netlist, FaultBytes::NONE, &first), expected);
        }
    }
}

#[test]
fn truth_tables_of_the_kinds_with_one_pin() {
    // Output, buffer and NOT of the input; the flip-flop latches it.
    let draft = Draft::of(&[(0, &[]), (1, &[0]), (2, &[0]), (3, &[0]), (4, &[0])]);
    let netlist = draft.to_bytes();
    let low = (0, vec![0, 0, 1, 0, 1], vec![0, 0, 0, 0, 0]);
    assert_eq!(simulate(&netlist, FaultBytes::NONE, &[0, 9, 1, 9, 9]), low);
    let high = (0, vec![1, 1, 0, 1, 0], vec![0, 0, 1, 0, 0]);
    assert_eq!(simulate(&netlist, FaultBytes::NONE, &[1, 9, 0, 9, 9]), high);
}

#[test]
fn a_flip_flop_fed_by_itself_keeps_its_value_and_loses_it_to_a_fault() {
    let stepped = |fault, value| simulate(&SELF_FED, fault, &[value]);
    assert_eq!(stepped(FaultBytes::NONE, 0), (0, vec![0], vec![0]));
    assert_eq!(stepped(FaultBytes::NONE, 1), (0, vec![1], vec![1]));
    // Its node stuck: seen and so latched. Its pin stuck: latched only.
    let node_stuck = FaultBytes::new(0, 255, 0);
    assert_eq!(stepped(node_stuck, 1), (0, vec![0], vec![0]));
    let pin_stuck = FaultBytes::new(0, 0, 0);
    assert_eq!(stepped(pin_stuck, 1), (0, vec![1], vec![0]));
}
