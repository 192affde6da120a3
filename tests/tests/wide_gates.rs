//! Gates of up to 64 pins, request 1: cases worked by hand, their bytes written
//! out. Library and model must both give what is expected.

use leverpeach_tests::circuits::calls::{self, Request};
use leverpeach_tests::circuits::certificates::{self, Argument};
use leverpeach_tests::circuits::{structured, Draft};
use leverpeach_tests::compare;
use leverpeach_tests::model::certificate::Subject;
use leverpeach_tests::model::netlist::Netlist;
use leverpeach_tests::model::report::faults;
use leverpeach_tests::model::window::{Line, Step};
use leverpeach_tests::model::{self, Fault, Site};
use leverpeach_tests::native::{found_number, sound_number, FaultBytes};
use leverpeach_tests::program::{input, printed};
use leverpeach_tests::random::Random;

/// An AND of 64 pins, all on one input, without the pins.
const AND_OF_64: [u8; 14] = [
    0x02, 0x00, 0x40, 0x00, // two nodes, 64 pins
    0x00, 0x00, 0x00, 0x00, 0x00, // input
    0x05, 0x00, 0x00, 0x40, 0x00, // AND, pins 0 to 63
];

/// The same of 65 pins.
const AND_OF_65: [u8; 14] = [
    0x02, 0x00, 0x41, 0x00, // two nodes, 65 pins
    0x00, 0x00, 0x00, 0x00, 0x00, // input
    0x05, 0x00, 0x00, 0x41, 0x00, // AND, pins 0 to 64
];

/// The AND of 64 pins and an output of it, without the pins.
const AND_AND_OUTPUT: [u8; 19] = [
    0x03, 0x00, 0x41, 0x00, // three nodes, 65 pins
    0x00, 0x00, 0x00, 0x00, 0x00, // input
    0x05, 0x00, 0x00, 0x40, 0x00, // AND, pins 0 to 63
    0x01, 0x40, 0x00, 0x01, 0x00, // output, pin 64
];

/// Node 1, pin 63, u 1, c 0, F 0, split node 0 frame 0: in both branches the AND
/// and the output follow.
const PIN_63: [u8; 53] = [
    0x01, 0x00, 0x3F, 0x01, 0x00, 0x00, 0x00, 0x00, 0x00, //
    0x19, 0x00, 0x00, 0x00, 0x0E, 0x00, 0x00, 0x00, //
    0x27, 0x00, 0x00, 0x00, 0x0E, 0x00, 0x00, 0x00, //
    0x01, 0x00, 0x00, 0x00, 0x01, 0x00, 0x00, //
    0x02, 0x00, 0x00, 0x00, 0x02, 0x00, 0x00, //
    0x01, 0x00, 0x00, 0x01, 0x01, 0x00, 0x00, //
    0x02, 0x00, 0x00, 0x01, 0x02, 0x00, 0x00, //
];

/// A head, pins on node 0, and what comes behind them.
fn on_node_0(head: &[u8], pins: usize, behind: &[u8]) -> Vec<u8> {
    [head, &vec![0x00; 2 * pins], behind].concat()
}

fn and_and_output() -> Vec<u8> {
    on_node_0(&AND_AND_OUTPUT, 64, &[0x01, 0x00])
}

/// An input, and a node of this kind with this pin count; all pins are on the
/// input.
fn node_of(kind: u8, [low, high]: [u8; 2]) -> Vec<u8> {
    let mut head = AND_OF_64;
    [head[2], head[3]] = [low, high];
    [head[9], head[12], head[13]] = [kind, low, high];
    let pins = usize::from(low) + 256 * usize::from(high);
    on_node_0(&head, pins, &[])
}

/// The finder's answer and certificate for a fault of a node, in slices that are
/// just long enough; B and F are 0.
fn find(netlist: &[u8], node: u16, site: u8, u: u8) -> (u64, Vec<u8>) {
    let site = Site::from_byte(site);
    let fault = Fault { node, site, u };
    let request = Request { fault, b: 0, f: 0 };
    let lengths = request.slice_lengths(calls::node_count(netlist));
    let slices = lengths.map(|length| vec![170; length]);
    compare::find(&mut Random::new(1), netlist, request, &slices)
}

/// The checker's answer, in work slices that are just long enough.
fn check(netlist: &[u8], certificate: &[u8]) -> u64 {
    let work = vec![170; calls::work_needed(netlist, certificate)];
    compare::check(&mut Random::new(2), netlist, certificate, &work, &work)
}

/// The simulator's answer, and what its slices then hold. At first all values
/// are 1.
fn simulate(netlist: &[u8], fault: FaultBytes) -> (u64, Vec<u8>, Vec<u8>) {
    let (first, second) = slices_of_simulator(netlist);
    compare::simulate(&mut Random::new(3), netlist, fault, &first, &second)
}

fn slices_of_simulator(netlist: &[u8]) -> (Vec<u8>, Vec<u8>) {
    let nodes = calls::node_count(netlist);
    (vec![1; nodes], vec![170; nodes])
}

/// Every part refuses the netlist with this number. What is lent is as it was:
/// that is looked at wherever library and model are compared.
fn assert_refused(netlist: &[u8], number: u64) {
    assert_eq!(compare::read(netlist), number);
    let (first, second) = slices_of_simulator(netlist);
    let stepped = simulate(netlist, FaultBytes::new(1, 255, 0));
    assert_eq!(stepped, (number, first, second));
    assert_eq!(check(netlist, &PIN_63), number);
    assert_eq!(find(netlist, 1, 0, 1), (number, vec![]));
}

#[test]
fn an_and_of_64_pins_is_sound() {
    let netlist = on_node_0(&AND_OF_64, 64, &[]);
    assert_eq!(netlist.len(), 142);
    assert_eq!(compare::read(&netlist), sound_number(2, 64));
}

#[test]
fn an_and_of_65_pins_is_refused() {
    let netlist = on_node_0(&AND_OF_65, 65, &[]);
    assert_eq!(netlist.len(), 144);
    assert_refused(&netlist, 6);
}

#[test]
fn the_last_pin_of_an_and_of_64_is_found() {
    let netlist = and_and_output();
    // 53 bytes are a head of 25 and 4 steps of 7.
    let expected = (found_number(0, 53), PIN_63.to_vec());
    assert_eq!(find(&netlist, 1, 63, 1), expected);
    assert_eq!(check(&netlist, &PIN_63), 4_294_967_296);
    // Stuck at 0 the pin decides: the output would show it.
    assert_eq!(find(&netlist, 1, 63, 0), (0, vec![]));
    let seen = |u| simulate(&netlist, FaultBytes::new(1, 63, u)).1;
    assert_eq!(seen(0), [1, 0, 0]);
    assert_eq!(seen(1), [1, 1, 1]);
}

#[test]
fn an_and_of_64_has_no_pin_64() {
    let netlist = and_and_output();
    let mut certificate = PIN_63;
    for site in [64, 65, 128, 254] {
        assert_eq!(find(&netlist, 1, site, 1), (9, vec![]));
        let (first, second) = slices_of_simulator(&netlist);
        let stepped = simulate(&netlist, FaultBytes::new(1, site, 1));
        assert_eq!(stepped, (9, first, second));
        certificate[2] = site;
        assert_eq!(check(&netlist, &certificate), 9);
    }
}

#[test]
fn the_report_on_an_and_of_64() {
    let input = input(0, 0, &and_and_output());
    let text = printed(&input);
    assert_eq!(text, model::report(&input));
    assert!(text.ends_with("\n1 63 1 0 0 0\n64 of 136\n"), "{text}");
}

/// What the report on gates that all read one input must be. Nothing shows what
/// becomes of them, so that every fault is marked at the first split.
fn report_on_gates(netlist: &[u8]) -> String {
    let circuit = Netlist::sound(netlist).expect("the netlist is sound");
    let lines = faults(&circuit).map(|Fault { node, site, u }| {
        let site = site.to_byte();
        format!("{node} {site} {u} 0 0 0\n")
    });
    let count = faults(&circuit).count();
    lines.collect::<String>() + &format!("{count} of {count}\n")
}

#[test]
fn the_report_on_gates_of_64_pins() {
    let netlist = structured::gates_on_one_input(8, 64).to_bytes();
    let input = input(0, 0, &netlist);
    let text = printed(&input);
    assert_eq!(text, report_on_gates(&netlist));
    assert_eq!(text, model::report(&input));
    assert!(text.ends_with("\n8 63 1 0 0 0\n8 255 0 0 0 0\n8 255 1 0 0 0\n1042 of 1042\n"));
}

/// 256 gates, which have 16,384 pins together: 34,057 bytes.
fn most_gates_of_64_pins() -> Vec<u8> {
    let netlist = structured::gates_on_one_input(256, 64).to_bytes();
    assert_eq!(netlist.len(), 34_057);
    assert_eq!(netlist[..4], [0x01, 0x01, 0x00, 0x40]);
    netlist
}

#[test]
fn as_many_gates_of_64_pins_as_there_may_be() {
    let netlist = most_gates_of_64_pins();
    assert_eq!(compare::read(&netlist), sound_number(257, 16_384));
    // Some of the faults: each takes the model a while.
    let circuit = Netlist::sound(&netlist).expect("the netlist is sound");
    for Fault { node, site, u } in faults(&circuit).step_by(1_103) {
        let (answer, _) = find(&netlist, node, site.to_byte(), u);
        assert_eq!(answer, found_number(0, 25 + 2 * 256 * 7));
    }
}

#[test]
#[ignore = "takes ten to twenty minutes"]
fn the_report_on_as_many_gates_of_64_pins_as_there_may_be() {
    let netlist = most_gates_of_64_pins();
    let text = printed(&input(0, 0, &netlist));
    assert!(text == report_on_gates(&netlist));
    assert!(text.ends_with(" of 33282\n"));
}

#[test]
fn a_pin_too_many_is_looked_for_before_a_gate_of_too_many() {
    let mut draft = structured::gates_on_one_input(256, 64);
    draft.push(3, &[0]);
    assert_eq!(draft.pin_count(), 16_385);
    assert_refused(&draft.to_bytes(), 2);
    draft.push(5, &[0; 65]);
    assert_refused(&draft.to_bytes(), 2);
}

#[test]
fn pin_counts_that_are_refused() {
    // 264 is 256 + 8: both bytes of the length count.
    assert_refused(&node_of(5, [0x08, 0x01]), 6);
    assert_refused(&node_of(8, [0x41, 0x00]), 6);
    assert_refused(&node_of(5, [0x01, 0x00]), 6);
    assert_refused(&node_of(9, [0x03, 0x00]), 6);
    for kind in 5..=8 {
        for count in [[0x00, 0x00], [0x41, 0x00], [0x40, 0x01], [0x02, 0x01]] {
            assert_refused(&node_of(kind, count), 6);
        }
    }
    // A third pin is too many for a sum, and a second for a wire.
    for count in [[0x03, 0x00], [0x08, 0x00], [0x09, 0x00], [0x40, 0x00]] {
        assert_refused(&node_of(9, count), 6);
        assert_refused(&node_of(10, count), 6);
    }
    for kind in 1..=4 {
        assert_refused(&node_of(kind, [0x40, 0x00]), 6);
    }
}

/// An input a; b; NOT a; a gate of these pins; OR or AND of the gate and the NOT;
/// its output. What the last gate is at its split gives the gate and the NOT,
/// the NOT gives a, and the gate and a give b where all other pins read a.
fn behind_gate(kind: u8, pins: &[u16]) -> Vec<u8> {
    let both = if kind <= 6 { 7 } else { 5 };
    Draft::of(&[
        (0, &[]),
        (0, &[]),
        (4, &[0]),
        (kind, pins),
        (both, &[3, 2]),
        (1, &[4]),
    ])
    .to_bytes()
}

/// The steps of the branch that splits such a circuit's last gate at this value.
fn swept(netlist: &[u8], value: usize) -> (Argument, Vec<[u8; 7]>) {
    let (node, site, u) = (0, Site::Whole, 0);
    let subject = Subject {
        fault: Fault { node, site, u },
        c: 0,
        f: 0,
        split: Line { node: 4, frame: 0 },
    };
    let argument = certificates::swept(netlist, subject);
    let steps = argument.runs[value].iter().map(Step::to_bytes).collect();
    (argument, steps)
}

#[test]
fn the_63_other_pins_of_a_gate_give_the_last() {
    // For AND and OR, at each place that the last pin may have.
    for (kind, value) in [(5, 0), (7, 1)] {
        for place in [0, 8, 31, 63] {
            let mut pins = [0; 64];
            pins[place] = 1;
            let netlist = behind_gate(kind, &pins);
            let (argument, steps) = swept(&netlist, value.into());
            let expected = [
                [3, 0, 0, value, 4, 0, 0],
                [2, 0, 0, value, 4, 0, 0],
                [5, 0, 0, value, 5, 0, 0],
                [0, 0, 0, 1 - value, 2, 0, 0],
                [1, 0, 0, value, 3, 0, 0],
            ];
            assert_eq!(steps, expected);
            assert_eq!(check(&netlist, &argument.to_bytes()), 15);
            // Not before all others are known.
            let mut early = argument;
            early.runs[usize::from(value)].swap(3, 4);
            assert_eq!(check(&netlist, &early.to_bytes()), 14);
        }
    }
}

#[test]
fn two_pins_on_one_source_are_not_the_last() {
    for (kind, value) in [(5, 0), (7, 1)] {
        let mut pins = [0; 64];
        (pins[8], pins[63]) = (1, 1);
        let netlist = behind_gate(kind, &pins);
        let (mut argument, steps) = swept(&netlist, value.into());
        // The same steps, but for the last.
        assert_eq!(steps.len(), 4);
        assert_eq!(check(&netlist, &argument.to_bytes()), 15);
        let step = Step::from_bytes(&[1, 0, 0, value, 3, 0, 0]);
        argument.runs[usize::from(value)].push(step);
        assert_eq!(check(&netlist, &argument.to_bytes()), 14);
    }
}
