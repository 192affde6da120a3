//! The simulator, library against model: every answer, every lent byte.

use leverpeach_tests::cases::{run, Tally};
use leverpeach_tests::circuits::{calls, damaged, raw, small, sound, structured, Draft};
use leverpeach_tests::compare;
use leverpeach_tests::model::kind::{AND, BUFFER, FLIP_FLOP, INPUT, MOST_PINS, NOR, OUTPUT, XOR};
use leverpeach_tests::native::FaultBytes;
use leverpeach_tests::random::Random;

/// Steps a draft from slices of the right length; the call must be done.
fn step(random: &mut Random, draft: &Draft, fault: FaultBytes) -> (Vec<u8>, Vec<u8>) {
    let first = calls::first(random, draft);
    let second = random.bytes(first.len());
    let (answer, seen, latched) =
        compare::simulate(random, &draft.to_bytes(), fault, &first, &second);
    assert_eq!(answer, 0);
    (seen, latched)
}

#[test]
fn sound_circuits_with_and_without_faults() {
    run("clock steps", 60_000, |case, random| {
        let draft = sound::random(random, 1 + (case % 50) as usize);
        let fault = match random.below(4) {
            0 => calls::no_fault(random),
            _ => calls::fault_bytes(random, &draft),
        };
        step(random, &draft, fault);
    });
}

#[test]
fn calls_that_are_turned_back() {
    let mut tally = Tally::default();
    run("turned back", 40_000, |case, random| {
        let draft = sound::random(random, 1 + (case % 30) as usize);
        let mut fault = calls::fault_bytes(random, &draft);
        let mut first = calls::first(random, &draft);
        let mut second = random.bytes(first.len());
        // Bit by bit: a foreign fault, a spoiled place, a wrong length each.
        let wrong = case / 30 % 16;
        if wrong & 1 != 0 {
            fault = calls::foreign_fault_bytes(random, &draft);
        }
        if wrong & 2 != 0 {
            calls::spoil(random, &draft, &mut first);
        }
        if wrong & 4 != 0 {
            calls::resize(random, &mut first);
        }
        if wrong & 8 != 0 {
            calls::resize(random, &mut second);
        }
        let (answer, _, _) = compare::simulate(random, &draft.to_bytes(), fault, &first, &second);
        // The first node is an input or a flip-flop: there is a place to spoil.
        let expected = match wrong {
            0 => 0,
            wrong if wrong & 1 != 0 => 9,
            _ => 16,
        };
        assert_eq!(answer, expected, "{wrong}");
        tally.count(answer);
    });
    tally.assert_met(&[0, 9, 16], 2_000);
}

#[test]
fn netlists_that_are_not_sound() {
    let mut tally = Tally::default();
    run("unsound", 28_000, |case, random| {
        let number = 1 + case % 7;
        let nodes = random.between(1, 20);
        let bytes = damaged::with(random, nodes, &[number as u8]);
        // The slices may fit or not: the netlist comes first.
        let length = random.pick(&[0, nodes, nodes + 1, nodes + 2]);
        let (first, second) = (random.bytes(length), random.bytes(nodes + 1));
        let fault = FaultBytes::new(random.below(40) as u16, random.byte(), random.byte());
        let (answer, _, _) = compare::simulate(random, &bytes, fault, &first, &second);
        assert_eq!(answer, number);
        tally.count(answer);
    });
    tally.assert_met(&[1, 2, 3, 4, 5, 6, 7], 1_000);
}

#[test]
fn bytes_of_every_short_length() {
    let mut tally = Tally::default();
    run("short bytes", 65 * 200, |case, random| {
        let bytes = raw::of_length(random, (case % 65) as usize);
        let nodes = bytes.first().map_or(0, |count| usize::from(*count));
        let (first, second) = (random.bytes(nodes), random.bytes(nodes));
        let fault = FaultBytes::new(random.below(8) as u16, random.byte(), random.byte());
        let (answer, _, _) = compare::simulate(random, &bytes, fault, &first, &second);
        tally.count(answer);
    });
    tally.assert_met(&[1, 2, 3, 4], 300);
}

#[test]
fn netlists_past_every_limit() {
    let mut random = Random::new(9);
    let mut answer = |netlist: &[u8], nodes: usize| {
        let slice = vec![1; nodes];
        compare::simulate(&mut random, netlist, FaultBytes::NONE, &slice, &slice).0
    };
    let inputs = |count| Draft::inputs(count).to_bytes();
    assert_eq!(answer(&inputs(4_096), 4_096), 0);
    assert_eq!(answer(&inputs(4_097), 4_097), 2);
    assert_eq!(answer(&inputs(0), 0), 2);
    let mut long = inputs(4_096);
    long.resize(65_536, 0);
    assert_eq!(answer(&long, 4_096), 3);
}

#[test]
fn bytes_shaped_like_a_netlist() {
    let mut tally = Tally::default();
    run("shaped bytes", 60_000, |_, random| {
        let bytes = raw::shaped(random);
        let nodes = usize::from(bytes[0]);
        let first: Vec<u8> = (0..nodes).map(|_| random.bit()).collect();
        let second = random.bytes(nodes);
        let site = random.pick(&[0, 1, 2, 255]);
        let mut fault = FaultBytes::new(random.below(nodes + 1) as u16, site, random.bit());
        fault.faulted = random.pick(&[0, 1, 255]);
        let (answer, _, _) = compare::simulate(random, &bytes, fault, &first, &second);
        tally.count(answer);
    });
    tally.assert_met(&[0, 4, 5, 6, 7, 9], 1_000);
}

#[test]
fn every_fault_that_can_be_written_near_a_circuit() {
    run("all faults", 40, |case, random| {
        let draft = match case % 2 {
            0 => sound::random(random, 12),
            _ => small::of_wide_gate(random),
        };
        let netlist = draft.to_bytes();
        let first = calls::first(random, &draft);
        for node in (0..14).chain([255, 256, 4_096, 65_535]) {
            for site in (0..10).chain([15, 16, 62, 63, 64, 65, 127, 128, 254, 255]) {
                for u in [0, 1, 2, 255] {
                    let second = random.bytes(first.len());
                    let fault = FaultBytes::new(node, site, u);
                    let (answer, _, _) =
                        compare::simulate(random, &netlist, fault, &first, &second);
                    let pins = draft.nodes.get(usize::from(node)).map(|n| n.sources.len());
                    let there = pins.is_some_and(|pins| site == 255 || usize::from(site) < pins);
                    let expected = if there && u <= 1 { 0 } else { 9 };
                    assert_eq!(answer, expected, "{fault:?}");
                }
            }
        }
    });
}

#[test]
fn the_largest_circuits() {
    run("largest", 400, |case, random| {
        let draft = match case % 4 {
            0 => sound::of_widest_gates(random),
            _ => sound::of_size(random, 4_096, 16_384),
        };
        let fault = calls::fault_bytes(random, &draft);
        step(random, &draft, fault);
    });
}

#[test]
fn planned_circuits_of_all_sizes() {
    run("planned", 20, |_, random| {
        for nodes in [2, 3, 17, 255, 256, 257, 4_095, 4_096] {
            for draft in structured::all(nodes) {
                let fault = calls::fault_bytes(random, &draft);
                step(random, &draft, fault);
                let fault = calls::no_fault(random);
                step(random, &draft, fault);
            }
        }
    });
}

#[test]
fn a_largest_circuit_turned_back_at_its_last_place() {
    let mut random = Random::new(5);
    let draft = structured::all(4_096).swap_remove(1);
    let netlist = draft.to_bytes();
    let second = random.bytes(4_096);
    let mut first = vec![1; 4_096];
    first[4_095] = 2;
    let fault = FaultBytes::new(4_095, 255, 0);
    let (answer, _, _) = compare::simulate(&mut random, &netlist, fault, &first, &second);
    assert_eq!(answer, 16);
    first[4_095] = 1;
    let fault = FaultBytes::new(4_096, 255, 0);
    let (answer, _, _) = compare::simulate(&mut random, &netlist, fault, &first, &second);
    assert_eq!(answer, 9);
}

#[test]
fn a_counter_counts() {
    // Node 0 is the input, then stages of flip-flop, toggle and carry.
    let nodes = 31;
    let draft = structured::all(nodes).pop().unwrap();
    let netlist = draft.to_bytes();
    let mut random = Random::new(6);
    let mut latched = vec![0; usize::from(nodes)];
    for clock in 0..1_200_u32 {
        let stages = (0..10).map(|stage| u32::from(latched[1 + 3 * stage]) << stage);
        assert_eq!(stages.sum::<u32>(), clock % 1_024);
        let mut first = latched;
        first[0] = 1;
        let second = random.bytes(first.len());
        let fault = FaultBytes::NONE;
        let (answer, _, next) = compare::simulate(&mut random, &netlist, fault, &first, &second);
        assert_eq!(answer, 0);
        latched = next;
    }
}

/// Inputs, and a gate of each kind that may have many pins, each of them on an
/// input of its own.
struct WideGates {
    pins: usize,
    netlist: Vec<u8>,
    random: Random,
}

impl WideGates {
    fn new(pins: usize) -> Self {
        let mut draft = Draft::inputs(pins);
        let sources: Vec<u16> = (0..pins as u16).collect();
        for kind in AND..=NOR {
            draft.push(kind, &sources);
        }
        WideGates {
            pins,
            netlist: draft.to_bytes(),
            random: Random::new(pins as u64),
        }
    }

    /// The input bits when all are 1.
    fn all(&self) -> u64 {
        u64::MAX >> (64 - self.pins)
    }

    /// What the four gates are seen at under these input bits.
    fn seen(&mut self, inputs: u64, fault: FaultBytes) -> Vec<u8> {
        let mut first: Vec<u8> = (0..self.pins)
            .map(|pin| (inputs >> pin & 1) as u8)
            .collect();
        first.extend([9; 4]);
        let second = self.random.bytes(first.len());
        let (random, netlist) = (&mut self.random, &self.netlist);
        let (answer, mut seen, _) = compare::simulate(random, netlist, fault, &first, &second);
        assert_eq!(answer, 0);
        seen.split_off(self.pins)
    }

    /// Steps the gates under these input bits, and looks at their values.
    fn look_at(&mut self, inputs: u64) {
        let (all, any) = (inputs == self.all(), inputs != 0);
        let expected = [all, !all, any, !any].map(u8::from);
        assert_eq!(self.seen(inputs, FaultBytes::NONE), expected, "{inputs:x}");
    }
}

#[test]
fn wide_gates_under_every_input() {
    for pins in 2..=9 {
        let mut gates = WideGates::new(pins);
        for inputs in 0..=gates.all() {
            gates.look_at(inputs);
        }
    }
}

#[test]
fn the_widest_gates_under_all_but_one_and_under_some_inputs() {
    for pins in [9, 16, 33, 63, MOST_PINS] {
        let mut gates = WideGates::new(pins);
        let all = gates.all();
        gates.look_at(all);
        gates.look_at(0);
        for pin in 0..pins {
            gates.look_at(1 << pin);
            gates.look_at(all ^ 1 << pin);
        }
        for _ in 0..1_000 {
            let inputs = gates.random.word() & all;
            gates.look_at(inputs);
        }
    }
}

#[test]
fn every_pin_of_the_widest_gates_stuck() {
    for pins in [9, 16, 33, 63, MOST_PINS] {
        let mut gates = WideGates::new(pins);
        // The value with which a pin leaves the others to decide.
        for (gate, neutral) in [1, 1, 0, 0].into_iter().enumerate() {
            let same = if neutral == 1 { gates.all() } else { 0 };
            for pin in 0..pins {
                let fault = |u| FaultBytes::new((pins + gate) as u16, pin as u8, u);
                let but_one = same ^ 1 << pin;
                let decided = gates.seen(but_one, FaultBytes::NONE)[gate];
                assert_eq!(gates.seen(same, fault(1 - neutral))[gate], decided);
                assert_eq!(gates.seen(same, fault(neutral))[gate], 1 - decided);
                assert_eq!(gates.seen(but_one, fault(neutral))[gate], 1 - decided);
            }
        }
    }
}

#[test]
fn pins_are_separate_even_with_one_source() {
    // XOR of one input twice is 0, until one of its pins is stuck.
    let draft = Draft::of(&[(INPUT, &[]), (XOR, &[0, 0]), (OUTPUT, &[1])]);
    let mut random = Random::new(7);
    for (input, site, u) in [(0, 0, 1), (0, 1, 1), (1, 0, 0), (1, 1, 0)] {
        let fault = FaultBytes::new(1, site, u);
        let first = [input, 5, 5];
        let (answer, seen, latched) =
            compare::simulate(&mut random, &draft.to_bytes(), fault, &first, &[6; 3]);
        assert_eq!(answer, 0);
        assert_eq!(seen, [input, 1, 1]);
        assert_eq!(latched, [0, 0, 0]);
    }
}

#[test]
fn a_faulted_flip_flop_still_latches_what_its_pin_reads() {
    // A flip-flop fed by a later node; the buffer repeats the flip-flop.
    let draft = Draft::of(&[(FLIP_FLOP, &[2]), (BUFFER, &[0]), (INPUT, &[])]);
    let netlist = draft.to_bytes();
    let mut random = Random::new(8);
    let mut case = |fault, first: [u8; 3], seen: [u8; 3], latched: [u8; 3]| {
        let answer = compare::simulate(&mut random, &netlist, fault, &first, &[7; 3]);
        assert_eq!(answer, (0, seen.to_vec(), latched.to_vec()));
    };
    // No fault; the node stuck; its pin stuck.
    case(FaultBytes::NONE, [1, 9, 0], [1, 1, 0], [0, 0, 0]);
    case(FaultBytes::new(0, 255, 0), [1, 9, 1], [0, 0, 1], [1, 0, 0]);
    case(FaultBytes::new(0, 0, 1), [0, 9, 0], [0, 0, 0], [1, 0, 0]);
}
