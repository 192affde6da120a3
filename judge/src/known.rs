//! Claims whose answers are known beforehand. A judge that answers otherwise is
//! not to be asked about anything else.
//!
//! Each hits a place where the two circuits could be put side by side wrongly.
//! Many come in pairs, one that holds and one that fails, so that neither a judge
//! that proves everything nor one that refutes everything gets through.

use crate::abc::{Abc, Verdict};
use crate::blif;
use crate::draft::Draft;
use crate::fault::Fault;
use crate::netlist::{Kind, Netlist, MOST_PINS};

/// A claim, and whether it holds.
pub struct Known {
    netlist: Netlist,
    fault: Fault,
    c: usize,
    holds: bool,
}

impl Known {
    fn new(circuit: &Draft, fault: Fault, c: usize, holds: bool) -> Self {
        Known {
            netlist: circuit.netlist(),
            fault,
            c,
            holds,
        }
    }

    /// Judges the claim, and says so where the answer is another.
    fn try_out(&self, abc: &Abc) -> Result<(), String> {
        let Known { fault, c, .. } = self;
        let expected = match self.holds {
            true => Verdict::Proved,
            false => Verdict::Refuted,
        };
        match abc.decide(&blif::claim(&self.netlist, *fault, *c))? {
            verdict if verdict == expected => Ok(()),
            verdict => Err(format!(
                "known claim: {fault}, c {c}, must be {} and is {}, in {:?}",
                expected.name(),
                verdict.name(),
                self.netlist.nodes
            )),
        }
    }
}

fn holds(circuit: &Draft, fault: Fault, c: usize) -> Known {
    Known::new(circuit, fault, c, true)
}

fn fails(circuit: &Draft, fault: Fault, c: usize) -> Known {
    Known::new(circuit, fault, c, false)
}

/// Judges every known claim. Gives how many there are, or the first that is
/// answered otherwise.
pub fn try_all(abc: &Abc) -> Result<usize, String> {
    let claims = all();
    claims.iter().try_for_each(|known| known.try_out(abc))?;
    Ok(claims.len())
}

fn all() -> Vec<Known> {
    let mut claims = Vec::new();
    claims.extend(stem_and_branches());
    claims.extend(clock_by_clock());
    claims.extend(loop_that_settles());
    claims.extend(latched_and_not_seen());
    claims.extend(ends_of_a_wire());
    claims.extend(never_at_1());
    claims.extend(no_outputs());
    claims.extend(one_pin_gates());
    for kind in [Kind::And, Kind::Nand, Kind::Or, Kind::Nor] {
        let pin_counts = (2..=8).chain([9, 33, MOST_PINS]);
        claims.extend(pin_counts.flat_map(|pins| wide_gate(kind, pins)));
    }
    claims.extend([Kind::Xor, Kind::Xnor].into_iter().flat_map(sum_gate));
    claims
}

/// An AND of one input twice. Each pin alone may be stuck at 1, but not the
/// input, which feeds both.
fn stem_and_branches() -> Vec<Known> {
    let mut circuit = Draft::default();
    let input = circuit.input();
    let and = circuit.node(Kind::And, &[input, input]);
    circuit.node(Kind::Output, &[and]);
    vec![
        holds(&circuit, Fault::at_pin(and, 0, true), 0),
        holds(&circuit, Fault::at_pin(and, 1, true), 0),
        fails(&circuit, Fault::at_pin(and, 0, false), 0),
        fails(&circuit, Fault::at_node(input, true), 0),
        fails(&circuit, Fault::at_node(input, true), 3),
    ]
}

/// An AND of two flip-flops fed by one input, and outputs of it and of one
/// flip-flop. The two differ in the first clock only.
fn clock_by_clock() -> Vec<Known> {
    let mut circuit = Draft::default();
    let input = circuit.input();
    let one = circuit.node(Kind::FlipFlop, &[input]);
    let other = circuit.node(Kind::FlipFlop, &[input]);
    let and = circuit.node(Kind::And, &[one, other]);
    circuit.node(Kind::Output, &[and]);
    circuit.node(Kind::Output, &[other]);
    let fault = Fault::at_pin(and, 1, true);
    vec![
        fails(&circuit, fault, 0),
        holds(&circuit, fault, 1),
        holds(&circuit, fault, 14),
    ]
}

/// A flip-flop fed by itself, and its output. Stuck, it has settled after one
/// clock; before, it has any value latched.
fn loop_that_settles() -> Vec<Known> {
    let mut circuit = Draft::default();
    let flip_flop = circuit.node(Kind::FlipFlop, &[0]);
    let output = circuit.node(Kind::Output, &[flip_flop]);
    let settling = [false, true].into_iter().flat_map(|stuck| {
        [
            fails(&circuit, Fault::at_node(flip_flop, stuck), 0),
            holds(&circuit, Fault::at_node(flip_flop, stuck), 1),
            fails(&circuit, Fault::at_pin(flip_flop, 0, stuck), 0),
            holds(&circuit, Fault::at_pin(flip_flop, 0, stuck), 1),
            fails(&circuit, Fault::at_node(output, stuck), 2),
        ]
    });
    settling.collect()
}

/// A flip-flop that stays at 1 once it is or is told to by another, which is
/// told only in the first clock. Stuck at 0, it is seen at 0 but may have
/// latched that 1: a good circuit that started from what is seen would show 0
/// for ever.
fn latched_and_not_seen() -> Vec<Known> {
    let mut circuit = Draft::default();
    let teller = circuit.node(Kind::FlipFlop, &[2]);
    let not = circuit.node(Kind::Not, &[teller]);
    let never = circuit.node(Kind::And, &[teller, not]);
    let sticky = circuit.node(Kind::FlipFlop, &[4]);
    circuit.node(Kind::Or, &[sticky, teller]);
    circuit.node(Kind::Output, &[sticky]);
    vec![
        fails(&circuit, Fault::at_node(sticky, false), 1),
        holds(&circuit, Fault::at_node(sticky, false), 2),
        holds(&circuit, Fault::at_node(never, false), 0),
        fails(&circuit, Fault::at_node(never, true), 0),
    ]
}

/// An input, a flip-flop that it feeds, and outputs of both: a fault anywhere is
/// seen at any time. It is the faulty circuit's alone.
fn ends_of_a_wire() -> Vec<Known> {
    let mut circuit = Draft::default();
    let input = circuit.input();
    let flip_flop = circuit.node(Kind::FlipFlop, &[input]);
    let near = circuit.node(Kind::Output, &[input]);
    let far = circuit.node(Kind::Output, &[flip_flop]);
    let mut claims = Vec::new();
    for c in [0, 1, 3] {
        for stuck in [false, true] {
            claims.extend(
                [input, flip_flop, near, far]
                    .map(|node| fails(&circuit, Fault::at_node(node, stuck), c)),
            );
            claims.extend(
                [flip_flop, near, far]
                    .map(|node| fails(&circuit, Fault::at_pin(node, 0, stuck), c)),
            );
        }
    }
    claims
}

/// An AND of an input and its NOT, a flip-flop that it feeds, and outputs of
/// both: what is never at 1 may be stuck at 0, the flip-flop itself from clock 1
/// on.
fn never_at_1() -> Vec<Known> {
    let mut circuit = Draft::default();
    let input = circuit.input();
    let not = circuit.node(Kind::Not, &[input]);
    let never = circuit.node(Kind::And, &[input, not]);
    let flip_flop = circuit.node(Kind::FlipFlop, &[never]);
    let near = circuit.node(Kind::Output, &[never]);
    let far = circuit.node(Kind::Output, &[flip_flop]);
    let from_the_start = [
        Fault::at_node(never, false),
        Fault::at_pin(flip_flop, 0, false),
        Fault::at_node(near, false),
        Fault::at_pin(near, 0, false),
    ];
    let from_clock_1 = [
        Fault::at_node(flip_flop, false),
        Fault::at_node(far, false),
        Fault::at_pin(far, 0, false),
    ];
    let mut claims = Vec::new();
    for fault in from_the_start {
        claims.extend([holds(&circuit, fault, 0), holds(&circuit, fault, 1)]);
    }
    for fault in from_clock_1 {
        claims.extend([fails(&circuit, fault, 0), holds(&circuit, fault, 1)]);
    }
    for fault in from_the_start.into_iter().chain(from_clock_1) {
        let stuck_at_1 = Fault {
            stuck: true,
            ..fault
        };
        claims.extend([0, 1, 2].map(|c| fails(&circuit, stuck_at_1, c)));
    }
    claims
}

/// Without an output nothing is ever seen.
fn no_outputs() -> Vec<Known> {
    let mut circuit = Draft::default();
    let flip_flop = circuit.node(Kind::FlipFlop, &[0]);
    let faults = [
        Fault::at_node(flip_flop, true),
        Fault::at_pin(flip_flop, 0, true),
    ];
    faults.map(|fault| holds(&circuit, fault, 0)).into()
}

/// A buffer gives its input's value, a NOT the other: an AND of the two ends is
/// the input, or never 1.
fn one_pin_gates() -> Vec<Known> {
    let [of_buffer, of_not] = [Kind::Buffer, Kind::Not].map(|kind| {
        let mut circuit = Draft::default();
        let input = circuit.input();
        let gate = circuit.node(kind, &[input]);
        let and = circuit.node(Kind::And, &[input, gate]);
        circuit.node(Kind::Output, &[and]);
        circuit
    });
    let and = 2;
    vec![
        holds(&of_buffer, Fault::at_pin(and, 1, true), 0),
        fails(&of_buffer, Fault::at_node(and, false), 0),
        fails(&of_not, Fault::at_pin(and, 1, true), 0),
        holds(&of_not, Fault::at_node(and, false), 0),
    ]
}

/// A gate that one value of a pin decides, with so many pins.
fn wide_gate(kind: Kind, pins: usize) -> Vec<Known> {
    let deciding = matches!(kind, Kind::Or | Kind::Nor);
    let decided = matches!(kind, Kind::Nand | Kind::Or);
    let mut claims = Vec::new();
    // All pins read one input: each can do without the others.
    let (circuit, gate) = gate_alone(kind, 1, |input, _| vec![input; pins]);
    for pin in [0, pins - 1] {
        claims.push(holds(&circuit, Fault::at_pin(gate, pin, !deciding), 0));
        claims.push(fails(&circuit, Fault::at_pin(gate, pin, deciding), 0));
    }
    // One pin reads the other value: the gate is always decided.
    let (circuit, gate) = gate_alone(kind, 1, |input, not| {
        [vec![input; pins - 1], vec![not]].concat()
    });
    claims.push(holds(&circuit, Fault::at_node(gate, decided), 0));
    claims.push(fails(&circuit, Fault::at_node(gate, !decided), 0));
    // Each pin reads an input of its own: none can be spared.
    let (circuit, gate) = gate_alone(kind, pins, |_, _| (0..pins).collect());
    for pin in [0, pins - 1] {
        claims.push(fails(&circuit, Fault::at_pin(gate, pin, !deciding), 0));
        claims.push(fails(&circuit, Fault::at_pin(gate, pin, deciding), 0));
    }
    claims
}

/// A gate that tells whether its two pins differ, or whether they agree.
fn sum_gate(kind: Kind) -> Vec<Known> {
    let of_equals = kind == Kind::Xnor;
    let mut claims = Vec::new();
    let (circuit, gate) = gate_alone(kind, 1, |input, _| vec![input, input]);
    claims.push(holds(&circuit, Fault::at_node(gate, of_equals), 0));
    claims.push(fails(&circuit, Fault::at_node(gate, !of_equals), 0));
    let (circuit, gate) = gate_alone(kind, 1, |input, not| vec![input, not]);
    claims.push(holds(&circuit, Fault::at_node(gate, !of_equals), 0));
    claims.push(fails(&circuit, Fault::at_node(gate, of_equals), 0));
    let (circuit, gate) = gate_alone(kind, 2, |_, _| vec![0, 1]);
    for pin in [0, 1] {
        claims
            .extend([false, true].map(|stuck| fails(&circuit, Fault::at_pin(gate, pin, stuck), 0)));
    }
    claims
}

/// Inputs, a NOT of the first, and a gate with an output. The sources of its
/// pins are chosen by the numbers of the first input and of the NOT.
fn gate_alone(
    kind: Kind,
    inputs: usize,
    sources: impl Fn(usize, usize) -> Vec<usize>,
) -> (Draft, usize) {
    let mut circuit = Draft::default();
    let first = circuit.input();
    for _ in 1..inputs {
        circuit.input();
    }
    let not = circuit.node(Kind::Not, &[first]);
    let gate = circuit.node(kind, &sources(first, not));
    circuit.node(Kind::Output, &[gate]);
    (circuit, gate)
}
