//! Sound netlists with a plan, of any node count.

use super::Draft;
use crate::model::kind;

/// One of each plan, with this many nodes (at least 2).
pub fn all(nodes: u16) -> Vec<Draft> {
    vec![
        Draft::inputs(nodes.into()),
        alike(nodes, kind::FLIP_FLOP, |node| vec![node]),
        // A shift register, one that runs backwards, and one closed to a ring.
        alike(nodes, kind::FLIP_FLOP, |node| vec![node.saturating_sub(1)]),
        alike(nodes, kind::FLIP_FLOP, |node| vec![(node + 1) % nodes]),
        alike(nodes, kind::FLIP_FLOP, |node| {
            vec![(node + nodes - 1) % nodes]
        }),
        // Chains and ladders from one input.
        behind_input(nodes, |node| (kind::NOT, vec![node - 1])),
        behind_input(nodes, |node| (kind::BUFFER, vec![node - 1])),
        behind_input(nodes, |node| (kind::XOR, vec![node - 1, node / 2])),
        behind_input(nodes, |node| (kind::XNOR, vec![0, node - 1])),
        behind_input(nodes, |_| (kind::OUTPUT, vec![0])),
        // Every wide gate in turn, with two pins.
        behind_input(nodes, |node| {
            (kind::AND + (node % 4) as u8, vec![node - 1, 0])
        }),
        counter(nodes),
    ]
}

/// One of each plan that ends in outputs, with this many nodes (at least 5).
/// Some have redundant pins, also such as are redundant only from a later clock
/// on; in others hardly any inputs show a fault.
pub fn with_outputs(nodes: u16) -> Vec<Draft> {
    vec![
        twin_pipeline(nodes),
        feedback_register(nodes),
        sticky_stages(nodes),
        wide_comparison(nodes),
        lock(nodes),
    ]
}

/// A flip-flop fed by itself, an AND of it twice, a chain and an output (at
/// least 4 nodes): the flip-flop settles the value of every line, and a 1 at a
/// pin of the AND is redundant.
pub fn settled_chain(nodes: u16) -> Draft {
    let mut draft = Draft::of(&[(kind::FLIP_FLOP, &[0]), (kind::AND, &[0, 0])]);
    for node in 2..nodes - 1 {
        draft.push(kind::NOT, &[node - 1]);
    }
    draft.push(kind::OUTPUT, &[nodes - 2]);
    draft
}

/// An input, and so many gates with so many pins, all of them on it; AND, NAND,
/// OR and NOR in turn.
pub fn gates_on_one_input(gates: usize, pins: usize) -> Draft {
    let mut draft = Draft::inputs(1);
    for kind in (kind::AND..=kind::NOR).cycle().take(gates) {
        draft.push(kind, &vec![0; pins]);
    }
    draft
}

fn alike(nodes: u16, kind: u8, sources: impl Fn(u16) -> Vec<u16>) -> Draft {
    let mut draft = Draft::default();
    for node in 0..nodes {
        draft.push(kind, &sources(node));
    }
    draft
}

fn behind_input(nodes: u16, make: impl Fn(u16) -> (u8, Vec<u16>)) -> Draft {
    let mut draft = Draft::inputs(1);
    for node in 1..nodes {
        let (kind, sources) = make(node);
        draft.push(kind, &sources);
    }
    draft
}

/// A binary counter: stages of a flip-flop, its toggle and its carry, counted
/// up by an input. Nodes that make no whole stage are outputs of the carry.
fn counter(nodes: u16) -> Draft {
    let mut draft = Draft::inputs(1);
    let mut carry = 0;
    let mut node = 1;
    while node + 2 < nodes {
        draft.push(kind::FLIP_FLOP, &[node + 1]);
        draft.push(kind::XOR, &[node, carry]);
        draft.push(kind::AND, &[node, carry]);
        carry = node + 2;
        node += 3;
    }
    for _ in node..nodes {
        draft.push(kind::OUTPUT, &[carry]);
    }
    draft
}

/// Groups of two equal shift registers, 1 to 3 flip-flops deep, each group
/// behind the gate that joins the ends of the one before. A pin of that gate is
/// redundant as soon as both ends show what came in together.
fn twin_pipeline(nodes: u16) -> Draft {
    let mut draft = Draft::inputs(1);
    let (mut source, mut next, mut depth) = (0, 1, 1);
    while next + 2 * depth + 2 <= nodes {
        for start in [next, next + depth] {
            draft.push(kind::FLIP_FLOP, &[source]);
            for stage in 1..depth {
                draft.push(kind::FLIP_FLOP, &[start + stage - 1]);
            }
        }
        let (gate, end) = (next + 2 * depth, next + depth - 1);
        draft.push(kind::AND + (gate % 4) as u8, &[end, gate - 1]);
        draft.push(kind::OUTPUT, &[gate]);
        (source, next, depth) = (gate, gate + 2, depth % 3 + 1);
    }
    end_with_outputs(draft, nodes, source)
}

/// A shift register that takes in the sum of its middle and its end.
fn feedback_register(nodes: u16) -> Draft {
    let stages = nodes - 2;
    let mut draft = Draft::default();
    for stage in 0..stages {
        draft.push(kind::FLIP_FLOP, &[stage.checked_sub(1).unwrap_or(stages)]);
    }
    draft.push(kind::XOR, &[stages - 1, stages / 2]);
    end_with_outputs(draft, nodes, stages - 1)
}

/// Stages of a flip-flop that stays at 1, its OR with the stage before, and an
/// AND of the two, of which the OR's pin is redundant.
fn sticky_stages(nodes: u16) -> Draft {
    let mut draft = Draft::inputs(1);
    let (mut source, mut next) = (0, 1);
    while next + 3 < nodes {
        draft.push(kind::FLIP_FLOP, &[next + 1]);
        draft.push(kind::OR, &[next, source]);
        draft.push(kind::AND, &[next, next + 1]);
        (source, next) = (next + 2, next + 3);
    }
    end_with_outputs(draft, nodes, source)
}

/// Inputs, and a chain of ANDs that is 1 only if all of them are.
fn wide_comparison(nodes: u16) -> Draft {
    let inputs = nodes / 2;
    let mut draft = Draft::inputs(inputs.into());
    draft.push(kind::BUFFER, &[0]);
    for input in 1..inputs {
        draft.push(kind::AND, &[inputs + input - 1, input]);
        if draft.nodes.len() + 1 == usize::from(nodes) {
            break;
        }
    }
    let last = draft.nodes.len() as u16 - 1;
    end_with_outputs(draft, nodes, last)
}

/// Stages that a 1 walks through while the input stays 1: the output shows it
/// only after as many such clocks as there are stages.
fn lock(nodes: u16) -> Draft {
    let mut draft = Draft::of(&[(kind::INPUT, &[]), (kind::FLIP_FLOP, &[0])]);
    let mut last = 1;
    while last + 3 < nodes {
        draft.push(kind::AND, &[last, 0]);
        draft.push(kind::FLIP_FLOP, &[last + 1]);
        last += 2;
    }
    end_with_outputs(draft, nodes, last)
}

/// Outputs of one node for all nodes that are left.
fn end_with_outputs(mut draft: Draft, nodes: u16, source: u16) -> Draft {
    while draft.nodes.len() < usize::from(nodes) {
        draft.push(kind::OUTPUT, &[source]);
    }
    draft
}
