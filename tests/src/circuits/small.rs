//! Circuits so small that every state and every input can be tried.

use super::{Draft, WIDE};
use crate::model::kind;
use crate::random::Random;

/// The most inputs and the most flip-flops of these circuits.
pub const MOST_INPUTS: usize = 3;
pub const MOST_FLIP_FLOPS: usize = 4;

/// Any of the circuits below.
pub fn any(random: &mut Random) -> Draft {
    match random.below(5) {
        0 => shift_register(random),
        1 => self_fed(random),
        2 => reconvergent(random),
        _ => mixed(random),
    }
}

/// One to twelve nodes of any kinds; the last ones are outputs, rarely none.
pub fn mixed(random: &mut Random) -> Draft {
    let inner = random.between(1, 9);
    let kinds = inner_kinds(random, inner);
    let mut draft = Draft::default();
    for (node, kind) in kinds.into_iter().enumerate() {
        let sources = match kind {
            kind::INPUT => vec![],
            kind::FLIP_FLOP => vec![random.below(inner) as u16],
            kind::BUFFER | kind::NOT => vec![random.below(node) as u16],
            kind::XOR | kind::XNOR => some_of(random, node, 2),
            _ => {
                let count = pins_of_gate(random);
                some_of(random, node, count)
            }
        };
        draft.push(kind, &sources);
    }
    add_outputs(random, &mut draft);
    draft
}

/// A gate of many pins, which read a few inputs, flip-flops and what hangs on
/// them; perhaps gates behind it; and outputs. Often one of the pins reads a node
/// that no other reads, and cannot be spared, or not in the first clock: many of
/// the flip-flops are fed by one input.
pub fn of_wide_gate(random: &mut Random) -> Draft {
    let mut draft = Draft::inputs(random.between(1, MOST_INPUTS));
    for _ in 0..random.below(MOST_FLIP_FLOPS + 1) {
        let node = draft.nodes.len();
        match random.below(4) {
            0 => draft.push(kind::NOT, &some_of(random, node, 1)),
            1 => draft.push(kind::FLIP_FLOP, &some_of(random, node + 1, 1)),
            _ => draft.push(kind::FLIP_FLOP, &[0]),
        }
    }
    let nodes = draft.nodes.len();
    let (read, pins) = (random.between(1, nodes), random.pick(&WIDE));
    let mut sources = some_of(random, read, pins);
    sources[random.below(pins)] = random.between(read - 1, nodes - 1) as u16;
    draft.push(wide_gate(random), &sources);
    for _ in 0..random.below(3) {
        let node = draft.nodes.len();
        let sources = [node as u16 - 1, random.below(node) as u16];
        draft.push(gate(random), &sources);
    }
    add_outputs(random, &mut draft);
    draft
}

/// An input through flip-flops, a gate of any two of these nodes, and outputs.
pub fn shift_register(random: &mut Random) -> Draft {
    let mut draft = Draft::inputs(1);
    let stages = random.between(1, MOST_FLIP_FLOPS);
    for stage in 0..stages {
        draft.push(kind::FLIP_FLOP, &[stage as u16]);
    }
    let taps = some_of(random, stages + 1, 2);
    draft.push(gate(random), &taps);
    add_outputs(random, &mut draft);
    draft
}

/// Flip-flops fed by themselves, gates of them, and outputs.
pub fn self_fed(random: &mut Random) -> Draft {
    let mut draft = Draft::default();
    let flip_flops = random.between(1, 3);
    for node in 0..flip_flops {
        draft.push(kind::FLIP_FLOP, &[node as u16]);
    }
    for node in flip_flops..flip_flops + random.below(5) {
        let pins = random.pick(&[2, 2, 3]);
        let (kind, sources) = match random.below(3) {
            0 => (kind::NOT, some_of(random, node, 1)),
            1 => (
                random.pick(&[kind::XOR, kind::XNOR]),
                some_of(random, node, 2),
            ),
            _ => (wide_gate(random), some_of(random, node, pins)),
        };
        draft.push(kind, &sources);
    }
    add_outputs(random, &mut draft);
    draft
}

/// A stem whose branches, of different make and length, meet in one gate.
pub fn reconvergent(random: &mut Random) -> Draft {
    let mut draft = Draft::default();
    match random.bit() {
        0 => draft.push(kind::INPUT, &[]),
        _ => draft.push(kind::FLIP_FLOP, &[0]),
    }
    let mut flip_flops = 0;
    let mut ends = Vec::new();
    for _ in 0..2 {
        let mut end = 0;
        for _ in 0..random.below(3) {
            let mut kind = random.pick(&[kind::BUFFER, kind::NOT, kind::FLIP_FLOP]);
            if kind == kind::FLIP_FLOP && flip_flops + 1 == MOST_FLIP_FLOPS {
                kind = kind::BUFFER;
            }
            flip_flops += usize::from(kind == kind::FLIP_FLOP);
            draft.push(kind, &[end]);
            end = draft.nodes.len() as u16 - 1;
        }
        ends.push(end);
    }
    draft.push(gate(random), &ends);
    add_outputs(random, &mut draft);
    draft
}

/// Kinds other than output, with no more inputs and flip-flops than are
/// allowed. The first needs no smaller source.
fn inner_kinds(random: &mut Random, count: usize) -> Vec<u8> {
    let mut kinds = vec![random.pick(&[kind::INPUT, kind::FLIP_FLOP])];
    while kinds.len() < count {
        let kind = match random.below(10) {
            0 => kind::INPUT,
            1..=3 => kind::FLIP_FLOP,
            4 => kind::BUFFER,
            5 => kind::NOT,
            6 => random.pick(&[kind::XOR, kind::XNOR]),
            _ => wide_gate(random),
        };
        let most = match kind {
            kind::INPUT => MOST_INPUTS,
            kind::FLIP_FLOP => MOST_FLIP_FLOPS,
            _ => count,
        };
        if kinds.iter().filter(|other| **other == kind).count() < most {
            kinds.push(kind);
        }
    }
    kinds
}

/// One to three outputs of any nodes, the last one more often than others; in
/// one circuit of twenty none.
fn add_outputs(random: &mut Random, draft: &mut Draft) {
    let nodes = draft.nodes.len();
    if random.chance(5) {
        return;
    }
    for _ in 0..random.between(1, 3) {
        let source = match random.bit() {
            0 => nodes - 1,
            _ => random.below(nodes),
        };
        draft.push(kind::OUTPUT, &[source as u16]);
    }
}

/// Pins of a gate: mostly few. Rarely many, which then read a few nodes again and
/// again.
fn pins_of_gate(random: &mut Random) -> usize {
    match random.below(50) {
        0 => random.pick(&WIDE),
        _ => random.pick(&[2, 2, 2, 3, 4, 8]),
    }
}

fn some_of(random: &mut Random, limit: usize, count: usize) -> Vec<u16> {
    (0..count).map(|_| random.below(limit) as u16).collect()
}

fn wide_gate(random: &mut Random) -> u8 {
    random.pick(&[kind::AND, kind::NAND, kind::OR, kind::NOR])
}

fn gate(random: &mut Random) -> u8 {
    match random.below(3) {
        0 => random.pick(&[kind::XOR, kind::XNOR]),
        _ => wide_gate(random),
    }
}
