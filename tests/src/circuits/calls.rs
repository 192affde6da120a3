//! Faults, windows and slices for calls of the simulator, the checker and the
//! finder.

use super::Draft;
use crate::model::certificate::{HEAD, STEP};
use crate::model::{kind, Fault, Site};
use crate::native::FaultBytes;
use crate::random::Random;
use std::array;

/// A fault that the netlist has.
pub fn fault(random: &mut Random, draft: &Draft) -> Fault {
    let bytes = fault_bytes(random, draft);
    bytes.meaning().expect("these bytes mean a fault")
}

/// A fault of the gate that has the most pins: of the node itself, of any pin, or
/// of one whose source no other pin reads.
pub fn fault_of_widest(random: &mut Random, draft: &Draft) -> Fault {
    let nodes = 0..draft.nodes.len();
    let node = nodes.max_by_key(|node| draft.nodes[*node].sources.len());
    let node = node.expect("there is a node");
    let sources = &draft.nodes[node].sources;
    let readers = |source: u16| sources.iter().filter(|other| **other == source).count();
    let alone = (0..sources.len()).filter(|pin| readers(sources[*pin]) == 1);
    let alone: Vec<usize> = alone.collect();
    let site = match random.below(4) {
        0 => Site::Whole,
        1 | 2 if !alone.is_empty() => Site::Pin(random.pick(&alone) as u8),
        _ => Site::Pin(random.below(sources.len()) as u8),
    };
    let (node, u) = (node as u16, random.bit());
    Fault { node, site, u }
}

/// A fault that the netlist does not have, or whose u is no value.
pub fn foreign_fault(random: &mut Random, draft: &Draft) -> Fault {
    let bytes = foreign_fault_bytes(random, draft);
    bytes.meaning().expect("these bytes mean a fault")
}

/// A fault that the netlist has, for the simulator.
pub fn fault_bytes(random: &mut Random, draft: &Draft) -> FaultBytes {
    let node = random.below(draft.nodes.len());
    let pins = draft.nodes[node].sources.len();
    let site = match random.below(pins + 1) {
        pin if pin < pins => pin as u8,
        _ => 255,
    };
    let faulted = random.between(1, 255) as u8;
    let (node, u) = (node as u16, random.bit());
    FaultBytes {
        faulted,
        node,
        site,
        u,
    }
}

/// No fault, for the simulator, beside bytes that must not matter then.
pub fn no_fault(random: &mut Random) -> FaultBytes {
    FaultBytes {
        faulted: 0,
        node: random.pick(&[0, 1, 4_096, 65_535]),
        site: random.pick(&[0, 1, 8, 63, 64, 254, 255]),
        u: random.pick(&[0, 1, 2, 255]),
    }
}

/// A fault that the netlist does not have, or whose u is no value, for the
/// simulator.
pub fn foreign_fault_bytes(random: &mut Random, draft: &Draft) -> FaultBytes {
    let mut fault = fault_bytes(random, draft);
    let nodes = draft.nodes.len() as u16;
    let pins = draft.nodes[usize::from(fault.node)].sources.len() as u8;
    match random.below(3) {
        0 => fault.node = random.pick(&[nodes, nodes + 1, 4_096, 32_768, 65_535]),
        // No gate has a pin 64.
        1 => fault.site = random.pick(&[pins, pins + 1, 64, 128, 254]),
        _ => fault.u = random.pick(&[2, 3, 128, 254, 255]),
    }
    fault
}

/// A first slice: values at inputs and flip-flops, anything elsewhere.
pub fn first(random: &mut Random, draft: &Draft) -> Vec<u8> {
    let places = draft
        .nodes
        .iter()
        .map(|node| match kind::is_given(node.kind) {
            true => random.bit(),
            false => random.byte(),
        });
    places.collect()
}

/// Spoils a first slice at one place that is read, if there is one.
pub fn spoil(random: &mut Random, draft: &Draft, first: &mut [u8]) {
    let read = (0..first.len()).filter(|node| kind::is_given(draft.nodes[*node].kind));
    let read: Vec<usize> = read.collect();
    if !read.is_empty() {
        first[random.pick(&read)] = random.pick(&[2, 3, 127, 128, 254, 255]);
    }
}

/// Gives a slice a wrong length: a byte too short or too long, none at all, or
/// much too long.
pub fn resize(random: &mut Random, slice: &mut Vec<u8>) {
    let right = slice.len();
    let wrong = match random.below(4) {
        0 => right - 1,
        1 => right + 1,
        2 => 0,
        _ => random.pick(&[2 * right, right + 256, right + 4_096]),
    };
    slice.resize(wrong, 0);
}

/// The node count that a netlist's first bytes write.
pub fn node_count(netlist: &[u8]) -> usize {
    usize::from(netlist[0]) + 256 * usize::from(netlist[1])
}

/// The bytes that a work slice must have for this certificate, as far as the
/// certificate is long enough to say so and its window not refused.
pub fn work_needed(netlist: &[u8], certificate: &[u8]) -> usize {
    let frames = match certificate {
        [_, _, _, _, c, f, ..] => usize::from(*c) + usize::from(*f) + 1,
        _ => 1,
    };
    node_count(netlist) * frames.min(15)
}

/// Slices with anything in them, for these lengths: mostly long enough, rarely
/// one of them a byte too short or shorter still.
pub fn slices<const COUNT: usize>(random: &mut Random, needed: [usize; COUNT]) -> [Vec<u8>; COUNT] {
    let short = random.below(30 * COUNT);
    array::from_fn(|slice| {
        let needed = needed[slice];
        let length = match random.below(4) {
            _ if short == slice => needed - 1,
            _ if short == slice + COUNT => random.below(needed),
            0 | 1 => needed,
            2 => needed + 1,
            _ => needed + random.below(50),
        };
        random.bytes(length)
    })
}

/// What the finder is asked for in a netlist.
#[derive(Clone, Copy, Debug)]
pub struct Request {
    pub fault: Fault,
    pub b: u8,
    pub f: u8,
}

impl Request {
    /// How many frames the widest window has.
    pub fn frames(&self) -> usize {
        usize::from(self.b) + usize::from(self.f) + 1
    }

    /// The bytes that the three slices must have, in their order: two work
    /// slices and the certificate's.
    pub fn slice_lengths(&self, nodes: usize) -> [usize; 3] {
        let places = nodes * self.frames();
        [places, places, HEAD + 2 * STEP * places]
    }
}

/// B and F: mostly small, rarely such that the window has the most frames, and
/// rarely too large.
pub fn bounds(random: &mut Random) -> (u8, u8) {
    match random.below(200) {
        0 => random.pick(&[(14, 0), (0, 14), (7, 7), (1, 13), (13, 1)]),
        1 => random.pick(&[(15, 0), (0, 15), (14, 1), (255, 0), (0, 255), (255, 255)]),
        2..=40 => (random.below(6) as u8, random.below(4) as u8),
        _ => (random.below(3) as u8, random.below(3) as u8),
    }
}
