//! Netlists damaged so that the refusal is known beforehand.

use super::{sound, Draft};
use crate::model::kind;
use crate::model::netlist::MOST_PINS_IN_ALL;
use crate::random::Random;

/// A sound netlist with every damage of `numbers` done to it, one for each
/// refusal number of 1 to 7. The smallest of them is its refusal, whatever
/// nodes the damages fell upon.
pub fn with(random: &mut Random, nodes: usize, numbers: &[u8]) -> Vec<u8> {
    let mut draft = sound::random(random, nodes);
    // At least one pin, so that there is a source to damage.
    draft.push(kind::BUFFER, &[0]);
    if numbers.contains(&6) {
        unfit_pin_count(random, &mut draft);
    }
    let mut bytes = draft.to_bytes();
    let nodes = draft.nodes.len();
    // From the great numbers to the small, so that none is undone.
    if numbers.contains(&7) {
        forbidden_source(random, &draft, &mut bytes);
    }
    if numbers.contains(&5) {
        broken_pair(random, nodes, &mut bytes);
    }
    if numbers.contains(&4) {
        bytes[4 + 5 * random.below(nodes)] = random.between(11, 255) as u8;
    }
    if numbers.contains(&3) {
        wrong_length(random, &mut bytes);
    }
    if numbers.contains(&2) {
        wrong_count(random, &mut bytes);
    }
    if numbers.contains(&1) {
        bytes.truncate(random.below(4));
    }
    bytes
}

/// Gives a node more or fewer pins than its kind takes, some of them so many that
/// the low byte alone would fit. All pins together stay within their limit, since
/// the refusal would be 2 otherwise.
fn unfit_pin_count(random: &mut Random, draft: &mut Draft) {
    let chosen = random.below(draft.nodes.len());
    let node = &mut draft.nodes[chosen];
    let unfit: &[usize] = match node.kind {
        kind::INPUT => &[1, 2, 9, 64, 256],
        kind::OUTPUT..=kind::NOT => &[0, 2, 3, 64, 257],
        kind::AND..=kind::NOR => &[0, 1, 65, 66, 255, 256 + 8],
        _ => &[0, 1, 3, 8, 9, 64, 258],
    };
    let count = random.pick(unfit);
    node.sources.resize(count, 0);
    assert!(draft.pin_count() <= MOST_PINS_IN_ALL);
}

/// Lets one pin name no node, an output, or a node that comes too late. Where
/// the chosen way is not open, the pin names no node.
fn forbidden_source(random: &mut Random, draft: &Draft, bytes: &mut [u8]) {
    let nodes = draft.nodes.len();
    let owners = draft.nodes.iter().enumerate();
    let owners: Vec<usize> = owners
        .flat_map(|(node, owner)| vec![node; owner.sources.len()])
        .collect();
    // Another damage may have taken the last pin away.
    if owners.is_empty() {
        return;
    }
    let pin = random.below(owners.len());
    let owner = owners[pin];
    let outputs = (0..nodes).filter(|node| draft.nodes[*node].kind == kind::OUTPUT);
    let outputs: Vec<usize> = outputs.collect();
    let source = match random.below(5) {
        0 if !outputs.is_empty() => random.pick(&outputs),
        1 if draft.nodes[owner].kind != kind::FLIP_FLOP => owner,
        2 if draft.nodes[owner].kind != kind::FLIP_FLOP => random.between(owner, nodes - 1),
        3 => 65_535,
        _ => nodes,
    };
    put(bytes, 4 + 5 * nodes + 2 * pin, source);
}

/// Changes one offset or one length. Either alone breaks the rule, since the
/// pairs around it stay as they are.
fn broken_pair(random: &mut Random, nodes: usize, bytes: &mut [u8]) {
    let place = 4 + 5 * random.below(nodes) + random.pick(&[1, 3]);
    let old = usize::from(bytes[place]) + 256 * usize::from(bytes[place + 1]);
    let new = match random.below(5) {
        0 => old + 1,
        1 => old ^ 0x8000,
        2 => old.wrapping_sub(1) % 65_536,
        3 => 65_535,
        _ => old ^ random.between(1, 65_535),
    };
    put(bytes, place, new);
}

/// Records whose pairs keep their rule only if sums are taken modulo 65,536:
/// refused with 5. All lengths together are just above 65,535.
pub fn wrapped_pairs(random: &mut Random) -> Vec<u8> {
    let pins = random.below(40);
    let records = random.between(1, 4);
    let mut left = 65_536 + pins;
    let mut lengths = Vec::new();
    for _ in 0..records {
        let length = random.below(left.min(65_535) + 1);
        lengths.push(length);
        left -= length;
    }
    while left > 0 {
        lengths.push(left.min(65_535));
        left -= left.min(65_535);
    }
    let mut bytes = vec![0; 4 + 5 * lengths.len() + 2 * pins];
    put(&mut bytes, 0, lengths.len());
    put(&mut bytes, 2, pins);
    let mut offset = 0;
    for (node, length) in lengths.into_iter().enumerate() {
        bytes[4 + 5 * node] = random.below(11) as u8;
        put(&mut bytes, 5 + 5 * node, offset % 65_536);
        put(&mut bytes, 7 + 5 * node, length);
        offset += length;
    }
    bytes
}

fn wrong_length(random: &mut Random, bytes: &mut Vec<u8>) {
    if random.bit() == 0 {
        let more = random.pick(&[1, 2, 5, 7, 300]);
        bytes.extend(random.bytes(more));
    } else {
        let fewer = random.pick(&[1, 2, 5, 7]);
        bytes.truncate((bytes.len() - fewer).max(4));
    }
}

fn wrong_count(random: &mut Random, bytes: &mut [u8]) {
    match random.below(5) {
        0 => put(bytes, 0, 0),
        1 => put(bytes, 0, 4_097),
        2 => put(bytes, 0, random.between(4_097, 65_535)),
        3 => put(bytes, 2, 16_385),
        _ => put(bytes, 2, random.between(16_385, 65_535)),
    }
}

fn put(bytes: &mut [u8], place: usize, number: usize) {
    bytes[place..place + 2].copy_from_slice(&(number as u16).to_le_bytes());
}
