//! Bytes that no draft stands behind.

use super::sound;
use crate::random::Random;

/// Bytes of this length: without a plan, or with counts small enough that the
/// reader gets past them.
pub fn of_length(random: &mut Random, length: usize) -> Vec<u8> {
    let mut bytes = random.bytes(length);
    if random.bit() == 0 && length >= 4 {
        bytes[1] = 0;
        bytes[3] = 0;
        let nodes = random.below(length / 5 + 1);
        bytes[0] = nodes as u8;
        bytes[2] = ((length - 4).saturating_sub(5 * nodes) / 2) as u8;
    }
    bytes
}

/// Pin counts about the most that a gate takes, and such as would fit by their
/// low byte alone.
const EDGES: [u16; 8] = [8, 9, 63, 64, 65, 66, 255, 256 + 8];

/// A few nodes with a fitting length, otherwise small numbers everywhere: most
/// refusals are near, and so is a sound netlist. Rarely a node has many pins.
pub fn shaped(random: &mut Random) -> Vec<u8> {
    let nodes = random.between(1, 4) as u16;
    let mut offset = 0;
    let mut records = Vec::new();
    for _ in 0..nodes {
        let kinds = if random.chance(20) { 12 } else { 11 };
        let kind = random.below(kinds) as u8;
        let length = pin_count(random, kind);
        let written = if random.chance(97) {
            offset
        } else {
            random.below(6) as u16
        };
        records.push(kind);
        records.extend([written, length].map(u16::to_le_bytes).as_flattened());
        offset += length;
    }
    let pins = if random.chance(97) {
        offset
    } else {
        random.below(8) as u16
    };
    let mut bytes = [nodes, pins].map(u16::to_le_bytes).concat();
    bytes.extend(records);
    // Of many pins hardly any is drawn: one that names what it must not is enough
    // for a refusal.
    let drawn = if pins < 8 { 100 } else { 1 };
    for _ in 0..pins {
        let limit = if random.chance(drawn) { nodes + 1 } else { 1 };
        let source = random.below(limit.into()) as u16;
        bytes.extend(source.to_le_bytes());
    }
    bytes
}

/// A pin count for a node of this kind: mostly one that fits.
fn pin_count(random: &mut Random, kind: u8) -> u16 {
    match (random.below(100), kind) {
        (0..=1, _) => random.pick(&EDGES),
        (2..=9, _) => random.below(4) as u16,
        (_, 0) => 0,
        (_, 1..=4) => 1,
        _ => 2,
    }
}

/// A sound netlist with one to three bytes changed.
pub fn altered(random: &mut Random, nodes: usize) -> Vec<u8> {
    let mut bytes = sound::random(random, nodes).to_bytes();
    for _ in 0..random.between(1, 3) {
        let place = random.below(bytes.len());
        bytes[place] = match random.below(3) {
            0 => bytes[place] ^ (1 << random.below(8)),
            1 => random.below(12) as u8,
            _ => random.byte(),
        };
    }
    bytes
}
