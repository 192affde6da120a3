//! Sound netlists at random, with a mix of kinds as in real circuits.

use super::{Draft, Node, WIDE};
use crate::model::kind;
use crate::model::netlist::{MOST_NODES, MOST_PINS_IN_ALL};
use crate::random::Random;

/// The most pins of the gates that pins are spread over. It stays what it is:
/// the benchmark compares libraries on the same netlists, also with older ones,
/// which know no wider gates.
const MOST_SPREAD: usize = 8;

/// A sound netlist of this many nodes. Wide gates are rarer than narrow ones,
/// and the widest are rare.
pub fn random(random: &mut Random, nodes: usize) -> Draft {
    let kinds = kinds(random, nodes);
    let counts: Vec<usize> = kinds
        .iter()
        .map(|kind| match *kind {
            kind if is_wide(kind) => pins_of_gate(random),
            kind => fewest_pins(kind),
        })
        .collect();
    connect(random, &kinds, &counts)
}

fn pins_of_gate(random: &mut Random) -> usize {
    match random.below(100) {
        0 => random.pick(&WIDE),
        1..=39 => random.between(2, 8),
        _ => random.between(2, 3),
    }
}

/// A sound netlist of just so many nodes and pins. There must be room for the
/// pins: about four for each node is safe from a few hundred nodes on.
pub fn of_size(random: &mut Random, nodes: usize, pins: usize) -> Draft {
    let kinds = kinds(random, nodes);
    let mut counts: Vec<usize> = kinds.iter().map(|kind| fewest_pins(*kind)).collect();
    let wide = kinds.iter().filter(|kind| is_wide(**kind)).count();
    let mut total: usize = counts.iter().sum();
    assert!(
        total <= pins && pins <= total + (MOST_SPREAD - 2) * wide,
        "no room for {pins} pins"
    );
    while total < pins {
        let node = random.below(nodes);
        if is_wide(kinds[node]) && counts[node] < MOST_SPREAD {
            counts[node] += 1;
            total += 1;
        }
    }
    connect(random, &kinds, &counts)
}

/// A sound netlist of as many nodes and pins as there may be, all of the pins on
/// gates with as many as a gate may have. Such a gate stands behind every 15
/// inputs; its pins name any smaller nodes, gates among them.
pub fn of_widest_gates(random: &mut Random) -> Draft {
    let gates = MOST_PINS_IN_ALL / kind::MOST_PINS;
    let group = MOST_NODES / gates;
    let nodes = (0..MOST_NODES).map(|node| match (node + 1) % group {
        0 => {
            let gate = random.pick(&[kind::AND, kind::NAND, kind::OR, kind::NOR]);
            (gate, kind::MOST_PINS)
        }
        _ => (kind::INPUT, 0),
    });
    let (kinds, counts): (Vec<u8>, Vec<usize>) = nodes.unzip();
    connect(random, &kinds, &counts)
}

/// Kinds for all nodes. The first is an input or a flip-flop, since nothing
/// else can stand without a smaller source.
fn kinds(random: &mut Random, nodes: usize) -> Vec<u8> {
    let first = random.pick(&[kind::INPUT, kind::FLIP_FLOP]);
    let mut kinds = vec![first];
    kinds.extend((1..nodes).map(|_| kind_of_mix(random)));
    kinds
}

fn kind_of_mix(random: &mut Random) -> u8 {
    match random.below(100) {
        0..=9 => kind::INPUT,
        10..=16 => kind::OUTPUT,
        17..=27 => kind::FLIP_FLOP,
        28..=30 => kind::BUFFER,
        31..=38 => kind::NOT,
        39..=52 => kind::AND,
        53..=66 => kind::NAND,
        67..=79 => kind::OR,
        80..=92 => kind::NOR,
        93..=96 => kind::XOR,
        _ => kind::XNOR,
    }
}

fn fewest_pins(kind: u8) -> usize {
    match kind {
        kind::INPUT => 0,
        kind::OUTPUT..=kind::NOT => 1,
        _ => 2,
    }
}

fn is_wide(kind: u8) -> bool {
    (kind::AND..=kind::NOR).contains(&kind)
}

fn connect(random: &mut Random, kinds: &[u8], counts: &[usize]) -> Draft {
    let nodes = kinds.iter().zip(counts).enumerate();
    let nodes = nodes.map(|(node, (kind, count))| Node {
        kind: *kind,
        sources: (0..*count).map(|_| source(random, kinds, node)).collect(),
    });
    Draft {
        nodes: nodes.collect(),
    }
}

/// An allowed source for a pin of the node: near it as often as anywhere, so
/// that circuits get both deep and wide.
fn source(random: &mut Random, kinds: &[u8], node: usize) -> u16 {
    let limit = match kinds[node] {
        kind::FLIP_FLOP => kinds.len(),
        _ => node,
    };
    for _ in 0..16 {
        let nearest = if random.bit() == 0 {
            0
        } else {
            limit.saturating_sub(16)
        };
        let source = random.between(nearest, limit - 1);
        if kinds[source] != kind::OUTPUT {
            return source as u16;
        }
    }
    // Among many outputs the draws may all fail; the first node never is one.
    0
}

#[cfg(test)]
mod tests {
    use super::*;
    use crate::checksum::Checksum;

    #[test]
    fn the_widest_gates_have_all_the_pins() {
        let draft = of_widest_gates(&mut Random::new(1));
        assert_eq!((draft.nodes.len(), draft.pin_count()), (4_096, 16_384));
        for kind in kind::AND..=kind::NOR {
            let gates = draft.nodes.iter().filter(|node| node.kind == kind);
            let counts: Vec<usize> = gates.map(|gate| gate.sources.len()).collect();
            assert!(counts.len() >= 30, "{} of kind {kind}", counts.len());
            assert!(counts.iter().all(|count| *count == 64));
        }
        let gates = draft.nodes.iter().filter(|node| node.kind != kind::INPUT);
        assert_eq!(gates.count(), 256);
    }

    #[test]
    fn netlists_of_a_size_stay_the_same() {
        for (seed, nodes, pins, sum) in [
            (1, 4_096, 16_384, 0x072F_87A8_D571_B2C8),
            (2, 1_000, 4_000, 0x862A_AF70_29FF_9D8F),
            (20_010_601, 300, 1_000, 0xDCA3_BAAF_0166_C1D4),
        ] {
            let draft = of_size(&mut Random::new(seed), nodes, pins);
            let checksum = Checksum::of(&draft.to_bytes());
            assert_eq!(checksum.number(), sum, "seed {seed}");
        }
    }
}
