//! A netlist before it is bytes. A draft need not be sound.

use crate::model::kind;

/// A node to be: its kind and the sources of its pins.
#[derive(Clone, Debug)]
pub struct Node {
    pub kind: u8,
    pub sources: Vec<u16>,
}

#[derive(Clone, Debug, Default)]
pub struct Draft {
    pub nodes: Vec<Node>,
}

impl Draft {
    /// A draft from kinds and sources, written out.
    pub fn of(nodes: &[(u8, &[u16])]) -> Self {
        let nodes = nodes.iter().map(|(kind, sources)| Node {
            kind: *kind,
            sources: sources.to_vec(),
        });
        Draft {
            nodes: nodes.collect(),
        }
    }

    /// Inputs alone.
    pub fn inputs(count: usize) -> Self {
        Draft::of(&vec![(kind::INPUT, &[][..]); count])
    }

    pub fn push(&mut self, kind: u8, sources: &[u16]) {
        let sources = sources.to_vec();
        self.nodes.push(Node { kind, sources });
    }

    pub fn pin_count(&self) -> usize {
        self.nodes.iter().map(|node| node.sources.len()).sum()
    }

    /// The netlist's bytes, with pairs that keep their rule.
    pub fn to_bytes(&self) -> Vec<u8> {
        let mut bytes = Vec::with_capacity(4 + 5 * self.nodes.len() + 2 * self.pin_count());
        put(&mut bytes, self.nodes.len());
        put(&mut bytes, self.pin_count());
        let mut offset = 0;
        for node in &self.nodes {
            bytes.push(node.kind);
            put(&mut bytes, offset);
            put(&mut bytes, node.sources.len());
            offset += node.sources.len();
        }
        for source in self.nodes.iter().flat_map(|node| &node.sources) {
            put(&mut bytes, usize::from(*source));
        }
        bytes
    }
}

fn put(bytes: &mut Vec<u8>, number: usize) {
    let number = u16::try_from(number).expect("a draft's numbers fit two bytes");
    bytes.extend_from_slice(&number.to_le_bytes());
}
