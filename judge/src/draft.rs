//! Circuits written out node by node.

use crate::netlist::{Kind, Netlist};

/// A circuit in the making.
#[derive(Default)]
pub struct Draft {
    nodes: Vec<(Kind, Vec<usize>)>,
}

impl Draft {
    /// Adds a node whose pins have these sources, and gives its number.
    pub fn node(&mut self, kind: Kind, sources: &[usize]) -> usize {
        self.nodes.push((kind, sources.to_vec()));
        self.nodes.len() - 1
    }

    pub fn input(&mut self) -> usize {
        self.node(Kind::Input, &[])
    }

    /// The netlist as it is read from the circuit's bytes, so that the reader is
    /// tried out too.
    pub fn netlist(&self) -> Netlist {
        Netlist::read(&self.bytes()).expect("the circuit is sound")
    }

    fn bytes(&self) -> Vec<u8> {
        let lengths = self.nodes.iter().map(|(_, sources)| sources.len());
        let mut bytes = Vec::new();
        put(&mut bytes, self.nodes.len());
        put(&mut bytes, lengths.sum());
        let mut offset = 0;
        for (kind, sources) in &self.nodes {
            let number = Kind::ALL.iter().position(|other| other == kind);
            bytes.push(number.expect("every kind has a number") as u8);
            put(&mut bytes, offset);
            put(&mut bytes, sources.len());
            offset += sources.len();
        }
        for source in self.nodes.iter().flat_map(|(_, sources)| sources) {
            put(&mut bytes, *source);
        }
        bytes
    }
}

/// Writes a number in two bytes, the low one first.
fn put(bytes: &mut Vec<u8>, number: usize) {
    let number = u16::try_from(number).expect("a draft is small");
    bytes.extend(number.to_le_bytes());
}
