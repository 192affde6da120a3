//! Stuck-at faults.

use crate::netlist::Netlist;
use std::fmt;

/// Where a fault sits: on the node itself, or on one of its pins.
#[derive(Clone, Copy, Debug, PartialEq, Eq)]
pub enum Site {
    Node,
    Pin(usize),
}

/// A line that is stuck at a value.
#[derive(Clone, Copy, Debug, PartialEq, Eq)]
pub struct Fault {
    pub node: usize,
    pub site: Site,
    pub stuck: bool,
}

impl Fault {
    pub fn at_node(node: usize, stuck: bool) -> Self {
        let site = Site::Node;
        Fault { node, site, stuck }
    }

    pub fn at_pin(node: usize, pin: usize, stuck: bool) -> Self {
        let site = Site::Pin(pin);
        Fault { node, site, stuck }
    }

    pub fn is_at_node(&self, node: usize) -> bool {
        self.node == node && self.site == Site::Node
    }

    pub fn is_at_pin(&self, node: usize, pin: usize) -> bool {
        self.node == node && self.site == Site::Pin(pin)
    }
}

impl fmt::Display for Fault {
    fn fmt(&self, text: &mut fmt::Formatter) -> fmt::Result {
        write!(text, "node {}", self.node)?;
        if let Site::Pin(pin) = self.site {
            write!(text, " pin {pin}")?;
        }
        write!(text, " stuck at {}", u8::from(self.stuck))
    }
}

/// Every fault of a circuit in the report's order: by node, pins before the node
/// itself, stuck at 0 before stuck at 1.
pub fn all_of(netlist: &Netlist) -> Vec<Fault> {
    let mut faults = Vec::new();
    for (number, node) in netlist.nodes.iter().enumerate() {
        let pins = (0..node.sources.len()).map(Site::Pin);
        for site in pins.chain([Site::Node]) {
            faults.extend([false, true].map(|stuck| Fault {
                node: number,
                site,
                stuck,
            }));
        }
    }
    faults
}
