//! Stuck-at faults.

use super::netlist::Netlist;

/// Where a fault sits: on the node itself or on one of its pins.
#[derive(Clone, Copy, Debug, PartialEq, Eq)]
pub enum Site {
    Whole,
    Pin(u8),
}

impl Site {
    /// The site that a byte writes: 255 is the node itself.
    pub fn from_byte(byte: u8) -> Self {
        match byte {
            255 => Site::Whole,
            pin => Site::Pin(pin),
        }
    }

    /// The byte that writes the site.
    pub fn to_byte(self) -> u8 {
        match self {
            Site::Whole => 255,
            Site::Pin(pin) => pin,
        }
    }
}

/// A fault: a node, a site and the stuck value.
#[derive(Clone, Copy, Debug, PartialEq, Eq)]
pub struct Fault {
    pub node: u16,
    pub site: Site,
    pub u: u8,
}

impl Fault {
    /// Whether the netlist has the node and the site, and u is a value.
    pub fn fits(&self, netlist: &Netlist) -> bool {
        let Some(record) = netlist.record(usize::from(self.node)) else {
            return false;
        };
        let site_exists = match self.site {
            Site::Whole => true,
            Site::Pin(pin) => usize::from(pin) < record.length,
        };
        site_exists && self.u <= 1
    }
}

#[cfg(test)]
mod tests {
    use super::*;

    #[test]
    fn only_the_byte_255_is_the_node_itself() {
        assert_eq!(Site::from_byte(255), Site::Whole);
        for byte in 0..255 {
            assert_eq!(Site::from_byte(byte), Site::Pin(byte));
        }
    }

    #[test]
    fn a_pin_numbered_255_does_not_exist() {
        // One flip-flop fed by itself.
        let bytes = [1, 0, 1, 0, 2, 0, 0, 1, 0, 0, 0];
        let netlist = Netlist::sound(&bytes).unwrap();
        let at = |site| Fault {
            node: 0,
            site,
            u: 0,
        };
        assert!(at(Site::Whole).fits(&netlist));
        assert!(at(Site::Pin(0)).fits(&netlist));
        assert!(!at(Site::Pin(1)).fits(&netlist));
        assert!(!at(Site::Pin(255)).fits(&netlist));
    }
}
