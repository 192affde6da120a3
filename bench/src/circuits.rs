//! The circuits that are read and stepped.

use crate::lines::checksum_of;
use leverpeach_tests::circuits::{calls, sound, Draft};
use leverpeach_tests::model::netlist::{MOST_NODES, MOST_PINS_IN_ALL};
use leverpeach_tests::model::{self, Stepped};
use leverpeach_tests::native::{self, FaultBytes};
use leverpeach_tests::random::Random;
use std::fmt::{self, Debug, Display, Formatter};
use std::hint::black_box;

/// Nodes of all circuits of one make together. It is the same for each make,
/// so that caches and branch prediction help small circuits no more than large
/// ones.
const NODES_IN_ALL: usize = 65_536;

/// What circuits are made of.
#[derive(Clone, Copy)]
pub enum Make {
    /// Random gates, most of them narrow, with so many nodes and pins.
    Usual(usize, usize),
    /// As many nodes and pins as a netlist may have, and the widest gates.
    Widest,
}

impl Make {
    /// The first of these circuits.
    pub fn netlist(self) -> Vec<u8> {
        self.draft(&mut self.random()).to_bytes()
    }

    fn random(self) -> Random {
        Random::new(self.nodes() as u64)
    }

    fn draft(self, random: &mut Random) -> Draft {
        match self {
            Make::Usual(nodes, pins) => sound::of_size(random, nodes, pins),
            Make::Widest => sound::of_widest_gates(random),
        }
    }

    pub fn nodes(self) -> usize {
        match self {
            Make::Usual(nodes, _) => nodes,
            Make::Widest => MOST_NODES,
        }
    }

    pub fn pins(self) -> usize {
        match self {
            Make::Usual(_, pins) => pins,
            Make::Widest => MOST_PINS_IN_ALL,
        }
    }
}

impl Display for Make {
    fn fmt(&self, out: &mut Formatter) -> fmt::Result {
        match self {
            Make::Usual(nodes, _) => write!(out, "{nodes} nodes"),
            Make::Widest => write!(out, "widest gates"),
        }
    }
}

/// A netlist, a fault of it, and the simulator's slices.
#[derive(PartialEq)]
struct Circuit {
    netlist: Vec<u8>,
    fault: FaultBytes,
    first: Vec<u8>,
    second: Vec<u8>,
}

/// Circuits of one make, the same ones each time they are made.
#[derive(PartialEq)]
pub struct Circuits {
    circuits: Vec<Circuit>,
}

impl Circuits {
    pub fn new(make: Make) -> Self {
        let (nodes, mut random) = (make.nodes(), make.random());
        let circuits = (0..NODES_IN_ALL / nodes).map(|_| {
            let draft = make.draft(&mut random);
            Circuit {
                netlist: draft.to_bytes(),
                fault: calls::fault_bytes(&mut random, &draft),
                first: calls::first(&mut random, &draft),
                second: vec![0; nodes],
            }
        });
        Circuits {
            circuits: circuits.collect(),
        }
    }

    /// How many circuits there are, each read or stepped once in a run.
    pub fn circuit_count(&self) -> usize {
        self.circuits.len()
    }

    pub fn read_with_library(&self) {
        for circuit in &self.circuits {
            black_box(native::read(black_box(&circuit.netlist)));
        }
    }

    pub fn read_with_model(&self) {
        for circuit in &self.circuits {
            black_box(model::read(black_box(&circuit.netlist)));
        }
    }

    /// Of what the library's reader answers.
    pub fn reader_checksum(&self) -> u64 {
        checksum_of(self.circuits.iter().map(|c| native::read(&c.netlist)))
    }

    pub fn simulate_with_library(&mut self) {
        self.simulate_with(native::simulate, 0);
    }

    pub fn simulate_with_model(&mut self) {
        let step = |netlist: &[u8], fault: FaultBytes, first: &mut [u8], second: &mut [u8]| {
            model::simulate(netlist, fault.meaning(), first, second)
        };
        self.simulate_with(step, Stepped::Done);
    }

    /// Of what a step of the library leaves in the slices.
    pub fn simulator_checksum(&mut self) -> u64 {
        self.simulate_with_library();
        checksum_of(self.circuits.iter().map(|c| (&c.first, &c.second)))
    }

    /// Steps every circuit once; each gets this answer.
    fn simulate_with<A: Debug + PartialEq>(
        &mut self,
        step: impl Fn(&[u8], FaultBytes, &mut [u8], &mut [u8]) -> A,
        done: A,
    ) {
        for circuit in &mut self.circuits {
            let netlist = black_box(&circuit.netlist);
            let (first, second) = (&mut circuit.first, &mut circuit.second);
            assert_eq!(step(netlist, circuit.fault, first, second), done);
        }
    }
}
