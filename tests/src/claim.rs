//! The kit's promise for an accepted certificate, decided exactly for circuits
//! that are small enough.
//!
//! The faulty and the good circuit run side by side over all inputs. The pairs
//! of states that they can come to are finite in number, so following them all
//! decides the promise for clock lists of any length.

use crate::model::netlist::Netlist;
use crate::model::{self, kind, Fault, Stepped};

/// Both circuits as tables.
pub struct Claim {
    faulty: Machine,
    good: Machine,
}

impl Claim {
    pub fn new(netlist: &[u8], fault: Fault) -> Self {
        Claim {
            faulty: Machine::new(netlist, Some(fault)),
            good: Machine::new(netlist, None),
        }
    }

    /// Whether from clock c on no output tells the faulty circuit from the good
    /// one, which starts at clock c with what the faulty one then has latched.
    pub fn holds(&self, c: u8) -> bool {
        let states = self.faulty.states;
        let mut open: Vec<(usize, usize)> = Vec::new();
        let mut met = vec![false; states * states];
        for state in self.faulty.states_before(c) {
            met[state * states + state] = true;
            open.push((state, state));
        }
        while let Some((faulty, good)) = open.pop() {
            for input in 0..self.faulty.inputs {
                let faulty = self.faulty.clock(faulty, input);
                let good = self.good.clock(good, input);
                if faulty.outputs != good.outputs {
                    return false;
                }
                let place = faulty.latched * states + good.latched;
                if !met[place] {
                    met[place] = true;
                    open.push((faulty.latched, good.latched));
                }
            }
        }
        true
    }
}

/// What one clock shows and leaves: a bit for each output and for each
/// flip-flop.
#[derive(Clone, Copy)]
struct Clock {
    outputs: usize,
    latched: usize,
}

/// The clock step for every state and every input, both as bits.
struct Machine {
    states: usize,
    inputs: usize,
    clocks: Vec<Clock>,
}

impl Machine {
    fn new(netlist: &[u8], fault: Option<Fault>) -> Self {
        let [flip_flops, inputs, outputs] =
            [kind::FLIP_FLOP, kind::INPUT, kind::OUTPUT].map(|kind| nodes_of(netlist, kind));
        let nodes = Netlist::sound(netlist).map_or(0, |netlist| netlist.node_count());
        let mut machine = Machine {
            states: 1 << flip_flops.len(),
            inputs: 1 << inputs.len(),
            clocks: Vec::new(),
        };
        let (mut seen, mut latched) = (vec![0; nodes], vec![0; nodes]);
        for state in 0..machine.states {
            for input in 0..machine.inputs {
                put_bits(&mut seen, &flip_flops, state);
                put_bits(&mut seen, &inputs, input);
                let stepped = model::simulate(netlist, fault, &mut seen, &mut latched);
                assert_eq!(stepped, Stepped::Done);
                machine.clocks.push(Clock {
                    outputs: bits(&seen, &outputs),
                    latched: bits(&latched, &flip_flops),
                });
            }
        }
        machine
    }

    fn clock(&self, state: usize, input: usize) -> Clock {
        self.clocks[state * self.inputs + input]
    }

    /// The states that the circuit can have before clock c, from any start.
    fn states_before(&self, c: u8) -> Vec<usize> {
        let mut reached = vec![true; self.states];
        for _ in 0..c {
            let mut next = vec![false; self.states];
            for state in (0..self.states).filter(|state| reached[*state]) {
                for input in 0..self.inputs {
                    next[self.clock(state, input).latched] = true;
                }
            }
            reached = next;
        }
        (0..self.states).filter(|state| reached[*state]).collect()
    }
}

fn nodes_of(netlist: &[u8], kind: u8) -> Vec<usize> {
    let netlist = Netlist::sound(netlist).expect("the netlist is sound");
    let nodes = netlist.records().enumerate();
    nodes
        .filter(|(_, record)| record.kind == kind)
        .map(|(node, _)| node)
        .collect()
}

fn put_bits(slice: &mut [u8], nodes: &[usize], bits: usize) {
    for (bit, node) in nodes.iter().enumerate() {
        slice[*node] = (bits >> bit & 1) as u8;
    }
}

fn bits(slice: &[u8], nodes: &[usize]) -> usize {
    let places = nodes.iter().enumerate();
    places.fold(0, |bits, (bit, node)| {
        bits | usize::from(slice[*node]) << bit
    })
}

#[cfg(test)]
mod tests {
    use super::*;
    use crate::model::Site;

    #[test]
    fn a_stuck_wire_is_told_apart() {
        // An input, and its output.
        let netlist = [2, 0, 1, 0, 0, 0, 0, 0, 0, 1, 0, 0, 1, 0, 0, 0];
        for node in 0..2 {
            let site = Site::Whole;
            let claim = Claim::new(&netlist, Fault { node, site, u: 0 });
            assert!(!claim.holds(0));
            assert!(!claim.holds(3));
        }
    }

    #[test]
    fn a_loop_that_is_stuck_is_told_apart_only_before_it_has_settled() {
        // A flip-flop fed by itself, and its output.
        let netlist = [2, 0, 2, 0, 2, 0, 0, 1, 0, 1, 1, 0, 1, 0, 0, 0, 0, 0];
        let fault = Fault {
            node: 0,
            site: Site::Whole,
            u: 0,
        };
        let claim = Claim::new(&netlist, fault);
        assert!(!claim.holds(0));
        assert!(claim.holds(1));
    }
}
