//! The certificates that are checked.

use crate::lines::checksum_of;
use leverpeach_tests::circuits::certificates::{self, Argument};
use leverpeach_tests::circuits::Draft;
use leverpeach_tests::model::certificate::Subject;
use leverpeach_tests::model::window::Line;
use leverpeach_tests::model::{self, kind, Checked, Fault, Site};
use leverpeach_tests::native;
use leverpeach_tests::random::Random;
use std::fmt::Debug;
use std::hint::black_box;

/// Steps of all certificates of one size together, the same for each size.
const STEPS_IN_ALL: usize = 100_000;

/// The fault frame, and the frames after it: a window as wide as allowed.
const C: u8 = 7;
const F: u8 = 7;
const FRAMES: usize = 15;

/// A netlist, a certificate that is accepted for it, and the work slices.
#[derive(PartialEq)]
struct Check {
    netlist: Vec<u8>,
    certificate: Vec<u8>,
    first: Vec<u8>,
    second: Vec<u8>,
}

/// Certificates of about so many steps, the same ones each time they are made.
#[derive(PartialEq)]
pub struct Checks {
    checks: Vec<Check>,
    pub nodes: usize,
    pub pins: usize,
    pub steps: usize,
}

impl Checks {
    /// Each step concludes one of the lines of one of the two branches.
    pub fn new(about_steps: usize) -> Self {
        let mut random = Random::new(about_steps as u64);
        let nodes = about_steps / (2 * FRAMES) + 1;
        let count = STEPS_IN_ALL / about_steps;
        let mut made = Checks {
            checks: Vec::with_capacity(count),
            nodes,
            pins: 0,
            steps: 0,
        };
        for _ in 0..count {
            let draft = settled_by_one_node(&mut random, nodes);
            let netlist = draft.to_bytes();
            let argument = closing(&netlist);
            made.pins += draft.pin_count();
            made.steps += argument.runs[0].len() + argument.runs[1].len();
            made.checks.push(Check {
                netlist,
                certificate: argument.to_bytes(),
                first: vec![0; nodes * FRAMES],
                second: vec![0; nodes * FRAMES],
            });
        }
        (made.pins, made.steps) = (made.pins / count, made.steps / count);
        made
    }

    /// How many certificates there are, each checked once in a run.
    pub fn certificate_count(&self) -> usize {
        self.checks.len()
    }

    pub fn check_with_library(&mut self) {
        self.check_with(native::check, native::accepted_number(C));
    }

    pub fn check_with_model(&mut self) {
        self.check_with(model::check, Checked::Accepted(C));
    }

    /// Of what the library leaves in the work slices, where it accepts as it must.
    pub fn checksum(&mut self) -> u64 {
        self.check_with_library();
        checksum_of(self.checks.iter().map(|work| (&work.first, &work.second)))
    }

    /// Checks every certificate once; each gets this answer.
    fn check_with<A: Debug + PartialEq>(
        &mut self,
        check: impl Fn(&[u8], &[u8], &mut [u8], &mut [u8]) -> A,
        accepted: A,
    ) {
        for work in &mut self.checks {
            let (netlist, certificate) = (black_box(&work.netlist), black_box(&work.certificate));
            let answer = check(netlist, certificate, &mut work.first, &mut work.second);
            assert_eq!(answer, accepted);
        }
    }
}

/// A flip-flop fed by itself, an AND of it twice, and gates of all kinds that
/// hang on these two: the flip-flop settles the value of every line.
fn settled_by_one_node(random: &mut Random, nodes: usize) -> Draft {
    let mut draft = Draft::of(&[(kind::FLIP_FLOP, &[0]), (kind::AND, &[0, 0])]);
    for node in 2..nodes - 1 {
        let kind = random.between(kind::BUFFER.into(), kind::XNOR.into()) as u8;
        let pins = match kind {
            kind::BUFFER | kind::NOT => 1,
            kind::XOR | kind::XNOR => 2,
            _ => random.pick(&[2, 2, 2, 3, 4, 8]),
        };
        let nearest = node.saturating_sub(20);
        let sources = (0..pins).map(|_| random.between(nearest, node - 1) as u16);
        draft.push(kind, &sources.collect::<Vec<u16>>());
    }
    draft.push(kind::OUTPUT, &[nodes as u16 - 2]);
    draft
}

/// The AND's first pin stuck at 1, split at the flip-flop: a 0 blocks the
/// effect at the AND's other pin, a 1 is what the pin is stuck at.
fn closing(netlist: &[u8]) -> Argument {
    let subject = Subject {
        fault: Fault {
            node: 1,
            site: Site::Pin(0),
            u: 1,
        },
        c: C,
        f: F,
        split: Line { node: 0, frame: 0 },
    };
    certificates::swept(netlist, subject)
}
