//! Certificates before they are bytes: found, swept from a given split, or made
//! of steps that follow, in any order.

use super::calls::{self, Request};
use crate::model::certificate::{Certificate, Subject, STEP};
use crate::model::finder::{self, Finding, Lent};
use crate::model::netlist::Netlist;
use crate::model::window::{Knowledge, Learnt, Line, Step, Window};
use crate::model::{Fault, Trap};
use crate::random::Random;

/// What a certificate is about, and the steps of its two branches. It need not
/// be acceptable.
#[derive(Clone, Debug)]
pub struct Argument {
    pub subject: Subject,
    pub runs: [Vec<Step>; 2],
}

impl Argument {
    /// The parts of a certificate whose pairs are right.
    pub fn read(bytes: &[u8]) -> Self {
        let certificate = Certificate::split(bytes).expect("the pairs are right");
        Argument {
            subject: certificate.subject,
            runs: certificate
                .runs
                .map(|run| run.iter().map(Step::from_bytes).collect()),
        }
    }

    /// The certificate's bytes, with pairs that are right.
    pub fn to_bytes(&self) -> Vec<u8> {
        let lengths = [0, 1].map(|branch: usize| STEP * self.runs[branch].len());
        let mut bytes = self.subject.head(lengths).to_vec();
        for step in self.runs.iter().flatten() {
            bytes.extend(step.to_bytes());
        }
        bytes
    }
}

/// The certificate that the model's finder writes, if it finds one. In a trap
/// it may be one that is not acceptable.
pub fn found(trap: Option<Trap>, netlist: &[u8], fault: Fault, b: u8, f: u8) -> Option<Vec<u8>> {
    let lengths = Request { fault, b, f }.slice_lengths(calls::node_count(netlist));
    let [mut first, mut second, mut certificate] = lengths.map(|length| vec![0; length]);
    let lent = Lent {
        first: &mut first,
        second: &mut second,
        certificate: &mut certificate,
    };
    match finder::find_in_trap(trap, netlist, fault, b, f, lent) {
        Finding::Found { length, .. } => {
            certificate.truncate(length);
            Some(certificate)
        }
        Finding::None => None,
        Finding::Refused(number) => panic!("the finder refuses with {number}"),
    }
}

/// Sweeps both branches of the subject's split, whether they close or not.
pub fn swept(netlist: &[u8], subject: Subject) -> Argument {
    let runs = [0, 1].map(|value| {
        let mut run = Vec::new();
        with_knowledge(netlist, subject, |knowledge| {
            finder::sweep(knowledge, subject.split, value, |step| run.push(*step));
        });
        run
    });
    Argument { subject, runs }
}

/// Takes steps that follow, each drawn from all there are, until there are no
/// more, a branch has met a contradiction or has so many of them.
pub fn walked(random: &mut Random, netlist: &[u8], subject: Subject, most: usize) -> Argument {
    let runs = [0, 1].map(|value| {
        let mut run = Vec::new();
        with_knowledge(netlist, subject, |knowledge| {
            let mut last = knowledge.learn(subject.split, value);
            while run.len() < most && last != Learnt::Opposite {
                let next = steps_that_follow(knowledge);
                if next.is_empty() {
                    break;
                }
                let step = random.pick(&next);
                last = knowledge.learn(step.line, step.value);
                run.push(step);
            }
        });
        run
    });
    Argument { subject, runs }
}

fn with_knowledge(netlist: &[u8], subject: Subject, work: impl FnOnce(&mut Knowledge)) {
    let window = Window {
        netlist: Netlist::sound(netlist).expect("the netlist is sound"),
        fault: subject.fault,
        c: subject.c.into(),
        frames: subject.frames(),
        trap: None,
    };
    let mut slice = vec![0; window.places()];
    work(&mut Knowledge::start(window, &mut slice));
}

/// All steps that the checker would allow next.
fn steps_that_follow(knowledge: &Knowledge) -> Vec<Step> {
    let window = &knowledge.window;
    let relations = window.lines().filter_map(|line| window.relation(line));
    let concluded = relations.flat_map(|relation| {
        let output = knowledge.conclude_output(&relation);
        let pins =
            (0..relation.pin_count()).filter_map(move |pin| knowledge.conclude_pin(&relation, pin));
        output.into_iter().chain(pins)
    });
    concluded
        .filter(|step| knowledge.value(step.line) != Some(step.value))
        .collect()
}

/// A subject at random: a window of so many frames at the most, and any split
/// in it.
pub fn subject(random: &mut Random, fault: Fault, nodes: usize, most_frames: usize) -> Subject {
    let frames = random.between(1, most_frames);
    let c = random.below(frames);
    Subject {
        fault,
        c: c as u8,
        f: (frames - 1 - c) as u8,
        split: Line {
            node: random.below(nodes),
            frame: random.below(frames),
        },
    }
}
