//! The window of frames, what a branch knows in it, and what follows from that
//! by the nodes' relations.

use super::fault::{Fault, Site};
use super::kind;
use super::netlist::{Netlist, Record};
use super::trap::Trap;

/// The most frames that a window may have.
pub const MOST_FRAMES: usize = 15;

/// A node at a frame. It stands for the value there, and also names the node's
/// relation at that frame.
#[derive(Clone, Copy, Debug, PartialEq, Eq)]
pub struct Line {
    pub node: usize,
    pub frame: usize,
}

/// One conclusion: a value of a line, and the relation it follows by.
#[derive(Clone, Copy, Debug, PartialEq, Eq)]
pub struct Step {
    pub line: Line,
    pub value: u8,
    pub relation: Line,
}

/// A netlist over c + F + 1 frames. The fault is present in frames below c.
#[derive(Clone, Copy)]
pub struct Window<'a> {
    pub netlist: Netlist<'a>,
    pub fault: Fault,
    pub c: usize,
    pub frames: usize,
    pub trap: Option<Trap>,
}

/// A node's relation at a frame, once it is clear that there is one. The pins
/// of a flip-flop lie one frame earlier than its output.
#[derive(Clone, Copy)]
pub struct Relation {
    output: Line,
    record: Record,
    pin_frame: usize,
    stuck_pin: Option<usize>,
}

impl<'a> Window<'a> {
    /// How many lines the window has, each with a place in the work slices.
    pub fn places(&self) -> usize {
        self.netlist.node_count() * self.frames
    }

    pub fn has(&self, line: Line) -> bool {
        line.node < self.netlist.node_count() && line.frame < self.frames
    }

    pub fn place(&self, line: Line) -> usize {
        line.frame * self.netlist.node_count() + line.node
    }

    /// Every line by rising frame, then node.
    pub fn lines(&self) -> impl Iterator<Item = Line> {
        let nodes = self.netlist.node_count();
        (0..self.frames).flat_map(move |frame| (0..nodes).map(move |node| Line { node, frame }))
    }

    pub fn is_faulted_node(&self, node: usize) -> bool {
        self.fault.site == Site::Whole && usize::from(self.fault.node) == node
    }

    /// The faulted pin of a node, if it has one.
    pub fn faulted_pin(&self, node: usize) -> Option<usize> {
        match self.fault.site {
            Site::Pin(pin) if usize::from(self.fault.node) == node => Some(pin.into()),
            _ => None,
        }
    }

    /// The relation of a line of the window. Inputs and flip-flops at frame 0
    /// have none, nor has a faulted node below frame c.
    pub fn relation(&self, line: Line) -> Option<Relation> {
        let record = self.netlist.record(line.node)?;
        if line.frame < self.c
            && self.is_faulted_node(line.node)
            && self.trap != Some(Trap::StuckLineConcludes)
        {
            return None;
        }
        let pin_frame = match record.kind {
            kind::INPUT => return None,
            kind::FLIP_FLOP => line.frame.checked_sub(1)?,
            _ => line.frame,
        };
        // A pin is stuck by its own frame, not by that of the output.
        let stuck_pin = match pin_frame < self.c {
            true => self.faulted_pin(line.node),
            false => None,
        };
        Some(Relation {
            output: line,
            record,
            pin_frame,
            stuck_pin,
        })
    }
}

impl Relation {
    pub fn pin_count(&self) -> usize {
        self.record.length
    }
}

/// What has become of a value that was to be learnt.
#[derive(Clone, Copy, Debug, PartialEq, Eq)]
pub enum Learnt {
    New,
    Known,
    /// The opposite is known: a contradiction.
    Opposite,
}

/// What one branch knows. A place of the slice is 0 for an unknown line, and
/// one more than the value for a known one.
pub struct Knowledge<'a> {
    pub window: Window<'a>,
    places: &'a mut [u8],
}

impl<'a> Knowledge<'a> {
    /// A branch's knowledge before its split: only what is held below frame c.
    pub fn start(window: Window<'a>, slice: &'a mut [u8]) -> Self {
        let places = &mut slice[..window.places()];
        places.fill(0);
        let mut knowledge = Knowledge { window, places };
        let node = usize::from(window.fault.node);
        if window.is_faulted_node(node) {
            for frame in 0..window.c {
                knowledge.learn(Line { node, frame }, window.fault.u);
            }
        }
        knowledge
    }

    pub fn value(&self, line: Line) -> Option<u8> {
        self.places[self.window.place(line)].checked_sub(1)
    }

    /// Takes a value in, unless the line has one already.
    pub fn learn(&mut self, line: Line, value: u8) -> Learnt {
        let place = &mut self.places[self.window.place(line)];
        match place.checked_sub(1) {
            None => {
                *place = value + 1;
                Learnt::New
            }
            Some(known) if known == value => Learnt::Known,
            Some(_) => Learnt::Opposite,
        }
    }

    /// Whether a step's value follows by its relation from what is known.
    #[inline(always)]
    pub fn follows(&self, step: &Step) -> bool {
        let Some(relation) = self.window.relation(step.relation) else {
            return false;
        };
        let pins = self.pins(&relation);
        if step.line == relation.output {
            return output_from(relation.record.kind, &pins) == Some(step.value);
        }
        let sources = self.window.netlist.sources(relation.record).enumerate();
        step.line.frame == relation.pin_frame
            && sources
                .filter(|(_, source)| *source == step.line.node)
                .any(|(pin, _)| self.pin_from(&relation, &pins, pin) == Some(step.value))
    }

    /// The conclusion for a relation's output, if there is one.
    pub fn conclude_output(&self, relation: &Relation) -> Option<Step> {
        let value = output_from(relation.record.kind, &self.pins(relation))?;
        Some(Step {
            line: relation.output,
            value,
            relation: relation.output,
        })
    }

    /// The conclusion for the source of one of a relation's pins.
    pub fn conclude_pin(&self, relation: &Relation, pin: usize) -> Option<Step> {
        let value = self.pin_from(relation, &self.pins(relation), pin)?;
        let node = self.window.netlist.sources(relation.record).nth(pin)?;
        let frame = relation.pin_frame;
        Some(Step {
            line: Line { node, frame },
            value,
            relation: relation.output,
        })
    }

    /// What a pin reads: u if it is stuck, otherwise what is known of its
    /// source.
    fn reads(&self, relation: &Relation, pin: usize, node: usize) -> Option<u8> {
        if relation.stuck_pin == Some(pin) {
            return Some(self.window.fault.u);
        }
        let frame = relation.pin_frame;
        self.value(Line { node, frame })
    }

    /// Counts what the pins of a relation read.
    #[inline(always)]
    fn pins(&self, relation: &Relation) -> Pins {
        let mut pins = Pins {
            count: relation.record.length,
            zeros: 0,
            ones: 0,
        };
        let sources = self.window.netlist.sources(relation.record).enumerate();
        for (pin, source) in sources {
            match self.reads(relation, pin, source) {
                Some(0) => pins.zeros += 1,
                Some(_) => pins.ones += 1,
                None => {}
            }
        }
        pins
    }

    /// A pin's value, if the output and the other pins give it. Of the source
    /// of a stuck pin nothing is concluded.
    fn pin_from(&self, relation: &Relation, pins: &Pins, pin: usize) -> Option<u8> {
        if relation.stuck_pin == Some(pin) && self.window.trap != Some(Trap::StuckLineConcludes) {
            return None;
        }
        let output = self.value(relation.output)?;
        let source = self.window.netlist.sources(relation.record).nth(pin)?;
        let others = pins.without(self.reads(relation, pin, source));
        pin_from(relation.record.kind, output, &others)
    }
}

/// Some pins, and how many of them read 0 and 1.
struct Pins {
    count: usize,
    zeros: usize,
    ones: usize,
}

impl Pins {
    fn without(&self, read: Option<u8>) -> Pins {
        Pins {
            count: self.count - 1,
            zeros: self.zeros - usize::from(read == Some(0)),
            ones: self.ones - usize::from(read == Some(1)),
        }
    }
}

/// The value that pins give to the output of their relation.
fn output_from(kind: u8, pins: &Pins) -> Option<u8> {
    match kind {
        kind::AND => and(pins),
        kind::NAND => and(pins).map(negated),
        kind::OR => or(pins),
        kind::NOR => or(pins).map(negated),
        kind::XOR => sum(pins),
        kind::XNOR => sum(pins).map(negated),
        kind::OUTPUT | kind::FLIP_FLOP | kind::BUFFER => sum(pins),
        kind::NOT => sum(pins).map(negated),
        _ => None,
    }
}

/// The value that the output and all other pins give to a pin.
fn pin_from(kind: u8, output: u8, others: &Pins) -> Option<u8> {
    match kind {
        kind::AND => and_pin(output, others),
        kind::NAND => and_pin(negated(output), others),
        kind::OR => or_pin(output, others),
        kind::NOR => or_pin(negated(output), others),
        kind::XOR => sum(others).map(|rest| rest ^ output),
        kind::XNOR => sum(others).map(|rest| negated(rest ^ output)),
        // No other pins: the output alone gives the pin.
        kind::OUTPUT | kind::FLIP_FLOP | kind::BUFFER => Some(output),
        kind::NOT => Some(negated(output)),
        _ => None,
    }
}

/// A 0 pin gives 0, all pins 1 give 1.
fn and(pins: &Pins) -> Option<u8> {
    match pins {
        Pins { zeros: 1.., .. } => Some(0),
        Pins { ones, count, .. } if ones == count => Some(1),
        _ => None,
    }
}

/// Output 1 gives every pin 1, output 0 with all other pins 1 the last pin 0.
fn and_pin(output: u8, others: &Pins) -> Option<u8> {
    match output {
        1 => Some(1),
        _ => (others.ones == others.count).then_some(0),
    }
}

/// A 1 pin gives 1, all pins 0 give 0.
fn or(pins: &Pins) -> Option<u8> {
    match pins {
        Pins { ones: 1.., .. } => Some(1),
        Pins { zeros, count, .. } if zeros == count => Some(0),
        _ => None,
    }
}

/// Output 0 gives every pin 0, output 1 with all other pins 0 the last pin 1.
fn or_pin(output: u8, others: &Pins) -> Option<u8> {
    match output {
        0 => Some(0),
        _ => (others.zeros == others.count).then_some(1),
    }
}

/// The sum of pins that are all known, modulo 2.
fn sum(pins: &Pins) -> Option<u8> {
    (pins.zeros + pins.ones == pins.count).then_some((pins.ones % 2) as u8)
}

fn negated(value: u8) -> u8 {
    1 ^ value
}
