//! The effect trace: where the fault's effect may come to in a branch, from the
//! fault frame on.

use super::kind;
use super::netlist::Record;
use super::trap::Trap;
use super::window::{Knowledge, Line, Window};

/// Whether a branch closes without a contradiction: no output is touched in the
/// window, and no flip-flop's pin in the last frame. The marks are left in the
/// slice.
pub fn closes(knowledge: &Knowledge, slice: &mut [u8]) -> bool {
    let window = knowledge.window;
    let marks = &mut slice[..window.places()];
    let mut trace = Trace {
        window,
        knowledge,
        marks,
    };
    (window.c..window.frames).all(|frame| !trace.touches_output(frame))
        && !trace.leaves_the_window()
}

struct Trace<'t> {
    window: Window<'t>,
    knowledge: &'t Knowledge<'t>,
    marks: &'t mut [u8],
}

impl Trace<'_> {
    /// Marks a frame's touched nodes, until one is an output. Sources have
    /// smaller numbers, those of flip-flops count from the frame before: every
    /// mark that is read has been made.
    fn touches_output(&mut self, frame: usize) -> bool {
        let netlist = self.window.netlist;
        for (node, record) in netlist.records().enumerate() {
            let line = Line { node, frame };
            let touched = self.is_touched(line, record);
            if touched && record.kind == kind::OUTPUT {
                return true;
            }
            self.marks[self.window.place(line)] = touched.into();
        }
        false
    }

    /// Whether a flip-flop's pin is touched in the last frame.
    fn leaves_the_window(&self) -> bool {
        let frame = self.window.frames - 1;
        let netlist = self.window.netlist;
        self.window.trap != Some(Trap::LastFrameIsLeft)
            && netlist.records().enumerate().any(|(node, record)| {
                record.kind == kind::FLIP_FLOP && self.has_touched_pin(Line { node, frame }, record)
            })
    }

    fn is_touched(&self, line: Line, record: Record) -> bool {
        let Window { fault, c, trap, .. } = self.window;
        if line.frame == c && self.window.is_faulted_node(line.node) {
            return self.knowledge.value(line) != Some(fault.u);
        }
        let touched = match record.kind {
            // Frames below c have no touched pins.
            kind::FLIP_FLOP if line.frame == c => false,
            kind::FLIP_FLOP => {
                let frame = line.frame - 1;
                self.has_touched_pin(Line { frame, ..line }, record)
            }
            kind::AND | kind::NAND => self.passes(line, record, 0),
            kind::OR | kind::NOR => self.passes(line, record, 1),
            _ => self.has_touched_pin(line, record),
        };
        let stopped =
            || trap == Some(Trap::KnownValueStops) && self.knowledge.value(line).is_some();
        touched && !stopped()
    }

    /// Whether a gate has a touched pin, and no untouched pin has the value
    /// that settles the gate's output.
    fn passes(&self, line: Line, record: Record, settling: u8) -> bool {
        let mut sources = self.window.netlist.sources(record).enumerate();
        self.has_touched_pin(line, record)
            && !sources.any(|(pin, node)| {
                self.knowledge.value(Line { node, ..line }) == Some(settling)
                    && (!self.is_touched_pin(line, pin, node)
                        || self.window.trap == Some(Trap::TouchedPinBlocks))
            })
    }

    /// Whether any pin of the node is touched, in the frame of the line.
    fn has_touched_pin(&self, line: Line, record: Record) -> bool {
        let mut sources = self.window.netlist.sources(record).enumerate();
        sources.any(|(pin, source)| self.is_touched_pin(line, pin, source))
    }

    /// A faulted pin in the fault frame is touched unless its source is known
    /// to be u; any other is touched if its source is.
    fn is_touched_pin(&self, line: Line, pin: usize, node: usize) -> bool {
        let source = Line { node, ..line };
        let window = &self.window;
        if line.frame == window.c && window.faulted_pin(line.node) == Some(pin) {
            return self.knowledge.value(source) != Some(window.fault.u);
        }
        self.marks[window.place(source)] == 1
    }
}
