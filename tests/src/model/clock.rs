//! The clock step and its simulator.

use super::fault::{Fault, Site};
use super::kind;
use super::netlist::{Netlist, Record};

/// What the simulator answers.
#[derive(Clone, Copy, Debug, PartialEq, Eq)]
pub enum Stepped {
    Done,
    Refused(u8),
}

/// Steps the circuit by one clock. In the first slice, the places of inputs
/// and flip-flops hold inputs and latched values; afterwards it holds the seen
/// values, and the second the newly latched ones.
pub fn simulate(
    bytes: &[u8],
    fault: Option<Fault>,
    first: &mut [u8],
    second: &mut [u8],
) -> Stepped {
    match accept(bytes, fault, first, second) {
        Ok(netlist) => {
            let stuck = Stuck::new(&netlist, fault);
            see(&netlist, &stuck, first);
            latch(&netlist, &stuck, first, second);
            Stepped::Done
        }
        Err(number) => Stepped::Refused(number),
    }
}

/// The netlist if nothing turns the call back, otherwise the refusal.
fn accept<'a>(
    bytes: &'a [u8],
    fault: Option<Fault>,
    first: &[u8],
    second: &[u8],
) -> Result<Netlist<'a>, u8> {
    let netlist = Netlist::sound(bytes)?;
    if fault.is_some_and(|fault| !fault.fits(&netlist)) {
        return Err(9);
    }
    let nodes = netlist.node_count();
    if first.len() != nodes || second.len() != nodes || !given_are_values(&netlist, first) {
        return Err(16);
    }
    Ok(netlist)
}

/// Whether every place that is read, that of a faulted node too, is 0 or 1.
fn given_are_values(netlist: &Netlist, first: &[u8]) -> bool {
    let mut places = netlist.records().zip(first);
    places.all(|(record, place)| !kind::is_given(record.kind) || *place <= 1)
}

/// A fault that fits its netlist, in the form that the step asks for: the
/// faulted node, or the faulted pin counted over all pins of the netlist.
struct Stuck {
    node: Option<usize>,
    pin: Option<usize>,
    u: u8,
}

impl Stuck {
    fn new(netlist: &Netlist, fault: Option<Fault>) -> Self {
        let mut stuck = Stuck {
            node: None,
            pin: None,
            u: 0,
        };
        if let Some(Fault { node, site, u }) = fault {
            let node = usize::from(node);
            stuck.u = u;
            match site {
                Site::Whole => stuck.node = Some(node),
                Site::Pin(pin) => {
                    stuck.pin = netlist
                        .record(node)
                        .map(|record| record.offset + usize::from(pin));
                }
            }
        }
        stuck
    }

    /// What a node's pins read: the seen value of the source, or u.
    fn read<'a>(
        &'a self,
        netlist: &'a Netlist,
        record: Record,
        seen: &'a [u8],
    ) -> impl Iterator<Item = u8> + 'a {
        let sources = netlist.sources(record).enumerate();
        sources.map(move |(pin, source)| match self.pin {
            Some(faulted) if faulted == record.offset + pin => self.u,
            _ => seen[source],
        })
    }
}

/// Turns the first slice into the seen values. Apart from flip-flops, sources
/// have smaller numbers than the nodes they feed, so one pass is enough.
fn see(netlist: &Netlist, stuck: &Stuck, first: &mut [u8]) {
    for (node, record) in netlist.records().enumerate() {
        if stuck.node == Some(node) {
            first[node] = stuck.u;
        } else if !kind::is_given(record.kind) {
            first[node] = kind::value(record.kind, stuck.read(netlist, record, first));
        }
    }
}

/// Fills the second slice with what the flip-flops' pins read once every seen
/// value is there, and with 0 at other nodes.
fn latch(netlist: &Netlist, stuck: &Stuck, seen: &[u8], second: &mut [u8]) {
    for (record, place) in netlist.records().zip(second) {
        *place = match record.kind {
            kind::FLIP_FLOP => only(stuck.read(netlist, record, seen)),
            _ => 0,
        };
    }
}

/// The value of a flip-flop's one pin.
fn only(mut pins: impl Iterator<Item = u8>) -> u8 {
    pins.next()
        .expect("a flip-flop of a sound netlist has a pin")
}
