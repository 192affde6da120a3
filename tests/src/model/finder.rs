//! The finder.

use super::certificate::{Subject, HEAD, STEP};
use super::fault::Fault;
use super::netlist::Netlist;
use super::trace;
use super::trap::Trap;
use super::window::{Knowledge, Learnt, Line, Step, Window, MOST_FRAMES};

/// What the finder answers. The length is that of the certificate in bytes.
#[derive(Clone, Copy, Debug, PartialEq, Eq)]
pub enum Finding {
    Found { c: u8, length: usize, steps: usize },
    None,
    Refused(u8),
}

/// What the finder is lent: two work slices and one for the certificate.
pub struct Lent<'a> {
    pub first: &'a mut [u8],
    pub second: &'a mut [u8],
    pub certificate: &'a mut [u8],
}

/// Looks for the first c and split whose two branches close, and writes their
/// certificate.
pub fn find(netlist: &[u8], fault: Fault, b: u8, f: u8, lent: Lent) -> Finding {
    find_in_trap(None, netlist, fault, b, f, lent)
}

/// Finds as [`find`] does, but fallen into a trap.
pub fn find_in_trap(
    trap: Option<Trap>,
    netlist: &[u8],
    fault: Fault,
    b: u8,
    f: u8,
    lent: Lent,
) -> Finding {
    let mut window = match accept(netlist, fault, b, f, &lent) {
        Ok(window) => window,
        Err(number) => return Finding::Refused(number),
    };
    let places = window.places();
    window.trap = trap;
    let finding = search(window, b, f, lent.first, lent.second, lent.certificate);
    lent.first[..places].fill(0);
    lent.second[..places].fill(0);
    finding
}

/// The widest window, that of c at its bound, unless something turns the call
/// back.
fn accept<'a>(
    netlist: &'a [u8],
    fault: Fault,
    b: u8,
    f: u8,
    lent: &Lent,
) -> Result<Window<'a>, u8> {
    let netlist = Netlist::sound(netlist)?;
    if !fault.fits(&netlist) {
        return Err(9);
    }
    let frames = usize::from(b) + usize::from(f) + 1;
    if frames > MOST_FRAMES {
        return Err(10);
    }
    let window = Window {
        netlist,
        fault,
        c: b.into(),
        frames,
        trap: None,
    };
    let places = window.places();
    if lent.first.len() < places || lent.second.len() < places {
        return Err(11);
    }
    if lent.certificate.len() < HEAD + 2 * STEP * places {
        return Err(12);
    }
    Ok(window)
}

fn search(
    widest: Window,
    b: u8,
    f: u8,
    first: &mut [u8],
    second: &mut [u8],
    certificate: &mut [u8],
) -> Finding {
    for c in 0..=b {
        let window = Window {
            c: c.into(),
            frames: usize::from(c) + usize::from(f) + 1,
            ..widest
        };
        let mut splits = window.lines();
        if let Some(split) = splits.find(|split| closes(window, *split, first, second)) {
            let fault = window.fault;
            let subject = Subject { fault, c, f, split };
            let length = write(window, &subject, first, certificate);
            let steps = (length - HEAD) / STEP;
            return Finding::Found { c, length, steps };
        }
    }
    Finding::None
}

/// Whether both branches of a split close.
fn closes(window: Window, split: Line, first: &mut [u8], second: &mut [u8]) -> bool {
    [0, 1].into_iter().all(|value| {
        let mut knowledge = Knowledge::start(window, first);
        sweep(&mut knowledge, split, value, |_| ()) || trace::closes(&knowledge, second)
    })
}

/// Writes the certificate of a split whose branches close; its length. The
/// steps are concluded once more, since none may be written before it is clear
/// that both branches close.
fn write(window: Window, subject: &Subject, first: &mut [u8], certificate: &mut [u8]) -> usize {
    let (head, steps) = certificate.split_at_mut(HEAD);
    let mut lengths = [0; 2];
    for value in 0..2 {
        let run = &mut steps[lengths[0]..];
        let mut knowledge = Knowledge::start(window, first);
        sweep(&mut knowledge, subject.split, value, |step| {
            let length = &mut lengths[usize::from(value)];
            run[*length..*length + STEP].copy_from_slice(&step.to_bytes());
            *length += STEP;
        });
    }
    head.copy_from_slice(&subject.head(lengths));
    HEAD + lengths[0] + lengths[1]
}

/// Takes in a branch's split and sweeps until a sweep has no step. Each step is
/// handed to `note`. Whether the branch ended with a contradiction.
pub fn sweep(
    knowledge: &mut Knowledge,
    split: Line,
    value: u8,
    mut note: impl FnMut(&Step),
) -> bool {
    if knowledge.learn(split, value) == Learnt::Opposite {
        return true;
    }
    loop {
        match sweep_once(knowledge, &mut note) {
            Swept::Contradiction => return true,
            Swept::NoStep => return false,
            Swept::Steps => {}
        }
    }
}

/// How one sweep went.
#[derive(PartialEq)]
enum Swept {
    NoStep,
    Steps,
    Contradiction,
}

fn sweep_once(knowledge: &mut Knowledge, note: &mut impl FnMut(&Step)) -> Swept {
    let mut swept = Swept::NoStep;
    for line in knowledge.window.lines() {
        let Some(relation) = knowledge.window.relation(line) else {
            continue;
        };
        for place in 0..=relation.pin_count() {
            // First the output, then the pins, each from what is known by now.
            let concluded = match place.checked_sub(1) {
                None => knowledge.conclude_output(&relation),
                Some(pin) => knowledge.conclude_pin(&relation, pin),
            };
            let Some(step) = concluded else { continue };
            match knowledge.learn(step.line, step.value) {
                Learnt::Known => {}
                Learnt::New => {
                    note(&step);
                    swept = Swept::Steps;
                }
                Learnt::Opposite => {
                    note(&step);
                    return Swept::Contradiction;
                }
            }
        }
    }
    swept
}

#[cfg(test)]
mod tests {
    use super::*;
    use crate::model::Site;

    /// An input alone.
    const INPUT: [u8; 9] = [1, 0, 0, 0, 0, 0, 0, 0, 0];

    /// Finds in slices of these lengths, full of 9; the answer and the slices.
    fn find_in(fault: Fault, b: u8, f: u8, lengths: [usize; 3]) -> (Finding, [Vec<u8>; 3]) {
        let mut slices = lengths.map(|length| vec![9; length]);
        let [first, second, certificate] = &mut slices;
        let lent = Lent {
            first,
            second,
            certificate,
        };
        (find(&INPUT, fault, b, f, lent), slices)
    }

    fn stuck_at(u: u8) -> Fault {
        let (node, site) = (0, Site::Whole);
        Fault { node, site, u }
    }

    #[test]
    fn refusals_come_in_their_order_and_alter_nothing() {
        let refused = |fault, b, f, lengths: [usize; 3]| {
            let (finding, slices) = find_in(fault, b, f, lengths);
            assert!(slices.iter().flatten().all(|byte| *byte == 9));
            finding
        };
        assert_eq!(refused(stuck_at(2), 14, 1, [0, 0, 0]), Finding::Refused(9));
        assert_eq!(refused(stuck_at(0), 14, 1, [0, 0, 0]), Finding::Refused(10));
        assert_eq!(
            refused(stuck_at(0), 255, 0, [9, 9, 9]),
            Finding::Refused(10)
        );
        assert_eq!(refused(stuck_at(0), 0, 0, [0, 1, 38]), Finding::Refused(11));
        assert_eq!(refused(stuck_at(0), 0, 0, [1, 0, 38]), Finding::Refused(11));
        assert_eq!(refused(stuck_at(0), 0, 0, [1, 1, 38]), Finding::Refused(12));
    }

    #[test]
    fn the_widest_window_is_cleared_though_c_is_0() {
        let (finding, slices) = find_in(stuck_at(1), 14, 0, [16, 17, 25 + 14 * 15]);
        let (c, length, steps) = (0, 25, 0);
        assert_eq!(finding, Finding::Found { c, length, steps });
        for slice in &slices[..2] {
            assert!(slice[..15].iter().all(|byte| *byte == 0));
            assert!(slice[15..].iter().all(|byte| *byte == 9));
        }
        assert!(slices[2][25..].iter().all(|byte| *byte == 9));
    }
}
