//! The checker.

use super::certificate::{Certificate, STEP};
use super::netlist::Netlist;
use super::trace;
use super::trap::Trap;
use super::window::{Knowledge, Learnt, Line, Step, Window, MOST_FRAMES};

/// What the checker answers.
#[derive(Clone, Copy, Debug, PartialEq, Eq)]
pub enum Checked {
    Accepted(u8),
    Refused(u8),
}

/// Checks a certificate. The work slices may hold anything; once steps are
/// read, the places of the window are left at 0.
pub fn check(netlist: &[u8], certificate: &[u8], first: &mut [u8], second: &mut [u8]) -> Checked {
    check_in_trap(None, netlist, certificate, first, second)
}

/// Checks as [`check`] does, but fallen into a trap.
pub fn check_in_trap(
    trap: Option<Trap>,
    netlist: &[u8],
    certificate: &[u8],
    first: &mut [u8],
    second: &mut [u8],
) -> Checked {
    match accept(netlist, certificate, [first.len(), second.len()]) {
        Ok((mut window, certificate)) => {
            window.trap = trap;
            let checked = judge(window, &certificate, first, second);
            first[..window.places()].fill(0);
            second[..window.places()].fill(0);
            checked
        }
        Err(number) => Checked::Refused(number),
    }
}

/// The window and the certificate's parts, unless something turns the call
/// back before the first step.
fn accept<'a>(
    netlist: &'a [u8],
    certificate: &'a [u8],
    lent: [usize; 2],
) -> Result<(Window<'a>, Certificate<'a>), u8> {
    let netlist = Netlist::sound(netlist)?;
    let certificate = Certificate::split(certificate).ok_or(8)?;
    let subject = certificate.subject;
    if !subject.fault.fits(&netlist) {
        return Err(9);
    }
    if subject.frames() > MOST_FRAMES {
        return Err(10);
    }
    let window = Window {
        netlist,
        fault: subject.fault,
        c: subject.c.into(),
        frames: subject.frames(),
        trap: None,
    };
    if lent.iter().any(|length| *length < window.places()) {
        return Err(11);
    }
    if !window.has(subject.split) {
        return Err(13);
    }
    Ok((window, certificate))
}

/// Reads both runs before it says that a branch does not close: a step that is
/// not allowed has the smaller number.
fn judge(
    window: Window,
    certificate: &Certificate,
    first: &mut [u8],
    second: &mut [u8],
) -> Checked {
    let split = certificate.subject.split;
    let mut all_close = true;
    for (value, run) in (0..).zip(certificate.runs) {
        match branch_closes(window, split, value, run, first, second) {
            Some(closes) => all_close &= closes,
            None => return Checked::Refused(14),
        }
    }
    match all_close {
        true => Checked::Accepted(certificate.subject.c),
        false => Checked::Refused(15),
    }
}

/// Whether a branch closes; nothing if one of its steps is not allowed.
fn branch_closes(
    window: Window,
    split: Line,
    value: u8,
    run: &[[u8; STEP]],
    first: &mut [u8],
    second: &mut [u8],
) -> Option<bool> {
    let mut knowledge = Knowledge::start(window, first);
    let mut last = knowledge.learn(split, value);
    for step in run {
        let step = Step::from_bytes(step);
        if last == Learnt::Opposite || !is_allowed(&knowledge, &step) {
            return None;
        }
        last = knowledge.learn(step.line, step.value);
    }
    Some(last == Learnt::Opposite || trace::closes(&knowledge, second))
}

/// Whether a step names lines of the window and a value that is not known yet
/// and follows.
fn is_allowed(knowledge: &Knowledge, step: &Step) -> bool {
    let window = &knowledge.window;
    window.has(step.line)
        && window.has(step.relation)
        && step.value <= 1
        && knowledge.value(step.line) != Some(step.value)
        && knowledge.follows(step)
}
