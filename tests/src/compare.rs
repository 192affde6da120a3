//! One call given to the library and to the model: the same answer, and the
//! same bytes in everything that was lent.

use crate::circuits::calls::{self, Request};
use crate::model::certificate::{Certificate, HEAD, STEP};
use crate::model::finder::Lent;
use crate::model::{self, Finding};
use crate::native::{self, FaultBytes};
use crate::random::Random;

/// Guard bytes on each side of a lent slice.
const GUARD: usize = 24;

/// A buffer of which only the middle is lent, so that a write beside the slice
/// shows.
#[derive(Clone, Debug, PartialEq, Eq)]
pub struct Guarded {
    buffer: Vec<u8>,
}

impl Guarded {
    /// Lends `content` later on, between guard bytes drawn at random.
    pub fn new(random: &mut Random, content: &[u8]) -> Self {
        let mut buffer = random.bytes(GUARD);
        buffer.extend_from_slice(content);
        buffer.extend(random.bytes(GUARD));
        Guarded { buffer }
    }

    pub fn slice(&self) -> &[u8] {
        &self.buffer[GUARD..self.buffer.len() - GUARD]
    }

    pub fn lend(&mut self) -> &mut [u8] {
        let end = self.buffer.len() - GUARD;
        &mut self.buffer[GUARD..end]
    }
}

/// Reads the netlist with both; gives the answer back.
pub fn read(netlist: &[u8]) -> u64 {
    let before = netlist.to_vec();
    let answer = native::read(netlist);
    assert!(netlist == before, "the reader altered the netlist");
    let expected = model::read(netlist);
    assert_eq!(
        answer,
        native::reading_number(expected),
        "the model reads {expected:?} in {}",
        hex(netlist)
    );
    answer
}

/// Steps with both, from slices with this content; gives back the answer and
/// what the slices then hold.
pub fn simulate(
    random: &mut Random,
    netlist: &[u8],
    fault: FaultBytes,
    first: &[u8],
    second: &[u8],
) -> (u64, Vec<u8>, Vec<u8>) {
    let lent = (Guarded::new(random, first), Guarded::new(random, second));
    let (mut first, mut second) = lent.clone();
    let before = netlist.to_vec();
    let answer = native::simulate(netlist, fault, first.lend(), second.lend());
    let call = || format!("{fault:?}, first {:?}, {}", lent.0.slice(), hex(netlist));
    assert!(netlist == before, "the netlist was altered: {}", call());

    let (mut model_first, mut model_second) = lent.clone();
    let expected = model::simulate(
        netlist,
        fault.meaning(),
        model_first.lend(),
        model_second.lend(),
    );
    assert_eq!(answer, native::stepped_number(expected), "{}", call());
    if answer != 0 {
        assert_eq!(first, lent.0, "a refusal altered the first: {}", call());
        assert_eq!(second, lent.1, "a refusal altered the second: {}", call());
    }
    assert_eq!(first, model_first, "seen values: {}", call());
    assert_eq!(second, model_second, "latched values: {}", call());
    (answer, first.slice().to_vec(), second.slice().to_vec())
}

/// Checks with both, from work slices with this content; gives back the answer.
/// Netlist and certificate too lie between guard bytes, so that a read beside
/// them does not go unnoticed for long.
pub fn check(
    random: &mut Random,
    netlist: &[u8],
    certificate: &[u8],
    first: &[u8],
    second: &[u8],
) -> u64 {
    let given = [netlist, certificate].map(|bytes| Guarded::new(random, bytes));
    let lent = [first, second].map(|bytes| Guarded::new(random, bytes));
    let read = given.clone();
    let [mut first, mut second] = lent.clone();
    let answer = native::check(
        read[0].slice(),
        read[1].slice(),
        first.lend(),
        second.lend(),
    );
    let call = || format!("{} for {}", hex(certificate), hex(netlist));
    assert!(read == given, "what is read was altered: {}", call());

    let [mut model_first, mut model_second] = lent.clone();
    let expected = model::check(
        netlist,
        certificate,
        model_first.lend(),
        model_second.lend(),
    );
    assert_eq!(answer, native::checked_number(expected), "{}", call());
    assert_eq!(first, model_first, "first work slice: {}", call());
    assert_eq!(second, model_second, "second work slice: {}", call());
    let cleared = match answer {
        1..=13 => 0,
        _ => calls::work_needed(netlist, certificate),
    };
    for (after, before) in [(first, &lent[0]), (second, &lent[1])] {
        assert_cleared(&after, before, cleared, answer);
    }
    answer
}

/// Finds with both, from slices with this content: the two work slices and the
/// certificate's. What is found is given to the checker too. Gives back the
/// answer and the certificate, empty where none is found.
pub fn find(
    random: &mut Random,
    netlist: &[u8],
    request: Request,
    slices: &[Vec<u8>; 3],
) -> (u64, Vec<u8>) {
    let given = Guarded::new(random, netlist);
    let lent = slices.each_ref().map(|bytes| Guarded::new(random, bytes));
    let (read, mut after) = (given.clone(), lent.clone());
    let Request { fault, b, f } = request;
    let answer = native::find(read.slice(), fault, b, f, lend_all(&mut after));
    let call = || format!("{request:?} for {}", hex(netlist));
    assert!(read == given, "the netlist was altered: {}", call());

    let mut expected = lent.clone();
    let finding = model::find(netlist, fault, b, f, lend_all(&mut expected));
    assert_eq!(answer, native::finding_number(finding), "{}", call());
    for (place, name) in ["first", "second", "certificate"].iter().enumerate() {
        let (after, expected) = (&after[place], &expected[place]);
        assert_eq!(after, expected, "{name} slice: {}", call());
    }
    let cleared = match finding {
        Finding::Refused(_) => 0,
        _ => calls::node_count(netlist) * request.frames(),
    };
    assert_cleared(&after[0], &lent[0], cleared, answer);
    assert_cleared(&after[1], &lent[1], cleared, answer);
    let certificate = certificate_found(finding, &after[2], &lent[2]);
    if let Finding::Found { c, steps, .. } = finding {
        assert_eq!((certificate[4], certificate[5]), (c, f), "{}", call());
        assert_steps(netlist, &certificate, steps);
        assert_accepted(random, netlist, &certificate);
    }
    (answer, certificate)
}

fn lend_all(slices: &mut [Guarded; 3]) -> Lent<'_> {
    let [first, second, certificate] = slices;
    Lent {
        first: first.lend(),
        second: second.lend(),
        certificate: certificate.lend(),
    }
}

/// The bytes of the certificate, none unless one is found. Those behind it are
/// what they were.
fn certificate_found(finding: Finding, after: &Guarded, before: &Guarded) -> Vec<u8> {
    let length = match finding {
        Finding::Found { length, .. } => length,
        _ => 0,
    };
    let (certificate, rest) = after.slice().split_at(length);
    assert_eq!(rest, &before.slice()[length..], "behind the certificate");
    certificate.to_vec()
}

/// The step count is the total of the two runs, and within its bound.
fn assert_steps(netlist: &[u8], certificate: &[u8], steps: usize) {
    let runs = Certificate::split(certificate).map(|parts| parts.runs);
    let [first, second] = runs.expect("the pairs are right");
    assert_eq!(steps, first.len() + second.len());
    assert_eq!(certificate.len(), HEAD + STEP * steps);
    assert!(steps <= 2 * calls::work_needed(netlist, certificate));
}

/// The checker accepts the certificate with its c, in work slices of just the
/// length they must have.
fn assert_accepted(random: &mut Random, netlist: &[u8], certificate: &[u8]) {
    let needed = calls::work_needed(netlist, certificate);
    let (first, second) = (random.bytes(needed), random.bytes(needed));
    let answer = check(random, netlist, certificate, &first, &second);
    assert_eq!(answer, native::accepted_number(certificate[4]));
}

/// The first `cleared` lent bytes are 0, all others are what they were.
fn assert_cleared(after: &Guarded, before: &Guarded, cleared: usize, answer: u64) {
    let mut expected = before.clone();
    expected.lend()[..cleared].fill(0);
    assert_eq!(after, &expected, "a work slice after answer {answer}");
}

/// The bytes in hex, cut where they would fill the screen.
fn hex(bytes: &[u8]) -> String {
    let shown = bytes.iter().take(400).map(|byte| format!("{byte:02x}"));
    format!("{} bytes: {}", bytes.len(), shown.collect::<String>())
}
