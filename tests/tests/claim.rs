//! What the library accepts and what it finds is true: for every accepted
//! certificate of a small circuit the promise is decided exactly, over all clock
//! lists.

use leverpeach_tests::cases::run;
use leverpeach_tests::circuits::calls::{self, Request};
use leverpeach_tests::circuits::{certificates, mutants, small, Draft};
use leverpeach_tests::claim::Claim;
use leverpeach_tests::model::certificate::Certificate;
use leverpeach_tests::model::checker::check_in_trap;
use leverpeach_tests::model::{Checked, Fault, Site, Trap};
use leverpeach_tests::native::{self, accepted_number};
use leverpeach_tests::random::Random;
use std::collections::BTreeMap;

/// The widest window of these certificates.
const MOST_FRAMES: usize = 5;

/// A small circuit and one of its faults.
#[derive(Debug)]
struct Subject {
    netlist: Vec<u8>,
    nodes: usize,
    fault: Fault,
}

impl Subject {
    fn new(random: &mut Random) -> Self {
        let draft = small::any(random);
        let fault = calls::fault(random, &draft);
        Subject::of(&draft, fault)
    }

    /// A gate of more than eight pins, with one of its faults.
    fn of_wide_gate(random: &mut Random) -> Self {
        let draft = small::of_wide_gate(random);
        let fault = calls::fault_of_widest(random, &draft);
        let pins = draft.nodes[usize::from(fault.node)].sources.len();
        assert!(pins > 8, "only {pins} pins");
        Subject::of(&draft, fault)
    }

    fn of(draft: &Draft, fault: Fault) -> Self {
        Subject {
            netlist: draft.to_bytes(),
            nodes: draft.nodes.len(),
            fault,
        }
    }

    /// The c with which the library accepts a certificate, if it does.
    fn accepted(&self, certificate: &[u8]) -> Option<u8> {
        let places = calls::work_needed(&self.netlist, certificate);
        let (mut first, mut second) = (vec![0; places], vec![0; places]);
        let answer = native::check(&self.netlist, certificate, &mut first, &mut second);
        (answer > 16).then(|| {
            let c = (answer & 0xFF) as u8;
            assert_eq!(answer, accepted_number(c));
            c
        })
    }

    /// The certificate that the library finds, if it does.
    fn found(&self, b: u8, f: u8) -> Option<Vec<u8>> {
        let fault = self.fault;
        let (answer, certificate) = native::find_alone(&self.netlist, Request { fault, b, f });
        assert!(
            answer == 0 || answer > 16,
            "refused with {answer}: {self:?}"
        );
        (answer > 0).then_some(certificate)
    }

    /// The c with which the library marks the fault, if it does. It accepts what
    /// it finds, and the promise holds, which the claim decides.
    fn marked(&self, claim: &Claim, b: u8, f: u8) -> Option<u8> {
        let certificate = self.found(b, f)?;
        let c = certificate[4];
        assert_eq!(self.accepted(&certificate), Some(c), "{self:?}");
        assert!(claim.holds(c), "{certificate:?}, {self:?}");
        Some(c)
    }
}

/// Claims by the fault that a certificate names, each put into tables once.
struct Claims<'a> {
    netlist: &'a [u8],
    by_fault: BTreeMap<(u16, u8, u8), Claim>,
}

impl<'a> Claims<'a> {
    fn of(netlist: &'a [u8]) -> Self {
        let by_fault = BTreeMap::new();
        Claims { netlist, by_fault }
    }

    /// Whether the promise holds for the fault that the certificate names.
    fn hold(&mut self, certificate: &[u8], c: u8) -> bool {
        let certificate = Certificate::split(certificate).expect("the pairs are right");
        let fault = certificate.subject.fault;
        let name = (fault.node, fault.site.to_byte(), fault.u);
        let claim = self.by_fault.entry(name);
        let netlist = self.netlist;
        claim.or_insert_with(|| Claim::new(netlist, fault)).holds(c)
    }
}

/// Certificates for a fault: walks from splits all over the window, and what
/// the finder finds, fallen into a trap or not.
fn certificates_for(random: &mut Random, subject: &Subject) -> Vec<Vec<u8>> {
    let Subject {
        netlist,
        nodes,
        fault,
    } = subject;
    let walks = (0..8).map(|_| {
        let subject = certificates::subject(random, *fault, *nodes, MOST_FRAMES);
        let most = random.pick(&[1, 4, 1_000, 1_000]);
        certificates::walked(random, netlist, subject, most).to_bytes()
    });
    let mut certificates: Vec<Vec<u8>> = walks.collect();
    let (b, f) = (random.below(3) as u8, random.below(3) as u8);
    let traps = Trap::ALL.into_iter().map(Some).chain([None]);
    certificates.extend(traps.filter_map(|trap| certificates::found(trap, netlist, *fault, b, f)));
    certificates
}

/// How many of these certificates the library accepts. The promise of each of
/// them must hold.
fn count_accepted(subject: &Subject, certificates: &[Vec<u8>]) -> usize {
    let mut claims = Claims::of(&subject.netlist);
    let mut accepted = 0;
    for certificate in certificates {
        if let Some(c) = subject.accepted(certificate) {
            assert!(claims.hold(certificate, c), "{certificate:?}, {subject:?}");
            accepted += 1;
        }
    }
    accepted
}

/// Gives the library certificates for so many subjects. The promise of what it
/// accepts must hold, and it must accept so many.
fn assert_accepted_is_true(count: u64, draw: fn(&mut Random) -> Subject, at_least: usize) {
    let mut accepted = 0;
    run("claims", count, |_, random| {
        let subject = draw(random);
        let certificates = certificates_for(random, &subject);
        accepted += count_accepted(&subject, &certificates);
    });
    println!("{accepted} accepted");
    assert!(accepted >= at_least, "only {accepted} accepted");
}

#[test]
fn what_the_library_accepts_is_true() {
    assert_accepted_is_true(15_000, Subject::new, 20_000);
}

#[test]
fn what_the_library_accepts_of_wide_gates_is_true() {
    assert_accepted_is_true(1_500, Subject::of_wide_gate, 3_000);
}

#[test]
fn what_the_library_accepts_of_altered_certificates_is_true() {
    let mut accepted = 0;
    run("altered claims", 300, |_, random| {
        let subject = Subject::new(random);
        let certificates = certificates_for(random, &subject);
        let certificate = &certificates[random.below(certificates.len())];
        let mutants = mutants::all(random, &subject.netlist, certificate);
        accepted += count_accepted(&subject, &mutants);
    });
    println!("{accepted} accepted");
    assert!(accepted >= 1_000, "only {accepted} accepted");
}

#[test]
fn what_the_library_finds_is_true() {
    let mut found = 0;
    run("found claims", 10_000, |_, random| {
        let subject = Subject::new(random);
        let (b, f) = (random.below(3) as u8, random.below(3) as u8);
        let claim = Claim::new(&subject.netlist, subject.fault);
        found += u64::from(subject.marked(&claim, b, f).is_some());
    });
    println!("{found} found");
    assert!(found >= 2_000, "only {found} found");
}

/// What became of the faults of wide gates.
#[derive(Debug, Default)]
struct Wide {
    /// Marked with c 0, and with a greater one. The promise holds for each.
    marked: u64,
    marked_later: u64,
    /// Marked, and on a pin that only gates of more than eight pins have.
    marked_far: u64,
    /// Not marked, and rightly: the promise holds for no c that was tried.
    unmarked: u64,
    unmarked_far: u64,
    /// Not marked, though the promise holds. A finder need not find all.
    missed: u64,
}

impl Wide {
    /// Asks for a fault, and decides the promise of what is answered.
    fn ask(&mut self, subject: &Subject, b: u8, f: u8) {
        let far = matches!(subject.fault.site, Site::Pin(8..));
        let claim = Claim::new(&subject.netlist, subject.fault);
        match subject.marked(&claim, b, f) {
            Some(c) => {
                self.marked += u64::from(c == 0);
                self.marked_later += u64::from(c > 0);
                self.marked_far += u64::from(far);
            }
            None if (0..=b).any(|c| claim.holds(c)) => self.missed += 1,
            None => {
                self.unmarked += 1;
                self.unmarked_far += u64::from(far);
            }
        }
    }
}

#[test]
fn what_the_library_finds_of_wide_gates_is_true() {
    let mut wide = Wide::default();
    run("wide claims", 10_000, |_, random| {
        let subject = Subject::of_wide_gate(random);
        let (b, f) = (random.below(3) as u8, random.below(3) as u8);
        wide.ask(&subject, b, f);
    });
    println!("{wide:?}");
    assert!(wide.marked >= 2_000 && wide.marked_far >= 1_000);
    assert!(wide.marked_later >= 20);
    assert!(wide.unmarked >= 2_000 && wide.unmarked_far >= 1_000);
}

/// How often a checker that fell into this trap accepts a certificate whose
/// promise does not hold. The library never accepts such a one.
fn false_promises(trap: Trap) -> usize {
    let mut broken = 0;
    run("trap", 3_000, |_, random| {
        let subject = Subject::new(random);
        let Subject { netlist, fault, .. } = &subject;
        let (b, f) = (random.below(3) as u8, random.below(3) as u8);
        let Some(certificate) = certificates::found(Some(trap), netlist, *fault, b, f) else {
            return;
        };
        let places = calls::work_needed(netlist, &certificate);
        let (mut first, mut second) = (vec![0; places], vec![0; places]);
        let checked = check_in_trap(Some(trap), netlist, &certificate, &mut first, &mut second);
        let c = certificate[4];
        assert_eq!(checked, Checked::Accepted(c));
        if !Claims::of(netlist).hold(&certificate, c) {
            broken += 1;
            assert_eq!(subject.accepted(&certificate), None, "{subject:?}");
        }
    });
    println!("{trap:?}: {broken} false promises");
    broken
}

#[test]
fn every_trap_makes_promises_that_are_false() {
    for trap in Trap::ALL {
        let broken = false_promises(trap);
        assert!(broken >= 20, "{trap:?} was caught only {broken} times");
    }
}
