//! Nothing rests on the finder's search: with another search in them, or none,
//! the finder's own sources give the library's answers and leave the library's
//! bytes. And what the search is worth.

mod counts;
mod finders;
mod mistakes;
mod port;
mod searches;

use counts::Splits;
use finders::Finder;
use leverpeach_tests::cases::run;
use leverpeach_tests::circuits::calls::{self, Request};
use leverpeach_tests::circuits::{small, sound};
use leverpeach_tests::files::example;
use leverpeach_tests::model::finder::Lent;
use leverpeach_tests::model::netlist::Netlist;
use leverpeach_tests::model::report::faults;
use leverpeach_tests::model::Fault;
use leverpeach_tests::random::Random;

/// Calls of the library and of another finder.
struct Calls {
    finder: Finder,
    /// Whether the first call on which the two differ is a failure.
    must_agree: bool,
    /// How often the library found, found none, and refused.
    found: u64,
    none: u64,
    refused: u64,
    /// How often the other one gave another answer or left other bytes.
    different: u64,
}

impl Calls {
    /// Makes the calls: a few thousand, `times` over.
    fn make(finder: Finder, must_agree: bool, times: u64) -> Self {
        let mut calls = Calls {
            finder,
            must_agree,
            found: 0,
            none: 0,
            refused: 0,
            different: 0,
        };
        calls.on_circuits(times);
        calls.on_examples(times);
        calls.assert_enough();
        calls
    }

    /// One call of both.
    fn call(&mut self, random: &mut Random, netlist: &[u8], request: Request) {
        let needed = request.slice_lengths(calls::node_count(netlist));
        let slices = calls::slices(random, needed);
        searches::lies::begin(random.word());
        let expected = outcome(finders::library, netlist, request, &slices);
        let other = outcome(self.finder, netlist, request, &slices);
        match expected.0 {
            0 => self.none += 1,
            1..=16 => self.refused += 1,
            _ => self.found += 1,
        }
        let same = other == expected;
        let answers = (expected.0, other.0);
        assert!(same || !self.must_agree, "{request:?}, answers {answers:?}");
        self.different += u64::from(!same);
    }

    /// Calls on small circuits, on such with a wide gate, and on some of a few
    /// dozen nodes.
    fn on_circuits(&mut self, times: u64) {
        run("small", 6_000 * times, |_, random| {
            let draft = small::any(random);
            let fault = calls::fault(random, &draft);
            let (b, f) = (random.below(4) as u8, random.below(3) as u8);
            self.call(random, &draft.to_bytes(), Request { fault, b, f });
        });
        run("wide", 300 * times, |_, random| {
            let draft = small::of_wide_gate(random);
            let fault = calls::fault_of_widest(random, &draft);
            let (b, f) = (random.below(4) as u8, random.below(3) as u8);
            self.call(random, &draft.to_bytes(), Request { fault, b, f });
        });
        run("middling", 600 * times, |_, random| {
            let nodes = random.between(13, 40);
            let draft = sound::random(random, nodes);
            let fault = calls::fault(random, &draft);
            let (b, f) = (random.below(3) as u8, random.below(3) as u8);
            self.call(random, &draft.to_bytes(), Request { fault, b, f });
        });
    }

    /// Calls on the examples: on every fault of the small ones, on some of a
    /// larger one, which without a search takes long.
    fn on_examples(&mut self, times: u64) {
        for name in ["and2", "p1", "ffself", "s27", "mix30", "random30"] {
            let netlist = example(name);
            let faults = every_fault(&netlist);
            println!("{name}");
            run("small example", faults.len() as u64, |case, random| {
                let fault = faults[case as usize];
                for (b, f) in [(0, 0), (1, 1), (3, 1)] {
                    self.call(random, &netlist, Request { fault, b, f });
                }
            });
        }
        let netlist = example("mix100");
        let faults = every_fault(&netlist);
        run("mix100", 30 * times, |_, random| {
            let fault = random.pick(&faults);
            let (b, f) = (random.below(3) as u8, random.below(3) as u8);
            self.call(random, &netlist, Request { fault, b, f });
        });
    }

    /// Fails unless the calls were of every kind: those that only refuse, say,
    /// would show nothing.
    fn assert_enough(&self) {
        let answers = [self.found, self.none, self.refused];
        println!("{answers:?} answers, {} differ", self.different);
        assert!(self.found >= 1_500, "too few were found");
        assert!(self.none >= 1_500, "none was answered too rarely");
        assert!(self.refused >= 10, "too few were refused");
    }
}

/// The answer of a finder, and what it leaves in slices that held this.
fn outcome(
    finder: Finder,
    netlist: &[u8],
    request: Request,
    slices: &[Vec<u8>; 3],
) -> (u64, [Vec<u8>; 3]) {
    let mut after = slices.clone();
    let [first, second, certificate] = &mut after;
    let lent = Lent {
        first,
        second,
        certificate,
    };
    let answer = finder(netlist, request, lent);
    (answer, after)
}

fn every_fault(netlist: &[u8]) -> Vec<Fault> {
    let netlist = Netlist::sound(netlist).expect("the netlist is sound");
    faults(&netlist).collect()
}

/// Fails unless a finder gives the library's answers and leaves its bytes.
fn assert_alike(finder: Finder, times: u64) {
    Calls::make(finder, true, times);
}

/// On how many of the calls a finder differs from the library.
fn differences(finder: Finder) -> u64 {
    Calls::make(finder, false, 1).different
}

#[test]
fn the_sources_read_as_rust_answer_as_the_library_does() {
    assert_alike(finders::as_it_is, 5);
}

#[test]
fn a_search_that_finds_nothing_changes_no_answer() {
    assert_alike(finders::finds_nothing, 5);
}

#[test]
fn a_search_that_lies_changes_no_answer() {
    assert_alike(finders::lies, 5);
}

#[test]
fn a_search_with_a_mistake_changes_no_answer() {
    for mistake in 0..mistakes::NONE {
        println!("mistake {mistake}");
        mistakes::make(mistake);
        assert_alike(finders::mistaken, 1);
        assert!(mistakes::times_made() >= 500, "mistake {mistake}");
    }
}

/// The test of lies would notice one that is believed: whichever of the
/// verifications is left out, many answers change.
#[test]
fn lies_that_are_believed_change_answers() {
    for (name, finder) in [
        ("runs", finders::believes_runs as Finder),
        ("sets", finders::believes_sets),
        ("notes", finders::believes_notes),
        ("closings", finders::believes_closings),
    ] {
        println!("believed: {name}");
        assert!(differences(finder) >= 50, "{name}");
    }
}

/// So would the test of mistakes: where all is believed that the search says,
/// each of them changes answers. Without a mistake none changes here, though
/// the search need not be right: it is, as far as these calls show.
#[test]
fn mistakes_that_are_believed_change_answers() {
    mistakes::make(mistakes::NONE);
    assert_eq!(differences(finders::believes_mistakes), 0);
    for mistake in 0..mistakes::NONE {
        println!("mistake {mistake}");
        mistakes::make(mistake);
        let different = differences(finders::believes_mistakes);
        assert!(different >= 30, "mistake {mistake}");
    }
}

/// The search is worth its place if it leaves little to work out in vain: a
/// split that is worked out and stays open is one for which it found no set
/// that shows this. In this circuit there is none, in windows as wide as they
/// get: what is worked out closes. Each mark takes one such split, and 15 of
/// them one of the window of B besides, which is asked first.
#[test]
fn no_split_is_worked_out_in_vain() {
    let netlist = example("mix290");
    let mut marks = 0;
    for fault in every_fault(&netlist) {
        let request = Request { fault, b: 7, f: 7 };
        let needed = request.slice_lengths(calls::node_count(&netlist));
        let slices = needed.map(|length| vec![0; length]);
        let (answer, _) = outcome(finders::counted, &netlist, request, &slices);
        marks += u64::from(answer > 16);
    }
    assert_eq!(marks, 123);
    let splits = Splits {
        worked_out: marks + 15,
        stay_open: 0,
    };
    assert_eq!(counts::take(), splits);
}
