//! The checker, library against model: every answer, every lent byte.

use leverpeach_tests::cases::{run, Tally};
use leverpeach_tests::circuits::certificates::{self, Argument};
use leverpeach_tests::circuits::{calls, damaged, mutants, small, sound, structured, Draft};
use leverpeach_tests::compare;
use leverpeach_tests::files::{example, example_names};
use leverpeach_tests::model::certificate::Subject;
use leverpeach_tests::model::window::{Line, Step};
use leverpeach_tests::model::{self, Checked, Fault, Site};
use leverpeach_tests::native::{self, accepted_number};
use leverpeach_tests::random::Random;
use std::time::{Duration, Instant};

/// Checks with work slices that are mostly long enough.
fn check(random: &mut Random, netlist: &[u8], certificate: &[u8]) -> u64 {
    let needed = calls::work_needed(netlist, certificate);
    let [first, second] = calls::slices(random, [needed, needed]);
    compare::check(random, netlist, certificate, &first, &second)
}

/// Checks with work slices that are just long enough.
fn check_in_just_enough(random: &mut Random, netlist: &[u8], certificate: &[u8]) -> u64 {
    let needed = calls::work_needed(netlist, certificate);
    let (first, second) = (random.bytes(needed), random.bytes(needed));
    compare::check(random, netlist, certificate, &first, &second)
}

/// A small circuit with a certificate found for a fault of it.
fn found(random: &mut Random) -> (Vec<u8>, Vec<u8>) {
    found_for(random, small::any, calls::fault)
}

/// A small circuit with a certificate found for a fault of a wide gate.
fn found_for_wide_gate(random: &mut Random) -> (Vec<u8>, Vec<u8>) {
    found_for(random, small::of_wide_gate, calls::fault_of_widest)
}

/// A circuit and a certificate found for a fault of it, both drawn until there is
/// one.
fn found_for(
    random: &mut Random,
    draw: fn(&mut Random) -> Draft,
    draw_fault: fn(&mut Random, &Draft) -> Fault,
) -> (Vec<u8>, Vec<u8>) {
    loop {
        let draft = draw(random);
        let netlist = draft.to_bytes();
        let fault = draw_fault(random, &draft);
        let (b, f) = (random.below(4) as u8, random.below(3) as u8);
        if let Some(certificate) = certificates::found(None, &netlist, fault, b, f) {
            return (netlist, certificate);
        }
    }
}

/// A small circuit with any steps that follow for a fault of it.
fn walked(random: &mut Random) -> (Vec<u8>, Vec<u8>) {
    let draft = small::any(random);
    let netlist = draft.to_bytes();
    let fault = calls::fault(random, &draft);
    let subject = certificates::subject(random, fault, draft.nodes.len(), 5);
    let most = random.pick(&[0, 1, 3, 1_000, 1_000, 1_000]);
    let argument = certificates::walked(random, &netlist, subject, most);
    (netlist, argument.to_bytes())
}

#[test]
fn found_certificates_are_accepted() {
    run("found", 15_000, |_, random| {
        let (netlist, certificate) = found(random);
        let answer = check_in_just_enough(random, &netlist, &certificate);
        assert_eq!(answer, accepted_number(certificate[4]));
    });
}

#[test]
fn steps_that_follow_are_allowed_in_any_order() {
    let mut tally = Tally::default();
    run("walked", 15_000, |_, random| {
        let (netlist, certificate) = walked(random);
        let answer = check_in_just_enough(random, &netlist, &certificate);
        assert_ne!(answer, 14);
        tally.count(answer);
    });
    tally.assert_met(&[0, 15], 1_000);
}

#[test]
fn the_order_of_all_steps_that_follow_does_not_matter() {
    let mut tally = Tally::default();
    run("orders", 4_000, |_, random| {
        let draft = small::any(random);
        let netlist = draft.to_bytes();
        let fault = calls::fault(random, &draft);
        let subject = certificates::subject(random, fault, draft.nodes.len(), 4);
        let swept = certificates::swept(&netlist, subject).to_bytes();
        let walked = certificates::walked(random, &netlist, subject, usize::MAX).to_bytes();
        let answer = check_in_just_enough(random, &netlist, &swept);
        let other = check_in_just_enough(random, &netlist, &walked);
        assert_eq!(answer, other, "swept {swept:?}, walked {walked:?}");
        tally.count(answer);
    });
    tally.assert_met(&[0, 15], 500);
}

#[test]
fn certificates_altered_in_every_field() {
    let mut tally = Tally::default();
    run("mutants", 400, |case, random| {
        let (netlist, certificate) = match case % 4 {
            0 => walked(random),
            _ => found(random),
        };
        for mutant in mutants::all(random, &netlist, &certificate) {
            tally.count(check(random, &netlist, &mutant));
        }
    });
    tally.assert_met(&[0, 8, 9, 10, 11, 13, 14, 15], 500);
    assert!(tally.total() >= 50_000, "only {} calls", tally.total());
}

#[test]
fn certificates_for_wide_gates_altered_in_every_field() {
    let mut tally = Tally::default();
    run("wide mutants", 60, |_, random| {
        let (netlist, certificate) = found_for_wide_gate(random);
        let answer = check_in_just_enough(random, &netlist, &certificate);
        assert_eq!(answer, accepted_number(certificate[4]));
        for mutant in mutants::all(random, &netlist, &certificate) {
            tally.count(check(random, &netlist, &mutant));
        }
    });
    tally.assert_met(&[0, 8, 9, 10, 11, 13, 14, 15], 100);
}

/// A certificate with every damage of `numbers` done to it, one for each of 8
/// to 10, 13 and 14.
fn damage(random: &mut Random, draft: &Draft, argument: &Argument, numbers: &[u64]) -> Vec<u8> {
    let mut argument = argument.clone();
    if numbers.contains(&14) {
        argument.runs[random.below(2)].push(step_of_no_node(draft));
    }
    if numbers.contains(&13) {
        let (nodes, frames) = (draft.nodes.len(), argument.subject.frames());
        match random.bit() {
            0 => argument.subject.split.node = random.pick(&[nodes, 4_096, 65_535]),
            _ => argument.subject.split.frame = random.pick(&[frames, 15, 255]),
        }
    }
    if numbers.contains(&10) {
        (argument.subject.c, argument.subject.f) =
            random.pick(&[(15, 0), (0, 15), (14, 1), (255, 0), (255, 255), (128, 128)]);
    }
    if numbers.contains(&9) {
        argument.subject.fault = calls::foreign_fault(random, draft);
    }
    let mut bytes = argument.to_bytes();
    if numbers.contains(&8) {
        match random.below(3) {
            0 => bytes.truncate(random.below(25)),
            1 => bytes.push(0),
            _ => bytes[9 + random.below(16)] ^= 1 << random.below(8),
        }
    }
    bytes
}

fn step_of_no_node(draft: &Draft) -> Step {
    let (node, frame) = (draft.nodes.len(), 0);
    Step {
        line: Line { node, frame },
        value: 0,
        relation: Line { node: 0, frame },
    }
}

/// An argument whose branches close, or one of whose branches does not.
fn argument(random: &mut Random, draft: &Draft, closing: bool) -> Option<Argument> {
    let netlist = draft.to_bytes();
    let fault = calls::fault(random, draft);
    if closing {
        let (b, f) = (random.below(3) as u8, random.below(3) as u8);
        let certificate = certificates::found(None, &netlist, fault, b, f)?;
        return Some(Argument::read(&certificate));
    }
    let subject = certificates::subject(random, fault, draft.nodes.len(), 4);
    let argument = certificates::swept(&netlist, subject);
    let places = draft.nodes.len() * subject.frames();
    let (mut first, mut second) = (vec![0; places], vec![0; places]);
    let checked = model::check(&netlist, &argument.to_bytes(), &mut first, &mut second);
    (checked == Checked::Refused(15)).then_some(argument)
}

#[test]
fn the_smallest_of_several_damages_is_the_refusal() {
    const DAMAGES: [u64; 7] = [8, 9, 10, 11, 13, 14, 15];
    let mut tally = Tally::default();
    // Every set of damages there is, the empty one included.
    run("damages", 128 * 100, |case, random| {
        let numbers = (0..7).filter(|bit| case >> bit & 1 == 1);
        let numbers: Vec<u64> = numbers.map(|bit| DAMAGES[bit]).collect();
        let (draft, argument) = loop {
            let draft = small::any(random);
            if let Some(argument) = argument(random, &draft, !numbers.contains(&15)) {
                break (draft, argument);
            }
        };
        let certificate = damage(random, &draft, &argument, &numbers);
        let netlist = draft.to_bytes();
        let needed = calls::work_needed(&netlist, &certificate);
        let mut slices = [random.bytes(needed), random.bytes(needed)];
        if numbers.contains(&11) {
            slices[random.below(2)].pop();
        }
        let [first, second] = slices;
        let answer = compare::check(random, &netlist, &certificate, &first, &second);
        let expected = match numbers.first() {
            Some(smallest) => *smallest,
            None => accepted_number(argument.subject.c),
        };
        assert_eq!(answer, expected, "of {numbers:?}");
        tally.count(answer);
    });
    tally.assert_met(&[0, 8, 9, 10, 11, 13, 14, 15], 100);
}

#[test]
fn netlists_that_are_not_sound() {
    let mut tally = Tally::default();
    run("unsound", 7_000, |case, random| {
        let number = 1 + case % 7;
        let nodes = random.between(1, 12);
        let netlist = damaged::with(random, nodes, &[number as u8]);
        let (_, certificate) = match random.bit() {
            0 => walked(random),
            _ => (vec![], random.bytes(30)),
        };
        let length = random.pick(&[0, 1, 12, 500]);
        let (first, second) = (random.bytes(length), random.bytes(200));
        let answer = compare::check(random, &netlist, &certificate, &first, &second);
        assert_eq!(answer, number);
        tally.count(answer);
    });
    tally.assert_met(&[1, 2, 3, 4, 5, 6, 7], 1_000);
}

#[test]
fn certificates_for_another_netlist() {
    let mut tally = Tally::default();
    run("other netlist", 10_000, |_, random| {
        let (_, certificate) = found(random);
        let netlist = small::any(random).to_bytes();
        tally.count(check(random, &netlist, &certificate));
    });
    tally.assert_met(&[0, 9, 11, 14, 15], 100);
}

#[test]
fn planned_and_middling_circuits() {
    let mut tally = Tally::default();
    run("middling", 40, |case, random| {
        let nodes = random.between(2, 40);
        let mut drafts = structured::all(nodes as u16);
        drafts.push(sound::random(random, nodes));
        let draft = &drafts[case as usize % drafts.len()];
        let netlist = draft.to_bytes();
        for _ in 0..50 {
            let fault = calls::fault(random, draft);
            let subject = certificates::subject(random, fault, draft.nodes.len(), 15);
            let certificate = certificates::swept(&netlist, subject).to_bytes();
            tally.count(check_in_just_enough(random, &netlist, &certificate));
        }
    });
    tally.assert_met(&[0, 15], 100);
}

#[test]
fn examples_with_swept_certificates() {
    let mut tally = Tally::default();
    for name in example_names() {
        println!("{name}");
        let netlist = example(&name);
        let nodes = calls::node_count(&netlist);
        run("example certificates", 300, |_, random| {
            let fault = Fault {
                node: random.below(nodes) as u16,
                site: Site::Whole,
                u: random.bit(),
            };
            let subject = certificates::subject(random, fault, nodes, 6);
            let certificate = certificates::swept(&netlist, subject).to_bytes();
            let answer = check_in_just_enough(random, &netlist, &certificate);
            assert!(answer == 15 || answer == accepted_number(subject.c));
            tally.count(answer);
        });
    }
    tally.assert_met(&[0, 15], 100);
}

/// More than a linear walk over the longest certificates takes, and far less
/// than a quadratic one.
const LINEAR: Duration = Duration::from_millis(250);

/// The shortest of a few times that the library takes for a call.
fn time_of(netlist: &[u8], certificate: &[u8], answer: u64) -> Duration {
    let needed = calls::work_needed(netlist, certificate);
    let (mut first, mut second) = (vec![0; needed], vec![0; needed]);
    let times = (0..5).map(|_| {
        let start = Instant::now();
        let given = native::check(netlist, certificate, &mut first, &mut second);
        let time = start.elapsed();
        assert_eq!(given, answer);
        time
    });
    times.min().expect("there are times")
}

#[test]
fn a_hundred_thousand_repeated_steps() {
    // An input and two buffers; the steps are right, but for being repeated.
    let netlist = Draft::of(&[(0, &[]), (3, &[0]), (3, &[1])]).to_bytes();
    let (node, site, u) = (0, Site::Whole, 0);
    let subject = Subject {
        fault: Fault { node, site, u },
        c: 0,
        f: 0,
        split: Line { node: 0, frame: 0 },
    };
    let swept = certificates::swept(&netlist, subject);
    for branch in 0..2 {
        let mut argument = swept.clone();
        let steps = argument.runs[branch].clone();
        argument.runs[branch] = steps.into_iter().cycle().take(100_000).collect();
        let certificate = argument.to_bytes();
        assert_eq!(certificate.len(), 25 + 700_000 + 14);
        let time = time_of(&netlist, &certificate, 14);
        assert!(time < LINEAR, "{time:?}");
        let answer = check_in_just_enough(&mut Random::new(3), &netlist, &certificate);
        assert_eq!(answer, 14);
    }
}

#[test]
fn one_of_the_longest_certificates() {
    // Each line but the split is a step, in both branches.
    let netlist = structured::settled_chain(4_096).to_bytes();
    let (node, site, u) = (1, Site::Pin(0), 1);
    let subject = Subject {
        fault: Fault { node, site, u },
        c: 7,
        f: 7,
        split: Line { node: 0, frame: 0 },
    };
    let certificate = certificates::swept(&netlist, subject).to_bytes();
    assert_eq!(certificate.len(), 25 + 14 * (4_096 * 15 - 1));
    let time = time_of(&netlist, &certificate, accepted_number(7));
    assert!(time < LINEAR, "{time:?}");
    let answer = check_in_just_enough(&mut Random::new(4), &netlist, &certificate);
    assert_eq!(answer, accepted_number(7));
}
