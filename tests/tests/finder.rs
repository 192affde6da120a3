//! The finder, library against model: every answer, every lent byte. Whatever
//! is found is given to the checker too, which must accept it.

use leverpeach_tests::cases::run;
use leverpeach_tests::circuits::calls::{self, Request};
use leverpeach_tests::circuits::{damaged, small, sound, structured, worked, Draft};
use leverpeach_tests::compare;
use leverpeach_tests::files::example;
use leverpeach_tests::model::netlist::Netlist;
use leverpeach_tests::model::report::faults;
use leverpeach_tests::model::{kind, Fault, Site};
use leverpeach_tests::native::found_number;
use leverpeach_tests::random::Random;
use std::collections::BTreeMap;

/// How often each answer was met: found by its c, refusals by their number.
#[derive(Debug, Default)]
struct Met {
    none: u64,
    found: BTreeMap<u64, u64>,
    refused: BTreeMap<u64, u64>,
}

impl Met {
    fn count(&mut self, answer: u64) {
        match answer {
            0 => self.none += 1,
            1..=16 => *self.refused.entry(answer).or_default() += 1,
            _ => *self.found.entry((answer >> 32) - 1).or_default() += 1,
        }
    }

    fn total(&self) -> u64 {
        self.none + self.found_at_all() + self.refused.values().sum::<u64>()
    }

    fn found_at_all(&self) -> u64 {
        self.found.values().sum()
    }

    /// Fails unless the finder both found and did not, so many times.
    fn assert_found_and_none(&self, found: u64, none: u64) {
        println!("answers met: {self:?}");
        assert!(self.found_at_all() >= found, "too few were found");
        assert!(self.none >= none, "none was answered too rarely");
    }

    fn assert_total(&self, at_least: u64) {
        assert!(self.total() >= at_least, "only {} calls", self.total());
    }

    /// Fails unless each of these c was answered so many times.
    fn assert_found_at(&self, cs: &[u64], at_least: u64) {
        for c in cs {
            let met = self.found.get(c).copied().unwrap_or(0);
            assert!(met >= at_least, "c {c} was answered {met} times");
        }
    }

    fn assert_refused(&self, numbers: &[u64], at_least: u64) {
        for number in numbers {
            let met = self.refused.get(number).copied().unwrap_or(0);
            assert!(met >= at_least, "refusal {number} was met {met} times");
        }
    }
}

/// Finds in slices that are mostly long enough.
fn find(random: &mut Random, netlist: &[u8], request: Request) -> u64 {
    let needed = request.slice_lengths(calls::node_count(netlist));
    let slices = calls::slices(random, needed);
    compare::find(random, netlist, request, &slices).0
}

/// Finds in slices that are just long enough.
fn find_in_just_enough(random: &mut Random, netlist: &[u8], request: Request) -> u64 {
    let needed = request.slice_lengths(calls::node_count(netlist));
    let slices = needed.map(|length| random.bytes(length));
    compare::find(random, netlist, request, &slices).0
}

fn every_fault(netlist: &[u8]) -> Vec<Fault> {
    let netlist = Netlist::sound(netlist).expect("the netlist is sound");
    faults(&netlist).collect()
}

#[test]
fn small_circuits() {
    let mut met = Met::default();
    run("small", 550_000, |_, random| {
        let draft = small::any(random);
        let fault = match random.below(100) {
            0 => calls::foreign_fault(random, &draft),
            _ => calls::fault(random, &draft),
        };
        let (b, f) = calls::bounds(random);
        let request = Request { fault, b, f };
        met.count(find(random, &draft.to_bytes(), request));
    });
    met.assert_found_and_none(100_000, 100_000);
    met.assert_found_at(&[0, 1], 10_000);
    met.assert_found_at(&[2], 500);
    met.assert_found_at(&[3], 20);
    met.assert_refused(&[9, 10, 11, 12], 1_000);
    met.assert_total(550_000);
}

#[test]
fn wide_gates() {
    let mut met = Met::default();
    run("wide gates", 20_000, |_, random| {
        let draft = small::of_wide_gate(random);
        let fault = match random.below(10) {
            0 => calls::fault(random, &draft),
            _ => calls::fault_of_widest(random, &draft),
        };
        let (b, f) = (random.below(4) as u8, random.below(3) as u8);
        let request = Request { fault, b, f };
        met.count(find(random, &draft.to_bytes(), request));
    });
    met.assert_found_and_none(5_000, 5_000);
    met.assert_found_at(&[0, 1], 100);
    met.assert_total(20_000);
}

/// One circuit of each plan, with this many nodes.
fn planned(nodes: u16) -> Vec<Draft> {
    let mut drafts = structured::all(nodes);
    if nodes >= 5 {
        drafts.extend(structured::with_outputs(nodes));
    }
    drafts
}

#[test]
fn every_fault_of_planned_circuits() {
    let sizes: Vec<u16> = (2..=20).chain([25, 30, 40, 60]).collect();
    let mut met = Met::default();
    run("planned", sizes.len() as u64, |case, random| {
        for draft in planned(sizes[case as usize]) {
            let netlist = draft.to_bytes();
            for fault in every_fault(&netlist) {
                for (b, f) in [(0, 0), (1, 1), (3, 0), (0, 3)] {
                    let request = Request { fault, b, f };
                    met.count(find_in_just_enough(random, &netlist, request));
                }
            }
        }
    });
    met.assert_found_and_none(40_000, 40_000);
    met.assert_found_at(&[0, 1], 1_000);
    met.assert_found_at(&[2, 3], 50);
    met.assert_total(100_000);
}

#[test]
fn wide_windows_of_planned_circuits() {
    let mut met = Met::default();
    run("wide windows", 500, |_, random| {
        let nodes = random.between(30, 60) as u16;
        let drafts = planned(nodes);
        let draft = &drafts[random.below(drafts.len())];
        let fault = calls::fault(random, draft);
        let (b, f) = random.pick(&[(2, 2), (4, 3), (5, 5), (7, 7), (14, 0), (0, 14), (3, 9)]);
        let request = Request { fault, b, f };
        met.count(find_in_just_enough(random, &draft.to_bytes(), request));
    });
    met.assert_found_and_none(150, 150);
    met.assert_found_at(&[0, 1], 10);
    met.assert_total(500);
}

/// Finds one fault with every B and F that are not too large together.
fn find_in_every_window(random: &mut Random, netlist: &[u8], fault: Fault, met: &mut Met) {
    for b in 0..15 {
        for f in 0..15 - b {
            let request = Request { fault, b, f };
            met.count(find_in_just_enough(random, netlist, request));
        }
    }
}

#[test]
fn every_b_and_f_of_a_window_that_is_not_too_wide() {
    let worked: [&[u8]; 4] = [
        &worked::INPUT,
        &worked::SELF_FED,
        &worked::AND_TWICE,
        &worked::P1,
    ];
    let mut met = Met::default();
    run("windows", worked.len() as u64, |case, random| {
        let netlist = worked[case as usize];
        for fault in every_fault(netlist) {
            find_in_every_window(random, netlist, fault, &mut met);
        }
    });
    met.assert_found_and_none(500, 500);
    run("windows of small circuits", 380, |_, random| {
        let draft = small::any(random);
        let fault = calls::fault(random, &draft);
        find_in_every_window(random, &draft.to_bytes(), fault, &mut met);
    });
    met.assert_found_and_none(5_000, 5_000);
    met.assert_total(50_000);
    assert!(met.refused.is_empty());
}

#[test]
fn windows_that_are_too_wide() {
    let wide = [1, 7, 8, 14, 15, 16, 127, 128, 254, 255];
    run("too wide", 100, |case, random| {
        let draft = small::any(random);
        let large = wide[case as usize % wide.len()];
        for small in 15 - large.min(15)..=16 {
            let fault = calls::fault(random, &draft);
            for (b, f) in [(large, small), (small, large)] {
                let request = Request { fault, b, f };
                let answer = find_in_just_enough(random, &draft.to_bytes(), request);
                assert_eq!(answer, 10);
            }
        }
    });
}

/// Equal shift registers of this depth from one input, a gate of their ends,
/// and its output.
fn equal_registers(registers: u16, depth: u16, kind: u8) -> Draft {
    let mut draft = Draft::inputs(1);
    for register in 0..registers {
        draft.push(kind::FLIP_FLOP, &[0]);
        for stage in 1..depth {
            draft.push(kind::FLIP_FLOP, &[register * depth + stage]);
        }
    }
    let ends: Vec<u16> = (1..=registers).map(|register| register * depth).collect();
    draft.push(kind, &ends);
    draft.push(kind::OUTPUT, &[registers * depth + 1]);
    draft
}

/// Each gate with the value at which a pin is redundant beside an equal one.
const GATES: [(u8, u8); 4] = [
    (kind::AND, 1),
    (kind::NAND, 1),
    (kind::OR, 0),
    (kind::NOR, 0),
];

#[test]
fn the_smallest_c_is_answered() {
    // How many registers, and the pin that is faulted.
    let pins = [(2, 0), (2, 1), (3, 1)];
    let places = (GATES.len() * pins.len()) as u64;
    run("depths", 14 * places, |case, random| {
        // The ends are the same from the clock on in which all show what the
        // input was when the faulty circuit started.
        let depth = 1 + (case / places) as u8;
        let place = (case % places) as usize;
        let (kind, u) = GATES[place % GATES.len()];
        let (registers, pin) = pins[place / GATES.len()];
        let netlist = equal_registers(registers, depth.into(), kind).to_bytes();
        let fault = Fault {
            node: registers * u16::from(depth) + 1,
            site: Site::Pin(pin),
            u,
        };
        let mut find = |b, f| {
            let request = Request { fault, b, f };
            find_in_just_enough(random, &netlist, request)
        };
        assert_eq!(find(depth - 1, 0), 0);
        for b in depth..15 {
            assert_eq!(find(b, 14 - b) >> 32, u64::from(depth) + 1);
        }
    });
}

#[test]
fn the_smallest_c_is_answered_for_wide_gates() {
    for (kind, u) in GATES {
        for registers in [9, kind::MOST_PINS as u16] {
            let netlist = equal_registers(registers, 1, kind).to_bytes();
            let fault = Fault {
                node: registers + 1,
                site: Site::Pin(registers as u8 - 1),
                u,
            };
            let find = |b, f| {
                let request = Request { fault, b, f };
                find_in_just_enough(&mut Random::new(6), &netlist, request)
            };
            assert_eq!(find(0, 0), 0);
            for (b, f) in [(1, 0), (2, 0), (1, 1)] {
                assert_eq!(find(b, f) >> 32, 2);
            }
        }
    }
}

/// A request and its slices with every damage of `numbers` done to them, one
/// for each of 9 to 12.
fn damaged_call(random: &mut Random, draft: &Draft, numbers: &[u64]) -> (Request, [Vec<u8>; 3]) {
    let fault = match numbers.contains(&9) {
        true => calls::foreign_fault(random, draft),
        false => calls::fault(random, draft),
    };
    let (b, f) = match numbers.contains(&10) {
        true => random.pick(&[(15, 0), (0, 15), (14, 1), (255, 0), (255, 255), (128, 128)]),
        false => (random.below(3) as u8, random.below(3) as u8),
    };
    let request = Request { fault, b, f };
    let needed = request.slice_lengths(draft.nodes.len());
    let mut slices = needed.map(|length| random.bytes(length));
    if numbers.contains(&11) {
        slices[random.below(2)].pop();
    }
    if numbers.contains(&12) {
        slices[2].pop();
    }
    (request, slices)
}

#[test]
fn the_smallest_of_several_damages_is_the_refusal() {
    let mut met = Met::default();
    // Every set of damages there is, the empty one included.
    run("damages", 16 * 2_000, |case, random| {
        let numbers = (0..4).filter(|bit| case >> bit & 1 == 1);
        let numbers: Vec<u64> = numbers.map(|bit| 9 + bit).collect();
        let draft = small::any(random);
        let (request, slices) = damaged_call(random, &draft, &numbers);
        let (answer, _) = compare::find(random, &draft.to_bytes(), request, &slices);
        match numbers.first() {
            Some(smallest) => assert_eq!(answer, *smallest, "of {numbers:?}"),
            None => assert!(answer == 0 || answer > 16),
        }
        met.count(answer);
    });
    met.assert_found_and_none(200, 200);
    met.assert_refused(&[9, 10, 11, 12], 1_000);
    met.assert_total(32_000);
}

#[test]
fn netlists_that_are_not_sound() {
    run("unsound", 35_000, |case, random| {
        let number = 1 + case % 7;
        let nodes = random.between(1, 12);
        let netlist = damaged::with(random, nodes, &[number as u8]);
        let fault = Fault {
            node: random.pick(&[0, 1, 4_096]),
            site: Site::from_byte(random.pick(&[0, 7, 255])),
            u: random.below(3) as u8,
        };
        let (b, f) = random.pick(&[(0, 0), (1, 1), (14, 1)]);
        let slices = [0, 1, 2].map(|_| {
            let length = random.pick(&[0, 1, 25, 2_000]);
            random.bytes(length)
        });
        let (answer, _) = compare::find(random, &netlist, Request { fault, b, f }, &slices);
        assert_eq!(answer, number);
    });
}

#[test]
fn middling_circuits() {
    let mut met = Met::default();
    run("middling", 15_000, |_, random| {
        let nodes = random.between(13, 40);
        let draft = sound::random(random, nodes);
        let fault = calls::fault(random, &draft);
        let (b, f) = (random.below(4) as u8, random.below(3) as u8);
        let request = Request { fault, b, f };
        met.count(find(random, &draft.to_bytes(), request));
    });
    met.assert_found_and_none(3_000, 3_000);
    met.assert_found_at(&[0, 1, 2], 20);
    met.assert_total(15_000);
}

#[test]
fn every_fault_of_the_small_examples() {
    let mut random = Random::new(5);
    let bounds = [
        (0, 0),
        (0, 1),
        (1, 0),
        (1, 1),
        (2, 0),
        (2, 1),
        (3, 0),
        (0, 3),
        (3, 1),
        (2, 3),
    ];
    // How many faults are found with each of these bounds.
    for (name, found) in [
        ("and2", [2; 10]),
        ("p1", [0, 1, 3, 4, 3, 4, 3, 1, 4, 4]),
        ("ffself", [0, 0, 4, 4, 4, 4, 4, 0, 4, 4]),
        ("s27", [0; 10]),
        ("mix30", [11, 11, 12, 12, 12, 12, 12, 11, 12, 12]),
        ("random30", [43, 43, 54, 60, 88, 96, 88, 43, 96, 96]),
    ] {
        let netlist = example(name);
        for ((b, f), found) in bounds.into_iter().zip(found) {
            let mut met = Met::default();
            for fault in every_fault(&netlist) {
                let request = Request { fault, b, f };
                met.count(find_in_just_enough(&mut random, &netlist, request));
            }
            assert_eq!(met.found_at_all(), found, "{name}, B {b}, F {f}");
        }
    }
}

#[test]
fn some_faults_of_the_large_examples() {
    let mut met = Met::default();
    for name in ["mix100", "random100", "mix290", "random290"] {
        let netlist = example(name);
        let faults = every_fault(&netlist);
        println!("{name}");
        run("large example", 200, |_, random| {
            let fault = random.pick(&faults);
            let (b, f) = (random.below(3) as u8, random.below(2) as u8);
            let request = Request { fault, b, f };
            met.count(find_in_just_enough(random, &netlist, request));
        });
    }
    met.assert_found_and_none(50, 500);
    met.assert_found_at(&[0, 1], 5);
    met.assert_total(800);
}

#[test]
fn some_faults_of_the_decoder() {
    let mut met = Met::default();
    let netlist = example("decoder");
    let faults = every_fault(&netlist);
    run("decoder", 60, |_, random| {
        let fault = random.pick(&faults);
        let request = Request { fault, b: 1, f: 0 };
        met.count(find_in_just_enough(random, &netlist, request));
    });
    met.assert_found_and_none(5, 20);
    met.assert_total(60);
}

#[test]
fn the_longest_certificates() {
    // Each line but the split is a step, in both branches.
    let netlist = structured::settled_chain(4_096).to_bytes();
    let (node, site, u) = (1, Site::Pin(0), 1);
    let fault = Fault { node, site, u };
    run("longest", 15, |case, random| {
        let f = case as u8;
        let request = Request {
            fault,
            b: 14 - f,
            f,
        };
        let answer = find_in_just_enough(random, &netlist, request);
        let lines = 4_096 * (case as usize + 1);
        assert_eq!(answer, found_number(0, 25 + 14 * (lines - 1)));
    });
}

#[test]
fn splits_at_nodes_above_255() {
    let counts = [256, 257, 258, 300, 511, 512, 513, 600, 1_024, 1_025];
    run("far splits", counts.len() as u64, |case, random| {
        // Inputs, an AND of the last one twice, and its output: only that input
        // and what hangs on it tell of the AND's pin.
        let inputs: u16 = counts[case as usize];
        let mut draft = Draft::inputs(inputs.into());
        draft.push(kind::AND, &[inputs - 1, inputs - 1]);
        draft.push(kind::OUTPUT, &[inputs]);
        let (node, site, u) = (inputs, Site::Pin(1), 1);
        let request = Request {
            fault: Fault { node, site, u },
            b: 1,
            f: 0,
        };
        let needed = request.slice_lengths(draft.nodes.len());
        let slices = needed.map(|length| random.bytes(length));
        let (answer, certificate) = compare::find(random, &draft.to_bytes(), request, &slices);
        // In both branches the AND and the output follow.
        assert_eq!(answer, found_number(0, 25 + 4 * 7));
        let ([low, high], split) = (inputs.to_le_bytes(), (inputs - 1).to_le_bytes());
        let head = [low, high, 1, 1, 0, 0, split[0], split[1], 0];
        assert_eq!(certificate[..9], head);
    });
}
