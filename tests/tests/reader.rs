//! The reader, library against model, and against refusals known beforehand.

use leverpeach_tests::cases::{run, Tally};
use leverpeach_tests::circuits::{damaged, raw, sound, structured, Draft};
use leverpeach_tests::compare;
use leverpeach_tests::model::kind::{
    AND, BUFFER, FLIP_FLOP, INPUT, MOST_PINS, NOR, NOT, OUTPUT, XNOR, XOR,
};
use leverpeach_tests::native::sound_number;

const REFUSALS: [u64; 7] = [1, 2, 3, 4, 5, 6, 7];
const ANSWERS: [u64; 8] = [0, 1, 2, 3, 4, 5, 6, 7];

#[test]
fn bytes_of_every_short_length() {
    let mut tally = Tally::default();
    run("short bytes", 65 * 1_000, |case, random| {
        let bytes = raw::of_length(random, (case % 65) as usize);
        tally.count(compare::read(&bytes));
    });
    tally.assert_met(&[1, 2, 3, 4], 500);
}

#[test]
fn bytes_shaped_like_a_netlist() {
    let mut tally = Tally::default();
    run("shaped bytes", 80_000, |_, random| {
        tally.count(compare::read(&raw::shaped(random)));
    });
    tally.assert_met(&[0, 4, 5, 6, 7], 1_000);
}

#[test]
fn sound_netlists_are_sound() {
    run("sound", 20_000, |case, random| {
        let draft = sound::random(random, 1 + (case % 60) as usize);
        let expected = sound_number(draft.nodes.len(), draft.pin_count());
        assert_eq!(compare::read(&draft.to_bytes()), expected);
    });
}

#[test]
fn sound_netlists_with_a_few_bytes_changed() {
    let mut tally = Tally::default();
    run("changed bytes", 60_000, |case, random| {
        let bytes = raw::altered(random, 1 + (case % 25) as usize);
        tally.count(compare::read(&bytes));
    });
    tally.assert_met(&[0, 2, 3, 4, 5, 6, 7], 300);
}

#[test]
fn the_smallest_of_several_damages_is_the_refusal() {
    let mut tally = Tally::default();
    // Every set of damages there is, the empty one included.
    run("damages", 128 * 400, |case, random| {
        let numbers: Vec<u8> = (1..=7).filter(|n| case >> (n - 1) & 1 == 1).collect();
        let nodes = random.between(1, 30);
        let bytes = damaged::with(random, nodes, &numbers);
        let answer = compare::read(&bytes);
        match numbers.first() {
            Some(smallest) => assert_eq!(answer, u64::from(*smallest), "of {numbers:?}"),
            None => assert!(answer > 16, "undamaged, yet {answer}"),
        }
        tally.count(answer);
    });
    tally.assert_met(&ANSWERS, 400);
}

#[test]
fn large_netlists_and_large_damaged_ones() {
    let mut tally = Tally::default();
    run("large", 1_600, |case, random| {
        let damage = case % 8;
        if damage == 0 {
            let draft = match case % 16 {
                0 => sound::of_size(random, 4_096, 16_384),
                _ => sound::of_widest_gates(random),
            };
            let expected = sound_number(4_096, 16_384);
            assert_eq!(compare::read(&draft.to_bytes()), expected);
        } else {
            let nodes = random.between(2_000, 4_095);
            let bytes = damaged::with(random, nodes, &[damage as u8]);
            let answer = compare::read(&bytes);
            assert_eq!(answer, damage);
            tally.count(answer);
        }
    });
    tally.assert_met(&REFUSALS, 200);
}

#[test]
fn planned_circuits_of_all_sizes_are_sound() {
    for nodes in [2, 3, 4, 5, 17, 255, 256, 257, 4_095, 4_096] {
        for draft in structured::all(nodes) {
            let expected = sound_number(nodes.into(), draft.pin_count());
            assert_eq!(compare::read(&draft.to_bytes()), expected);
        }
    }
}

#[test]
fn one_node_or_one_pin_too_many() {
    let read_inputs = |count| compare::read(&Draft::inputs(count).to_bytes());
    assert_eq!(read_inputs(1), sound_number(1, 0));
    assert_eq!(read_inputs(4_096), sound_number(4_096, 0));
    assert_eq!(read_inputs(4_097), 2);
    assert_eq!(read_inputs(0), 2);

    // 16,384 pins on gates of eight or of 64, and one buffer more.
    for (gates, pins, length) in [(2_048, 8, 43_017), (256, MOST_PINS, 34_057)] {
        let mut draft = structured::gates_on_one_input(gates, pins);
        assert_eq!(draft.to_bytes().len(), length);
        let expected = sound_number(gates + 1, 16_384);
        assert_eq!(compare::read(&draft.to_bytes()), expected);
        draft.push(BUFFER, &[0]);
        assert_eq!(draft.pin_count(), 16_385);
        assert_eq!(compare::read(&draft.to_bytes()), 2);
    }
}

#[test]
fn a_netlist_of_65_536_bytes() {
    let with_counts = |nodes: u16, pins: u16| {
        let mut bytes = vec![0; 65_536];
        bytes[..2].copy_from_slice(&nodes.to_le_bytes());
        bytes[2..4].copy_from_slice(&pins.to_le_bytes());
        bytes
    };
    assert_eq!(compare::read(&with_counts(4_096, 16_384)), 3);
    assert_eq!(compare::read(&with_counts(1, 0)), 3);
    assert_eq!(compare::read(&with_counts(65_535, 65_535)), 2);
    // 4 + 5 * 12,000 + 2 * 2,766 is 65,536: the length fits, the count does not.
    assert_eq!(compare::read(&with_counts(12_000, 2_766)), 2);
    // 4 + 5 * 13,106 + 2 * 32,769 is 65,536 above 65,536.
    assert_eq!(compare::read(&with_counts(13_106, 32_769)), 2);
}

#[test]
fn sums_of_offset_and_length_do_not_wrap() {
    let inputs_with_pairs = |pairs: &[(u16, u16)], pins: u16| {
        let mut bytes = (pairs.len() as u16).to_le_bytes().to_vec();
        bytes.extend(pins.to_le_bytes());
        for (offset, length) in pairs {
            bytes.push(INPUT);
            bytes.extend(offset.to_le_bytes());
            bytes.extend(length.to_le_bytes());
        }
        bytes.extend(vec![0; 2 * usize::from(pins)]);
        bytes
    };
    // Each would keep the rule if sums were taken modulo 65,536.
    let wrapping: [&[(u16, u16)]; 5] = [
        &[(0, 65_535), (65_535, 1)],
        &[(0, 65_535), (65_535, 1), (0, 0)],
        &[(0, 32_768), (32_768, 32_768), (0, 0)],
        &[(0, 0), (0, 65_535), (65_535, 1), (0, 0)],
        &[(0, 65_535), (65_535, 65_535), (65_534, 2)],
    ];
    for pairs in wrapping {
        assert_eq!(compare::read(&inputs_with_pairs(pairs, 0)), 5, "{pairs:?}");
    }
    let pairs = [(0, 65_535), (65_535, 3)];
    assert_eq!(compare::read(&inputs_with_pairs(&pairs, 2)), 5);
    // The rule kept, far past any pin: the end is not P.
    let pairs = [(0, 65_535), (65_535, 0)];
    assert_eq!(compare::read(&inputs_with_pairs(&pairs, 0)), 5);
    // The rule kept, but an input has the pins.
    assert_eq!(compare::read(&inputs_with_pairs(&[(0, 9), (9, 0)], 9)), 6);
}

#[test]
fn pairs_that_only_wrapped_sums_would_pass() {
    run("wrapped pairs", 10_000, |_, random| {
        assert_eq!(compare::read(&damaged::wrapped_pairs(random)), 5);
    });
}

#[test]
fn every_kind_with_every_pin_count() {
    for kind in 0..=XNOR {
        // The whole number counts: 258, say, is not the 2 of its low byte.
        let many = [255, 256, 257, 258, 256 + 8, 320, 512 + 2, 16_384];
        for pins in (0..=70).chain(many) {
            let draft = Draft::of(&[(INPUT, &[]), (kind, &vec![0; pins])]);
            let fits = match kind {
                INPUT => pins == 0,
                OUTPUT..=NOT => pins == 1,
                AND..=NOR => (2..=MOST_PINS).contains(&pins),
                _ => pins == 2,
            };
            let expected = if fits { sound_number(2, pins) } else { 6 };
            let answer = compare::read(&draft.to_bytes());
            assert_eq!(answer, expected, "kind {kind}, {pins} pins");
        }
    }
    for kind in XNOR + 1..=255 {
        let draft = Draft::of(&[(INPUT, &[]), (kind, &[0, 0])]);
        assert_eq!(compare::read(&draft.to_bytes()), 4, "kind {kind}");
    }
}

#[test]
fn every_kind_with_every_source() {
    let sources = [0, 1, 2, 3, 4, 5, 6, 7, 8, 255, 256, 4_095, 4_096, 65_535];
    for kind in OUTPUT..=XNOR {
        for source in sources {
            // Node 3 is looked at; nodes 1 and 5 are outputs.
            let pins: &[u16] = if kind >= AND { &[0, source] } else { &[source] };
            let draft = Draft::of(&[
                (INPUT, &[]),
                (OUTPUT, &[0]),
                (BUFFER, &[0]),
                (kind, pins),
                (INPUT, &[]),
                (OUTPUT, &[0]),
                (XOR, &[0, 4]),
            ]);
            let allowed = match kind {
                FLIP_FLOP => [0, 2, 3, 4, 6].contains(&source),
                _ => [0, 2].contains(&source),
            };
            let expected = if allowed {
                sound_number(7, draft.pin_count())
            } else {
                7
            };
            let answer = compare::read(&draft.to_bytes());
            assert_eq!(answer, expected, "kind {kind}, source {source}");
        }
    }
}

#[test]
fn refusals_are_looked_for_in_the_whole_netlist() {
    // The first node breaks 7, the last has kind 11.
    let late_kind = Draft::of(&[(BUFFER, &[0]), (INPUT, &[]), (11, &[])]);
    assert_eq!(compare::read(&late_kind.to_bytes()), 4);
    // The first node breaks 7, the last one 6.
    let late_count = Draft::of(&[(BUFFER, &[0]), (INPUT, &[]), (NOT, &[1, 1])]);
    assert_eq!(compare::read(&late_count.to_bytes()), 6);
    // The first node breaks 6, the last pair ends short of P.
    let mut late_pair = Draft::of(&[(BUFFER, &[]), (BUFFER, &[0])]).to_bytes();
    late_pair[12] = 0;
    assert_eq!(compare::read(&late_pair), 5);
}
