//! Mixes of any size, in the manner of the examples mix30 to mix290: counters,
//! shift registers, feedback registers, twin pipelines, one-hot machines and
//! small arithmetic units, joined by glue.

use super::{Draft, Node};
use crate::model::kind;
use crate::random::Random;

/// How many of a hundred nodes belong to units; the others are glue and its
/// outputs.
const IN_UNITS: usize = 90;

/// A mix of just so many nodes (at least 1): inputs, then flip-flops, gates and
/// outputs.
pub fn of_size(random: &mut Random, nodes: usize) -> Draft {
    let mut mix = Mix::default();
    // Glue always has something to read.
    mix.input();
    add_units(&mut mix, random, nodes * IN_UNITS / 100);
    add_glue(&mut mix, random, nodes);
    mix.into_draft()
}

/// The mix of so many nodes that the example and the tests use, the same each time.
pub fn usual(nodes: usize) -> Draft {
    of_size(&mut Random::new(nodes as u64), nodes)
}

/// A mix that is being made. Its nodes stand in the order in which they were
/// added, and its outputs are still to come.
#[derive(Clone, Default)]
struct Mix {
    draft: Draft,
    /// The nodes that other units and glue may read.
    taps: Vec<u16>,
    /// The nodes that get an output.
    shown: Vec<u16>,
}

impl Mix {
    fn node_count(&self) -> usize {
        self.draft.nodes.len() + self.shown.len()
    }

    fn add(&mut self, kind: u8, sources: &[u16]) -> u16 {
        self.draft.push(kind, sources);
        self.draft.nodes.len() as u16 - 1
    }

    fn input(&mut self) -> u16 {
        let input = self.add(kind::INPUT, &[]);
        self.taps.push(input);
        input
    }

    /// A flip-flop that others may read.
    fn flip_flop(&mut self, source: u16) -> u16 {
        let flip_flop = self.add(kind::FLIP_FLOP, &[source]);
        self.taps.push(flip_flop);
        flip_flop
    }

    /// Flip-flops that get their sources later, when these are there.
    fn flip_flops(&mut self, count: usize) -> Vec<u16> {
        (0..count).map(|_| self.flip_flop(0)).collect()
    }

    fn feed(&mut self, flip_flop: u16, source: u16) {
        self.draft.nodes[usize::from(flip_flop)].sources = vec![source];
    }

    /// What a unit reads: mostly a new input, else what another unit has.
    fn line(&mut self, random: &mut Random) -> u16 {
        match random.chance(75) {
            true => self.input(),
            false => random.pick(&self.taps),
        }
    }

    /// Adds the outputs, and numbers the nodes kind by kind. Gates stay in their
    /// order, so that each still comes behind what it reads.
    fn into_draft(mut self) -> Draft {
        for source in &self.shown {
            self.draft.push(kind::OUTPUT, &[*source]);
        }
        let nodes = self.draft.nodes;
        let mut order: Vec<usize> = (0..nodes.len()).collect();
        order.sort_by_key(|node| match nodes[*node].kind {
            kind::INPUT => 0,
            kind::FLIP_FLOP => 1,
            kind::OUTPUT => 3,
            _ => 2,
        });
        let mut numbers = vec![0; nodes.len()];
        for (number, node) in (0..).zip(&order) {
            numbers[*node] = number;
        }
        let nodes = order.iter().map(|node| {
            let Node { kind, sources } = &nodes[*node];
            let sources = sources.iter().map(|source| numbers[usize::from(*source)]);
            Node {
                kind: *kind,
                sources: sources.collect(),
            }
        });
        Draft {
            nodes: nodes.collect(),
        }
    }
}

/// The units, in the order in which a mix gets them over and over.
const UNITS: [fn(&mut Mix, &mut Random); 6] = [
    shift_register,
    feedback_register,
    twin_pipelines,
    one_hot_machine,
    arithmetic_unit,
    counter,
];

/// Adds units until none of them has room among so many nodes.
fn add_units(mix: &mut Mix, random: &mut Random, most: usize) {
    let mut without_room = 0;
    for unit in UNITS.iter().cycle() {
        let mut longer = mix.clone();
        unit(&mut longer, random);
        add_links(&mut longer, random, &mix.taps);
        if longer.node_count() <= most {
            *mix = longer;
            without_room = 0;
        } else {
            without_room += 1;
        }
        if without_room == UNITS.len() {
            return;
        }
    }
}

/// Two flip-flops, each behind a gate of what was there before and of what the
/// last unit has. Some are not shown, as in circuits that have grown over time.
fn add_links(mix: &mut Mix, random: &mut Random, before: &[u16]) {
    let of_unit = mix.taps[before.len()..].to_vec();
    for _ in 0..2 {
        let sources = [random.pick(before), random.pick(&of_unit)];
        let gate = mix.add(any_gate(random), &sources);
        let link = mix.flip_flop(gate);
        if random.chance(50) {
            mix.shown.push(link);
        }
    }
}

/// Gates of any two nodes, most of them shown, until there are so many nodes.
fn add_glue(mix: &mut Mix, random: &mut Random, nodes: usize) {
    while mix.node_count() + 1 < nodes {
        let sources = [random.pick(&mix.taps), random.pick(&mix.taps)];
        let gate = mix.add(any_gate(random), &sources);
        mix.taps.push(gate);
        if random.chance(70) {
            mix.shown.push(gate);
        }
    }
    if mix.node_count() < nodes {
        mix.shown.push(random.pick(&mix.taps));
    }
}

/// A shift register, and the sum of its stages. Each stage goes by a gate that
/// takes in what the stage alone says already, and is redundant.
fn shift_register(mix: &mut Mix, random: &mut Random) {
    let data = mix.line(random);
    let mut stages = vec![mix.flip_flop(data)];
    for stage in 1..random.between(7, 15) {
        stages.push(mix.flip_flop(stages[stage - 1]));
    }
    let mut sum = stages[stages.len() - 1];
    for stage in 0..stages.len() / 2 {
        let (near, far) = (stages[stage], stages[stages.len() - 1 - stage]);
        let both = mix.add(kind::AND, &[near, far]);
        let same = mix.add(kind::OR, &[near, both]);
        sum = mix.add(kind::XOR, &[sum, same]);
    }
    mix.shown.push(sum);
}

/// A shift register that takes in the sum of some of its stages, or data.
fn feedback_register(mix: &mut Mix, random: &mut Random) {
    let (load, data) = (mix.line(random), mix.line(random));
    let stages = mix.flip_flops(random.between(9, 25));
    let last = stages[stages.len() - 1];
    let mut sum = mix.add(kind::XOR, &[last, stages[0]]);
    for stage in &stages[1..stages.len() - 1] {
        if random.chance(35) {
            sum = mix.add(kind::XOR, &[sum, *stage]);
        }
    }
    let shift = mix.add(kind::NOT, &[load]);
    let loaded = mix.add(kind::AND, &[load, data]);
    let shifted = mix.add(kind::AND, &[shift, sum]);
    let next = mix.add(kind::OR, &[loaded, shifted]);
    mix.feed(stages[0], next);
    for pair in stages.windows(2) {
        mix.feed(pair[1], pair[0]);
    }
    mix.shown.push(last);
}

/// Two copies of one pipeline. Gates join them here and there, and have pins
/// that are redundant as soon as both copies show what came in together.
fn twin_pipelines(mix: &mut Mix, random: &mut Random) {
    let (data, enable) = (mix.line(random), mix.line(random));
    let mut ends = [data; 2];
    for _ in 0..random.between(4, 10) {
        ends = ends.map(|end| mix.flip_flop(end));
        if random.chance(50) {
            let joined = mix.add(wide_gate(random), &ends);
            if random.chance(60) {
                mix.shown.push(joined);
            }
        }
        if random.chance(40) {
            ends = ends.map(|end| mix.add(kind::AND, &[end, enable]));
        }
    }
    let joined = mix.add(wide_gate(random), &ends);
    let last = mix.flip_flop(ends[1]);
    mix.shown.extend([joined, last]);
}

/// A machine with a flip-flop for each state, which goes around step by step
/// and can be set back to its first state.
fn one_hot_machine(mix: &mut Mix, random: &mut Random) {
    let (step, back) = (mix.line(random), mix.line(random));
    let states = mix.flip_flops(random.between(3, 7));
    let (go_on, stay) = (mix.add(kind::NOT, &[back]), mix.add(kind::NOT, &[step]));
    let left = states.iter().map(|state| mix.add(kind::NOT, &[*state]));
    let left: Vec<u16> = left.collect();
    for (place, state) in states.iter().enumerate() {
        let before = states[(place + states.len() - 1) % states.len()];
        // While one state alone is on, this one is off when the one before is
        // on, and need not be asked.
        let entered = match random.chance(50) {
            true => mix.add(kind::AND, &[before, left[place], step]),
            false => mix.add(kind::AND, &[before, step]),
        };
        let kept = mix.add(kind::AND, &[*state, stay]);
        let next = mix.add(kind::OR, &[entered, kept]);
        let next = match place {
            0 => mix.add(kind::OR, &[next, back]),
            _ => mix.add(kind::AND, &[next, go_on]),
        };
        mix.feed(*state, next);
    }
    let last = mix.add(kind::AND, &[states[states.len() - 1], left[0]]);
    let middle = mix.add(kind::OR, &states[1..3]);
    mix.shown.extend([last, middle]);
}

/// AND, OR, XOR or sum of two numbers, chosen by two bits; operation, numbers
/// and result are in flip-flops.
fn arithmetic_unit(mix: &mut Mix, random: &mut Random) {
    let [low, high] = [0, 1].map(|_| registered_line(mix, random));
    let [not_low, not_high] = [low, high].map(|bit| mix.add(kind::NOT, &[bit]));
    let pairs = [
        [not_high, not_low],
        [not_high, low],
        [high, not_low],
        [high, low],
    ];
    let chosen = pairs.map(|pair| mix.add(kind::AND, &pair));
    let mut carry = None;
    for _ in 0..random.between(2, 3) {
        let numbers = [0, 1].map(|_| registered_line(mix, random));
        let both = mix.add(kind::AND, &numbers);
        let either = mix.add(kind::OR, &numbers);
        let unlike = mix.add(kind::XOR, &numbers);
        let (sum, next_carry) = match carry {
            None => (unlike, both),
            Some(carry) => {
                let carried = mix.add(kind::AND, &[unlike, carry]);
                let next = mix.add(kind::OR, &[both, carried]);
                (mix.add(kind::XOR, &[unlike, carry]), next)
            }
        };
        carry = Some(next_carry);
        let results = [both, either, unlike, sum].into_iter().zip(chosen);
        let taken = results.map(|(result, chosen)| mix.add(kind::AND, &[chosen, result]));
        let taken: Vec<u16> = taken.collect();
        let result = mix.add(kind::OR, &taken);
        let result = mix.flip_flop(result);
        mix.shown.push(result);
    }
    let carry = carry.expect("there is a bit");
    let carry = mix.flip_flop(carry);
    mix.shown.push(carry);
}

/// A flip-flop behind a line.
fn registered_line(mix: &mut Mix, random: &mut Random) -> u16 {
    let line = mix.line(random);
    mix.flip_flop(line)
}

/// A binary counter that can be set back, and a gate that tells its end. A
/// contradiction is mixed in there, which is 0 whatever the count is.
fn counter(mix: &mut Mix, random: &mut Random) {
    let (count, back) = (mix.line(random), mix.line(random));
    let bits = mix.flip_flops(random.between(4, 8));
    let go_on = mix.add(kind::NOT, &[back]);
    let mut carry = count;
    for (place, bit) in bits.iter().enumerate() {
        let toggled = mix.add(kind::XOR, &[*bit, carry]);
        let next = mix.add(kind::AND, &[toggled, go_on]);
        mix.feed(*bit, next);
        if place + 1 < bits.len() {
            carry = mix.add(kind::AND, &[carry, *bit]);
        }
    }
    let full = mix.add(kind::AND, &bits);
    let not_full = mix.add(kind::NAND, &bits);
    let never = mix.add(kind::NOR, &[full, not_full]);
    let end = mix.add(kind::OR, &[full, never]);
    mix.shown.extend([end, bits[bits.len() - 1]]);
}

fn wide_gate(random: &mut Random) -> u8 {
    random.pick(&[kind::AND, kind::NAND, kind::OR, kind::NOR])
}

fn any_gate(random: &mut Random) -> u8 {
    match random.chance(40) {
        true => random.pick(&[kind::XOR, kind::XNOR]),
        false => wide_gate(random),
    }
}

#[cfg(test)]
mod tests {
    use super::*;
    use crate::circuits::calls::Request;
    use crate::compare;
    use crate::files::example;
    use crate::model::netlist::Netlist;
    use crate::model::report::faults;
    use crate::native::sound_number;

    #[test]
    fn mixes_of_all_sizes_are_sound() {
        for nodes in (1..=120).chain([290, 1_000, 4_095, 4_096]) {
            for seed in 0..3 {
                let draft = of_size(&mut Random::new(seed), nodes);
                let sound = sound_number(nodes, draft.pin_count());
                assert_eq!(compare::read(&draft.to_bytes()), sound, "{nodes} nodes");
            }
        }
    }

    #[test]
    fn some_faults_of_a_mix_are_marked() {
        let mut random = Random::new(3);
        let netlist = of_size(&mut random, 60).to_bytes();
        let circuit = Netlist::sound(&netlist).expect("a mix is sound");
        let (mut all, mut marked) = (0, 0);
        for fault in faults(&circuit) {
            let (b, f) = (2, 0);
            let request = Request { fault, b, f };
            let slices = request.slice_lengths(60).map(|length| random.bytes(length));
            let (answer, _) = compare::find(&mut random, &netlist, request, &slices);
            all += 1;
            marked += usize::from(answer > 16);
        }
        println!("{marked} of {all} faults are marked");
        assert!(marked >= all / 50 && marked <= all / 3);
    }

    #[test]
    fn the_largest_example_is_a_mix() {
        assert_eq!(example("mix1000"), usual(1_000).to_bytes());
    }
}
