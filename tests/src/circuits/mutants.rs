//! Certificates that differ from a given one: in a byte, a field, a pair or a
//! step. Some are still acceptable, most are not.

use super::certificates::Argument;
use crate::model::certificate::PAIRS;
use crate::model::kind;
use crate::model::netlist::Netlist;
use crate::model::window::{Line, Step};
use crate::model::Site;
use crate::random::Random;

/// Steps of a run that are altered one by one; longer runs are drawn from.
const STEPS_ALTERED: usize = 6;

/// All the mutants below, of a certificate for this netlist.
pub fn all(random: &mut Random, netlist: &[u8], certificate: &[u8]) -> Vec<Vec<u8>> {
    let argument = Argument::read(certificate);
    let netlist = Netlist::sound(netlist).expect("the netlist is sound");
    let mut mutants = other_bytes(random, certificate);
    mutants.extend(other_subjects(&netlist, &argument));
    mutants.extend(other_pairs(certificate));
    mutants.extend(other_lengths(certificate));
    for branch in 0..2 {
        let length = argument.runs[branch].len();
        for _ in 0..length.min(STEPS_ALTERED) {
            let place = random.below(length);
            mutants.extend(other_step(random, &netlist, &argument, branch, place));
            mutants.extend(other_order(random, &argument, branch, place));
        }
        mutants.extend(more_steps(random, &netlist, &argument, branch));
    }
    mutants.push(changed(&argument, |argument| argument.runs.reverse()));
    mutants.push(changed(&argument, |argument| argument.runs[1].clear()));
    mutants.push(changed(&argument, |argument| argument.runs[0].clear()));
    mutants
}

fn changed(argument: &Argument, change: impl FnOnce(&mut Argument)) -> Vec<u8> {
    let mut argument = argument.clone();
    change(&mut argument);
    argument.to_bytes()
}

/// Every byte in turn: one bit of it, its end values, and anything.
fn other_bytes(random: &mut Random, certificate: &[u8]) -> Vec<Vec<u8>> {
    let mut mutants = Vec::new();
    for place in 0..certificate.len() {
        let old = certificate[place];
        let small = random.below(8) as u8;
        for new in [old ^ 1, old ^ 1 << random.below(8), 255, small] {
            if new != old {
                let mut mutant = certificate.to_vec();
                mutant[place] = new;
                mutants.push(mutant);
            }
        }
    }
    mutants
}

/// Other faults, other windows (some whose frames are few only modulo 256) and
/// other splits.
fn other_subjects(netlist: &Netlist, argument: &Argument) -> Vec<Vec<u8>> {
    let nodes = netlist.node_count();
    let subject = argument.subject;
    let mut mutants = Vec::new();
    for node in [0, 1, nodes - 1, nodes, nodes + 1, 4_096, 65_535] {
        mutants.push(changed(argument, |it| it.subject.fault.node = node as u16));
        mutants.push(changed(argument, |it| it.subject.split.node = node));
    }
    for site in (0..10).chain([62, 63, 64, 65, 254, 255]) {
        let site = Site::from_byte(site);
        mutants.push(changed(argument, |it| it.subject.fault.site = site));
    }
    for u in [1 ^ subject.fault.u, 2, 255] {
        mutants.push(changed(argument, |it| it.subject.fault.u = u));
    }
    let frames = subject.frames();
    for frame in [0, frames - 1, frames, frames + 1, 14, 15, 254, 255] {
        mutants.push(changed(argument, |it| it.subject.split.frame = frame));
    }
    let (c, f) = (subject.c, subject.f);
    let windows = [(255, f), (c, 255), (255, 255), (255, 0), (0, 255)];
    let near = [(c + 1, f), (c, f + 1), (f, c), (c + 1, f.saturating_sub(1))];
    let wrapping = [(128, 128), (200, 55 + frames as u8), (0, 14), (0, 15)];
    let edges = [(14, 0), (15, 0), (14, 1), (c.saturating_sub(1), f + 1)];
    for (c, f) in windows.into_iter().chain(near).chain(wrapping).chain(edges) {
        mutants.push(changed(argument, |it| {
            (it.subject.c, it.subject.f) = (c, f);
        }));
    }
    mutants
}

/// The four numbers of the pairs: next to what they were, far away, and such
/// that offset and length are right only modulo 2^32.
fn other_pairs(certificate: &[u8]) -> Vec<Vec<u8>> {
    let mut mutants = Vec::new();
    for place in PAIRS.into_iter().flat_map(|pair| [pair, pair + 4]) {
        let old = number(certificate, place);
        let near = [1, 6, 7, 8, 14].into_iter();
        let near = near.flat_map(|by| [old.wrapping_add(by), old.wrapping_sub(by)]);
        for new in near.chain([0, u32::MAX, u32::MAX - 6, old ^ 1 << 31, old ^ 1 << 16]) {
            let mut mutant = certificate.to_vec();
            put(&mut mutant, place, new);
            mutants.push(mutant);
        }
    }
    // The border of the runs moved: by whole steps, by single bytes, and from a
    // run without steps round the end of the numbers.
    for by in [1_i32, 6, 7, -1, -5, -6, -7] {
        let by = by as u32;
        let mut mutant = certificate.to_vec();
        for (place, by) in [(13, by), (17, by), (21, by.wrapping_neg())] {
            add(&mut mutant, place, by);
        }
        mutants.push(mutant);
    }
    mutants
}

/// Other lengths of the file, with the pairs as they were and with the last
/// one following, and runs that do not end with a whole step.
fn other_lengths(certificate: &[u8]) -> Vec<Vec<u8>> {
    let mut mutants = Vec::new();
    let length = certificate.len();
    let near = [length - 7, length - 1, length + 1, length + 7];
    for other in [0, 1, 8, 9, 24, 25].into_iter().chain(near) {
        let mut mutant = certificate.to_vec();
        mutant.resize(other, 0);
        mutants.push(mutant.clone());
        if other >= 25 {
            let by = (other as u32).wrapping_sub(length as u32);
            add(&mut mutant, 21, by);
            mutants.push(mutant);
        }
    }
    for more in 1..=7 {
        let mut mutant = certificate.to_vec();
        let border = number(certificate, 17) as usize;
        mutant.splice(border..border, vec![0; more as usize]);
        add(&mut mutant, 13, more);
        add(&mut mutant, 17, more);
        mutants.push(mutant);
    }
    mutants
}

/// One step altered in each of its fields, among them relations that there are
/// not and lines that the relation does not have.
fn other_step(
    random: &mut Random,
    netlist: &Netlist,
    argument: &Argument,
    branch: usize,
    place: usize,
) -> Vec<Vec<u8>> {
    let with =
        |change: &dyn Fn(&mut Step)| changed(argument, |it| change(&mut it.runs[branch][place]));
    let (nodes, frames) = (netlist.node_count(), argument.subject.frames());
    let mut mutants = Vec::new();
    for node in [random.below(nodes), nodes, 65_535] {
        mutants.push(with(&|step| step.line.node = node));
        mutants.push(with(&|step| step.relation.node = node));
    }
    for frame in [random.below(frames), frames, 255] {
        mutants.push(with(&|step| step.line.frame = frame));
        mutants.push(with(&|step| step.relation.frame = frame));
    }
    for value in [2, 3, 255] {
        mutants.push(with(&|step| step.value = value));
    }
    mutants.push(with(&|step| step.value ^= 1));
    for relation in no_relations(netlist, argument) {
        mutants.push(with(&|step| step.relation = relation));
        mutants.push(with(&|step| {
            (step.line, step.relation) = (relation, relation)
        }));
    }
    mutants
}

/// Inputs, flip-flops at frame 0 and the fault's node below frame c.
fn no_relations(netlist: &Netlist, argument: &Argument) -> Vec<Line> {
    let records = netlist.records().enumerate();
    let given = records.filter(|(_, record)| kind::is_given(record.kind));
    let mut lines: Vec<Line> = given.map(|(node, _)| Line { node, frame: 0 }).collect();
    let node = usize::from(argument.subject.fault.node);
    let below = 0..usize::from(argument.subject.c);
    lines.extend(below.map(|frame| Line { node, frame }));
    lines
}

/// A step repeated, left out, or at another place.
fn other_order(
    random: &mut Random,
    argument: &Argument,
    branch: usize,
    place: usize,
) -> Vec<Vec<u8>> {
    let step = argument.runs[branch][place];
    let end = argument.runs[branch].len();
    let other = random.below(end);
    vec![
        changed(argument, |it| it.runs[branch].insert(place, step)),
        changed(argument, |it| it.runs[branch].insert(end, step)),
        changed(argument, |it| it.runs[1 - branch].push(step)),
        changed(argument, |it| {
            it.runs[branch].remove(place);
        }),
        changed(argument, |it| it.runs[branch].swap(place, other)),
        changed(argument, |it| it.runs[branch].truncate(place)),
        changed(argument, |it| it.runs[branch].rotate_left(place)),
    ]
}

/// Steps added at the end of a run, which may have ended with a contradiction.
fn more_steps(
    random: &mut Random,
    netlist: &Netlist,
    argument: &Argument,
    branch: usize,
) -> Vec<Vec<u8>> {
    let mut mutants = Vec::new();
    for _ in 0..8 {
        let step = any_step(random, netlist, argument.subject.frames());
        mutants.push(changed(argument, |it| it.runs[branch].push(step)));
    }
    mutants
}

/// A step to one of the lines of a relation, with any value.
fn any_step(random: &mut Random, netlist: &Netlist, frames: usize) -> Step {
    let relation = Line {
        node: random.below(netlist.node_count()),
        frame: random.below(frames),
    };
    let record = netlist.record(relation.node).expect("there is such a node");
    let mut line = relation;
    if record.length > 0 && random.bit() == 0 {
        let pin = random.below(record.length);
        line.node = netlist.sources(record).nth(pin).unwrap_or(0);
        if record.kind == kind::FLIP_FLOP {
            line.frame = line.frame.saturating_sub(1);
        }
    }
    Step {
        line,
        value: random.bit(),
        relation,
    }
}

fn number(certificate: &[u8], place: usize) -> u32 {
    let bytes = certificate[place..place + 4].try_into();
    u32::from_le_bytes(bytes.expect("four bytes"))
}

/// Adds modulo 2^32.
fn add(certificate: &mut [u8], place: usize, by: u32) {
    let sum = number(certificate, place).wrapping_add(by);
    put(certificate, place, sum);
}

fn put(certificate: &mut [u8], place: usize, number: u32) {
    certificate[place..place + 4].copy_from_slice(&number.to_le_bytes());
}
