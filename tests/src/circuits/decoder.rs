//! A memory's address decoder, with gates as wide as a gate may be: the circuit
//! that request 1 of 02 is about.

use super::Draft;
use crate::model::kind;
use crate::random::Random;

/// The bits of an address, and the words that they choose among.
const ADDRESS_BITS: usize = 6;
const WORDS: usize = 1 << ADDRESS_BITS;

/// The gates that look at a whole memory at once.
const WIDE_GATES: [u8; 4] = [kind::AND, kind::NAND, kind::OR, kind::NOR];

/// The decoder that is an example, the same each time.
pub fn usual() -> Draft {
    of(&mut Random::new(64))
}

/// An address is latched and chooses one of 64 words: an AND for each, of every
/// address bit or its complement. Gates of 64 pins look at all words, at 64 lines
/// of data, and at any of both. Half of them are latched, and all have an output.
pub fn of(random: &mut Random) -> Draft {
    let mut draft = Draft::inputs(ADDRESS_BITS + WORDS);
    let data: Vec<u16> = (ADDRESS_BITS as u16..).take(WORDS).collect();
    let words = add_words(&mut draft);
    let mut shown = Vec::new();
    for kind in WIDE_GATES {
        let both = [
            some_of_both(random, &words, &data),
            some_of_both(random, &words, &data),
        ];
        for sources in [&words, &data, &both[0], &both[1]] {
            shown.push(add(&mut draft, kind, sources));
        }
    }
    for place in (0..shown.len()).step_by(2) {
        shown[place] = add(&mut draft, kind::FLIP_FLOP, &[shown[place]]);
    }
    for source in shown {
        add(&mut draft, kind::OUTPUT, &[source]);
    }
    draft
}

/// The lines that the words are chosen by, for an address that comes in at the
/// first inputs.
fn add_words(draft: &mut Draft) -> Vec<u16> {
    let bits = 0..ADDRESS_BITS as u16;
    let latched: Vec<u16> = bits
        .map(|bit| add(draft, kind::FLIP_FLOP, &[bit]))
        .collect();
    let complements = latched.iter().map(|bit| add(draft, kind::NOT, &[*bit]));
    let complements: Vec<u16> = complements.collect();
    let word = |number: usize| {
        let literal = |bit: usize| match number >> bit & 1 {
            1 => latched[bit],
            _ => complements[bit],
        };
        let sources: Vec<u16> = (0..ADDRESS_BITS).map(literal).collect();
        add(draft, kind::AND, &sources)
    };
    (0..WORDS).map(word).collect()
}

/// For each place a word's line or a line of data.
fn some_of_both(random: &mut Random, words: &[u16], data: &[u16]) -> Vec<u16> {
    let places = words.iter().zip(data);
    places
        .map(|(word, line)| random.pick(&[*word, *line]))
        .collect()
}

fn add(draft: &mut Draft, kind: u8, sources: &[u16]) -> u16 {
    draft.push(kind, sources);
    draft.nodes.len() as u16 - 1
}

#[cfg(test)]
mod tests {
    use super::*;
    use crate::compare;
    use crate::files::example;
    use crate::native::sound_number;

    #[test]
    fn the_example_is_a_decoder() {
        assert_eq!(example("decoder"), usual().to_bytes());
    }

    #[test]
    fn decoders_are_sound_and_have_gates_of_64_pins() {
        for seed in 0..20 {
            let draft = of(&mut Random::new(seed));
            let sound = sound_number(draft.nodes.len(), draft.pin_count());
            assert_eq!(compare::read(&draft.to_bytes()), sound);
            let widest = draft.nodes.iter().filter(|node| node.sources.len() == 64);
            assert_eq!(widest.count(), 16);
        }
    }
}
