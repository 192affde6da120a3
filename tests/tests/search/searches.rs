//! Searches to put in the place of the finder's own, with the same names and
//! the same signatures.

/// A search that finds nothing.
pub mod nothing {
    use crate::port::circuit::Fault;
    use crate::port::gates::UNKNOWN;
    use crate::port::splits::Split;

    pub(crate) use crate::port::as_it_is::search::quick::Window;

    /// It needs nothing.
    pub struct Scratch;

    impl Scratch {
        pub fn new() -> Self {
            Scratch
        }

        pub fn read(&mut self, _netlist: &[u8], _n: u16) {}
    }

    /// No run shows the fault.
    pub fn find_run(_netlist: &[u8], _n: u16, _fault: Fault, _c: u8) -> Option<u8> {
        None
    }

    /// No set keeps the split open.
    pub fn propose(
        _netlist: &[u8],
        _window: Window,
        _split: Split,
        _scratch: &mut Scratch,
        _known: &mut [u8],
        _noted: &[u8],
    ) -> bool {
        false
    }

    /// No value is guessed.
    pub fn guess(
        _netlist: &[u8],
        _window: Window,
        _scratch: &mut Scratch,
        known: &mut [u8],
        _noted: &[u8],
    ) {
        known.fill(UNKNOWN);
    }
}

/// A search that lies: it names runs that show nothing, and sets that keep
/// nothing open. Now and then it leaves anything at all in what it is lent, now
/// and then what the finder's own search finds, but for one value.
pub mod lies {
    use crate::port::as_it_is::search::quick;
    use crate::port::circuit::Fault;
    use crate::port::splits::Split;
    use leverpeach_tests::random::Random;
    use std::cell::RefCell;

    pub(crate) use crate::port::as_it_is::search::quick::{Scratch, Window};

    thread_local! {
        static RANDOM: RefCell<Random> = RefCell::new(Random::new(0));
    }

    /// Draws the lies from here on from this seed.
    pub fn begin(seed: u64) {
        RANDOM.set(Random::new(seed));
    }

    pub fn find_run(_netlist: &[u8], _n: u16, _fault: Fault, _c: u8) -> Option<u8> {
        RANDOM.with_borrow_mut(|random| random.chance(80).then(|| random.byte()))
    }

    /// What is found in place of a set: any bytes, bytes that would be notes of
    /// splits, any values, the truth but for one value, or the truth.
    #[derive(Clone, Copy)]
    enum Lie {
        Bytes,
        Notes,
        Values,
        OneValue,
        Truth,
    }

    const LIES: [Lie; 5] = [
        Lie::Bytes,
        Lie::Notes,
        Lie::Values,
        Lie::OneValue,
        Lie::Truth,
    ];

    /// Bytes that note every split as one that stays open, all for one c.
    fn fill_with_notes(random: &mut Random, known: &mut [u8]) {
        let note = 4 * random.between(1, 5) as u8;
        known.fill_with(|| note + random.below(4) as u8);
    }

    /// Spoils a set, and leaves any places in the trail.
    fn spoil(random: &mut Random, lie: Lie, known: &mut [u8], scratch: &mut Scratch) {
        match lie {
            Lie::Bytes => known.fill_with(|| random.byte()),
            Lie::Notes => fill_with_notes(random, known),
            Lie::Values => known.fill_with(|| random.pick(&[0, 1, 2, 2, 2])),
            Lie::OneValue => known[random.below(known.len())] = random.pick(&[0, 1, 2]),
            Lie::Truth => {}
        }
        for _ in 0..random.below(100) {
            scratch.trail.append(random.word() as u16 as usize);
        }
    }

    pub fn propose(
        netlist: &[u8],
        window: Window,
        split: Split,
        scratch: &mut Scratch,
        known: &mut [u8],
        noted: &[u8],
    ) -> bool {
        RANDOM.with_borrow_mut(|random| {
            let lie = random.pick(&LIES);
            if matches!(lie, Lie::OneValue | Lie::Truth) {
                quick::propose(netlist, window, split, scratch, known, noted);
            }
            spoil(random, lie, known, scratch);
            random.chance(90)
        })
    }

    pub fn guess(
        netlist: &[u8],
        window: Window,
        scratch: &mut Scratch,
        known: &mut [u8],
        noted: &[u8],
    ) {
        RANDOM.with_borrow_mut(|random| {
            let lie = random.pick(&LIES);
            if matches!(lie, Lie::OneValue | Lie::Truth) {
                quick::guess(netlist, window, scratch, known, noted);
            }
            spoil(random, lie, known, scratch);
        });
    }
}
