//! The eleven kinds of node: how many pins each takes, what each gate computes.

pub const INPUT: u8 = 0;
pub const OUTPUT: u8 = 1;
pub const FLIP_FLOP: u8 = 2;
pub const BUFFER: u8 = 3;
pub const NOT: u8 = 4;
pub const AND: u8 = 5;
pub const NAND: u8 = 6;
pub const OR: u8 = 7;
pub const NOR: u8 = 8;
pub const XOR: u8 = 9;
pub const XNOR: u8 = 10;

/// The greatest kind number there is.
pub const LAST: u8 = XNOR;

/// The most pins of an AND, NAND, OR or NOR.
pub const MOST_PINS: usize = 64;

/// Whether a node of this kind may have this many pins.
pub fn takes(kind: u8, pins: usize) -> bool {
    let (fewest, most) = match kind {
        INPUT => (0, 0),
        OUTPUT..=NOT => (1, 1),
        AND..=NOR => (2, MOST_PINS),
        XOR..=XNOR => (2, 2),
        _ => return false,
    };
    fewest <= pins && pins <= most
}

/// Whether the value of a node comes from outside the clock step: an input's
/// from the list, a flip-flop's from the clock before.
pub fn is_given(kind: u8) -> bool {
    kind == INPUT || kind == FLIP_FLOP
}

/// The value of an output, a buffer or a gate from what its pins read. All
/// values are 0 or 1, so negation is an exclusive or with 1.
pub fn value(kind: u8, pins: impl Iterator<Item = u8>) -> u8 {
    match kind {
        AND => and(pins),
        NAND => 1 ^ and(pins),
        OR => or(pins),
        NOR => 1 ^ or(pins),
        // With one pin the parity is that pin: an output and a buffer pass it
        // on, NOT turns it round.
        OUTPUT | BUFFER | XOR => parity(pins),
        NOT | XNOR => 1 ^ parity(pins),
        _ => unreachable!("kind {kind} has no function of its pins"),
    }
}

fn and(pins: impl Iterator<Item = u8>) -> u8 {
    pins.fold(1, |all, pin| all & pin)
}

fn or(pins: impl Iterator<Item = u8>) -> u8 {
    pins.fold(0, |any, pin| any | pin)
}

fn parity(pins: impl Iterator<Item = u8>) -> u8 {
    pins.fold(0, |sum, pin| sum ^ pin)
}

#[cfg(test)]
mod tests {
    use super::*;

    #[test]
    fn wide_gates_look_at_every_pin() {
        for pins in [2, 8, 9, 63, MOST_PINS] {
            let outputs = |read: &dyn Fn(usize) -> bool| {
                [AND, NAND, OR, NOR].map(|kind| value(kind, (0..pins).map(|pin| read(pin).into())))
            };
            assert_eq!(outputs(&|_| true), [1, 0, 1, 0]);
            assert_eq!(outputs(&|_| false), [0, 1, 0, 1]);
            for odd_one in 0..pins {
                assert_eq!(outputs(&|pin| pin != odd_one)[..2], [0, 1]);
                assert_eq!(outputs(&|pin| pin == odd_one)[2..], [1, 0]);
            }
        }
    }

    #[test]
    fn only_four_kinds_take_many_pins() {
        for kind in INPUT..=LAST {
            let most = (0..1_000).filter(|pins| takes(kind, *pins)).max();
            let expected = match kind {
                INPUT => 0,
                OUTPUT..=NOT => 1,
                AND..=NOR => 64,
                _ => 2,
            };
            assert_eq!(most, Some(expected), "kind {kind}");
        }
    }

    #[test]
    fn unknown_kinds_take_no_pin_count() {
        for kind in LAST + 1..=255 {
            assert!((0..=MOST_PINS).all(|pins| !takes(kind, pins)));
        }
    }
}
