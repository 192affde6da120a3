//! 01's bench circuits and their certificates, written out.

/// An AND of one input twice, and its output.
pub const AND_TWICE: [u8; 25] = [
    3, 0, 3, 0, // three nodes, three pins
    0, 0, 0, 0, 0, // input
    5, 0, 0, 2, 0, // AND, pins 0 and 1
    1, 2, 0, 1, 0, // output, pin 2
    0, 0, 0, 0, 1, 0, // sources 0, 0 and 1
];

/// a; flip-flops b(a), c(a); AND(b, c); outputs of nodes 3 and 2.
pub const P1: [u8; 46] = [
    6, 0, 6, 0, // six nodes, six pins
    0, 0, 0, 0, 0, // a
    2, 0, 0, 1, 0, // b
    2, 1, 0, 1, 0, // c
    5, 2, 0, 2, 0, // AND
    1, 4, 0, 1, 0, // output of node 3
    1, 5, 0, 1, 0, // output of node 2
    0, 0, 0, 0, 1, 0, 2, 0, 3, 0, 2, 0, // sources
];

/// A flip-flop fed by itself, alone.
pub const SELF_FED: [u8; 11] = [1, 0, 1, 0, 2, 0, 0, 1, 0, 0, 0];

/// An input alone.
pub const INPUT: [u8; 9] = [1, 0, 0, 0, 0, 0, 0, 0, 0];

/// Node 3, pin 1, u 1, c 1, F 0, split node 0 frame 0; five steps a branch.
pub const P1_CERTIFICATE: [u8; 95] = [
    0x03, 0x00, 0x01, 0x01, 0x01, 0x00, 0x00, 0x00, 0x00, //
    0x19, 0x00, 0x00, 0x00, 0x23, 0x00, 0x00, 0x00, //
    0x3C, 0x00, 0x00, 0x00, 0x23, 0x00, 0x00, 0x00, //
    1, 0, 1, 0, 1, 0, 1, //
    2, 0, 1, 0, 2, 0, 1, //
    3, 0, 1, 0, 3, 0, 1, //
    4, 0, 1, 0, 4, 0, 1, //
    5, 0, 1, 0, 5, 0, 1, //
    1, 0, 1, 1, 1, 0, 1, //
    2, 0, 1, 1, 2, 0, 1, //
    3, 0, 1, 1, 3, 0, 1, //
    4, 0, 1, 1, 4, 0, 1, //
    5, 0, 1, 1, 5, 0, 1, //
];

/// Node 0 itself, u 0, c 1, F 0, split node 0 frame 0. Below frame 1 the node
/// is held at 0: branch 0 has one step, branch 1 is a contradiction.
pub const P7_CERTIFICATE: [u8; 32] = [
    0, 0, 255, 0, 1, 0, 0, 0, 0, //
    25, 0, 0, 0, 7, 0, 0, 0, //
    32, 0, 0, 0, 0, 0, 0, 0, //
    0, 0, 1, 0, 0, 0, 1, //
];

/// Pin 0 of node 0, u 0, c 1, F 0, split node 0 frame 0. The pin reads 0 below
/// frame 1, so both branches conclude 0 at frame 1.
pub const SELF_FED_PIN: [u8; 39] = [
    0, 0, 0, 0, 1, 0, 0, 0, 0, //
    25, 0, 0, 0, 7, 0, 0, 0, //
    32, 0, 0, 0, 7, 0, 0, 0, //
    0, 0, 1, 0, 0, 0, 1, //
    0, 0, 1, 0, 0, 0, 1, //
];
