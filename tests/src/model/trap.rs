//! 01's traps for a builder. The model can be asked to fall into one,
//! which shows that a test of the claim would notice.

/// A wrong rule in place of a right one.
#[derive(Clone, Copy, Debug, PartialEq, Eq)]
pub enum Trap {
    /// A gate is not touched if any pin has the blocking value, also a touched
    /// one.
    TouchedPinBlocks,
    /// A node is not touched if its value is known.
    KnownValueStops,
    /// Below frame c, a faulted node has its relation and a faulted pin tells
    /// of its source.
    StuckLineConcludes,
    /// Flip-flops touched in the last frame do not keep a branch open.
    LastFrameIsLeft,
}

impl Trap {
    pub const ALL: [Trap; 4] = [
        Trap::TouchedPinBlocks,
        Trap::KnownValueStops,
        Trap::StuckLineConcludes,
        Trap::LastFrameIsLeft,
    ];
}
