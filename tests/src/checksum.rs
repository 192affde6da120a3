//! A checksum (FNV-1a of 64 bits) over bytes that are too many to be written
//! out.

#[derive(Clone, Copy, Debug, PartialEq, Eq)]
pub struct Checksum(u64);

const START: u64 = 0xCBF2_9CE4_8422_2325;
const PRIME: u64 = 0x0000_0100_0000_01B3;

impl Checksum {
    /// Of no bytes at all.
    pub const EMPTY: Checksum = Checksum(START);

    pub fn of(bytes: &[u8]) -> Self {
        Checksum::EMPTY.then(bytes)
    }

    /// Of what it was taken of, and these bytes behind.
    pub fn then(self, bytes: &[u8]) -> Self {
        let Checksum(sum) = self;
        let bytes = bytes.iter().map(|byte| u64::from(*byte));
        Checksum(bytes.fold(sum, |sum, byte| (sum ^ byte).wrapping_mul(PRIME)))
    }

    pub fn number(self) -> u64 {
        self.0
    }
}

#[cfg(test)]
mod tests {
    use super::*;

    #[test]
    fn sums_that_are_published() {
        assert_eq!(Checksum::of(b"").number(), 0xCBF2_9CE4_8422_2325);
        assert_eq!(Checksum::of(b"a").number(), 0xAF63_DC4C_8601_EC8C);
        assert_eq!(Checksum::of(b"foobar").number(), 0x8594_4171_F739_67E8);
        assert_eq!(Checksum::of(b"foo").then(b"bar"), Checksum::of(b"foobar"));
    }
}
