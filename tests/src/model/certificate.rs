//! The certificate's layout.

use super::fault::{Fault, Site};
use super::window::{Line, Step};

/// Bytes before the steps, and of a step.
pub const HEAD: usize = 25;
pub const STEP: usize = 7;

/// Where the pair of each branch starts.
pub const PAIRS: [usize; 2] = [9, 17];

/// What stands before the pairs.
#[derive(Clone, Copy, Debug, PartialEq, Eq)]
pub struct Subject {
    pub fault: Fault,
    pub c: u8,
    pub f: u8,
    pub split: Line,
}

/// A certificate, its steps still in their bytes.
#[derive(Clone, Copy)]
pub struct Certificate<'a> {
    pub subject: Subject,
    pub runs: [&'a [[u8; STEP]]; 2],
}

impl Subject {
    fn read(head: &[u8; HEAD]) -> Self {
        Subject {
            fault: Fault {
                node: u16::from_le_bytes([head[0], head[1]]),
                site: Site::from_byte(head[2]),
                u: head[3],
            },
            c: head[4],
            f: head[5],
            split: Line {
                node: u16::from_le_bytes([head[6], head[7]]).into(),
                frame: head[8].into(),
            },
        }
    }

    /// The bytes before the steps, for runs of these lengths in bytes.
    pub fn head(&self, lengths: [usize; 2]) -> [u8; HEAD] {
        let mut head = [0; HEAD];
        head[..2].copy_from_slice(&self.fault.node.to_le_bytes());
        head[2] = self.fault.site.to_byte();
        head[3] = self.fault.u;
        head[4] = self.c;
        head[5] = self.f;
        head[6..8].copy_from_slice(&(self.split.node as u16).to_le_bytes());
        head[8] = self.split.frame as u8;
        let offsets = [HEAD, HEAD + lengths[0]];
        for branch in 0..2 {
            let pair = &mut head[PAIRS[branch]..];
            pair[..4].copy_from_slice(&(offsets[branch] as u32).to_le_bytes());
            pair[4..8].copy_from_slice(&(lengths[branch] as u32).to_le_bytes());
        }
        head
    }

    /// How many frames the window has.
    pub fn frames(&self) -> usize {
        usize::from(self.c) + usize::from(self.f) + 1
    }
}

impl<'a> Certificate<'a> {
    /// The parts of a certificate, if it is long enough and its pairs are
    /// right: the first run starts after the head, the second after the first,
    /// the file ends with the second, and both hold whole steps.
    pub fn split(bytes: &'a [u8]) -> Option<Self> {
        let (head, rest) = bytes.split_first_chunk::<HEAD>()?;
        let offsets = PAIRS.map(|pair| number(head, pair));
        let lengths = PAIRS.map(|pair| number(head, pair + 4));
        let ends = [0, 1].map(|branch| offsets[branch] + lengths[branch]);
        let in_line = offsets == [HEAD as u64, ends[0]] && ends[1] == bytes.len() as u64;
        if !in_line || lengths.iter().any(|length| length % STEP as u64 != 0) {
            return None;
        }
        let (first, second) = rest.split_at(lengths[0] as usize);
        Some(Certificate {
            subject: Subject::read(head),
            runs: [first.as_chunks().0, second.as_chunks().0],
        })
    }
}

/// A number of four bytes, wide enough that sums of two never wrap.
fn number(head: &[u8; HEAD], place: usize) -> u64 {
    let bytes = &head[place..place + 4];
    u32::from_le_bytes([bytes[0], bytes[1], bytes[2], bytes[3]]).into()
}

impl Step {
    pub fn from_bytes(bytes: &[u8; STEP]) -> Self {
        let line = |node, frame: u8| Line {
            node: u16::from_le_bytes(node).into(),
            frame: frame.into(),
        };
        Step {
            line: line([bytes[0], bytes[1]], bytes[2]),
            value: bytes[3],
            relation: line([bytes[4], bytes[5]], bytes[6]),
        }
    }

    pub fn to_bytes(&self) -> [u8; STEP] {
        let line = (self.line.node as u16).to_le_bytes();
        let relation = (self.relation.node as u16).to_le_bytes();
        [
            line[0],
            line[1],
            self.line.frame as u8,
            self.value,
            relation[0],
            relation[1],
            self.relation.frame as u8,
        ]
    }
}
