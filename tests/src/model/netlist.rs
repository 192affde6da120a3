//! The netlist and its reader.

use super::kind;

/// The greatest node count of a sound netlist, and the greatest count of all
/// pins together.
pub const MOST_NODES: usize = 4_096;
pub const MOST_PINS_IN_ALL: usize = 16_384;

/// Bytes before the records, of a record, and of a pin.
pub const HEAD: usize = 4;
pub const RECORD: usize = 5;
pub const PIN: usize = 2;

/// What the reader answers.
#[derive(Clone, Copy, Debug, PartialEq, Eq)]
pub enum Reading {
    Sound { nodes: u16, pins: u16 },
    Refused(u8),
}

/// Reads a netlist.
pub fn read(bytes: &[u8]) -> Reading {
    match Netlist::sound(bytes) {
        Ok(netlist) => Reading::Sound {
            nodes: netlist.records.len() as u16,
            pins: netlist.pins.len() as u16,
        },
        Err(number) => Reading::Refused(number),
    }
}

/// The records and the pins of a netlist, still in their bytes.
#[derive(Clone, Copy)]
pub struct Netlist<'a> {
    records: &'a [[u8; RECORD]],
    pins: &'a [[u8; PIN]],
}

/// One node's record.
#[derive(Clone, Copy)]
pub struct Record {
    pub kind: u8,
    pub offset: usize,
    pub length: usize,
}

impl<'a> Netlist<'a> {
    /// The netlist if it is sound, otherwise the number of its refusal. Each
    /// number is looked for in the whole netlist before the next one is, since
    /// the smallest that applies is given.
    pub fn sound(bytes: &'a [u8]) -> Result<Self, u8> {
        let netlist = Self::split(bytes)?;
        if !netlist.kinds_exist() {
            return Err(4);
        }
        if !netlist.pairs_keep_their_rule() {
            return Err(5);
        }
        if !netlist.pin_counts_fit() {
            return Err(6);
        }
        if !netlist.sources_are_allowed() {
            return Err(7);
        }
        Ok(netlist)
    }

    /// Parts the bytes by the two counts at their start (refusals 1 to 3).
    fn split(bytes: &'a [u8]) -> Result<Self, u8> {
        let Some((head, rest)) = bytes.split_first_chunk::<HEAD>() else {
            return Err(1);
        };
        let nodes = number([head[0], head[1]]);
        let pins = number([head[2], head[3]]);
        if nodes == 0 || nodes > MOST_NODES || pins > MOST_PINS_IN_ALL {
            return Err(2);
        }
        if rest.len() != RECORD * nodes + PIN * pins {
            return Err(3);
        }
        let (records, pins) = rest.split_at(RECORD * nodes);
        Ok(Netlist {
            records: records.as_chunks().0,
            pins: pins.as_chunks().0,
        })
    }

    fn kinds_exist(&self) -> bool {
        self.records().all(|record| record.kind <= kind::LAST)
    }

    /// The first offset is 0, each next one is the sum of the offset and the
    /// length before it, the last ends at P.
    fn pairs_keep_their_rule(&self) -> bool {
        let mut end = 0;
        for record in self.records() {
            if record.offset != end {
                return false;
            }
            end = record.offset + record.length;
        }
        end == self.pins.len()
    }

    fn pin_counts_fit(&self) -> bool {
        self.records()
            .all(|record| kind::takes(record.kind, record.length))
    }

    /// No pin names an output. Pins name smaller node numbers, only those of
    /// flip-flops any node at all.
    fn sources_are_allowed(&self) -> bool {
        self.records().enumerate().all(|(node, record)| {
            let limit = match record.kind {
                kind::FLIP_FLOP => self.records.len(),
                _ => node,
            };
            self.sources(record)
                .all(|source| source < limit && self.records[source][0] != kind::OUTPUT)
        })
    }

    pub fn node_count(&self) -> usize {
        self.records.len()
    }

    /// The record of a node, if there is such a node.
    pub fn record(&self, node: usize) -> Option<Record> {
        self.records.get(node).map(Record::new)
    }

    /// All records in the order of their nodes.
    pub fn records(&self) -> impl Iterator<Item = Record> + 'a {
        self.records.iter().map(Record::new)
    }

    /// The sources of a node's pins, in the pins' order.
    pub fn sources(&self, record: Record) -> impl Iterator<Item = usize> + 'a {
        let pins = &self.pins[record.offset..record.offset + record.length];
        pins.iter().map(|pin| number(*pin))
    }
}

impl Record {
    fn new(bytes: &[u8; RECORD]) -> Self {
        Record {
            kind: bytes[0],
            offset: number([bytes[1], bytes[2]]),
            length: number([bytes[3], bytes[4]]),
        }
    }
}

fn number(bytes: [u8; 2]) -> usize {
    usize::from(u16::from_le_bytes(bytes))
}
