//! Gate-level netlists with flip-flops, read from their bytes.

/// The most pins of a gate that one value of a pin decides: an AND, NAND, OR or
/// NOR.
pub const MOST_PINS: usize = 64;

#[derive(Clone, Copy, Debug, PartialEq, Eq)]
pub enum Kind {
    Input,
    Output,
    FlipFlop,
    Buffer,
    Not,
    And,
    Nand,
    Or,
    Nor,
    Xor,
    Xnor,
}

impl Kind {
    /// Every kind, at the place of the number that writes it.
    pub const ALL: [Kind; 11] = [
        Kind::Input,
        Kind::Output,
        Kind::FlipFlop,
        Kind::Buffer,
        Kind::Not,
        Kind::And,
        Kind::Nand,
        Kind::Or,
        Kind::Nor,
        Kind::Xor,
        Kind::Xnor,
    ];

    pub fn name(self) -> &'static str {
        match self {
            Kind::Input => "input",
            Kind::Output => "output",
            Kind::FlipFlop => "flip-flop",
            Kind::Buffer => "buffer",
            Kind::Not => "NOT",
            Kind::And => "AND",
            Kind::Nand => "NAND",
            Kind::Or => "OR",
            Kind::Nor => "NOR",
            Kind::Xor => "XOR",
            Kind::Xnor => "XNOR",
        }
    }

    fn may_have_pins(self, count: usize) -> bool {
        match self {
            Kind::Input => count == 0,
            Kind::Output | Kind::FlipFlop | Kind::Buffer | Kind::Not => count == 1,
            Kind::And | Kind::Nand | Kind::Or | Kind::Nor => (2..=MOST_PINS).contains(&count),
            Kind::Xor | Kind::Xnor => count == 2,
        }
    }
}

/// A node: its kind, and the source that each of its pins names.
#[derive(Clone, Debug)]
pub struct Node {
    pub kind: Kind,
    pub sources: Vec<usize>,
}

#[derive(Clone, Debug)]
pub struct Netlist {
    pub nodes: Vec<Node>,
}

impl Netlist {
    /// Reads a netlist, or says why it is none.
    pub fn read(bytes: &[u8]) -> Result<Netlist, String> {
        let mut rest = Bytes(bytes);
        let node_count = rest.number()?;
        let pin_count = rest.number()?;
        let mut records = Vec::new();
        for _ in 0..node_count {
            records.push((rest.byte()?, rest.number()?, rest.number()?));
        }
        let mut pins = Vec::new();
        for _ in 0..pin_count {
            pins.push(rest.number()?);
        }
        if !rest.0.is_empty() {
            return Err(format!("{} bytes too many", rest.0.len()));
        }
        let netlist = Netlist::join(&records, &pins)?;
        netlist.check()?;
        Ok(netlist)
    }

    /// Gives each record of kind, offset and length its pins: the runs of pins
    /// follow each other without a gap, in the order of the records.
    fn join(records: &[(u8, usize, usize)], pins: &[usize]) -> Result<Netlist, String> {
        let mut nodes = Vec::new();
        let mut end = 0;
        for (node, (kind, offset, length)) in records.iter().enumerate() {
            if *offset != end {
                return Err(format!("node {node} starts at pin {offset}, not {end}"));
            }
            end += length;
            let sources = pins.get(*offset..end);
            let sources = sources.ok_or(format!("node {node} has pins behind the last"))?;
            let kind = Kind::ALL.get(usize::from(*kind)).copied();
            nodes.push(Node {
                kind: kind.ok_or(format!("node {node} is of no kind"))?,
                sources: sources.to_vec(),
            });
        }
        if end != pins.len() {
            return Err(format!("{} pins of no node", pins.len() - end));
        }
        Ok(Netlist { nodes })
    }

    /// Sees that the circuit can be evaluated node by node: only a flip-flop,
    /// which reads its pin for the next clock, may name a node behind itself.
    fn check(&self) -> Result<(), String> {
        if self.nodes.is_empty() {
            return Err("no nodes".to_string());
        }
        for (number, node) in self.nodes.iter().enumerate() {
            if !node.kind.may_have_pins(node.sources.len()) {
                let Node { kind, sources } = node;
                return Err(format!("node {number}: {kind:?} of {} pins", sources.len()));
            }
            for source in &node.sources {
                let is_early = node.kind == Kind::FlipFlop || *source < number;
                let feeds = |source: &Node| source.kind != Kind::Output;
                if !(is_early && self.nodes.get(*source).is_some_and(feeds)) {
                    return Err(format!("node {number}: source {source}"));
                }
            }
        }
        Ok(())
    }

    /// The numbers of all nodes of a kind.
    pub fn of_kind(&self, kind: Kind) -> impl Iterator<Item = usize> + '_ {
        (0..self.nodes.len()).filter(move |node| self.nodes[*node].kind == kind)
    }
}

/// What is still to be read.
struct Bytes<'a>(&'a [u8]);

impl Bytes<'_> {
    fn byte(&mut self) -> Result<u8, String> {
        let (first, rest) = self.0.split_first().ok_or("bytes are missing")?;
        self.0 = rest;
        Ok(*first)
    }

    /// A number of two bytes, the low one first.
    fn number(&mut self) -> Result<usize, String> {
        Ok(usize::from(self.byte()?) + 256 * usize::from(self.byte()?))
    }
}
