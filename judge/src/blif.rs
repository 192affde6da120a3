//! A claim as a circuit in the Berkeley Logic Interchange Format.
//!
//! The circuit has one output, `bad`. It is 1 at a clock if that clock is c or
//! later and an output node tells the faulty circuit from the good one; so the
//! claim holds just if `bad` is never 1.
//!
//! Every latch starts at 0. What is free at the start, the faulty circuit's
//! flip-flops, are inputs that are looked at in the first clock only.

use crate::fault::Fault;
use crate::netlist::{Kind, Netlist};

/// The circuit's name, which abc repeats in its answer.
pub const MODEL: &str = "claim";

/// The claim that from clock c on no output shows the fault.
pub fn claim(netlist: &Netlist, fault: Fault, c: usize) -> String {
    let faulty = Circuit {
        name: "faulty",
        fault: Some(fault),
    };
    let good = Circuit {
        name: "good",
        fault: None,
    };
    let mut blif = Blif::default();
    declare(&mut blif, netlist);
    tell_the_age(&mut blif, c);
    for flip_flop in netlist.of_kind(Kind::FlipFlop) {
        start_flip_flop(&mut blif, flip_flop, &faulty, &good);
    }
    faulty.write(&mut blif, netlist);
    good.write(&mut blif, netlist);
    compare(&mut blif, netlist, c, &faulty, &good);
    blif.line(".end");
    blif.text
}

/// The interface: the inputs of both circuits, and the faulty one's start.
fn declare(blif: &mut Blif, netlist: &Netlist) {
    blif.line(&format!(".model {MODEL}"));
    for input in netlist.of_kind(Kind::Input) {
        blif.line(&format!(".inputs input{input}"));
    }
    for flip_flop in netlist.of_kind(Kind::FlipFlop) {
        blif.line(&format!(".inputs start{flip_flop}"));
    }
    blif.line(".outputs bad");
}

/// `age<t>` is 1 once t clocks have passed, and `clock_c` in clock c alone.
fn tell_the_age(blif: &mut Blif, c: usize) {
    blif.constant("age0", true);
    for t in 0..=c {
        blif.latch(&format!("age{t}"), &format!("age{}", t + 1));
    }
    let ages = [format!("age{c}"), format!("age{}", c + 1)];
    blif.cover(&ages, "clock_c", &["10 1"]);
}

/// What a flip-flop has latched before each clock. The faulty circuit's has its
/// free start in the first clock. The good one's takes over, in clock c, what
/// the faulty one's has LATCHED: if this flip-flop is the faulted node, another
/// value is seen there.
fn start_flip_flop(blif: &mut Blif, flip_flop: usize, faulty: &Circuit, good: &Circuit) {
    for circuit in [faulty, good] {
        blif.latch(&circuit.pin(flip_flop, 0), &circuit.stored(flip_flop));
    }
    blif.choose(
        "age1",
        &faulty.stored(flip_flop),
        &format!("start{flip_flop}"),
        &faulty.latched(flip_flop),
    );
    blif.choose(
        "clock_c",
        &faulty.latched(flip_flop),
        &good.stored(flip_flop),
        &good.latched(flip_flop),
    );
}

/// `bad`: c clocks have passed, and an output node differs.
fn compare(blif: &mut Blif, netlist: &Netlist, c: usize, faulty: &Circuit, good: &Circuit) {
    let mut differences = Vec::new();
    for output in netlist.of_kind(Kind::Output) {
        let difference = format!("differs{output}");
        let both = [faulty.seen(output), good.seen(output)];
        blif.cover(&both, &difference, &["10 1", "01 1"]);
        differences.push(difference);
    }
    match differences.len() {
        0 => blif.constant("differs", false),
        outputs => blif.cover(&differences, "differs", &rows(Kind::Or, outputs)),
    }
    let due = [format!("age{c}"), "differs".to_string()];
    blif.cover(&due, "bad", &["11 1"]);
}

/// One of the two circuits, and the names of its signals.
struct Circuit {
    name: &'static str,
    fault: Option<Fault>,
}

impl Circuit {
    fn seen(&self, node: usize) -> String {
        format!("{}_seen{node}", self.name)
    }

    /// A pin has a name of its own, so that it can be stuck by itself and two
    /// pins with one source stay two.
    fn pin(&self, node: usize, pin: usize) -> String {
        format!("{}_node{node}_pin{pin}", self.name)
    }

    fn latched(&self, flip_flop: usize) -> String {
        format!("{}_latched{flip_flop}", self.name)
    }

    /// What the pin read in the clock before.
    fn stored(&self, flip_flop: usize) -> String {
        format!("{}_stored{flip_flop}", self.name)
    }

    /// What each pin reads and what is seen of each node.
    fn write(&self, blif: &mut Blif, netlist: &Netlist) {
        for (number, node) in netlist.nodes.iter().enumerate() {
            for (pin, source) in node.sources.iter().enumerate() {
                self.write_pin(blif, number, pin, *source);
            }
            self.write_node(blif, number, node.kind, node.sources.len());
        }
    }

    fn write_pin(&self, blif: &mut Blif, node: usize, pin: usize, source: usize) {
        let name = self.pin(node, pin);
        match self.fault.filter(|fault| fault.is_at_pin(node, pin)) {
            Some(fault) => blif.constant(&name, fault.stuck),
            None => blif.wire(&self.seen(source), &name),
        }
    }

    fn write_node(&self, blif: &mut Blif, node: usize, kind: Kind, pin_count: usize) {
        let name = self.seen(node);
        if let Some(fault) = self.fault.filter(|fault| fault.is_at_node(node)) {
            return blif.constant(&name, fault.stuck);
        }
        match kind {
            Kind::Input => blif.wire(&format!("input{node}"), &name),
            Kind::FlipFlop => blif.wire(&self.latched(node), &name),
            _ => {
                let pins: Vec<String> = (0..pin_count).map(|pin| self.pin(node, pin)).collect();
                blif.cover(&pins, &name, &rows(kind, pin_count));
            }
        }
    }
}

/// The function of a gate or an output: the pins' values that give 1, or where
/// that is shorter those that give 0.
fn rows(kind: Kind, pin_count: usize) -> Vec<String> {
    let all = |value: &str, result: &str| vec![format!("{} {result}", value.repeat(pin_count))];
    let either = |rows: [&str; 2]| rows.map(str::to_string).to_vec();
    match kind {
        Kind::Output | Kind::Buffer | Kind::And => all("1", "1"),
        Kind::Not | Kind::Nor => all("0", "1"),
        Kind::Nand => all("1", "0"),
        Kind::Or => all("0", "0"),
        Kind::Xor => either(["10 1", "01 1"]),
        Kind::Xnor => either(["11 1", "00 1"]),
        Kind::Input | Kind::FlipFlop => unreachable!("neither is a function of its pins"),
    }
}

/// The text, line by line.
#[derive(Default)]
struct Blif {
    text: String,
}

impl Blif {
    fn line(&mut self, line: &str) {
        self.text.push_str(line);
        self.text.push('\n');
    }

    /// A function by the rows of its table. Rows that end in 1 give 1 and all
    /// others 0; if they end in 0 it is the other way round.
    fn cover(&mut self, inputs: &[String], output: &str, rows: &[impl AsRef<str>]) {
        self.line(&format!(".names {} {output}", inputs.join(" ")));
        for row in rows {
            self.line(row.as_ref());
        }
    }

    fn wire(&mut self, from: &str, to: &str) {
        self.cover(&[from.to_string()], to, &["1 1"]);
    }

    /// The output is `then` where the condition is 1, and `otherwise` where not.
    fn choose(&mut self, condition: &str, then: &str, otherwise: &str, output: &str) {
        let inputs = [condition, then, otherwise].map(str::to_string);
        self.cover(&inputs, output, &["11- 1", "0-1 1"]);
    }

    fn constant(&mut self, output: &str, value: bool) {
        self.line(&format!(".names {output}"));
        if value {
            self.line("1");
        }
    }

    /// A latch that starts at 0.
    fn latch(&mut self, next: &str, now: &str) {
        self.line(&format!(".latch {next} {now} 0"));
    }
}
