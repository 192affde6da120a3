//! The report program: what it prints for its standard input.

use super::certificate::Certificate;
use super::fault::{Fault, Site};
use super::finder::{find, Finding, Lent};
use super::netlist::Netlist;
use std::fmt::Write;

/// Bytes of each of the program's buffers.
pub const BUFFER: usize = 65_536;

/// The buffers that the finder is lent.
struct Buffers {
    knowledge: [u8; BUFFER],
    touched: [u8; BUFFER],
    certificate: [u8; BUFFER],
}

/// The text for this input. What lies behind the buffer's end is not read.
pub fn report(input: &[u8]) -> String {
    match lines(&input[..input.len().min(BUFFER)]) {
        Ok(lines) => lines,
        Err(number) => format!("refused {number}\n"),
    }
}

/// The line of every mark and the last line, or the number of a refusal.
fn lines(input: &[u8]) -> Result<String, u8> {
    let [b, f, bytes @ ..] = input else {
        return Err(1);
    };
    let netlist = Netlist::sound(bytes)?;
    let mut buffers = Buffers {
        knowledge: [0; BUFFER],
        touched: [0; BUFFER],
        certificate: [0; BUFFER],
    };
    let mut text = String::new();
    let (mut marked, mut all) = (0, 0);
    for fault in faults(&netlist) {
        if let Some(line) = mark(bytes, fault, *b, *f, &mut buffers)? {
            text += &line;
            marked += 1;
        }
        all += 1;
    }
    writeln!(text, "{marked} of {all}").expect("a string takes any text");
    Ok(text)
}

/// All faults of a netlist by node, site and u. Sites come as the numbers they
/// are written with, so that of the node itself comes after its pins.
pub fn faults<'a>(netlist: &Netlist<'a>) -> impl Iterator<Item = Fault> + 'a {
    (0..).zip(netlist.records()).flat_map(|(node, record)| {
        let pins = (0..record.length).map(|pin| Site::Pin(pin as u8));
        let sites = pins.chain([Site::Whole]);
        sites.flat_map(move |site| [0, 1].map(|u| Fault { node, site, u }))
    })
}

/// The line of a fault that is marked, or the number of a refusal.
fn mark(
    netlist: &[u8],
    fault: Fault,
    b: u8,
    f: u8,
    buffers: &mut Buffers,
) -> Result<Option<String>, u8> {
    let lent = Lent {
        first: &mut buffers.knowledge,
        second: &mut buffers.touched,
        certificate: &mut buffers.certificate,
    };
    match find(netlist, fault, b, f, lent) {
        Finding::Found { c, length, .. } => {
            let certificate = Certificate::split(&buffers.certificate[..length]);
            let split = certificate.expect("the pairs are right").subject.split;
            let Fault { node, site, u } = fault;
            let site = site.to_byte();
            let (at, frame) = (split.node, split.frame);
            Ok(Some(format!("{node} {site} {u} {c} {at} {frame}\n")))
        }
        Finding::None => Ok(None),
        Finding::Refused(number) => Err(number),
    }
}

#[cfg(test)]
mod tests {
    use super::*;

    /// B 0, F 0 and an AND of one input twice, as 01 writes them.
    const AND_TWICE: [u8; 27] = [
        0x00, 0x00, 0x03, 0x00, 0x03, 0x00, 0x00, 0x00, 0x00, 0x00, 0x00, 0x05, 0x00, 0x00, 0x02,
        0x00, 0x01, 0x02, 0x00, 0x01, 0x00, 0x00, 0x00, 0x00, 0x00, 0x01, 0x00,
    ];

    #[test]
    fn the_example_of_01() {
        assert_eq!(report(&AND_TWICE), "1 0 1 0 0 0\n1 1 1 0 0 0\n2 of 12\n");
    }

    #[test]
    fn input_that_is_too_short() {
        for length in 0..6 {
            assert_eq!(report(&AND_TWICE[..length]), "refused 1\n");
        }
        assert_eq!(report(&AND_TWICE[..6]), "refused 3\n");
    }

    #[test]
    fn the_buffer_of_the_certificate_limits_nodes_and_frames() {
        // Inputs alone: every fault is found at the first split.
        let inputs = |b, nodes: u16| {
            let [low, high] = nodes.to_le_bytes();
            let mut input = vec![b, 0, low, high, 0, 0];
            input.resize(6 + 5 * usize::from(nodes), 0);
            input
        };
        assert!(report(&inputs(14, 311)).ends_with("\n622 of 622\n"));
        assert_eq!(report(&inputs(14, 312)), "refused 12\n");
        assert_eq!(report(&inputs(15, 312)), "refused 10\n");
    }
}
