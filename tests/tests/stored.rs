//! Netlists that were sound while gates had 8 pins at most get the answers that
//! they had: reports and certificates are compared with stored ones.

use leverpeach_tests::checksum::Checksum;
use leverpeach_tests::circuits::calls::Request;
use leverpeach_tests::files::{example, text_of};
use leverpeach_tests::model::netlist::Netlist;
use leverpeach_tests::model::report::faults;
use leverpeach_tests::native;
use leverpeach_tests::program::{input, printed};

/// The file says itself how its records are written.
const FILE: &str = "tests/stored/reports.txt";

/// How many reports were stored.
const REPORTS: usize = 200;

/// The most pins that a gate had then.
const MOST_PINS_THEN: usize = 8;

/// A report as it was stored.
struct Stored {
    /// Its first line, to name it by.
    name: String,
    b: u8,
    f: u8,
    netlist: Vec<u8>,
    /// The checksum over answers and certificates, in hex.
    answers: String,
    report: String,
}

impl Stored {
    /// Reads a record without the empty line behind it.
    fn read(record: &str) -> Self {
        let (name, rest) = record.split_once('\n').expect("a first line");
        let (answers, report) = rest.split_once('\n').expect("a second line");
        let words: Vec<&str> = name.split(' ').collect();
        let (b, f, netlist) = match words[..] {
            [b, f, "example", name] => (b, f, example(name)),
            [b, f, hex] => (b, f, bytes_of(hex)),
            _ => panic!("{name} names no netlist"),
        };
        let number = |word: &str| word.parse().expect("a number of one byte");
        Stored {
            name: name.to_string(),
            b: number(b),
            f: number(f),
            netlist,
            answers: answers.strip_prefix("answers ").expect(name).to_string(),
            report: format!("{report}\n"),
        }
    }

    /// The netlist's pin counts, node by node.
    fn pin_counts(&self) -> Vec<usize> {
        let netlist = Netlist::sound(&self.netlist).expect(&self.name);
        netlist.records().map(|record| record.length).collect()
    }
}

/// The bytes that are written in hex.
fn bytes_of(hex: &str) -> Vec<u8> {
    let digits: Vec<char> = hex.chars().collect();
    let bytes = digits.chunks(2).map(|pair| {
        let pair: String = pair.iter().collect();
        u8::from_str_radix(&pair, 16).expect("two digits")
    });
    bytes.collect()
}

/// All records of the file, behind its head.
fn stored() -> Vec<Stored> {
    let text = text_of(FILE);
    let records = text.trim_end().split("\n\n");
    let records = records.filter(|record| !record.starts_with('#'));
    records.map(Stored::read).collect()
}

/// The checksum over the library's answers for all faults of a netlist, in the
/// order of the report, each with the certificate that is found.
fn answers_now(netlist: &[u8], b: u8, f: u8) -> String {
    let circuit = Netlist::sound(netlist).expect("the netlist is sound");
    let sum = faults(&circuit).fold(Checksum::EMPTY, |sum, fault| {
        let (answer, certificate) = native::find_alone(netlist, Request { fault, b, f });
        sum.then(&answer.to_le_bytes()).then(&certificate)
    });
    format!("{:016x}", sum.number())
}

#[test]
fn two_hundred_reports_of_gates_of_8_pins_at_most_are_stored() {
    let stored = stored();
    assert_eq!(stored.len(), REPORTS);
    let widest = stored.iter().flat_map(Stored::pin_counts).max();
    assert_eq!(widest, Some(MOST_PINS_THEN));
    let refused = |stored: &&Stored| stored.report.starts_with("refused ");
    let refused = stored.iter().filter(refused).count();
    assert_eq!(
        refused, 5,
        "windows that are too wide or take too much room"
    );
}

#[test]
fn the_stored_reports_are_printed_as_they_were() {
    for Stored {
        name,
        b,
        f,
        netlist,
        report,
        ..
    } in &stored()
    {
        assert_eq!(&printed(&input(*b, *f, netlist)), report, "{name}");
    }
}

#[test]
fn the_stored_answers_and_certificates_are_given_as_they_were() {
    for stored in &stored() {
        let Stored { name, b, f, .. } = stored;
        let answers = answers_now(&stored.netlist, *b, *f);
        assert_eq!(answers, stored.answers, "{name}");
    }
}
