//! The report program against the model's text, byte for byte.

use leverpeach_tests::cases::run;
use leverpeach_tests::circuits::{damaged, raw, small, structured, worked, Draft};
use leverpeach_tests::files::{example, top_folder};
use leverpeach_tests::model::netlist::{MOST_NODES, MOST_PINS_IN_ALL};
use leverpeach_tests::model::{self, kind};
use leverpeach_tests::program::{
    assert_failed, input, print_to, printed, printed_for_pieces, read_from,
};
use leverpeach_tests::random::Random;
use std::fs::{File, OpenOptions};
use std::io::{self, ErrorKind, PipeReader, Read, Write};
use std::os::fd::AsRawFd;
use std::os::unix::fs::OpenOptionsExt;
use std::process::Output;

/// Runs program and model on the input; gives back the text.
fn compare(input: &[u8]) -> String {
    let text = printed(input);
    assert_eq!(text, model::report(input), "for {input:?}");
    text
}

fn last_line(text: &str) -> &str {
    text.lines().last().expect("there is a line")
}

#[test]
fn the_example_of_01() {
    let bytes = [
        0x00, 0x00, 0x03, 0x00, 0x03, 0x00, 0x00, 0x00, 0x00, 0x00, 0x00, 0x05, 0x00, 0x00, 0x02,
        0x00, 0x01, 0x02, 0x00, 0x01, 0x00, 0x00, 0x00, 0x00, 0x00, 0x01, 0x00,
    ];
    assert_eq!(compare(&bytes), "1 0 1 0 0 0\n1 1 1 0 0 0\n2 of 12\n");
}

#[test]
fn pins_come_before_the_node_itself() {
    let text = "0 0 0 1 0 0\n0 0 1 1 0 0\n0 255 0 1 0 0\n0 255 1 1 0 0\n4 of 4\n";
    assert_eq!(compare(&input(1, 0, &worked::SELF_FED)), text);
    assert_eq!(compare(&input(0, 0, &worked::SELF_FED)), "0 of 4\n");
}

#[test]
fn examples() {
    for (name, b, f, last) in [
        ("and2", 0, 0, "2 of 12"),
        ("p1", 1, 0, "3 of 24"),
        ("ffself", 1, 0, "4 of 4"),
        ("s27", 3, 1, "0 of 80"),
        ("mix30", 2, 1, "12 of 140"),
        ("random30", 2, 1, "96 of 166"),
    ] {
        let text = compare(&input(b, f, &example(name)));
        assert_eq!(last_line(&text), last, "{name}");
    }
}

#[test]
fn small_circuits() {
    let (mut marked, mut unmarked) = (0, 0);
    run("small reports", 300, |_, random| {
        let draft = small::any(random);
        let (b, f) = (random.below(4) as u8, random.below(3) as u8);
        let text = compare(&input(b, f, &draft.to_bytes()));
        let faults = 2 * (draft.nodes.len() + draft.pin_count());
        let marks = text.lines().count() - 1;
        assert_eq!(last_line(&text), format!("{marks} of {faults}"));
        marked += marks;
        unmarked += faults - marks;
    });
    println!("{marked} faults marked, {unmarked} not");
    assert!(marked >= 1_000 && unmarked >= 1_000);
}

#[test]
fn wide_gates() {
    let mut marked = 0;
    run("wide reports", 60, |_, random| {
        let draft = small::of_wide_gate(random);
        let (b, f) = (random.below(3) as u8, random.below(2) as u8);
        let text = compare(&input(b, f, &draft.to_bytes()));
        marked += text.lines().count() - 1;
    });
    println!("{marked} faults marked");
    assert!(marked >= 1_000);
}

#[test]
fn planned_circuits() {
    for draft in structured::all(7) {
        compare(&input(1, 1, &draft.to_bytes()));
    }
}

#[test]
fn input_too_short_for_b_and_f_or_for_a_netlist() {
    for length in 0..6 {
        assert_eq!(compare(&[0; 6][..length]), "refused 1\n");
    }
    assert_eq!(compare(&[0; 6]), "refused 2\n");
}

#[test]
fn netlists_that_are_not_sound() {
    run("unsound reports", 140, |case, random| {
        let number = 1 + case % 7;
        let nodes = random.between(1, 12);
        let netlist = damaged::with(random, nodes, &[number as u8]);
        // Too wide a window is no reason beside an unsound netlist.
        let (b, f) = random.pick(&[(0, 0), (2, 1), (14, 1), (255, 255)]);
        let text = compare(&input(b, f, &netlist));
        assert_eq!(text, format!("refused {number}\n"));
    });
}

#[test]
fn windows_that_are_too_wide() {
    let netlist = worked::AND_TWICE;
    for (b, f) in [(14, 1), (15, 0), (0, 15), (255, 0), (0, 255), (255, 255)] {
        assert_eq!(compare(&input(b, f, &netlist)), "refused 10\n");
    }
    for (b, f) in [(14, 0), (0, 14), (7, 7)] {
        assert_eq!(last_line(&compare(&input(b, f, &netlist))), "2 of 12");
    }
}

#[test]
fn the_certificate_s_buffer_limits_nodes_and_frames() {
    // Of inputs alone every fault is found at the first split.
    let inputs = |nodes| Draft::inputs(nodes).to_bytes();
    // Nodes times frames is 4,680, just too many.
    for (b, f, nodes) in [(1, 0, 2_340), (0, 1, 2_340), (0, 2, 1_560), (14, 0, 312)] {
        assert_eq!(compare(&input(b, f, &inputs(nodes))), "refused 12\n");
    }
    assert_eq!(compare(&input(7, 7, &inputs(4_096))), "refused 12\n");
    // The most nodes that are not too many for so many frames.
    for (b, f, nodes) in [(1, 0, 2_339), (14, 0, 311)] {
        let text = compare(&input(b, f, &inputs(nodes)));
        let faults = 2 * nodes;
        assert_eq!(last_line(&text), format!("{faults} of {faults}"));
    }
    let wide = input(0, 15, &inputs(312));
    assert_eq!(compare(&wide), "refused 10\n");
}

#[test]
fn more_faults_than_four_digits_count() {
    // Without an output every fault is found at once.
    let mut draft = Draft::inputs(3_000);
    for _ in 0..1_001 {
        draft.push(kind::BUFFER, &[1]);
    }
    let text = compare(&input(0, 0, &draft.to_bytes()));
    assert_eq!(last_line(&text), "10004 of 10004");
}

#[test]
fn input_longer_than_the_buffer() {
    let mut random = Random::new(8);
    let netlist = worked::AND_TWICE;
    for length in [65_535, 65_536, 65_537, 200_000] {
        let mut sound_at_first = input(0, 0, &netlist);
        let more = length - sound_at_first.len();
        sound_at_first.extend(random.bytes(more));
        assert_eq!(compare(&sound_at_first), "refused 3\n");
        assert_eq!(compare(&vec![0; length]), "refused 2\n");
        assert_eq!(compare(&vec![255; length]), "refused 2\n");
    }
    // The longest sound netlist is refused for its frames only, and with bytes
    // behind it for its length.
    for pins in [8, kind::MOST_PINS] {
        let longest = longest_netlist(pins);
        assert_eq!(longest.len(), 53_252);
        assert_eq!(compare(&input(1, 0, &longest)), "refused 12\n");
        let mut longer = input(1, 0, &longest);
        longer.resize(70_000, 0);
        assert_eq!(compare(&longer), "refused 3\n");
    }
}

/// As many nodes and pins as a netlist may have, on gates of so many pins.
fn longest_netlist(pins: usize) -> Vec<u8> {
    let gates = MOST_PINS_IN_ALL / pins;
    let mut draft = Draft::inputs(MOST_NODES - gates);
    for _ in 0..gates {
        draft.push(kind::NOR, &vec![0; pins]);
    }
    draft.to_bytes()
}

#[test]
fn input_that_comes_in_pieces() {
    let netlist = worked::AND_TWICE;
    let whole = input(0, 0, &netlist);
    let expected = model::report(&whole);
    for cut in [1, 2, 3, 4, 20, whole.len() - 1] {
        let (head, tail) = whole.split_at(cut);
        assert_eq!(printed_for_pieces(&[head, tail]), expected);
    }
    let bytes: Vec<&[u8]> = whole.chunks(5).collect();
    assert_eq!(printed_for_pieces(&bytes), expected);
}

/// A pipe that takes no more than so many bytes, up to a page, and never waits
/// for more room; and how many bytes are in it already.
fn pipe_with_room(room: usize) -> (PipeReader, File, usize) {
    const PAGE: usize = 4_096;
    // O_NONBLOCK, as Linux has it on x86-64.
    const NEVER_WAIT: i32 = 0o4000;
    let (mut reader, writer) = io::pipe().expect("there are pipes");
    let path = format!("/proc/self/fd/{}", writer.as_raw_fd());
    let mut options = OpenOptions::new();
    let opened = options.write(true).custom_flags(NEVER_WAIT).open(path);
    let mut file = opened.expect("the pipe can be opened once more");
    let mut filled = 0;
    let full = loop {
        match file.write(&[0; PAGE]) {
            Ok(written) => filled += written,
            Err(why) => break why.kind(),
        }
    };
    assert_eq!(full, ErrorKind::WouldBlock);
    // A page is taken as a whole, so that one that is read makes room for one.
    reader.read_exact(&mut [0; PAGE]).expect("a page is there");
    file.write_all(&vec![0; PAGE - room]).expect("a page fits");
    (reader, file, filled - room)
}

/// What of the report on an AND of one input twice comes through such a pipe,
/// and how the program ends.
fn report_through(room: usize) -> (String, Output) {
    let (mut reader, file, filled) = pipe_with_room(room);
    let ended = print_to(file, &[&input(0, 0, &worked::AND_TWICE)]);
    let mut bytes = Vec::new();
    reader.read_to_end(&mut bytes).expect("the pipe is read");
    let text = String::from_utf8(bytes.split_off(filled));
    (text.expect("the report is text"), ended)
}

/// Fails unless this much comes through a pipe that takes too little, and the
/// program says that it was too little.
fn assert_stops(room: usize, expected: &str) {
    let (text, ended) = report_through(room);
    assert_eq!(text, expected);
    assert_failed(&ended, ErrorKind::WouldBlock);
}

// The lines have 12 bytes each, the total has 8: it would fit where a line did
// not, and then count lines that are not there.
#[test]
fn no_total_follows_a_first_line_that_did_not_fit() {
    assert_stops(10, "");
}

#[test]
fn no_total_follows_a_second_line_that_did_not_fit() {
    assert_stops(22, "1 0 1 0 0 0\n");
}

#[test]
fn what_fits_is_printed() {
    let lines = "1 0 1 0 0 0\n1 1 1 0 0 0\n";
    assert_stops(31, lines);
    let (text, ended) = report_through(32);
    assert_eq!(text, format!("{lines}2 of 12\n"));
    assert!(ended.status.success(), "{}", ended.status);
    assert_eq!(String::from_utf8_lossy(&ended.stderr), "");
}

#[test]
fn an_output_that_takes_nothing() {
    let full = || File::options().write(true).open("/dev/full");
    for netlist in [&worked::AND_TWICE[..], &example("mix30"), &[]] {
        let output = full().expect("there is a full device");
        let ended = print_to(output, &[&input(2, 1, netlist)]);
        assert_failed(&ended, ErrorKind::StorageFull);
    }
}

#[test]
fn an_output_that_nobody_reads() {
    let (reader, writer) = io::pipe().expect("there are pipes");
    drop(reader);
    let ended = print_to(writer, &[&input(0, 0, &worked::AND_TWICE)]);
    assert_failed(&ended, ErrorKind::BrokenPipe);
}

#[test]
fn an_input_that_cannot_be_read() {
    let folder = File::open(top_folder()).expect("the folder can be opened");
    let ended = read_from(folder);
    assert_eq!(String::from_utf8_lossy(&ended.stdout), "");
    assert_failed(&ended, ErrorKind::IsADirectory);
}

#[test]
fn bytes_without_a_plan() {
    run("noise", 100, |_, random| {
        let length = random.below(60);
        compare(&random.bytes(length));
        compare(&input(1, 0, &raw::shaped(random)));
    });
}
