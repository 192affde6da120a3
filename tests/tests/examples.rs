//! Every example netlist is sound, and steps alike in library and model.

use leverpeach_tests::cases::run;
use leverpeach_tests::compare;
use leverpeach_tests::files::{example, example_names};
use leverpeach_tests::native::FaultBytes;
use leverpeach_tests::random::Random;

/// Clocks that a netlist is stepped with one fault.
const CLOCKS: usize = 20;

/// Steps a netlist some clocks with one fault, each clock from what the one
/// before latched, and with new inputs. Gives back how many clocks were done.
fn step_some_clocks(random: &mut Random, netlist: &[u8], nodes: usize) -> usize {
    // Without a look at the kinds, any node may turn out to lack the pin.
    let site = random.pick(&[0, 1, 255, 255]);
    let fault = FaultBytes::new(random.below(nodes) as u16, site, random.bit());
    let kind = |node: usize| netlist[4 + 5 * node];
    let mut latched: Vec<u8> = (0..nodes).map(|_| random.bit()).collect();
    for _ in 0..CLOCKS {
        let places = latched.iter().enumerate();
        let first: Vec<u8> = places
            .map(|(node, value)| {
                if kind(node) == 0 {
                    random.bit()
                } else {
                    *value
                }
            })
            .collect();
        let second = random.bytes(nodes);
        let (answer, _, next) = compare::simulate(random, netlist, fault, &first, &second);
        if answer != 0 {
            assert_eq!(answer, 9, "{fault:?}");
            return 0;
        }
        latched = next;
    }
    CLOCKS
}

#[test]
fn examples_are_sound_and_step_alike() {
    for name in example_names() {
        println!("{name}");
        let netlist = example(&name);
        let answer = compare::read(&netlist);
        assert!(answer > 16, "{name} is refused: {answer}");
        let nodes = (answer >> 16 & 0xFFFF) as usize;
        let mut done = 0;
        run("example clocks", 100, |_, random| {
            done += step_some_clocks(random, &netlist, nodes);
        });
        // Half of the faults sit on a node itself, and every node has that site.
        assert!(done >= 30 * CLOCKS, "only {done} clocks were done");
    }
}
