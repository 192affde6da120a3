//! The library's finder, and those made of its sources, behind one signature.

use crate::port;
use leverpeach_tests::circuits::calls::Request;
use leverpeach_tests::model::finder::Lent;
use leverpeach_tests::native::{self, found_number};

/// A finder gives its answer, in the number of the C interface, to a request on
/// a netlist.
pub type Finder = fn(&[u8], Request, Lent) -> u64;

/// The library's finder.
pub fn library(netlist: &[u8], request: Request, lent: Lent) -> u64 {
    let Request { fault, b, f } = request;
    native::find(netlist, fault, b, f, lent)
}

/// The fault as the sources have it.
fn fault_of(request: Request) -> port::circuit::Fault {
    port::circuit::Fault {
        node: request.fault.node,
        site: port::circuit::Site::from(request.fault.site.to_byte()),
        stuck: request.fault.u,
    }
}

/// Makes a finder of each of these copies of the sources. Each has a type of
/// its own for its marks.
macro_rules! finders {
    ($($name:ident),*) => {
        $(pub fn $name(netlist: &[u8], request: Request, lent: Lent) -> u64 {
            let Lent { first, second, certificate } = lent;
            let (fault, b, f) = (fault_of(request), request.b, request.f);
            match port::$name::find(netlist, fault, b, f, first, second, certificate) {
                Ok(Some(mark)) => found_number(mark.c, mark.length as usize),
                Ok(None) => 0,
                Err(refusal) => u8::from(refusal).into(),
            }
        })*
    };
}

finders!(
    as_it_is,
    finds_nothing,
    lies,
    mistaken,
    believes_runs,
    believes_sets,
    believes_notes,
    believes_closings,
    believes_mistakes,
    counted
);
