//! The kit's library through its C interface.

use crate::circuits::calls::{self, Request};
use crate::model::finder::Lent;
use crate::model::{Checked, Fault, Finding, Reading, Site, Stepped};

extern "C" {
    fn leverpeach_read(netlist_ptr: *const u8, netlist_len: usize) -> u64;

    fn leverpeach_simulate(
        netlist_ptr: *const u8,
        netlist_len: usize,
        faulted: u8,
        node: u16,
        site: u8,
        u: u8,
        first_ptr: *mut u8,
        first_len: usize,
        second_ptr: *mut u8,
        second_len: usize,
    ) -> u64;

    fn leverpeach_check(
        netlist_ptr: *const u8,
        netlist_len: usize,
        certificate_ptr: *const u8,
        certificate_len: usize,
        first_ptr: *mut u8,
        first_len: usize,
        second_ptr: *mut u8,
        second_len: usize,
    ) -> u64;

    fn leverpeach_find(
        netlist_ptr: *const u8,
        netlist_len: usize,
        node: u16,
        site: u8,
        u: u8,
        b: u8,
        f: u8,
        first_ptr: *mut u8,
        first_len: usize,
        second_ptr: *mut u8,
        second_len: usize,
        certificate_ptr: *mut u8,
        certificate_len: usize,
    ) -> u64;
}

/// A fault as the C interface takes it, byte for byte.
#[derive(Clone, Copy, Debug, PartialEq, Eq)]
pub struct FaultBytes {
    pub faulted: u8,
    pub node: u16,
    pub site: u8,
    pub u: u8,
}

impl FaultBytes {
    pub const NONE: FaultBytes = FaultBytes {
        faulted: 0,
        node: 0,
        site: 0,
        u: 0,
    };

    pub fn new(node: u16, site: u8, u: u8) -> Self {
        FaultBytes {
            faulted: 1,
            node,
            site,
            u,
        }
    }

    /// What the bytes mean: with `faulted` 0 there is no fault, whatever the
    /// others say.
    pub fn meaning(&self) -> Option<Fault> {
        (self.faulted != 0).then_some(Fault {
            node: self.node,
            site: Site::from_byte(self.site),
            u: self.u,
        })
    }
}

/// The library's reader.
pub fn read(netlist: &[u8]) -> u64 {
    // SAFETY: pointer and length are those of a live slice, which the library
    // only reads.
    unsafe { leverpeach_read(netlist.as_ptr(), netlist.len()) }
}

/// The library's simulator.
pub fn simulate(netlist: &[u8], fault: FaultBytes, first: &mut [u8], second: &mut [u8]) -> u64 {
    // SAFETY: pointers and lengths are those of live slices; the two that the
    // library writes are lent mutably and lie apart.
    unsafe {
        leverpeach_simulate(
            netlist.as_ptr(),
            netlist.len(),
            fault.faulted,
            fault.node,
            fault.site,
            fault.u,
            first.as_mut_ptr(),
            first.len(),
            second.as_mut_ptr(),
            second.len(),
        )
    }
}

/// The library's checker.
pub fn check(netlist: &[u8], certificate: &[u8], first: &mut [u8], second: &mut [u8]) -> u64 {
    // SAFETY: pointers and lengths are those of live slices; the two that the
    // library writes are lent mutably and lie apart.
    unsafe {
        leverpeach_check(
            netlist.as_ptr(),
            netlist.len(),
            certificate.as_ptr(),
            certificate.len(),
            first.as_mut_ptr(),
            first.len(),
            second.as_mut_ptr(),
            second.len(),
        )
    }
}

/// The library's finder.
pub fn find(netlist: &[u8], fault: Fault, b: u8, f: u8, lent: Lent) -> u64 {
    // SAFETY: pointers and lengths are those of live slices; the three that the
    // library writes are lent mutably and lie apart.
    unsafe {
        leverpeach_find(
            netlist.as_ptr(),
            netlist.len(),
            fault.node,
            fault.site.to_byte(),
            fault.u,
            b,
            f,
            lent.first.as_mut_ptr(),
            lent.first.len(),
            lent.second.as_mut_ptr(),
            lent.second.len(),
            lent.certificate.as_mut_ptr(),
            lent.certificate.len(),
        )
    }
}

/// The library's finder in slices of its own, just long enough: its answer, and
/// the certificate's bytes, none where none is found.
pub fn find_alone(netlist: &[u8], request: Request) -> (u64, Vec<u8>) {
    let lengths = request.slice_lengths(calls::node_count(netlist));
    let [mut first, mut second, mut certificate] = lengths.map(|length| vec![170; length]);
    let lent = Lent {
        first: &mut first,
        second: &mut second,
        certificate: &mut certificate,
    };
    let Request { fault, b, f } = request;
    let answer = find(netlist, fault, b, f, lent);
    certificate.truncate(found_length(answer));
    (answer, certificate)
}

/// The number by which the C interface gives a reader's answer.
pub fn reading_number(reading: Reading) -> u64 {
    match reading {
        Reading::Sound { nodes, pins } => sound_number(nodes.into(), pins.into()),
        Reading::Refused(number) => number.into(),
    }
}

/// The number for a sound netlist with these counts.
pub fn sound_number(nodes: usize, pins: usize) -> u64 {
    (1 << 32) + 65_536 * nodes as u64 + pins as u64
}

/// The number by which the C interface gives a simulator's answer.
pub fn stepped_number(stepped: Stepped) -> u64 {
    match stepped {
        Stepped::Done => 0,
        Stepped::Refused(number) => number.into(),
    }
}

/// The number by which the C interface gives a checker's answer.
pub fn checked_number(checked: Checked) -> u64 {
    match checked {
        Checked::Accepted(c) => accepted_number(c),
        Checked::Refused(number) => number.into(),
    }
}

/// The number for a certificate accepted with this c.
pub fn accepted_number(c: u8) -> u64 {
    (1 << 32) + u64::from(c)
}

/// The number by which the C interface gives a finder's answer.
pub fn finding_number(finding: Finding) -> u64 {
    match finding {
        Finding::Found { c, length, .. } => found_number(c, length),
        Finding::None => 0,
        Finding::Refused(number) => number.into(),
    }
}

/// The number for a certificate found with this c and of so many bytes.
pub fn found_number(c: u8, length: usize) -> u64 {
    ((u64::from(c) + 1) << 32) + length as u64
}

/// The length that the number of a finder's answer tells: the lower half, where
/// a certificate is found.
pub fn found_length(answer: u64) -> usize {
    match answer >> 32 {
        0 => 0,
        _ => (answer & 0xFFFF_FFFF) as usize,
    }
}
