//! Marks a fault of a small circuit, and has the mark's certificate checked.

extern "C" {
    fn leverpeach_find(
        netlist: *const u8,
        netlist_length: usize,
        node: u16,
        site: u8,
        u: u8,
        b: u8,
        f: u8,
        first: *mut u8,
        first_length: usize,
        second: *mut u8,
        second_length: usize,
        certificate: *mut u8,
        certificate_length: usize,
    ) -> u64;

    fn leverpeach_check(
        netlist: *const u8,
        netlist_length: usize,
        certificate: *const u8,
        certificate_length: usize,
        first: *mut u8,
        first_length: usize,
        second: *mut u8,
        second_length: usize,
    ) -> u64;
}

fn main() {
    let netlist = std::fs::read("examples/p1.net").expect("the netlist can be read");
    let (b, f) = (1, 0);
    let window = 6 * (b + f + 1); // the circuit has 6 nodes
    let (mut first, mut second) = (vec![0; window], vec![0; window]);
    let mut certificate = vec![0; 25 + 14 * window];
    // Pin 1 of node 3 stuck at 1.
    // SAFETY: each pointer is valid for the length beside it, and the slices lie apart.
    let found = unsafe {
        leverpeach_find(
            netlist.as_ptr(),
            netlist.len(),
            3,
            1,
            1,
            b as u8,
            f as u8,
            first.as_mut_ptr(),
            first.len(),
            second.as_mut_ptr(),
            second.len(),
            certificate.as_mut_ptr(),
            certificate.len(),
        )
    };
    // 0 is none, any other number below 2^32 a refusal.
    let Some(c) = (found >> 32).checked_sub(1) else {
        panic!("no mark: {found}");
    };
    let length = found as u32 as usize;
    println!("found: c {c}, {length} bytes, {} steps", (length - 25) / 7);
    // SAFETY: as above; the certificate is the part that was written.
    let checked = unsafe {
        leverpeach_check(
            netlist.as_ptr(),
            netlist.len(),
            certificate.as_ptr(),
            length,
            first.as_mut_ptr(),
            first.len(),
            second.as_mut_ptr(),
            second.len(),
        )
    };
    let accepted = checked >> 32 == 1;
    let answer = if accepted { "accepted: c" } else { "refused:" };
    println!("{answer} {}", checked as u32);
}
