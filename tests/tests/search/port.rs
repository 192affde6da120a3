//! The finder's own sources and those of the crates beneath it, without their
//! contracts, as Rust. The build script writes them, the finder and its search several times:
//! `as_it_is`, and with a few lines altered.

// The sources are written for another compiler, which asks for other things.
#![allow(unused, clippy::all)]

include!(concat!(env!("OUT_DIR"), "/port.rs"));
