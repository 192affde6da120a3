//! 01 in Rust, by subject. Only the text of the report allocates: all
//! else works on the lent bytes, so that it also serves as a yardstick for
//! speed.

pub mod certificate;
pub mod checker;
pub mod clock;
pub mod fault;
pub mod finder;
pub mod kind;
pub mod netlist;
pub mod report;
pub mod trace;
pub mod trap;
pub mod window;

pub use checker::{check, Checked};
pub use clock::{simulate, Stepped};
pub use fault::{Fault, Site};
pub use finder::{find, Finding};
pub use netlist::{read, Reading};
pub use report::report;
pub use trap::Trap;
