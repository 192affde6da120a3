//! Marks of the report judged from outside.
//!
//! A mark says that from clock c on no output shows a fault. Here that claim is
//! put as a question of its own: [`blif`] writes the faulty and the good circuit
//! side by side, with one output that is 1 where they are told apart, and
//! [`abc`] has Berkeley's model checker decide whether it ever is. Nothing of
//! the kit takes part in the answer: [`netlist`] reads the bytes anew, and
//! windows, splits and certificates are not looked at.
//!
//! [`known`] are claims whose answers are known beforehand, about circuits that
//! are written out as a [`draft`]. [`report`] runs the kit's program, [`review`]
//! judges what it printed, [`table`] shows the counts and the times that
//! [`measure`] takes.

pub mod abc;
pub mod blif;
pub mod draft;
pub mod fault;
pub mod known;
pub mod measure;
pub mod netlist;
pub mod report;
pub mod review;
pub mod table;
