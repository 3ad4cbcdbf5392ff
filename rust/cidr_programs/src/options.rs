// Written by scripts/plain out of crates/options/src/lib.rt

//! Command lines by a table of options: the items that their words say, and what is wrong with
//! them.

pub mod asking;
pub mod faults;
pub mod given;
pub mod items;
pub mod operands;
pub mod reading;
pub mod refusing;
pub mod table;
pub mod values;
