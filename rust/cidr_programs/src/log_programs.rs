// Written by scripts/plain out of crates/log_programs/src/lib.rt

//! What the programs that read logs share: where to look for the addresses of a line, the byte
//! order mark that a log may begin with, the address of a line, the network that is looked up for
//! one of a line, the counts of the lines of a log, and the reports about a log.

pub mod areas;
pub mod byte_order_mark;
pub mod finding;
pub mod help;
pub mod log_stats;
pub mod rows;
pub mod telling;
pub mod unmapping;
pub mod without_address;
