// Written by scripts/plain out of crates/cidr_join/src/main.rt

//! Prints the lines of logs, each with the value that a list gives its address.
#![forbid(unsafe_code)]

use fosibegan_core::plain_std::string::String;
use fosibegan_core::plain_std::rt::HostRuntime;

mod answers;
mod asked;
mod comment;
mod counts;
mod found;
mod help;
mod join;
mod lengths;
mod line;
mod list;
mod log;
mod logs;
mod longest;
mod missing;
mod pair;
mod printing;
mod reading;
mod routes;
mod rows;
mod run;
mod tally;
mod tally_log;
mod tally_logs;
mod telling;
mod value;
mod value_ids;
mod whole;

use crate::help::{PROGRAM, USAGE};
use crate::rows::table;
use crate::run::run;
use cidr_programs::options::operands::are_files;
use cidr_programs::program::start::start_on_files;
use std::process::ExitCode;

fn main() -> ExitCode {
    let rt = HostRuntime::new();
    let takes = |words: &[String]| are_files(rt.alloc(), table().rows, words);
    start_on_files(&rt, PROGRAM, USAGE, takes, |words, lists, output, errors| {
        run(rt.alloc(), words, lists, output, errors)
    })
}
