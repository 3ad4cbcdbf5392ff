// Written by scripts/plain out of crates/cidr_filter/src/main.rt

//! Prints the lines of logs whose address is in a list of networks.
#![forbid(unsafe_code)]

use fosibegan_core::plain_std::string::String;
use fosibegan_core::plain_std::rt::HostRuntime;

mod filter;
mod help;
mod log;
mod logs;
mod matcher;
mod naming;
mod networks;
mod printing;
mod printing_addresses;
mod reading;
mod recent;
mod rows;
mod run;
mod telling;

use crate::help::{PROGRAM, USAGE};
use crate::rows::table;
use crate::run::run;
use cidr_programs::options::operands::are_files;
use cidr_programs::program::start::start_on_files;
use std::process::ExitCode;

fn main() -> ExitCode {
    let rt = HostRuntime::new();
    let takes = |words: &[String]| are_files(rt.alloc(), table().rows, words);
    start_on_files(&rt, PROGRAM, USAGE, takes, |words, lists, output, errors| {
        run(rt.alloc(), words, lists, output, errors)
    })
}
