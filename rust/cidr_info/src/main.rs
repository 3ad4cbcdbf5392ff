// Written by scripts/plain out of crates/cidr_info/src/main.rt

//! Prints the addresses, masks, numbers and reverse names of networks.
#![forbid(unsafe_code)]

use fosibegan_core::plain_std::rt::HostRuntime;

mod field;
mod help;
mod number_texts;
mod printing;
mod rows;
mod run;
mod said;
mod said_words;
mod telling;
mod value;
mod zone;

use crate::help::{PROGRAM, USAGE};
use crate::run::run;
use cidr_programs::program::start::start;
use std::process::ExitCode;

fn main() -> ExitCode {
    let rt = HostRuntime::new();
    start(&rt, PROGRAM, USAGE, |words, lists, output, errors| {
        run(rt.alloc(), words, lists, output, errors)
    })
}
