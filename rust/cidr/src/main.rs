// Written by scripts/plain out of crates/cidr/src/main.rt

//! Answers each line of standard input on standard output.
#![forbid(unsafe_code)]

use fosibegan_core::plain_std::rt::HostRuntime;

mod answering;
mod commands;
mod cutting;
mod dispatch;
mod names;
mod replies;
mod route_tables;
mod run;

use crate::run::run;
use cidr_programs::lines::fault::RunFault;
use cidr_programs::lines::watched::Watched;
use std::process::ExitCode;

fn main() -> ExitCode {
    let rt = HostRuntime::new();
    let mut reader = Watched::new(rt.stdin());
    let mut writer = Watched::new(rt.stdout());
    let end = run(rt.alloc(), &mut reader, &mut writer);
    if let Err(fault) = end {
        let _ = rt.eprintln(fault.text());
    }
    status(end)
}

/// Returns the exit status of the program: 0 after a run that answered all of its input, and 1
/// otherwise.
fn status(end: Result<(), RunFault>) -> ExitCode {
    match end {
        Ok(()) => ExitCode::SUCCESS,
        Err(_) => ExitCode::FAILURE,
    }
}
