//! Two lists of a firewall compared: what only the old one has, what only the new one has, and what
//! both have.
//!
//! `cargo run --example two_lists OLD NEW` compares addresses, not lines: a list that writes
//! 10.0.0.0/8 as two halves is the same list. The status is 0 if both have the same addresses, 1 if
//! not, and 2 if a file is refused.

use fosibegan::{AddressSet, IpNetwork, IpNetworkError};
use std::path::{Path, PathBuf};
use std::process::ExitCode;
use std::{env, fs};

/// Reads a list: a network or an address on each line; a `#` begins a comment.
fn read(path: &Path) -> Result<AddressSet, String> {
    let file = path.display();
    let text = fs::read_to_string(path).map_err(|error| format!("{file}: {error}"))?;
    let entries = text
        .lines()
        .map(|line| line.split('#').next().unwrap_or_default().trim());
    (1..)
        .zip(entries)
        .filter(|(_, entry)| !entry.is_empty())
        .map(|(number, entry)| {
            entry.parse().map_err(|error: IpNetworkError| {
                let cause = IpNetwork::cause_of(entry).unwrap_or(error);
                format!("{file}:{number}: {entry}: {cause}")
            })
        })
        .collect::<Result<Vec<IpNetwork>, _>>()
        .map(AddressSet::from_iter)
}

fn compare(old: &Path, new: &Path) -> Result<bool, String> {
    let (old, new) = (read(old)?, read(new)?);
    for network in old.difference(&new) {
        println!("- {network}");
    }
    for network in new.difference(&old) {
        println!("+ {network}");
    }
    for network in old.intersection(&new) {
        println!("  {network}");
    }
    Ok(old == new)
}

fn main() -> ExitCode {
    let arguments: Vec<PathBuf> = env::args_os().skip(1).map(PathBuf::from).collect();
    let [old, new] = &arguments[..] else {
        eprintln!("usage: two_lists OLD NEW");
        return ExitCode::from(2);
    };
    match compare(old, new) {
        Ok(true) => ExitCode::SUCCESS,
        Ok(false) => ExitCode::FAILURE,
        Err(why) => {
            eprintln!("{why}");
            ExitCode::from(2)
        }
    }
}
