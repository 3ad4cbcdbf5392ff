//! The allow list of a service, reloaded while the service answers.
//!
//! `cargo run --example allow_list FILE` reads the networks that FILE allows, one on each line, and
//! then answers for each address on standard input. The word `reload` reads FILE again. A file with
//! a line that is no network, or without any network, is refused: the service does not start with
//! it, and on a reload the old list stays.

use fosibegan::{FrozenSet, IpNetwork};
use std::net::IpAddr;
use std::path::{Path, PathBuf};
use std::process::ExitCode;
use std::sync::{Arc, PoisonError, RwLock};
use std::{env, fs, io};

/// A list that any number of threads ask while one of them reloads it.
struct AllowList {
    path: PathBuf,
    current: RwLock<Arc<FrozenSet>>,
}

impl AllowList {
    fn open(path: PathBuf) -> Result<Self, String> {
        let current = RwLock::new(Arc::new(read(&path)?));
        Ok(Self { path, current })
    }

    /// Reads the file before it takes the lock; if the file is refused, nothing changes.
    fn reload(&self) -> Result<(), String> {
        let fresh = Arc::new(read(&self.path)?);
        *self.current.write().unwrap_or_else(PoisonError::into_inner) = fresh;
        Ok(())
    }

    /// The list of this moment. A request that asks more than once asks one list.
    fn current(&self) -> Arc<FrozenSet> {
        Arc::clone(&self.current.read().unwrap_or_else(PoisonError::into_inner))
    }

    /// A socket that listens for both families reports 10.1.2.3 as `::ffff:10.1.2.3`.
    fn allows(&self, client: IpAddr) -> bool {
        self.current().contains(client.to_canonical())
    }
}

/// Reads a list: a network or an address on each line; a `#` begins a comment.
fn read(path: &Path) -> Result<FrozenSet, String> {
    let file = path.display();
    let text = fs::read_to_string(path).map_err(|error| format!("{file}: {error}"))?;
    let mut networks = Vec::new();
    for (number, line) in (1..).zip(text.lines()) {
        let entry = line.split('#').next().unwrap_or_default().trim();
        if !entry.is_empty() {
            let network =
                network(entry).map_err(|why| format!("{file}:{number}: {entry}: {why}"))?;
            networks.push(network);
        }
    }
    if networks.is_empty() {
        return Err(format!("{file}: no network in it"));
    }
    Ok(networks.into_iter().collect())
}

/// Refuses `10.1.2.3/8` too: its writer may have meant one address, and not 16,777,216.
fn network(entry: &str) -> Result<IpNetwork, String> {
    if let Some(cause) = IpNetwork::cause_of(entry) {
        return Err(cause.to_string());
    }
    let network: IpNetwork = entry.parse().map_err(|error| format!("{error}"))?;
    if network.ip() != network.network() {
        return Err(format!("has host bits; is {} meant?", network.block()));
    }
    Ok(network)
}

fn serve(path: PathBuf) -> Result<(), String> {
    let list = AllowList::open(path)?;
    for line in io::stdin().lines() {
        let line = line.map_err(|error| error.to_string())?;
        if line == "reload" {
            match list.reload() {
                Ok(()) => println!("reloaded"),
                Err(why) => println!("old list kept: {why}"),
            }
            continue;
        }
        match line.parse() {
            Ok(client) if list.allows(client) => println!("{client} allowed"),
            Ok(client) => println!("{client} denied"),
            Err(_) => println!("{line} is no address"),
        }
    }
    Ok(())
}

fn main() -> ExitCode {
    let Some(path) = env::args_os().nth(1) else {
        eprintln!("usage: allow_list FILE");
        return ExitCode::from(2);
    };
    match serve(path.into()) {
        Ok(()) => ExitCode::SUCCESS,
        Err(why) => {
            eprintln!("{why}");
            ExitCode::FAILURE
        }
    }
}
