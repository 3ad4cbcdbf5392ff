//! The routes of a router: the most specific network that contains an address says where to send.
//!
//! `cargo run --example routes ADDRESS..` prints where packets for each address go. The status is 1
//! if there is no route for one of them. If an argument is no address, nothing is printed but why,
//! and the status is 2.

use fosibegan::{FrozenMap, IpNetwork, PrefixMap};
use std::env;
use std::error::Error;
use std::net::{AddrParseError, IpAddr};
use std::process::ExitCode;

const CONFIGURED: [(&str, &str); 6] = [
    ("10.0.0.0/8", "core"),
    ("10.1.0.0/16", "branch"),
    ("10.1.9.0/24", "laboratory"),
    ("192.0.2.0/24", "partner"),
    ("2001:db8::/32", "core"),
    ("2001:db8:9::/48", "laboratory"),
];

fn routes() -> Result<FrozenMap<IpNetwork, String>, Box<dyn Error>> {
    let mut routes = PrefixMap::new();
    for (network, next_hop) in CONFIGURED {
        let network: IpNetwork = network.parse()?;
        if let Some(other) = routes.insert(network, next_hop.to_owned()) {
            return Err(format!("{network} goes to both {other} and {next_hop}").into());
        }
    }

    // The laboratory withdraws its routes, wherever they are.
    routes.retain(|_, next_hop| next_hop != "laboratory");

    // The branch moves: whatever lies in its network goes there by the backup line.
    let branch: IpNetwork = "10.1.0.0/16".parse()?;
    if let Some(next_hop) = routes.get_mut(branch) {
        next_hop.push_str(" by the backup line");
    }

    // Nothing changes any more: an index answers faster.
    Ok(routes.freeze())
}

/// The addresses that the command line names.
fn addresses() -> Result<Vec<IpAddr>, String> {
    let addrs = env::args_os().skip(1).map(|argument| {
        let text = argument.to_string_lossy();
        text.parse()
            .map_err(|error: AddrParseError| format!("{text}: {error}"))
    });
    let addrs = addrs.collect::<Result<Vec<_>, _>>()?;
    if addrs.is_empty() {
        return Err("usage: routes ADDRESS..".to_owned());
    }
    Ok(addrs)
}

fn send() -> Result<ExitCode, Box<dyn Error>> {
    let (routes, addrs) = (routes()?, addresses()?);
    let mut status = ExitCode::SUCCESS;
    for addr in addrs {
        if let Some((network, next_hop)) = routes.longest_match(addr.to_canonical()) {
            println!("{addr} goes to {next_hop} ({network})");
        } else {
            println!("{addr} has no route");
            status = ExitCode::FAILURE;
        }
    }
    Ok(status)
}

fn main() -> ExitCode {
    send().unwrap_or_else(|error| {
        eprintln!("{error}");
        ExitCode::from(2)
    })
}
