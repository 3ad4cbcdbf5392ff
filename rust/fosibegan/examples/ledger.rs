//! A ledger of addresses: who holds which block of a pool, and what is free.
//!
//! `cargo run --example ledger POOL` reads changes on standard input, one on each line:
//!
//! ```text
//! next 28 mail          gives the first free /28 to mail
//! take 10.0.0.32/28 web gives this block to web
//! release 10.0.0.32/28  takes it back
//! free                  prints what is free
//! ```
//!
//! The status is 1 if some change was refused, and 2 if POOL is no network.

use fosibegan::{AddressSet, IpNetwork, IpNetworkError, PrefixMap};
use std::process::ExitCode;
use std::{env, io};

struct Ledger {
    pool: IpNetwork,
    used: AddressSet,
    holders: PrefixMap<IpNetwork, String>,
}

impl Ledger {
    fn new(pool: IpNetwork) -> Self {
        Self {
            pool,
            used: AddressSet::new(),
            holders: PrefixMap::new(),
        }
    }

    /// Gives the first free block of this prefix length to a holder.
    fn next(&mut self, prefix: u8, holder: &str) -> Result<IpNetwork, String> {
        let block = self.used.first_free(self.pool, prefix);
        let block = block.ok_or_else(|| format!("no /{prefix} is free in {}", self.pool))?;
        self.take(block, holder)?;
        Ok(block)
    }

    /// Gives a block to a holder. Not even a part of it may be held by another.
    fn take(&mut self, block: IpNetwork, holder: &str) -> Result<(), String> {
        if !block.is_subnet_of(self.pool) {
            return Err(format!("{block} is not within {}", self.pool));
        }
        if self.used.overlaps(block) {
            return Err(format!("{block} is held at least in part"));
        }
        self.used.insert(block);
        self.holders.insert(block, holder.to_owned());
        Ok(())
    }

    /// Takes back a block that is held as a whole, and says who held it.
    fn release(&mut self, block: IpNetwork) -> Result<String, String> {
        let holder = self
            .holders
            .remove(block)
            .ok_or_else(|| format!("nobody holds {block}"))?;
        self.used.remove(block);
        Ok(holder)
    }
}

/// The network that a text names, or what is wrong with the text.
fn network(text: &str) -> Result<IpNetwork, String> {
    text.parse().map_err(|error: IpNetworkError| {
        let cause = IpNetwork::cause_of(text).unwrap_or(error);
        format!("{text}: {cause}")
    })
}

fn change(ledger: &mut Ledger, line: &str) -> Result<String, String> {
    let words: Vec<&str> = line.split_whitespace().collect();
    match words[..] {
        ["next", prefix, holder] => {
            let prefix = prefix
                .parse()
                .map_err(|_| format!("{prefix} is no prefix length"))?;
            ledger
                .next(prefix, holder)
                .map(|block| format!("{block} {holder}"))
        }
        ["take", block, holder] => {
            let block = network(block)?.block();
            ledger
                .take(block, holder)
                .map(|()| format!("{block} {holder}"))
        }
        ["release", block] => {
            let block = network(block)?.block();
            ledger
                .release(block)
                .map(|holder| format!("{block} released by {holder}"))
        }
        ["free"] => {
            let free: Vec<String> = ledger
                .used
                .free_in(ledger.pool)
                .map(|block| block.to_string())
                .collect();
            Ok(format!("free: {}", free.join(" ")))
        }
        _ => Err(format!("{line}: what is to be done?")),
    }
}

fn main() -> ExitCode {
    let Some(pool) = env::args_os().nth(1) else {
        eprintln!("usage: ledger POOL");
        return ExitCode::from(2);
    };
    let mut ledger = match network(&pool.to_string_lossy()) {
        Ok(pool) => Ledger::new(pool.block()),
        Err(why) => {
            eprintln!("{why}");
            return ExitCode::from(2);
        }
    };
    let mut status = ExitCode::SUCCESS;
    for line in io::stdin().lines() {
        let line = match line {
            Ok(line) => line,
            Err(error) => {
                eprintln!("standard input: {error}");
                return ExitCode::FAILURE;
            }
        };
        match change(&mut ledger, &line) {
            Ok(done) => println!("{done}"),
            Err(why) => {
                println!("refused: {why}");
                status = ExitCode::FAILURE;
            }
        }
    }
    status
}
