//! Nanoseconds a call of the crate `fosibegan`, beside the crates `ipnetwork` and `ipnet`, plain std, and the core below
//! it, on the same random networks; of an iteration those of a member. Each figure is the least of many passes, in each
//! of which all are measured, one after the other; in brackets ours divided by it. What they answer is compared.
//!
//! ```sh
//! cd rust/speed
//! cargo run --release --offline --config 'source.crates-io.replace-with="debian"' \
//!     --config 'source.debian.directory="/usr/share/cargo/registry"' \
//!     --config "patch.crates-io.ipnetwork.path=\"$IPNETWORK_UPSTREAM\"" -- [PASSES [PART ..]]
//! ```
//!
//! The parts are `networks`, `sets` and `maps`. `IPNETWORK_UPSTREAM` is a folder with the sources of the crate
//! `ipnetwork` 0.21.1; without the last line of configuration it is Debian's (librust-ipnetwork-dev), and `ipnet` always
//! is (librust-ipnet-dev), which the feature `ipnet` brings, a default one. There is no lock file, since either may be
//! asked for. `bench/all --upstream FOLDER` measures the networks without `ipnet`.

mod call;
mod maps;
#[allow(dead_code)]
#[path = "../../patched/plain/examples/measure/mod.rs"]
mod measure;
mod networks;
mod sets;

fn main() {
    let mut words = std::env::args().skip(1);
    let passes = words
        .next()
        .map_or(500, |text| text.parse().expect("PASSES is a number"));
    let asked: Vec<_> = words.collect();
    let parts: [(&str, fn(usize)); 3] = [
        ("networks", networks::networks),
        ("sets", sets::sets),
        ("maps", maps::maps),
    ];
    for (name, measured) in parts {
        if asked.is_empty() || asked.iter().any(|each| each == name) {
            measured(passes);
        }
    }
}
