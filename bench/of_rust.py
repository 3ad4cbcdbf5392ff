"""The parts of `bench/all` on the crates for Rust: what calls take, and the crate `ipnetwork`; what sets and maps hold."""

import os
import pathlib
import re
import shutil
import subprocess

from parts import RUSTC, TOP, Missing, compared, paragraph, said, table, tools

BYTES = re.compile(r"^(v\d) (\d+) (\w+): ([\d.]+) ([\d.]+)$", re.M)
HELD = {
    "set": "`AddressSet`",
    "frozen_set": "`FrozenSet`",
    "map": "`PrefixMap`",
    "frozen_map": "`FrozenMap`",
    "btree_map": "`BTreeMap`",
    "hash_map": "`HashMap`",
    "allotment": "an allotment table of eight bits a step, ours",
    "paths": "a path-compressed trie, ours",
}


def fosibegan(run):
    """What compiles a program with the crates fosibegan and fosibegan_core."""
    below = ["-L", run.folder]
    for name in ("fosibegan_core", "fosibegan"):
        if not (run.folder / f"lib{name}.rlib").exists():
            crate = ["rustc", "--edition", "2024", *RUSTC[3:], "--crate-type", "rlib", "--crate-name", name]
            said([*crate, "--out-dir", run.folder, *below, TOP / f"rust/{name}/src/lib.rs"])
        below += ["--extern", f"{name}={run.folder}/lib{name}.rlib"]
    return below


def memory(run):
    """The bytes for a network of sets, maps and their peers."""
    tools("rustc")
    program = run.folder / "memory"
    said([*RUSTC, *fosibegan(run), "-o", program, TOP / "bench/memory.rs"])
    found = {(family, count, form): (float(held), float(most))
             for family, count, form, held, most in BYTES.findall(said([program]))}
    columns = [(family, count) for family in ("v4", "v6") for count in ("10000", "100000", "900000")]
    rows = [[name, *("; ".join(f"{each:.0f}" for each in found.get((*column, form), ())) for column in columns)]
            for form, name in HELD.items()]
    text = paragraph(
        "Bytes for a network, and after the semicolon the most of them while it was made, as an allocator counts them. The "
        "networks are the routes of `Look-ups by index`; of a set those of its shortest list count. Values are numbers of "
        "four bytes. A `BTreeMap` and a `HashMap` do not find the longest network that has an address."
    )
    head = ["", *(f"IPv{family[1]}: {int(count):,}" for family, count in columns)]
    return [*text, "", *table(head, rows)]


def upstream():
    """The folder with the sources of the crate `ipnetwork`, and its version."""
    given = os.environ.get("IPNETWORK_UPSTREAM")
    if not given:
        raise Missing("the crate `ipnetwork` 0.21.1 is not here (--upstream FOLDER)")
    manifest = pathlib.Path(given, "Cargo.toml")
    version = re.search(r'^version = "(.*)"$', manifest.read_text(), re.M) if manifest.exists() else None
    if not version:
        raise Missing(f"{given} has no sources of the crate `ipnetwork`")
    return pathlib.Path(given).resolve(), version[1]


def crate(run):
    """Single calls of the crate fosibegan and of the crate `ipnetwork`."""
    tools("rustc", "cargo")
    source, version = upstream()
    room = run.new("crate")
    for part in ("speed/src", "patched/plain/examples/measure"):
        shutil.copytree(TOP / "rust" / part, room / "rust" / part)
    # The crate ipnet is measured by rust/speed alone, with Debian's registry.
    manifest = re.sub(r"^(ipnet|default) = .*\n", "", (TOP / "rust/speed/Cargo.toml").read_text(), flags=re.M)
    manifest = manifest.replace("../", f"{TOP}/rust/")
    manifest = re.sub(r"^ipnetwork = .*$", lambda _: f'ipnetwork = {{ path = "{source}" }}', manifest, flags=re.M)
    (room / "rust/speed/Cargo.toml").write_text(manifest)
    words = ["cargo", "run", "--quiet", "--release", "--offline", "--", "40" if run.quick else "400", "networks"]
    where = {**os.environ, "CARGO_TARGET_DIR": str(room / "target"), "RUSTFLAGS": "-A warnings"}
    printed = subprocess.run(words, cwd=room / "rust/speed", env=where, stdout=subprocess.PIPE, text=True, check=True).stdout
    rows = []
    for line in printed.splitlines()[1:-1]:
        # A name, ours, that of the crate, of ipnet and of std, each with ours divided by it.
        name, *cells = [line[:24].strip(), *(line[at : at + 22].partition("(")[0].strip() for at in range(24, 112, 22))]
        own, theirs, _, plain = [float(cell) if cell else None for cell in cells]
        rows.append([re.sub(r"^\w+", r"`\g<0>`", name), own, compared(own, theirs), compared(own, plain)])
    text = paragraph(
        "Nanoseconds a call of the crate `fosibegan`, whose types `rust/ipnetwork` has under the names of the crate "
        f"`ipnetwork`, compared with that crate, version {version}, and by masks and std's addresses; of an iteration "
        "those of a member. The answers are compared, but for `is_subnet_of` of networks with host bits, of which that "
        "crate compares the addresses."
    )
    return [*text, "", *table(["Call", "`fosibegan`", f"`ipnetwork` {version}", "`std::net`"], rows)]
