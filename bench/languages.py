"""The part of `bench/all` on the calls of the library, from each language, compared with the peers of that language."""

import os
import pathlib
import re
import shutil
import subprocess
import sys

from of_rust import fosibegan
from parts import LIBRARY, REGISTRY, RUSTC, TOP, Missing, compared, figure, need, paragraph, said, table, tools

# The columns of the table, by the names that the rows below have for them.
COLUMNS = {
    "read4": "IPv4 network read",
    "read6": "IPv6",
    "has4": "`contains`, IPv4",
    "has6": "IPv6",
    "print6": "IPv6 network printed",
    "column4": "Column of IPv4 addresses read",
    "column6": "IPv6",
    "set": "IPv4 in a set",
    "set_column4": "a column of it",
    "set_column6": "of IPv6",
    "find": "IPv4 in a table",
    "find_column": "a column of it",
}


class Rows:
    """The rows of the table: of each call of ours in bold its times, and below it the peers of that call."""

    def __init__(self):
        self.rows, self.own = [], {}

    def add_own(self, name, times):
        if any(time is not None for time in times.values()):
            self.own = times
            self.rows.append([f"**{name}**", *(times.get(column) for column in COLUMNS)])

    def add_peer(self, name, times):
        self.add_peers({name: times})

    def add_peers(self, peers):
        """Some peers, whose figures are in one row."""
        peers = {name: times for name, times in peers.items() if any(time is not None for time in times.values())}
        cells = []
        for column in COLUMNS:
            found = [compared(self.own.get(column), times.get(column)) for times in peers.values()]
            cells.append("; ".join(found if all(found) else filter(None, found)))
        if peers:
            self.rows.append(["; ".join(peers), *cells])


def languages(run):
    rows, notes = Rows(), []
    for name, each in (("C", from_c), ("Rust", from_rust), ("Python", from_python), ("Go", from_go), ("JavaScript", from_js)):
        try:
            notes += each(run, rows)
        except Missing as why:
            notes.append(f"Not measured from {name}: {why}.")
    if not rows.rows:
        return notes
    text = paragraph(
        "A call of ours is in bold, and what its peers take below it. Sets and tables are of 10,000 networks, and what is "
        "found in a table is the longest one that has the address. Of a column the time of a row counts."
    )
    return [*text, "", *table(["Nanoseconds", *COLUMNS.values()], rows.rows), *([""] if notes else []), *paragraph(" ".join(notes))]


def from_c(run, rows):
    need("crates/ipnetwork_c/out/libipnetwork_c.a")
    tools("cc")
    speed = run.folder / "speed"
    said(["cc", "-std=c11", "-O2", "-o", speed, TOP / "bindings/c/speed.c", LIBRARY])
    own = {name: float(time) for name, time in re.findall(r"^(.+?) +([\d.]+) ns$", said([speed]), re.M)}
    rows.add_own("C, without an index", {"set": own.get("ipnetwork_v4_index_contains, no index"), "find": own.get("ipnetwork_v4_index_find, no index")})
    rows.add_peer("a binary search in C", {"set": own.get("a plain binary search in C")})
    calls = {"read4": "v4_read", "read6": "v6_read", "has4": "v4_contains", "has6": "v6_contains", "set": "v4_index_contains",
             "set_column4": "v4_index_contains_column", "set_column6": "v6_index_contains_column", "find": "v4_index_find",
             "find_column": "v4_index_find_column"}
    rows.add_own("C", {column: own.get(f"ipnetwork_{call}") for column, call in calls.items()})
    rows.add_peer("`inet_pton`, addresses",
                  {"read4": own.get("inet_pton, IPv4 address"), "read6": own.get("inet_pton, IPv6 address")})
    rows.add_own("C, by ranges", {column: own.get(f"ipnetwork_v4_ranges_{column}") for column in ("find", "find_column")})
    return [f"From C, `ipnetwork_v4_ranges_place` of one address {figure(own.get('ipnetwork_v4_ranges_place'))}."]


# What a line of a program that measures calls from Rust has.
RUST_TIME = re.compile(r"^(\w+), (IPv.), (this crate|plain Rust) +([\d.]+) ns$", re.M)


def rust_times(run, name, source, *more):
    """What calls take by this crate under the name `ipnetwork`, and by plain Rust over std::net."""
    library, speed = run.folder / f"lib{name}.rlib", run.folder / f"speed_of_{name}"
    edition = re.search(r'^edition = "(\d+)"$', (source / "Cargo.toml").read_text(), re.M)
    crate = ["rustc", "--edition", edition[1] if edition else "2018", *RUSTC[3:], "--cap-lints", "allow"]
    crate += ["--crate-type", "rlib", "--crate-name", "ipnetwork", "-o", library]
    said([*crate, source / "src/lib.rs", *more])
    where = ["--extern", f"ipnetwork={library}", "-L", run.folder]
    # Where a loop happens to lie would count more than a call of a nanosecond.
    where += ["-C", "llvm-args=--align-loops=64"]
    said([*RUSTC, *where, "-o", speed, TOP / "rust/patched/plain/examples/speed.rs"])
    times = {which: {} for which in ("this crate", "plain Rust")}
    for call, family, which, time in RUST_TIME.findall(said([speed])):
        times[which][call, family] = float(time)
    return times


def front_times(run, below):
    """What questions to sets and maps of the crate fosibegan take."""
    speed = run.folder / "speed_of_front"
    said([*RUSTC, *below, "-o", speed, TOP / "bench/front.rs"])
    return {(call, family): float(time) for call, family, _, time in RUST_TIME.findall(said([speed]))}


def from_rust(run, rows):
    tools("rustc")
    calls = {"read4": ("parse", "IPv4"), "read6": ("parse", "IPv6"), "has4": ("contains", "IPv4"), "has6": ("contains", "IPv6"),
             "print6": ("print", "IPv6")}
    below = fosibegan(run)
    ours = rust_times(run, "ours", TOP / "rust/ipnetwork", *below)
    own, plain = ours["this crate"], ours["plain Rust"]
    front = front_times(run, below)
    rows.add_own("Rust, not frozen", {"set": front["set", "IPv4"], "find": front["map", "IPv4"]})
    columns = {"set": ("frozen_set", "IPv4"), "set_column4": ("set_column", "IPv4"), "set_column6": ("set_column", "IPv6"),
               "find": ("frozen_map", "IPv4"), "find_column": ("map_column", "IPv4")}
    own_calls = {column: own.get(call) for column, call in calls.items()}
    rows.add_own("Rust", own_calls | {column: front[call] for column, call in columns.items()})
    rows.add_peer("`std::net`", {column: plain.get(call) for column, call in calls.items()})
    # A folder with the sources of the crate takes the place of Debian's, which are of 2020.
    given = os.environ.get("IPNETWORK_UPSTREAM")
    sources = [pathlib.Path(given)] if given else sorted(REGISTRY.glob("ipnetwork-*"))
    if not sources:
        run.without("the Rust crate ipnetwork (--upstream FOLDER, or Debian: librust-ipnetwork-dev)")
        return []
    crate = rust_times(run, "theirs", sources[0])["this crate"]
    version = re.search(r'^version = "(.*)"$', (sources[0] / "Cargo.toml").read_text(), re.M)[1]
    if not version.startswith("0.21"):
        run.without("version 0.21.1 of the crate ipnetwork (--upstream FOLDER)")
    rows.add_peer(f"the crate `ipnetwork` {version}", {column: crate.get(call) for column, call in calls.items()})
    parts = []
    for call in ("network", "broadcast"):
        for family in ("IPv4", "IPv6"):
            each = own[call, family], crate[call, family]
            parts.append(f"`{call}` of {family} {figure(each[0])}, the crate {compared(*each)}")
    return [f"From Rust {'; '.join(parts)}."]


def python():
    """The interpreter that has most peers, and the headers for the extension."""
    asks = "import sysconfig, pathlib; assert pathlib.Path(sysconfig.get_path('include'), 'Python.h').exists()"
    found = []
    for words in (sys.executable, "/usr/bin/python3"):
        if subprocess.run([words, "-c", asks], stderr=subprocess.DEVNULL).returncode == 0:
            peers = sum(
                subprocess.run([words, "-c", f"import {each}"], stderr=subprocess.DEVNULL).returncode == 0
                for each in ("radix", "SubnetTree", "pytricia")
            )
            found.append((peers, words))
    if not found:
        raise Missing("no headers of Python (Debian: python3-dev)")
    return max(found, key=lambda each: each[0])[1]


def from_python(run, rows):
    need("crates/ipnetwork_c/out/libipnetwork_c.a")
    tools("cc", "objdump")
    words = python()
    native = run.folder / "native"
    shutil.copytree(TOP / "bindings/python", native)
    said([words, TOP / "bindings/python/build_wheel.py", native / "ipnetwork"])
    turns = 3 if run.quick else 7
    code = f"import speed; speed.TURNS = {turns}; speed.main()"
    printed = said([words, "-c", code, "networks", "columns", "routes"], cwd=native)
    pairs = {name.strip(): (float(own), float(other)) for name, own, other in
             re.findall(r"^(IPv.: .+?) +(\d+) +(\d+) +\d+\.\d\d(?:  slower)?$", printed, re.M)}
    columns = {re.sub(r" of a set of \d{3,}$", " of a set", name): float(own)
               for name, own in re.findall(r"^(IPv.: .+?) +([\d.]+)$", printed, re.M)}
    calls = {"read4": "IPv4: read", "read6": "IPv6: read", "has4": "IPv4: in", "has6": "IPv6: in", "print6": "IPv6: str"}
    loops = {name: (float(four), float(six)) for name, four, six in re.findall(r"^(Table.*?|py-radix.*?) +([\d.]+) +([\d.]+)$", printed, re.M)}
    own = {column: pairs[call][0] for column, call in calls.items()}
    for column, call in (("column", "read_address_column"), ("set_column", "contains_column of a set")):
        own |= {f"{column}{family}": columns.get(f"IPv{family}: {call}") for family in (4, 6)}
    where = {**os.environ, "PYTHONPATH": str(native)}
    printed = said([words, TOP / "bench/python_peers.py", "2" if run.quick else "5"], env=where)
    times = {name: None if time == "-" else float(time) for name, time in re.findall(r"^(\w+) ([\d.]+|-)$", printed, re.M)}
    rows.add_own("Python", own | {"find": times["find"], "find_column": times["find_column"]})
    rows.add_peer("`ipaddress`", {column: pairs[call][1] for column, call in calls.items()})
    tries = {"py-radix": "radix", "SubnetTree": "SubnetTree", "pytricia": "pytricia"}
    packages = {"py-radix": "Debian: python3-radix", "SubnetTree": "Debian: python3-subnettree", "pytricia": "no package of Debian"}
    for name, module in tries.items():
        if times[module] is None:
            run.without(f"{name} ({packages[name]})")
    rows.add_peers({name: {"find_column": times[module]} for name, module in tries.items()})
    own, other = pairs["IPv4: collapse, of 2000"]
    notes = [f"From Python `collapse_addresses` {figure(own)} a network, `ipaddress` {compared(own, other)}."]
    own, other = (loops.get(name) for name in ("Table.find(read_address(text)) of each str", "py-radix: search_best of each str"))
    for at, family in enumerate(("IPv4", "IPv6")):
        peer = f", py-radix {compared(own[at], other[at])}" if other else ""
        notes.append(f"`Table.find(read_address(text))` in a loop, {family} {figure(own[at])}{peer}.")
    return notes


def from_go(run, rows):
    need("crates/ipnetwork_c/out/libipnetwork_c.a")
    tools("go", "cc")
    environment = {**os.environ, "GOFLAGS": "-mod=mod", "GOPROXY": "off", "GOCACHE": str(TOP / "bindings/out/go")}
    times = {}
    words = ["go", "test", "-run", "none", "-bench", ".", "-benchtime", "20ms" if run.quick else "60ms"]
    printed = said([*words, "-count", "2" if run.quick else "3"], cwd=TOP / "bindings/go", env=environment)
    for name, time in re.findall(r"^Benchmark(\w+?)(?:-\d+)?\s+\d+\s+([\d.]+) ns/op", printed, re.M):
        times[name] = min(float(time), times.get(name, 1e300))
    calls = {"read4": "Parse4", "read6": "Parse6", "has4": "Contains4", "has6": "Contains6", "print6": "AppendTo6",
             "column4": "ParseAddrColumn", "set": "ContainsOfSet", "set_column4": "ContainsColumnOfSet", "find": "Find",
             "find_column": "FindColumn"}
    peers = {column: f"{call}OfNetip" for column, call in calls.items()} | {"column4": "ParseAddrsOfNetip"}
    rows.add_own("Go", {column: times.get(call) for column, call in calls.items()})
    rows.add_peer("`net/netip`", {column: times.get(call) for column, call in peers.items()})
    return ["Go's column of addresses is of both families."]


def from_js(run, rows):
    need("bindings/out/js")
    tools("node")
    printed = said(["node", TOP / "bindings/js/speed.mjs", "0.1" if run.quick else "0.4"])
    for line in re.findall(r"^Left out, since they are not here: (.*)$", printed, re.M):
        run.without(line)
    lines = [[cell.strip() for cell in line.strip("| ").split("|")] for line in printed.splitlines() if line.startswith("|")]
    times = {line[0]: [float(cell.replace(",", "")) if cell else None for cell in line[1:]] for line in lines[2:]}
    calls = {"read4": "read an IPv4 network", "read6": "read an IPv6 network", "has4": "`contains` of values, IPv4",
             "has6": "`contains` of values, IPv6", "print6": "a network printed, IPv6",
             "column4": "`AddressColumn.read`, a row, IPv4", "column6": "`AddressColumn.read`, a row, IPv6",
             "set": "the same, one address in each call, IPv4",
             "set_column4": "a set of 10,000 asked by a column of addresses, a row, IPv4",
             "set_column6": "a set of 10,000 asked by a column of addresses, a row, IPv6",
             "find_column": "a table of 10,000 asked by a column, a row, IPv4"}
    found = [{column: times[call][at] for column, call in calls.items() if at < len(times.get(call, []))}
             for at in range(len(lines[0]) - 1)]
    peers = dict(zip(lines[0][2:], found[1:]))
    rows.add_own("JavaScript", found[0])
    for name in list(peers)[:1]:
        rows.add_peer(name, peers.pop(name))
    rows.add_peers(peers)
    return ["Of the packages for JavaScript that share a row, `netmask` reads no IPv6 network."] if "netmask" in peers else []
