"""The parts of `bench/all` that work on lists of networks: sets, look-ups, `cidr_merge` and `cidr_filter`."""

import os
import random
import re
import resource
import shutil
import subprocess

from parts import LIBRARY, REGISTRY, RUSTC, TOP, Differs, Missing, compared, need, paragraph, said, script, table, tools


def sets(run):
    need("crates/ipnetwork_c/out/libipnetwork_c.a")
    tools("cc", "rustc")
    runs = "2" if run.quick else "5"
    ours, plain = run.folder / "sets", run.folder / "plain_sets"
    said(["cc", "-std=c11", "-O2", "-o", ours, TOP / "bench/sets.c", LIBRARY])
    said([*RUSTC, "-C", "target-cpu=x86-64-v2", *ipnet(run), "-o", plain, TOP / "bench/sets.rs"])
    rows = re.compile(r"^(v\d) (\w+) ([\d.]+) (\d+)$", re.M)
    own = {(family, call): (float(time), count) for family, call, time, count in rows.findall(said([ours, runs]))}
    other = {(family, call): (float(time), count) for family, call, time, count in rows.findall(said([plain, runs]))}
    lines = []
    for call, name in (("aggregate", "a million networks aggregated"), ("union", "union of two such sets"),
                       ("intersection", "intersection"), ("difference", "difference")):
        cells = [name]
        for family in ("v4", "v6"):
            time, count = own[family, call]
            if other[family, call][1] != count:
                raise Differs(f"{call} of {family}: {count} blocks, and {other[family, call][1]} by numbers")
            crate = other.get((family, "ipnet"), (None,))[0] if call == "aggregate" else None
            cells += [time, compared(time, other[family, call][0]), compared(time, crate)]
        lines.append(cells)
    head = ["Milliseconds", "IPv4", "Numbers", "`ipnet`", "IPv6", "Numbers", "`ipnet`"]
    text = "By the library for C, whose sets check what they are given; peers: numbers in Rust (`bench/sets.rs`), and `ipnet`."
    return [*paragraph(text), "", *table(head, lines)]


def ipnet(run):
    """What compiles a program with the crate ipnet of Debian, if that is here."""
    sources = sorted(REGISTRY.glob("ipnet-*"))
    if not sources:
        run.without("the Rust crate ipnet (Debian: librust-ipnet-dev)")
        return []
    library = run.folder / "libipnet.rlib"
    crate = ["rustc", "--edition", "2018", "-C", "opt-level=3", "--cap-lints", "allow", "--crate-type", "rlib"]
    said([*crate, "--crate-name", "ipnet", "-o", library, sources[-1] / "src/lib.rs"])
    return ["--cfg", "ipnet", "--extern", f"ipnet={library}"]


def look_ups(run):
    tools("rt", "rustc")
    need("crates/ipnetwork_index/out/rlib")
    measured = script("look_ups").measured(run.new("look_ups"), *((1, 240) if run.quick else (3, 300)))
    if not measured.lines:
        raise Missing("its program was not proved in time; bench/look_ups proves and keeps it")
    for each in measured.left_out:
        run.without(each)
    if not measured.same:
        raise Differs("look-ups do not find the same")
    text = ("Nanoseconds a look-up by index and, after the semicolon, by the set or the table itself, of a million random "
            "addresses. DIR-24-8 is plain Rust. Go's `bart`, pytricia and a trie of crates.io are in no package of Debian: "
            "`bench/tries.rs` has tables of their forms, which are ours. The megabytes of an index come in addition to its table's.")
    return [*paragraph(text), "", *measured.lines]


def seconds(words, output):
    """The processor time of a command, whose output goes to a file."""
    before = resource.getrusage(resource.RUSAGE_CHILDREN)
    with open(output, "wb") as file:
        subprocess.run(words, stdout=file, stderr=subprocess.DEVNULL)
    after = resource.getrusage(resource.RUSAGE_CHILDREN)
    return after.ru_utime + after.ru_stime - before.ru_utime - before.ru_stime


def least(run, commands):
    """The least time of each command, and how many lines each printed; the commands take turns."""
    rounds = 2 if run.quick else 4
    times = {name: [] for name in commands}
    counts = {}
    for _ in range(rounds):
        for name, words in commands.items():
            times[name].append(seconds([str(word) for word in words], run.folder / "printed"))
            with open(run.folder / "printed", "rb") as printed:
                counts[name] = sum(chunk.count(b"\n") for chunk in iter(lambda: printed.read(1 << 20), b""))
    return {name: min(each) for name, each in times.items()}, counts


def here(run, name, package):
    if shutil.which(name):
        return True
    run.without(f"{name} (Debian: {package})")
    return False


def four(number):
    return f"{number >> 24}.{number >> 16 & 255}.{number >> 8 & 255}.{number & 255}"


def networks(rng, count, shortest):
    """Random IPv4 networks of 1.0.0.0 to 223.255.255.255 without host bits, of up to 32 bits, a line each."""
    lines = []
    for _ in range(count):
        prefix = rng.randrange(shortest, 33)
        number = rng.randrange(1 << 24, 224 << 24)
        lines.append(f"{four(number >> (32 - prefix) << (32 - prefix))}/{prefix}\n")
    return lines


def merge(run):
    need("crates/cidr_merge/out/cidr_merge")
    program, rng, rows = TOP / "crates/cidr_merge/out/cidr_merge", random.Random(3), []
    lists = {}
    for shortest in (24, 16):
        lists[shortest] = run.folder / f"networks{shortest}"
        lists[shortest].write_text("".join(networks(rng, 1_000_000, shortest)))
        commands = {"own": [program, "union", lists[shortest]]}
        if here(run, "iprange", "iprange"):
            commands["iprange"] = ["iprange", lists[shortest]]
        times, counts = least(run, commands)
        if len(set(counts.values())) > 1:
            raise Differs(f"cidr_merge and iprange do not print the same: {counts}")
        rows.append([f"`union`, prefix lengths of {shortest} to 32", times["own"], compared(times["own"], times.get("iprange"))])
    commands = {"own": [program, "minus", lists[16], "--", lists[24]]}
    if here(run, "iprange", "iprange"):
        commands["iprange"] = ["iprange", lists[16], "--except", lists[24]]
    times, _ = least(run, commands)
    rows.append(["`minus` of these two lists", times["own"], compared(times["own"], times.get("iprange"))])
    sought = run.folder / "sought"
    sought.write_text("".join(f"{four(rng.randrange(1 << 24, 224 << 24))}\n" for _ in range(5000)))
    times, _ = least(run, {"one": [program, "find", "5.6.7.8", "--", lists[16]], "all": [program, "find", "--from", sought, "--", lists[16]]})
    rows.append(["`find` of an address in the second list", times["one"], compared(times["one"], None)])
    rows.append(["`find --from` of 5,000 addresses", times["all"], compared(times["all"], None)])
    used = run.folder / "used"
    used.write_text("".join(f"{four((64 << 24) + 32 * at)}/28\n" for at in range(1_000_000)))
    free = {count: [program, "free", "--hosts", ",".join(["30"] * count), "-e", "64.0.0.0/6", "--", used] for count in (1, 1000)}
    times, _ = least(run, free)
    rows.append(["`free --hosts` of a number whose network comes after a million used ones", times[1], compared(times[1], None)])
    rows.append(["`free --hosts` of 1,000 such numbers", times[1000], compared(times[1000], None)])
    return ["Seconds of processor time for a million random IPv4 networks.", "",
            *table(["Command", "`cidr_merge`", "`iprange`"], rows)]


def write_log(path, rng, count):
    """A log of so many lines, a quarter of them with IPv6 addresses."""
    words = ["GET /index.html", "GET /images/logo.png", "POST /api/v1/items", "GET /favicon.ico"]
    with open(path, "w") as log:
        for at in range(0, count, 1000):
            lines = []
            for row in range(at, at + 1000):
                number = rng.getrandbits(96)
                address = four(number & 0xFFFFFFFF)
                if row % 4 == 0:
                    address = f"2001:db8:{number >> 80:x}:{number >> 64 & 65535:x}::{number >> 48 & 65535:x}"
                stamp = f"[26/Nov/2025:06:{row // 60 % 60:02}:{row % 60:02} +0000]"
                lines.append(f'{address} - - {stamp} "{words[row & 3]} HTTP/1.1" 200 {number & 65535} "-" "Mozilla/5.0 (X11; '
                             f'Linux x86_64) Firefox/{number >> 90}.0"\n')
            log.write("".join(lines))


def with_values(path, lines):
    """A list of these networks, each once, with its place as value."""
    other = path.with_suffix(".values")
    other.write_text("".join(f"{line.rstrip()}\t{at}\n" for at, line in enumerate(dict.fromkeys(lines))))
    return other


def filter_lines(run):
    need("crates/cidr_filter/out/cidr_filter")
    program, join = (TOP / "crates" / name / "out" / name for name in ("cidr_filter", "cidr_join"))
    rng = random.Random(5)
    log = run.folder / "log"
    write_log(log, rng, 300_000 if run.quick else 1_000_000)
    has_grepcidr = here(run, "grepcidr", "grepcidr")
    every, rows = networks(rng, 50_000, 12), []
    half = ["128.0.0.0/1\n"]
    for name, listed in (("1", every[:1]), ("1, of half the addresses", half), ("1,000", every[:1_000]), ("50,000", every)):
        path = run.folder / f"list{len(rows)}"
        path.write_text("".join(listed))
        commands = {"own": [program, "-f", path, log], "longest": [program, "--longest", "-f", path, log]}
        commands["any"] = [program, "-a", "-f", path, log]
        commands["within"] = [program, "-k", "1", "-a", "-f", path, log]
        if join.exists():
            commands["join"] = [join, "-f", with_values(path, listed), log]
        if has_grepcidr:
            commands["grepcidr"] = ["grepcidr", "-x", "-f", path, log]
            commands["grepcidr any"] = ["grepcidr", "-f", path, log]
        times, counts = least(run, commands)
        if has_grepcidr and (counts["own"], counts["any"]) != (counts["grepcidr"], counts["grepcidr any"]):
            raise Differs(f"cidr_filter and grepcidr do not print the same: {counts}")
        if counts["within"] != counts["own"]:
            raise Differs(f"-k 1 and -k 1 -a do not print the same: {counts}")
        rows.append([name, f"{counts['own']:,}", times["own"], compared(times["own"], times.get("grepcidr")),
                     times["longest"], times["within"], times["any"], compared(times["any"], times.get("grepcidr any")), times.get("join")])
    megabytes = os.path.getsize(log) >> 20
    head = ["Networks", "Lines printed", "`cidr_filter`", "`grepcidr -x`", "`--longest`", "`-k 1 -a`", "`-a`", "`grepcidr`", "`cidr_join`"]
    lines = "300,000" if run.quick else "a million"
    text = (f"Seconds of processor time for a log of {lines} lines ({megabytes} MB), a quarter of them with IPv6 addresses, "
            "and random IPv4 networks of 12 to 32 bits, for `cidr_join` each with a value.")
    return [*paragraph(text), "", *table(head, rows)]


def programs(run):
    """What the programs for lists take, each if it is built."""
    lines = []
    for name, part in (("cidr_merge", merge), ("cidr_filter", filter_lines)):
        try:
            found = part(run)
        except Missing as why:
            found = [f"`{name}` is not measured: {why}."]
        lines += [*([""] if lines else []), *found]
    return lines
