"""Sees that bindings/c/test.c fails if two arguments of a call were exchanged, in the library or in its header: no
clause of the library says which one C passes first.

    exchanged.py COMPILER.. LIBRARY

For each call of ipnetwork.h, and each two parameters of one type, the test is run with these two exchanged at each
call: two pointers to one type, const or not, two numbers, or two arrays of one type with their lengths. It has to fail,
except for the exchanges of SAME, which change no answer. One program has all exchanges; the environment variable
EXCHANGED says which one it makes. The status is 1 if one was not seen, or if one of SAME was.
"""

import concurrent.futures
import itertools
import os
import pathlib
import re
import resource
import shutil
import subprocess
import sys
import tempfile

HERE = pathlib.Path(__file__).resolve().parent
HEADER = HERE / "ipnetwork.h"
CALL = re.compile(r"^(?:IPNETWORK_CHECKED\w*(?:\(\([^)]*\)\))? )?(\w+) (ipnetwork_\w+)\(([^;]*)\);", re.M)
# Calls, and parameters of theirs: the answer is the same, whichever comes first. Of rooms, each has to be enough.
SAME = [
    (r"v[46]_overlaps", {"one", "other"}),
    (r"v[46]_(union|intersection)", {"first and first_count", "second and second_count"}),
    (r"v[46]_table_make", {"block_count", "place_count"}),
    (r"v[46]_index_contains_column", {"answer_count", "fault_count"}),
    (r"v[46]_index_find_column", {"place_count", "fault_count"}),
    (r"v[46]_ranges_make", {"range_room", "place_room"}),
    (r"v[46]_ranges_make_numbered", {"range_room", "range_number_room"}),
    (r"v[46]_ranges_find_column", {"found_count", "fault_count"}),
    (r"(v[46]_)?read(_with_cause)?_column", {"network_count", "fault_count"}),
    (r"address_read_column", {"address_count", "fault_count"}),
]


def parameters(text):
    """The types and names of parameters, arrays as pointers."""
    found = []
    for each in text.split(","):
        words = " ".join(each.replace("IPNETWORK_ALONE", "").split())
        base, name, array = re.fullmatch(r"(.*?)(\w+)( ?\[ ?\d+\])?", words).groups()
        found.append((base.strip() + (" *" if array else ""), name))
    return found


def alike(one, other):
    """Whether C takes each of two types for the other: pointers but for const, and all numbers."""
    one, other = one.removeprefix("const "), other.removeprefix("const ")
    return one == other or "*" not in one + other


def exchanges(taken):
    """Lists of pairs of parameters to exchange, and the names of both sides."""
    for i, j in itertools.combinations(range(len(taken)), 2):
        if alike(taken[i][0], taken[j][0]):
            yield [(i, j)], {taken[i][1], taken[j][1]}
    arrays = [i for i in range(len(taken) - 1) if "*" in taken[i][0] and taken[i + 1][0] == "size_t"]
    for i, j in itertools.combinations(arrays, 2):
        if alike(taken[i][0], taken[j][0]):
            yield [(i, j), (i + 1, j + 1)], {f"{taken[k][1]} and {taken[k + 1][1]}" for k in (i, j)}


def header(text):
    """A header with a function in the place of each call, and what the exchange of each number is."""
    lines = ["#pragma once", f'#include "{HEADER}"', "#include <stdlib.h>", "static long exchanged;"]
    lines.append('__attribute__((constructor)) static void choose(void) { exchanged = atol(getenv("EXCHANGED")); }')
    calls = []
    for kind, call, inside in CALL.findall(re.sub(r"/\*.*?\*/", "", text, flags=re.S)):
        taken = parameters(inside)
        if len(taken) < 2:
            continue
        declared = ", ".join(f"{it[0]} a{i}" for i, it in enumerate(taken))
        lines.append(f"static inline {kind} exchanged_{call}({declared}) {{")
        for pairs, names in exchanges(taken):
            order = {**dict(pairs), **{j: i for i, j in pairs}}
            given = [f"({it[0]})a{order.get(i, i)}" for i, it in enumerate(taken)]
            lines.append(f"    if (exchanged == {len(calls)}) return {call}({', '.join(given)});")
            calls.append((call, names))
        given = ", ".join(f"a{i}" for i in range(len(taken)))
        lines += [f"    return {call}({given});", "}", f"#define {call} exchanged_{call}"]
    return "\n".join(lines) + "\n", calls


def fails(program, number, seconds="unlimited"):
    """Whether the test fails: it says so, or ends otherwise than well, or not within so many seconds of processor time."""
    limited = ["sh", "-c", f'ulimit -t {seconds} && exec "$0"', program]
    with subprocess.Popen(limited, env={**os.environ, "EXCHANGED": str(number)},
                          stdout=subprocess.DEVNULL, stderr=subprocess.PIPE) as run:
        if run.stderr.read(1):
            run.terminate()
            return True
    return run.returncode != 0


def main():
    *compiler, library = sys.argv[1:]
    with tempfile.TemporaryDirectory() as room:
        room = pathlib.Path(room)
        text, calls = header(HEADER.read_text())
        (room / HEADER.name).write_text(text)
        for file in ["test.c", "rows.h"]:
            shutil.copy(HERE / file, room)
        subprocess.run([*compiler, "-w", room / "test.c", library, "-o", room / "test"], check=True)
        before = resource.getrusage(resource.RUSAGE_CHILDREN).ru_utime
        if fails(room / "test", -1):
            sys.exit("exchanged.py: the test fails with nothing exchanged")
        # With an exchange it may have no end.
        most = 10 + round(20 * (resource.getrusage(resource.RUSAGE_CHILDREN).ru_utime - before))
        with concurrent.futures.ThreadPoolExecutor(os.cpu_count()) as pool:
            seen = list(pool.map(lambda number: fails(room / "test", number, most), range(len(calls))))
    wrong = 0
    for (call, names), is_seen in zip(calls, seen):
        same = any(re.fullmatch(f"ipnetwork_{of}", call) and names == both for of, both in SAME)
        if is_seen == same:
            wrong += 1
            how = "should change nothing, but the test fails" if same else "is not seen"
            print(f"{call}: the exchange of {' with '.join(sorted(names))} {how}", file=sys.stderr)
    print(f"C: {sum(seen)} exchanges of two arguments are seen, and {len(calls) - sum(seen)} change no answer")
    return 1 if wrong else 0


if __name__ == "__main__":
    sys.exit(main())
