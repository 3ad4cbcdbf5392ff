#!/usr/bin/env python3
"""Joins a large log on the workers of dask, on one machine or on many: it is cut after line feeds, and each part is
joined by itself. What is printed is that of the whole log, which is tested (`tests/in_parts`) and not proved.

    examples/cidr_join/by_dask.py [--scheduler ADDRESS] [--block BYTES] OPTION.. < LOG > JOINED

The options are those of cidr_join. With --tally the counts of the parts are added up. The workers of the scheduler at
ADDRESS need the program and the list, a regular file, at the same path; without a scheduler one is started here, with a
worker for each processor, and the lists are copied first, so that they may be pipes. A part has about BYTES, 64 MB if
that is not given. If a line is too long, it is reported with its number in its part; the other parts are joined all the
same, and the status is 2. `--bad stop` is refused: a line would end its part only. With `--skip-bad` the refused lines of
the list are reported for each part.
"""

import collections
import os
import pathlib
import re
import shutil
import subprocess
import sys
import tempfile

from dask.distributed import Client, LocalCluster

TOP = pathlib.Path(__file__).resolve().parents[2]
# As examples/program.sh finds it.
NAMED = os.environ.get("CIDR_PROGRAMS", TOP / "crates/cidr_join/out")
PROGRAM = next(
    (found for found in (pathlib.Path(NAMED) / "cidr_join", TOP / "rust/target/release/cidr_join") if found.exists()),
    "cidr_join",
)


def refuse(why):
    print(f"by_dask.py: {why}", file=sys.stderr)
    sys.exit(2)


def options(words):
    """Each option of these words, with its value if it has one. FILEs are refused, since the log is standard input."""
    rest = iter(words)
    for word in rest:
        letters = re.fullmatch("-([aw]*)([fkd])(.*)", word, re.S)
        if letters:
            yield from (["-" + letter] for letter in letters[1])
            yield ["-" + letters[2], letters[3] or next(rest, "")]
        elif word in ("--after", "--bad", "--group", "--nth"):
            yield [word, next(rest, "")]
        elif word == "--" or not re.match("-.", word):
            refuse(f"{word}: the log is standard input")
        else:
            yield [word]


def list_of_parts(name, folder):
    """The name of the list that each part reads: of a copy in this folder, since a pipe would be empty for all parts but
    the first; if there is no folder, of the list itself, which other machines have too."""
    try:
        if name == "-" or os.path.samestat(os.stat(name), os.fstat(0)):
            refuse(f"-f {name}: standard input is the log")
        if not folder:
            return name if os.path.isfile(name) else refuse(f"-f {name}: no regular file, which the workers could read")
        copy = tempfile.NamedTemporaryFile(dir=folder, delete=False)
        with copy, open(name, "rb") as file:
            shutil.copyfileobj(file, copy)
    except OSError as error:
        refuse(f"-f {name}: {error.strerror}")
    return copy.name


def checked(words, folder):
    """The words for a part, and whether a tally is asked for. The lists are copied into this folder, if there is one, and
    read once before the log, so that what is refused of them is reported once."""
    asked = list(options(words))
    if ["--bad", "stop"] in asked or ["--bad=stop"] in asked:
        refuse("--bad stop: a line would end its part only")
    for option in asked:
        if option[0] == "-f":
            option[1] = list_of_parts(option[1], folder)
    words = [word for option in asked for word in option]
    if subprocess.run([PROGRAM, *words], stdin=subprocess.DEVNULL, stdout=subprocess.DEVNULL).returncode:
        sys.exit(2)
    return words, ["--tally"] in asked


def parts(log, size):
    """The log, cut after line feeds: so many bytes, and the rest of a line. An empty one is one part."""
    yield log.read(size) + log.readline()
    while block := log.read(size):
        yield block + log.readline()


def joined(command, part):
    """The status of the program, run on a part, and what it prints and reports. A worker runs this."""
    ran = subprocess.run(command, input=part, capture_output=True)
    return ran.returncode, ran.stdout, ran.stderr


def in_order(client, command, log, size):
    """What `joined` gives of each part, in the order of the parts. At most two parts for each worker are in memory."""
    waiting = collections.deque()
    for part in parts(log, size):
        waiting.append(client.submit(joined, command, client.scatter(part, hash=False), pure=False))
        if len(waiting) >= 2 * len(client.ncores()):
            yield waiting.popleft().result()
    while waiting:
        yield waiting.popleft().result()


def add(counts, tally):
    """Adds what a tally counts of each text."""
    for row in tally.split(b"\n")[:-1]:
        count, _, text = row.partition(b"\t")
        counts[text] += int(count)


def rows(counts):
    """The tally of these counts: most first, and those of one count in the order of the bytes of their texts."""
    for text, count in sorted(counts.items(), key=lambda row: (-row[1], row[0])):
        yield b"%d\t%s\n" % (count, text)


def join(client, words, size, is_tally):
    """Prints what the program prints of the log, and gives the status."""
    counts, output, whole = collections.Counter(), sys.stdout.buffer, 0
    for status, printed, reported in in_order(client, [str(PROGRAM), *words], sys.stdin.buffer, size):
        sys.stderr.buffer.write(reported)
        if is_tally:
            add(counts, printed)
        else:
            output.write(printed)
        whole = max(whole, status)
    output.writelines(rows(counts))
    return whole


def main(words):
    own = {"--scheduler": None, "--block": 1 << 26}
    while len(words) > 1 and words[0] in own:
        own[words[0]], words = words[1], words[2:]
    size = int(own["--block"])
    if own["--scheduler"]:
        words, is_tally = checked(words, None)
        with Client(own["--scheduler"]) as client:
            return join(client, words, size, is_tally)
    local = {"threads_per_worker": 1, "protocol": "tcp", "host": "127.0.0.1", "dashboard_address": None}
    with tempfile.TemporaryDirectory() as folder:
        words, is_tally = checked(words, folder)
        with LocalCluster(processes=True, **local) as cluster, Client(cluster) as client:
            return join(client, words, size, is_tally)


if __name__ == "__main__":
    sys.exit(main(sys.argv[1:]))
