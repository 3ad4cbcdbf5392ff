"""Rows of `tests/cidr_merge` for which words are right: a name, what a run gave and what is wanted, which is whether the
words were refused, and then nothing but the usage is printed. Which are right is computed from the tables of the page."""

import itertools
import os
import re
import string

import cidr_merge_finds

LINES = ["--line-prefix x", "--line-suffix x"]
READ = ["-e 10.0.0.1", "--skip-bad", "--json", "--strict"]
FORMS = [f"--format {form}" for form in "plain range netmask wildcard csv nft ipset json addresses".split()]
PRINTED = [*READ, "--ranges", "--count", *FORMS, "--set b", "--table b", "--maxelem 9", *LINES, "--allow-empty", "--at-least 9"]
COUNTED = ["--most 9", "--ipv4 9", "--ipv6 9", "--max-others any"]
OPTIONS = [*PRINTED, *COUNTED, "--max-change 9%", "--prefix 24", "--all", "--hosts 9", "--usage", "--from halves"]

# The operations with one FILE or more, and the options that each takes.
TASKS = {
    "union f": PRINTED,
    "list f": PRINTED,
    "common f -- f": PRINTED,
    "minus f -- f": PRINTED,
    "differ f -- f": [*PRINTED, "--max-change 9%"],
    "split f": [*READ, *LINES, "--at-least 9", "--prefix 24"],
    "reduce f": [*PRINTED, *COUNTED],
    "check f": ["-e 10.0.0.1", "--strict"],
    "overlaps f": ["-e 10.0.0.1", "--strict"],
    "find ::1 -- f": ["-e 10.0.0.1", "--strict", "--from halves"],
    "free f -- f": [*READ, *LINES, "--allow-empty", "--prefix 24", "--all", "--hosts 9", "--usage"],
}


def are_right(task, options):
    """Whether a task takes these options together."""
    name = task.split()[0]
    words = [option.split()[0] for option in options]
    forms = [option.replace("--format ", "") for option in options if option in FORMS] + [
        word[2:] for word in dict.fromkeys(words) if word in ("--ranges", "--count")]
    form = forms[0] if forms else "plain"
    return all((
        all(option in TASKS[task] for option in options),
        len(forms) < 2,
        not any(words.count(word) > 1 for word in words if " " in options[words.index(word)] and word != "-e"),
        "--prefix" in words or name != "split",
        {"--prefix", "--hosts", "--usage"} & set(words) or name != "free",
        len({"--prefix", "--hosts", "--usage"} & set(words)) < 2,
        "--all" not in words or not {"--hosts", "--usage"} & set(words),
        {"--most", "--ipv4", "--ipv6"} & set(words) or name != "reduce",
        not {"--allow-empty", "--at-least"} <= set(words),
        "--most" not in words or not {"--ipv4", "--ipv6"} & set(words),
        name != "differ" or not any(option in FORMS for option in options) or form in ("plain", "range"),
        "--set" not in words or form in ("nft", "ipset"),
        "--table" not in words or form == "nft",
        "--maxelem" not in words or form == "ipset",
        not {"--line-prefix", "--line-suffix"} & set(words) or form in ("plain", "ranges", "range", "netmask", "wildcard", "addresses"),
    ))


def some_options():
    """No option, each, each two of them, also one twice, and three with a form that they need."""
    for count in range(3):
        yield from itertools.combinations_with_replacement(OPTIONS, count)
    for two in itertools.combinations(["--set b", "--table b", "--maxelem 9", *LINES, "--json", "--strict"], 2):
        for form in FORMS:
            yield (form, *two)


def words(program, folder):
    """Each operation with options that it takes and such that it does not take."""
    for task in TASKS:
        needed = {"split f": ("--prefix 24",), "free f -- f": ("--prefix 24",), "reduce f": ("--most 9",)}.get(task, ())
        for options in some_options():
            for all_options in {options, (*needed, *options)}:
                line = task.replace(" f", " halves", 1).replace(" f", " odd")
                asked = [*line.split(), *" ".join(all_options).split()]
                status, output, error = cidr_merge_finds.run(program, asked, folder)
                is_refused = re.fullmatch(rb"cidr_merge: [^\n]+\nusage: [^\n]+\n", error) is not None
                right = are_right(task, all_options)
                got = is_refused, output if is_refused else b"", status if is_refused else 0
                yield " ".join(asked), got, (False, b"", 0) if right else (True, b"", 2)


def first_bytes(program, folder):
    """Each byte as the first of a set's name, and as the first of a line of `--from`, before an address."""
    for byte in range(1, 128):
        name = chr(byte) + "x"
        status, output, error = cidr_merge_finds.run(program, ["union", "--format", "nft", f"--set={name}", "halves"], folder)
        is_name = chr(byte) in string.ascii_letters
        got = status, f" {name}_ipv4 ".encode() in output, b"not a name of 1 to 22" in error
        yield f"--set={name!r}", got, (0, True, False) if is_name else (2, False, True)
    with open(os.path.join(folder, "every"), "wb") as file:
        file.write(b"0.0.0.0/0\n")
    for byte in range(256):
        line = bytes([byte]) + b"1.2.3.4"
        with open(os.path.join(folder, "line"), "wb") as file:
            file.write(line + b"\n")
        # A blank is ignored, and a line feed ends an empty line. A digit belongs to the number, which has no leading zero.
        is_address = byte in b" \t\n123456789"
        shown = bytes([byte]) if byte in range(32, 127) or byte == 9 else b"\\x%02x" % byte
        text = line.strip(b" \t\n").decode("latin-1") if is_address else ""
        got = cidr_merge_finds.run(program, ["find", "--from", "line", "--", "every"], folder)
        cause = b"NUL byte" if byte == 0 else b"address"
        refused = b"line:1: refused " + cause + b": " + shown + b"1.2.3.4\n"
        wanted = (0, f"every:1: has {text}: 0.0.0.0/0\n".encode(), b"") if is_address else (2, b"", refused)
        yield f"a line of --from with {line!r}", got, wanted
