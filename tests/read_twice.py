"""Pipes that are named twice: nothing is left in one that was read, so that each program refuses it under any name."""

import os
import tempfile

import limits

# What a program is given as standard input.
PIPE, JSON, FILE, NONE = "cat list | PROGRAM", "cat json | PROGRAM", "PROGRAM < list", "PROGRAM < /dev/null"
LINES = {"cidr_merge": "10.0.0.0/8\n", "cidr_filter": "10.0.0.0/8\n", "cidr_join": "10.0.0.0/8 x\n"}
# The words, and of which name the pipe is refused, or, as a tuple of one, what is printed.
RUNS = {
    "cidr_merge": [
        (PIPE, "minus - -- /dev/stdin", "/dev/stdin"),
        (PIPE, "minus - -- /dev/fd/0", "/dev/fd/0"),
        (PIPE, "minus /proc/self/fd/0 -- -", "-"),
        (PIPE, "union /dev/stdin /dev/stdin", "/dev/stdin"),
        (PIPE, "check - /dev/stdin", "/dev/stdin"),
        (PIPE, "differ list -- - /dev/stdin", "/dev/stdin"),
        (PIPE, "free --hosts 2,2 /dev/stdin -- /dev/stdin", "/dev/stdin"),
        (PIPE, "find --from /dev/stdin -- -", "-"),
        (JSON, "union --json - /dev/stdin", "/dev/stdin"),
        (PIPE, "minus /dev/fd/3 -- /dev/fd/3 3<&0 < list", "/dev/fd/3"),
        (PIPE, "minus - -- narrow", ("10.128.0.0/9\n",)),
        (FILE, "minus - -- /dev/stdin", ("",)),
        (FILE, "union /dev/stdin /dev/stdin -", ("10.0.0.0/8\n",)),
        (NONE, "minus list -- /dev/null - /dev/null", ("10.0.0.0/8\n",)),
    ],
    "cidr_filter": [
        (PIPE, "-f /dev/stdin", "-"),
        (PIPE, "-v -f /dev/stdin", "-"),
        (PIPE, "-f - /dev/stdin", "/dev/stdin"),
        (PIPE, "-f list -f /dev/fd/0 log /dev/stdin", "/dev/stdin"),
        (PIPE, "-c -f list - /dev/stdin", "/dev/stdin"),
        (PIPE, "-f /dev/stdin log", ("10.0.0.1 a\n",)),
        (FILE, "-f /dev/stdin log", ("10.0.0.1 a\n",)),
    ],
    "cidr_join": [
        (PIPE, "-f /dev/stdin", "-"),
        (PIPE, "-f - /dev/stdin", "/dev/stdin"),
        (PIPE, "--tally -f list - /dev/stdin", "/dev/stdin"),
        (PIPE, "-f /dev/stdin log", ("x\t10.0.0.1 a\n-\t11.0.0.1 b\n",)),
    ],
}


def tried(program):
    """Each run of a program: what it is, whether all is as wanted, and what came."""
    name = os.path.basename(program)
    texts = {"list": LINES[name], "json": '["10.0.0.0/8"]\n', "narrow": "10.0.0.0/9\n", "log": "10.0.0.1 a\n11.0.0.1 b\n"}
    with tempfile.TemporaryDirectory() as folder:
        for file, text in texts.items():
            with open(os.path.join(folder, file), "w", encoding="ascii") as f:
                f.write(text)
        for given, words, wanted in RUNS[name]:
            command = given.replace("PROGRAM", f'"{os.path.abspath(program)}" {words}')
            got = limits.run(["bash", "-c", command], cwd=folder, capture_output=True, text=True)
            came = got.stdout, got.stderr, got.returncode
            if isinstance(wanted, str):
                well = came[1].endswith(f"{name}: {wanted}: a pipe can be read only once\n") and came[2] == 2
            else:
                well = came == (*wanted, "", 0)
            yield given.replace("PROGRAM", f"{name} {words}"), well, came
