"""Rows of `tests/cidr_merge` for `--line-prefix` and `--line-suffix`: a name, what a run gave and what is wanted, which is the status,
standard output and standard error. Expected lines are those without these options, between the texts, by `sed`."""

import re
import subprocess

# Texts as operators use them, an empty one, and such as a format of printf, a shell, sed and a terminal would take apart.
TEXTS = [("deny ", ";"), ("", " 1;"), ("ip prefix-list x permit ", ""), ("", ""), ("-- ", "-"), ("%s$1&\\n", "'\"\\"),
         ("\u00e9\t", "\x1b[m\n"), ("x" * 70000, "/")]

# Words, and the lines that are printed without the options.
ROWS = [
    ("union a", "1.2.3.4/30\n1.2.3.8/31\n10.0.0.0/8\n2001:db8::/32\n"),
    ("common --format plain a -- b", "10.1.0.0/16\n10.3.0.0/16\n2001:db8::/32\n"),
    ("union --ranges a", "1.2.3.4 - 1.2.3.9\n10.0.0.0 - 10.255.255.255\n2001:db8:: - 2001:db8:ffff:ffff:ffff:ffff:ffff:ffff\n"),
    ("union --format netmask a", "1.2.3.4 255.255.255.252\n1.2.3.8 255.255.255.254\n10.0.0.0 255.0.0.0\n2001:db8::/32\n"),
    ("union --format wildcard a", "1.2.3.4 0.0.0.3\n1.2.3.8 0.0.0.1\n10.0.0.0 0.255.255.255\n2001:db8::/32\n"),
    ("minus --format addresses odd -- even", "10.0.0.1\n2001:db8::1\n"),
    ("list first last", "0.0.0.0\n255.255.255.255\n::\nffff:ffff:ffff:ffff:ffff:ffff:ffff:ffff\n"),
    ("split halves --prefix 25", "10.0.0.0/25\n10.0.0.128/25\n"),
    ("split all --prefix 0", "0.0.0.0/0\n::/0\n"),
    ("union empty", ""),
]


def run(program, words, folder):
    done = subprocess.run([program, *words], input=b"", cwd=folder, stdout=subprocess.PIPE, stderr=subprocess.PIPE)
    return done.returncode, done.stdout, done.stderr


def around(before, lines, after):
    """Lines with these texts around each, after the sign of `differ`."""
    first, last = (re.sub(r"[\\/&\n]", r"\\\g<0>", text) for text in (before, after))
    script = f"s/^\\([<>] \\)\\{{0,1\\}}\\(.*\\)$/\\1{first}\\2{last}/"
    return subprocess.run(["sed", script], input=lines.encode(), stdout=subprocess.PIPE, check=True).stdout


def templates(program, folder):
    for before, after in TEXTS:
        for words, lines in ROWS:
            got = run(program, [*words.split(), "--line-prefix", before, f"--line-suffix={after}"], folder)
            yield f"{words} between {before[:20]!r} and {after!r}", got, (0, around(before, lines, after), b"")
    for words, lines in [
        ("differ odd -- even", "> 10.0.0.0/32\n< 10.0.0.1/32\n> 10.0.0.2/32\n< 2001:db8::1/128\n> 2001:db8::2/128\n"),
        ("differ --ranges halves --line-suffix ; -- hosts --line-prefix x", "> 10.0.1.0 - 10.255.255.255\n"),
    ]:
        more = [] if "--line-suffix" in words else ["--line-prefix", "x", "--line-suffix", ";"]
        yield words, run(program, [*words.split(), *more], folder), (1, around("x", lines, ";"), b"")
    for words, lines in [("union --line-prefix x halves", "x10.0.0.0/24\n"), ("union --line-suffix= halves", "10.0.0.0/24\n")]:
        yield words, run(program, words.split(), folder), (0, lines.encode(), b"")
