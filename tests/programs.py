"""Where the programs are that the tests run: those of the folder that the environment variable CIDR_PROGRAMS names, else
the proved ones, crates/NAME/out/NAME."""

import os
import pathlib
import re
import subprocess
import sys

import limits

TOP = pathlib.Path(__file__).resolve().parent.parent
# Where cargo builds the plain ones.
PLAIN = TOP / "rust/target/release"


def folder():
    """The folder that is named, or None."""
    named = os.environ.get("CIDR_PROGRAMS")
    return pathlib.Path(named).absolute() if named else None


def program(name):
    """A program that is built."""
    found = folder() / name if folder() else TOP / "crates" / name / "out" / name
    if not found.exists():
        made = "scripts/build_plain" if folder() == PLAIN else "`make proved`"
        sys.exit(f"there is no {found}, which {made} builds")
    return str(found)


def version(name):
    """What `--version` of this program prints: with the word `--plain` on the command line, of the plain Rust build."""
    build = "plain Rust, made of proved sources" if "--plain" in sys.argv else "proved"
    return f"{name} {(TOP / 'VERSION').read_text().strip()} ({build})\n".encode()


def usage(name):
    """What this program says of its usage after what is wrong with a command line: the text of its src/help.rt."""
    text = re.search(r'const USAGE: &str =\s*"([^"]*)";', (TOP / "crates" / name / "src/help.rt").read_text())[1]
    return re.sub(r"\\\n\s*", "", text).replace("\\n", "\n").encode()


def asked(name):
    """The program that the command line `[--plain] [PROGRAM]` names, and whether it is plain Rust. With no word it is
    proved and built where it is not there."""
    words = sys.argv[1:]
    is_plain = "--plain" in words
    words = [word for word in words if word != "--plain"]
    if words:
        limits.measure_by(os.path.abspath(words[0]))
        return os.path.abspath(words[0]), is_plain
    if is_plain and not folder():
        os.environ["CIDR_PROGRAMS"] = str(PLAIN)
    crate = TOP / "crates" / name
    if not folder() and not (crate / "out" / name).exists():
        how = {"stdin": subprocess.DEVNULL, "stdout": sys.stderr, "check": True}
        subprocess.run(["rt", "run", "--", "--version"], cwd=crate, **how)
    limits.measure_by(program(name))
    return program(name), is_plain


CAUSES = (rb"address|format|prefix|range|byte order mark|UTF-16 text|gzip data|NUL byte|second entry|host bits|mask or wildcard|repetition|value: there is none"
          rb"|second address(?:: with --ranges, FIRST LAST is a range)?")


def with_texts(reported, lists):
    """What is reported of refused lines, with the text of each after its cause, by the bytes of the lists of these names. Rows
    leave the texts out, since they are in the lists."""

    def full(match):
        begin, name, number, cause = match.groups()
        if name not in lists:
            return match[0]
        lines = re.sub(rb"\r\n", b"\n", lists[name]).split(b"\n")
        line = lines[int(number) - 1]
        text = escaped(line[:64]) + (b".." if len(line) > 64 else b"")
        return b"%s%s:%s: refused %s: %s" % (begin, name, number, cause, text)

    pattern = rb"(?m)^((?:cidr_\w+: )?)(.+?):(\d+): refused (%s)(?=$| \((?:write|--masks) )" % CAUSES
    return re.sub(pattern, full, reported)


def escaped(text):
    """A line as messages show it: what is no UTF-8, and characters that hide or turn others, by their bytes."""
    hidden = re.compile("[\0-\x08\n-\x1f\x7f-\x9f\u061c\u200b-\u200f\u2028-\u202e\u2060-\u206f\ufeff\udc80-\udcff]")

    def in_bytes(found):
        return "".join(f"\\x{byte:02x}" for byte in found[0].encode("utf-8", "surrogateescape"))

    return hidden.sub(in_bytes, text.decode("utf-8", "surrogateescape")).encode()
