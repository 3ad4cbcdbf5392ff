"""The parts of `bench/all`: each measures one section of bench/SPEED.md, and gives its lines of Markdown.

A part is called with Run, which says how long it may take and where its files may lie. It raises Missing if what it
measures is not built or not installed; a peer that is missing is named by `run.without`, and its cells stay empty.
"""

import importlib.machinery
import importlib.util
import pathlib
import re
import shutil
import subprocess
import sys
import textwrap

TOP = pathlib.Path(__file__).resolve().parent.parent
LIBRARY = TOP / "crates/ipnetwork_c/out/libipnetwork_c.a"
RUSTC = ["rustc", "--edition", "2021", "-C", "opt-level=3"]
REGISTRY = pathlib.Path("/usr/share/cargo/registry")
sys.dont_write_bytecode = True


class Missing(Exception):
    """What is not here."""


class Differs(Exception):
    """What a program and its peer do not answer alike."""


class Run:
    """A run of the parts: whether it is to be short, a folder for files, and what was left out."""

    def __init__(self, quick, folder):
        self.quick, self.folder, self.left_out = quick, folder, []

    def without(self, what):
        if what not in self.left_out:
            self.left_out.append(what)

    def new(self, name):
        folder = self.folder / name
        folder.mkdir()
        return folder


def script(name):
    """A script next to this one, as a module."""
    loader = importlib.machinery.SourceFileLoader(name, str(TOP / "bench" / name))
    module = importlib.util.module_from_spec(importlib.util.spec_from_loader(name, loader))
    loader.exec_module(module)
    return module


def need(*files):
    for file in files:
        if not (TOP / file).exists():
            raise Missing(f"{file} is not built")


def tools(*names):
    for name in names:
        if not shutil.which(name):
            raise Missing(f"no {name}")


def said(words, **how):
    """What a command prints."""
    return subprocess.run([str(word) for word in words], stdout=subprocess.PIPE, text=True, check=True, **how).stdout


def figure(value):
    """A number with two digits or more."""
    if value is None:
        return ""
    return f"{value:.2f}" if value < 1 else f"{value:.1f}" if value < 10 else f"{value:,.0f}"


def compared(own, other):
    """A peer's figure, and in brackets what part of it our own is."""
    if own is None or other is None:
        return ""
    part = own / other
    return f"{figure(other)} ({part:.2f})" if part >= 0.01 else f"{figure(other)} ({part:.3f})"


def paragraph(text):
    """The lines of a text."""
    return textwrap.wrap(text, 120, break_long_words=False, break_on_hyphens=False)


def table(head, rows):
    cells = [[cell if isinstance(cell, str) else figure(cell) for cell in row] for row in rows]
    return ["|" + "|".join(row) + "|" for row in [head, ["---"] * len(head), *cells]]


def program(run):
    need("crates/cidr/out/cidr")
    tools("rustc")
    measure = script("measure")
    cidr, peer = [str(TOP / "crates/cidr/out/cidr")], str(run.folder / "peer")
    said([*RUSTC, "-C", "codegen-units=1", "-o", peer, TOP / "bench/peer.rs"])
    count, rounds = (100_000, 2) if run.quick else (300_000, 4)
    counts = shutil.which("valgrind")
    if not counts:
        run.without("valgrind")
    rows = []
    for row in ["has4", "read6", "ends", "find4-10000", "find6-10000", "routed4-100000"]:
        programs = [cidr, [peer], [peer, "hash"]] if "-" in row else [cidr, [peer]]
        # What the routes take is taken off again, so that many lines are needed.
        lines = 5 * count if "-" in row else count
        taken, alike = measure.measured(programs, row, lines, rounds, measure.seconds, run.folder)
        if not alike:
            raise Differs(f"{row}: the programs do not answer the same")
        own, *others = [1e9 * each for each in taken]
        cells = [compared(own, each) for each in others] + [""] * (2 - len(others))
        steps = None
        if counts and "-" not in row:
            steps = measure.measured([cidr], row, 10_000, 1, measure.instructions, run.folder)[0][0]
        rows.append([f"`{row}`", own, *cells, steps])
    text = "Nanoseconds a line, and instructions; peers: `bench/peer.rs` over `std::net`, its routes in a `BTreeMap` or `HashMap`."
    return [*paragraph(text), "", *table(["Line", "`cidr`", "`std::net`", "`HashMap`", "Instructions"], rows)]


def from_sqlite(run):
    need("bindings/out/cidr.so")
    tools("sqlite3")
    log, sql = run.folder / "log.db", TOP / "bindings/sqlite"
    load = f".load {TOP / 'bindings/out/cidr'}"
    said(["sqlite3", log, load, f".read {sql / 'log.sql'}"])
    printed = said(["sqlite3", log, load, f".read {sql / 'speed.sql'}"])
    times = re.findall(r"^([a-z].*)\n\d.*\nRun Time: real ([\d.]+)", printed, re.M)
    names = [f"`{name}`" if name.startswith("cidr_") else name for name, _ in times]
    return ["Seconds for a question to a log of a million rows.", "", *table(names, [[time for _, time in times]])]
