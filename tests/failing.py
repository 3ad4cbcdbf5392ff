"""Which tests fail of mutants, for `tests/edits`: with cargo on plain Rust, or by `rt try --test`.

scripts/plain writes the crates of rust.txt once, with their unit tests. Of each mutant it writes again the files
that this one changes, and cargo compiles what they change.
"""

import concurrent.futures
import contextlib
import importlib.machinery
import importlib.util
import json
import os
import pathlib
import re
import shutil
import subprocess
import sys
import time

import limits
from refusing import edited, first_error, progress, ran
from mutants import ROOT, NotJudged, crates_above, has_tests

DEBIAN = pathlib.Path(os.environ.get("CARGO_DEBIAN", "/usr/share/cargo/registry"))
# Mutants may be such as rustc refuses by a lint.
LINTS = "-A warnings -A arithmetic_overflow -A unconditional_panic -A overflowing_literals"
# With opt-level=1 the tests take a tenth of their time, but compiling takes two to six times as long.
WORKSPACE = """[workspace]
resolver = "2"
members = [{members}]

[profile.dev]
debug = false
"""
MODULE_OF_TESTS = "\n#[cfg(test)]\nmod tests;\n"
# What a program of tests may take of memory, in KiB.
MEMORY = 1_000_000


def script(path):
    """A script as a module."""
    loader = importlib.machinery.SourceFileLoader(path.name, str(path))
    module = importlib.util.module_from_spec(importlib.util.spec_from_loader(path.name, loader))
    loader.exec_module(module)
    return module


plain = script(ROOT / "scripts/plain")


def is_in_plain_rust(crate):
    """Whether a crate is one of those that scripts/plain writes."""
    return crate in plain.Layout((ROOT / "rust.txt").read_text(), (ROOT / "crates.txt").read_text()).package_of


class PlainBuild:
    """The packages of rust/ with the unit tests of their crates, in a folder of their own, and an edit in them."""

    def __init__(self, folder):
        self.folder = folder
        self.book = plain.Book(ROOT / "crates", True)
        self.layout = self.book.layout
        files = [(crate, file) for crate in self.book.files for file in self.book.files[crate]]
        self.sound = {self.book.place(crate, file): self.book.written(crate, file) for crate, file in files}
        self.book.with_tests(self.sound, list(self.book.files))
        self.edit, self.changed = None, []
        self.tests, self.limits, self.programs = {}, {}, {}
        self.begin()

    def begin(self):
        """Writes all packages, as one workspace, so that each is compiled once."""
        for package in self.layout.packages:
            shutil.copytree(ROOT / "rust" / package, self.folder / package, ignore=shutil.ignore_patterns("target"))
            manifest = self.folder / package / "Cargo.toml"
            manifest.write_text(of_a_member(manifest.read_text()))
        members = ", ".join(f'"{it}"' for it in self.layout.packages)
        (self.folder / "Cargo.toml").write_text(WORKSPACE.format(members=members))
        self.write(self.sound)

    def write(self, texts):
        for place, text in texts.items():
            (self.folder / place).parent.mkdir(parents=True, exist_ok=True)
            (self.folder / place).write_text(text)

    def put(self, edit):
        """Puts an edit in, or takes it out if there is none."""
        self.write({place: self.sound[place] for place in self.changed})
        self.edit, self.changed, self.programs = edit, [], {}
        if edit:
            texts = self.texts(edit)
            self.changed = list(texts)
            self.write(texts)

    def texts(self, edit):
        """The files that an edit changes, as Rust."""
        found = {}
        for file, text in edit.applied(ROOT / "crates" / edit.crate).items():
            if file in self.book.texts:
                place = self.book.place(edit.crate, file)
                found[place] = self.written(edit.crate, file, text)
                if self.sound[place].endswith(MODULE_OF_TESTS):
                    found[place] += MODULE_OF_TESTS
        return found

    def written(self, crate, file, text):
        """What scripts/plain makes of another text of a file."""
        before = self.book.texts[file]
        self.book.texts[file] = text
        try:
            return self.book.written(crate, file)
        except plain.Refused as why:
            raise NotJudged(f"scripts/plain refuses it: {why}") from None
        finally:
            self.book.texts[file] = before

    def built(self, package):
        """The program of the tests of a package."""
        if package not in self.programs:
            source = self.folder / package
            targets = ["--lib"] if (source / "src/lib.rs").exists() else ["--bins"]
            targets = ["--test", "units"] if (source / "tests/units").exists() else targets
            command = ["cargo", *registry(), "test", "--no-run", "--package", package, *targets]
            command += ["--message-format", "json-render-diagnostics", "--target-dir", "target"]
            how = {"stdin": subprocess.DEVNULL, "capture_output": True, "text": True, "errors": "replace"}
            ended = subprocess.run(command, cwd=self.folder, env=os.environ | {"RUSTFLAGS": LINTS}, **how)
            if ended.returncode:
                raise NotJudged(f"its tests do not compile: {first_error(ended.stderr)}")
            self.programs[package] = re.findall(r'"executable":"([^"]+)"', ended.stdout)[-1]
        return self.programs[package]

    def learn(self, package):
        """Sees which tests a package has, that all pass as it is, and how long they take."""
        edit = self.edit
        self.put(None)
        try:
            program = self.built(package)
        except NotJudged as why:
            hint = "" if registry() else "; serde_json is of crates.io, or of Debian's package librust-serde-json-dev"
            sys.exit(f"tests/edits: {package} without edits: {why}{hint}")
        self.tests[package] = re.findall(r"^(\S+): test$", said_of(program, ["--list"], limits.seconds()), re.M)
        for crate in self.layout.packages[package]:
            began = time.monotonic()
            if failed := failed_of(program, list(self.names_of(crate)), limits.seconds()):
                sys.exit(f"tests/edits: {crate} without edits: {failed[0]} fails")
            # A mutant may be slower, and so may the machine.
            self.limits[crate] = 5 + 10 * (time.monotonic() - began)
        progress(f"{package} without edits: {len(self.tests[package])} tests pass")
        self.put(edit)

    def names_of(self, crate):
        """The tests of a crate as its program has them, each with its name from the crate."""
        head = "tests::" if self.layout.is_package(crate) else f"of_{crate}::"
        tests = self.tests[self.layout.package_of[crate]]
        return {it: "tests::" + it.removeprefix(head) for it in tests if it.startswith(head)}

    def failed(self, crate, names=None):
        """The tests of a crate that fail as it is in the folder: of these names, if there are any."""
        package = self.layout.package_of[crate]
        if package not in self.tests:
            self.learn(package)
        names_of = self.names_of(crate)
        asked = [it for it in names_of if names is None or names_of[it] in names]
        return [names_of[it] for it in failed_of(self.built(package), asked, self.limits[crate])]


def of_a_member(manifest):
    """A manifest of the workspace: all features are the default, so that a package is compiled alike for all others. LINTS
    takes the place of the workspace's own lints."""
    manifest = re.sub(r"^\[workspace\]\n|^\[lints\]\nworkspace = true\n", "", manifest, flags=re.M).partition("[profile.")[0]
    head, mark, rest = manifest.partition("[features]\n")
    rest = re.sub(r"^default = .*\n", "", rest, flags=re.M)
    features = re.findall(r"^(\w+) = \[", rest.partition("\n[")[0], re.M)
    return f"{head}{mark}default = {json.dumps(features)}\n{rest}" if mark else manifest


def registry():
    """Where cargo takes serde from: from Debian's packages, if they are there, and then it needs no network."""
    if not list(DEBIAN.glob("serde_json-1.*")):
        return []
    folder = f'source.debian.directory="{DEBIAN}"'
    return ["--offline", "--config", 'source.crates-io.replace-with="debian"', "--config", folder]


def said_of(program, words, limit):
    """What a program of tests says; nothing if it does not end in so many seconds."""
    command = ["sh", "-c", f'ulimit -v {MEMORY}; exec "$0" "$@"', program, *words]
    how = {"stdin": subprocess.DEVNULL, "stdout": subprocess.PIPE, "stderr": subprocess.STDOUT, "errors": "replace"}
    try:
        return subprocess.run(command, timeout=limit, **how).stdout
    except subprocess.TimeoutExpired:
        return ""


def failed_of(program, tests, limit):
    """Those of these tests that fail. If the program does not end, or is ended, each is run by itself."""
    said = said_of(program, ["--exact", *tests], limit) if tests else "\ntest result: "
    if "\ntest result: " in said:
        listed = set(re.findall(r"^    (\S+)$", said.rpartition("\nfailures:\n")[2], re.M))
        return [it for it in tests if it in listed]
    if len(tests) == 1:
        return tests
    with concurrent.futures.ThreadPoolExecutor(os.cpu_count()) as pool:
        return [it for found in pool.map(lambda it: failed_of(program, [it], limit), tests) for it in found]


class Tests:
    """Runs the tests on edits, by what their crates ask for."""

    def __init__(self, room, copy):
        self.room, self.copy, self.build = room, copy, None

    def failing(self, edit, names, is_asked_above):
        """The tests that fail of an edit: of these names, if there are any, of its own crate; and if none does, and it
        is asked, those of the first crate above with one that does, and which that is."""
        if not is_in_plain_rust(edit.crate):
            return None, failed_by_rt(edit, self.copy)
        self.build = self.build or PlainBuild(self.room / "plain")
        try:
            self.build.put(edit)
            failed = self.build.failed(edit.crate, names)
            return self.failing_above(edit) if not failed and is_asked_above else (None, failed)
        except NotJudged as why:
            if not shutil.which("rt"):
                raise
            progress(f"{edit.crate}/{edit.name}: by rt, since of plain Rust {why}")
            return None, failed_by_rt(edit, self.copy)
        finally:
            self.build.put(None)

    def failing_above(self, edit):
        for crate in crates_above(edit.crate):
            if is_in_plain_rust(crate) and (failed := self.build.failed(crate)):
                return crate, failed
        return None, []


# By the kit


@contextlib.contextmanager
def own_tests_in(folder):
    """Puts the tests of a crate into this copy of it, as its module `tests`. They are taken out afterwards."""
    source = folder / "src"
    root = next(source / it for it in ["lib.rt", "main.rt"] if (source / it).exists())
    before = root.read_text()
    files = {folder / "tests.rt.txt": source / "tests.rt"}
    files |= {it: source / "tests" / it.name.removesuffix(".txt") for it in (folder / "tests").glob("*.rt.txt")}
    for file, to in files.items():
        to.parent.mkdir(exist_ok=True)
        to.write_text(re.sub(rf"\b{folder.name}::", "crate::", file.read_text()))
    root.write_text(before.replace("#![tactic(auto)]\n", "#![tactic(auto)]\n\n#[cfg(test)]\nmod tests;\n", 1))
    try:
        yield
    finally:
        root.write_text(before)
        (source / "tests.rt").unlink()
        shutil.rmtree(source / "tests", ignore_errors=True)


def failed_by_rt(edit, copy):
    """The tests of a crate that plain Rust has not that fail of an edit."""
    folder = copy / "crates" / edit.crate
    if not has_tests(edit.crate):
        return []
    with own_tests_in(folder), edited(edit, copy):
        said = ran(folder, "try", "--test")
    if not re.search(r"^test result: ", said, re.M):
        raise NotJudged(f"its tests do not compile: {first_error(said)}")
    return re.findall(r"^test (\S+) \.\.\. FAILED", said, re.M)
