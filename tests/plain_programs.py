"""Programs of the tests, over the libraries, as plain Rust: `scripts/plain` writes each as an example of the library's package,
and cargo builds it."""

import contextlib
import os
import pathlib
import re
import shutil
import subprocess
import sys
import tempfile

TOP = pathlib.Path(__file__).resolve().parent.parent
# Where cargo builds, if nothing else is named: tests that run at the same time each name a folder of their own.
TARGET = pathlib.Path(os.environ.get("TESTS_TARGET", TOP / "rust/target/tests"))
FOLDER_OF = {"release": "release", "dev": "debug"}


@contextlib.contextmanager
def workspace(crates=TOP / "crates", more=""):
    """A copy of rust/ written of these crates, in a folder of its own; `more` are lines for crates.txt."""
    with tempfile.TemporaryDirectory(prefix="plain-") as room:
        sources = pathlib.Path(room) / "sources"
        sources.mkdir()
        (sources / "crates").symlink_to(crates)
        (sources / "crates.txt").write_text((crates.parent / "crates.txt").read_text() + more)
        yield sources, pathlib.Path(room) / "rust"


def written(sources, to, *words):
    subprocess.run([sys.executable, TOP / "scripts/plain", "--crates", sources / "crates", "--to", to, *words], check=True)


def cargo(folder, *words, serde, profile):
    """Builds in a folder, with serde from where scripts/with_serde finds it if it is asked for."""
    command = [TOP / "scripts/with_serde", "build", folder] if serde else ["cargo", "build", "--offline"]
    place = [] if serde else ["--manifest-path", folder / "Cargo.toml"]
    how = ["--profile", profile, "--target-dir", TARGET]
    ran = subprocess.run([*command, *place, *how, *words], capture_output=True, text=True)
    if ran.returncode:
        sys.exit(f"cargo does not build the program:\n{ran.stderr[-3000:]}")


def has_serde():
    """Whether serde is to be had."""
    command = [TOP / "scripts/with_serde", "metadata", "fosibegan_core", "--format-version", "1"]
    return subprocess.run(command, stdout=subprocess.DEVNULL, stderr=subprocess.DEVNULL).returncode == 0


def example(name, folder, uses):
    """The program of the sources in a folder, which uses these crates: where it is built. It stays there."""
    return example_of(name, folder, TOP / "crates", f"{name}: {' '.join(uses)}\n")


def example_of(name, folder, crates, more="", profile="release"):
    """The same, over these crates; the lines `more`, or the crates.txt next to them, say which it uses."""
    text = "".join(file.read_text() for file in pathlib.Path(folder).iterdir() if file.is_file())
    needs_serde = bool(re.search(r"\bserde_json\b|_value\(", text))
    with workspace(crates, more) as (sources, to):
        written(sources, to, "--example", f"{name}={folder}")
        package = next(to.glob(f"*/examples/{name}")).parent.parent
        if needs_serde:
            cargo(package, "--example", name, "--features", "serde", serde=True, profile=profile)
        else:
            cargo(to, "-p", package.name, "--example", name, serde=False, profile=profile)
    return TARGET / FOLDER_OF[profile] / "examples" / name


def program(name, crates, profile):
    """The program of this name, of other crates: a copy of what is built."""
    with workspace(crates) as (sources, to):
        written(sources, to)
        cargo(to, "-p", name, serde=False, profile=profile)
    kept = TARGET / f"{name}_of_tests"
    shutil.copy2(TARGET / FOLDER_OF[profile] / name, kept)
    return kept
