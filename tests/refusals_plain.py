"""The runs of `tests/refusals` on the plain Rust build: a library that is loaded before the C library refuses a request.

Rust's own std ends a program that is refused memory if it cannot report that, as in a sort: there the sources' std
requests as much before, in one piece that is given back, and this request is refused. No run may be ended so."""

import os
import pathlib
import subprocess
import sys
import tempfile

sys.path.insert(0, os.path.dirname(os.path.abspath(__file__)))
import limits  # noqa: E402
import plain_programs  # noqa: E402

HERE = pathlib.Path(__file__).resolve().parent


def built(crate_in, repository, room):
    """The program whose crate `crate_in` makes in a copy of the repository. It is not optimized: a request whose memory is
    not used would be left out."""
    copy = room / "repository"
    copy.mkdir()
    repository(copy)
    crate = pathlib.Path(crate_in(str(copy)))
    if (plain_programs.TOP / "crates" / crate.name).exists():
        return plain_programs.program(crate.name, copy / "crates", "dev")
    return plain_programs.example_of(crate.name, crate / "src", copy / "crates", profile="dev")


def refusing(room):
    """The library that refuses."""
    library = room / "refuse.so"
    subprocess.run(["cc", "-O1", "-shared", "-fPIC", "-o", library, HERE / "refuse.c"], check=True)
    return library


def once(command, text, folder, library, number):
    """What a run said whose request of this number is refused: output, standard error, and status."""
    variables = {**os.environ, "LD_PRELOAD": str(library), "REFUSE": str(number)}
    return limits.run(command, input=text, cwd=folder, env=variables, capture_output=True, text=True)


def runs_of(repository, run_of, crate_in, inputs, words, files, refused):
    """As `runs_of` of tests/refusals, which hands over its functions."""
    with tempfile.TemporaryDirectory(prefix="refusals-") as name:
        room = pathlib.Path(name)
        program, library = built(crate_in, repository, room), refusing(room)
        data = room / "data"
        data.mkdir()
        for file, text in (files or {}).items():
            (data / file).write_text(text)
        runs = {}
        for case, text in inputs.items():
            own = (words or {}).get(case, ())
            ran = once([program, *own], text, data, library, refused)
            reported, _, count = ran.stderr.rpartition("allocations: ")
            runs[case] = run_of(ran.stdout.rstrip("\n").split("\n"), int(count), reported, ran.returncode)
        return runs
