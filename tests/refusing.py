"""At what `rt check` refuses mutants, for `tests/edits`."""

import collections
import contextlib
import os
import re
import shutil
import subprocess
import sys
import time

from mutants import ROOT, NotJudged


def ran(folder, *words):
    """What a command of the kit says in this folder."""
    command = [ROOT / "tests/try", *words[1:]] if words[0] == "try" else ["rt", *words]
    how = {"stdin": subprocess.DEVNULL, "stdout": subprocess.PIPE, "stderr": subprocess.STDOUT, "errors": "replace"}
    return subprocess.run(command, cwd=folder, **how).stdout


def first_error(said):
    found = re.search(r"^.*\berror\b.*$", said, re.M)
    return (found[0] if found else said.strip().rpartition("\n")[2])[:200]


@contextlib.contextmanager
def edited(edit, copy):
    """The folder of the crate in the copy, with this edit applied. It is put back afterwards."""
    folder = copy / "crates" / edit.crate
    files = {folder / file for file, _, _ in edit.pairs if (folder / file).is_file()}
    before = {file: file.read_text() for file in files}
    try:
        edit.apply(folder)
        yield folder
    finally:
        for file, text in before.items():
            file.write_text(text)


def put_back(edits, folder):
    for file in {file for edit in edits for file, _, _ in edit.pairs}:
        source = ROOT / "crates" / edits[0].crate / file
        if source.is_file():
            shutil.copy2(source, folder / file)


def link_or_copy(one, other):
    """Copies a file; of what checks keep it makes a link, since a check replaces such a file and never changes it."""
    with contextlib.suppress(OSError):
        if one.endswith(".oantt") or "/out/rlib/" in one:
            return os.link(one, other)
    return shutil.copy2(one, other)


def keep(folder):
    """Sets aside what checks kept of the crate as it is."""
    shutil.copytree(folder / "out/incremental", folder / "out/sound", copy_function=link_or_copy)


def said_of_check(folder, functions=()):
    """What a check says, of these functions alone if there are any. It begins with what was kept of the crate as it is,
    if something was: over what the check of another edit left, the functions of that one would be proved again."""
    shutil.rmtree(folder / "out/incremental", ignore_errors=True)
    if (folder / "out/sound").exists():
        shutil.copytree(folder / "out/sound", folder / "out/incremental", copy_function=link_or_copy)
    return ran(folder, "check", *(word for function in functions for word in ("--only", function)))


def verdict(said):
    """Whether a check proved the crate, or what it was asked for; None where it could not read its sources."""
    wrong = r"^(\./)?(src|specs)/\S+: error: .*(is not in scope|has no field|is no name|expected the end|cannot continue)"
    found = re.findall(r"^(?:logic=(proved|not-proved)|only=(\d+) proved=(\d+))", said, re.M)
    return None if not found or re.search(wrong, said, re.M) else found[-1][0] == "proved" or found[-1][1] == found[-1][2] != ""


def left_open(said):
    """What a check leaves: the open goals, by function, and the functions or lemma files with a step that fails."""
    goals = collections.defaultdict(set)
    for goal, function in re.findall(r"^note: `(\S+)` of proofs/(\S+)/\w+\.antt must prove", said, re.M):
        goals[function.replace("/", "::")].add(goal)
    steps = re.findall(r"^(?:\./)?proofs/(\S+?)\.antt:\d+:\d+: error", said, re.M)
    return goals, {re.sub(r"/(Answers|Invariants|Proof)$", "", it).replace("/", "::") for it in steps}


def refusal(goals, steps):
    """What is said of a crate that is refused at these."""
    if goals:
        return "at an open goal: " + "; ".join(f"{', '.join(sorted(goals[it]))} of {it}" for it in sorted(goals))
    if steps:
        return "only at a step of the written proof of " + ", ".join(sorted(steps))
    return "only at something else that is left unproved"


def is_at_a_step(at):
    return bool(at) and at.startswith("only")


def checked(edit, copy, is_proved=False):
    """At what the check of the whole crate refuses the edit, or None where it proves the crate with it. The crate is proved
    as it is first, for this edit and those that follow, unless that is known and no other edit follows."""
    whole = copy / "crates" / edit.crate
    if not is_proved and not (whole / "out/sound").exists():
        if not verdict(ran(whole, "check")):
            raise NotJudged("the crate is not proved without the edit")
        keep(whole)
    with edited(edit, copy) as folder:
        said = said_of_check(folder)
    if verdict(said) is None:
        raise NotJudged(f"it does not compile: {first_error(said)}")
    return None if verdict(said) else refusal(*left_open(said))


def checked_together(edits, copy):
    """At what one check, of their functions alone, refuses several edits, each of functions of its own, by name. The
    contracts are as they were, so that what is left open of a function is due to the edit of it. Left out are an edit that
    cannot be applied after the others, one of whose functions nothing is left open, or that the check knows by other names,
    and all of them where the crate does not compile: those have to be checked one at a time."""
    folder = copy / "crates" / edits[0].crate
    applied = []
    for edit in edits:
        with contextlib.suppress(NotJudged):
            edit.apply(folder)
            applied.append(edit)
    said = said_of_check(folder, sorted({path for edit in applied for path in edit.paths()}))
    put_back(edits, folder)
    unknown = set(re.findall(r"`([^`]+)`", "".join(re.findall(r"^rattle: error: .*", said, re.M))))
    if others := [it for it in applied if it.paths() & unknown]:
        return checked_together([it for it in applied if it not in others], copy) if len(others) < len(applied) else {}
    if verdict(said) is not False:
        return {}
    goals, steps = left_open(said)
    refused = {}
    for edit in applied:
        own = {at: goals[at] for at in goals if is_of(at, edit)}, {at for at in steps if is_of(at, edit)}
        if any(own):
            refused[edit.name] = refusal(*own)
    return refused


def is_of(path, edit):
    """Whether a path of the check is that of a function that the edit changes."""
    parts = path.split("::")
    modules = {(tuple(module.split("::")) if module else (), name) for module, name in edit.functions()}
    is_below = any(parts[-1] == name and tuple(parts[: len(module)]) == module for module, name in modules)
    return is_below or any(f"::{path}".endswith(f"::{it}") for it in edit.paths())


def apart(edits):
    """As many of these edits as change functions of their own. Edits outside of functions, as of a `derive` or a
    constant, are not among them: they do not tell at which function they are refused."""
    taken, found = {None}, []
    for edit in edits:
        if not edit.functions() & taken:
            found.append(edit)
            taken |= edit.functions()
    return found


def refusals(edits, copy, unjudged):
    """At what the check refuses each edit of a crate that is proved; None where it does not. Those of several functions go
    together, until a check tells of none: of a function that calls a changed one, a check says nothing more."""
    found = {}
    while together := apart([it for it in edits if it.name not in found]):
        refused = checked_together(together, copy)
        for name, at in refused.items():
            progress(f"{edits[0].crate}/{name}: {at}")
        if not refused:
            break
        found |= refused
    alone = [it for it in edits if it.name not in found]
    for edit in alone:
        try:
            found[edit.name] = checked(edit, copy, len(alone) == 1)
            progress(f"{edit.crate}/{edit.name}: {found[edit.name]}")
        except NotJudged as why:
            unjudged[edit.name] = str(why)
    return found


def progress(text):
    print(f"  {time.strftime('%H:%M:%S')} {text}", file=sys.stderr, flush=True)
