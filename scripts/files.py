#!/usr/bin/env python3
"""Which files the repository has: those that git tracks, and those that are new and not ignored.

    scripts/files.py PATH.. | xargs -0 COMMAND

prints those below each PATH, of the whole repository if there is none, each with a NUL after it. If git is not installed, or
this folder is no clone, as in the archive of the sources, they are all files but those that .gitignore names.
`scripts/files.py --check` compares the two ways in a clone: the status is 1 if they differ.
"""

import fnmatch
import os
import pathlib
import subprocess
import sys

TOP = pathlib.Path(__file__).resolve().parent.parent


def by_git(*words):
    """The names that `git ls-files` prints, or None if git is not here or this is no clone."""
    if not (TOP / ".git").exists():
        return None
    # A folder of that name that is no repository has git look for one above.
    environment = os.environ | {"GIT_CEILING_DIRECTORIES": str(TOP.parent)}
    try:
        ran = subprocess.run(["git", "ls-files", "-z", *words], cwd=TOP, env=environment, capture_output=True)
    except OSError:
        return None
    return None if ran.returncode else [os.fsdecode(name) for name in ran.stdout.split(b"\0") if name]


def ignored_names():
    """The lines of .gitignore, without comments. There is no other such file, and none of them begins with `!`."""
    lines = (TOP / ".gitignore").read_text().split("\n")
    return [line for line in lines if line and not line.startswith("#")]


def is_ignored(path, is_folder, patterns):
    """Whether a line of .gitignore names this path from the top."""
    for pattern in patterns:
        name = pattern.rstrip("/")
        if pattern.endswith("/") and not is_folder:
            continue
        if fnmatch.fnmatchcase(path, name.lstrip("/")) if "/" in name else fnmatch.fnmatchcase(path.split("/")[-1], name):
            return True
    return False


def by_walk():
    """The names of all files that are not ignored."""
    patterns, found = ignored_names(), []
    for folder, folders, names in os.walk(TOP):
        at = os.path.relpath(folder, TOP)
        prefix = "" if at == "." else at + "/"
        # As git does, a link to a folder is taken for a file.
        names += [name for name in folders if os.path.islink(os.path.join(folder, name))]
        folders[:] = [
            name
            for name in folders
            if name != ".git" and name not in names and not is_ignored(prefix + name, True, patterns)
        ]
        found += [prefix + name for name in names if name != ".git" and not is_ignored(prefix + name, False, patterns)]
    return found


def listed(*paths):
    """The files of the repository below these paths, or all, by their names from the top, in order."""
    names = by_git("-co", "--exclude-standard")
    if names is None:
        names = by_walk()
    wanted = [path.strip("/") for path in paths]
    own = {name for name in names if not wanted or any(name == path or name.startswith(path + "/") for path in wanted)}
    return sorted(name for name in own if os.path.lexists(TOP / name))


def check():
    """Whether both ways find the same."""
    one, other = by_git("-co", "--exclude-standard"), by_walk()
    if one is None:
        print("files.py: git compared with a walk: skipped, since there is no git here, or no clone (Debian: git)")
        return 0
    different = {name for name in one if os.path.lexists(TOP / name)} ^ set(other)
    for name in sorted(different):
        print(f"files.py: only {'git' if name in one else 'a walk'} finds {name}")
    print(f"{len(other)} files, {len(different)} of which only one way finds")
    return 1 if different else 0


def main():
    if sys.argv[1:] == ["--check"]:
        return check()
    if any(word.startswith("-") for word in sys.argv[1:]):
        print(__doc__.strip())
        return 2
    sys.stdout.buffer.write(b"".join(os.fsencode(name) + b"\0" for name in listed(*sys.argv[1:])))
    return 0


if __name__ == "__main__":
    sys.exit(main())
