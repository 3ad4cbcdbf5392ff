"""Files whose bytes depend only on what is put into them: archives and checksums. scripts/dist writes them."""

import base64
import gzip
import hashlib
import importlib.machinery
import importlib.util
import io
import os
import pathlib
import subprocess
import sys
import tarfile

TOP = pathlib.Path(__file__).resolve().parent.parent


def run(words, **how):
    """What a command prints on standard output; where it fails, all that it said is shown."""
    ran = subprocess.run([str(word) for word in words], cwd=TOP, stdout=subprocess.PIPE, stderr=subprocess.PIPE, text=True, **how)
    if ran.returncode:
        said = f"{ran.stdout}{ran.stderr}".strip()
        raise SystemExit(f"scripts/dist: {' '.join(map(str, words))} failed (status {ran.returncode}):\n{said}")
    return ran.stdout.strip()


def module(path):
    """A script or module of Python at this path."""
    loader = importlib.machinery.SourceFileLoader(path.stem, str(path))
    loaded = importlib.util.module_from_spec(importlib.util.spec_from_loader(path.stem, loader))
    sys.dont_write_bytecode = True
    loader.exec_module(loaded)
    return loaded


def moment():
    """The time that the files of an archive have: SOURCE_DATE_EPOCH, or that of the commit. Without .git it is that of the
    file VERSION, which is the same in an archive of the commit."""
    if os.environ.get("SOURCE_DATE_EPOCH"):
        return int(os.environ["SOURCE_DATE_EPOCH"])
    if not (TOP / ".git").exists():
        return int((TOP / "VERSION").stat().st_mtime)
    return int(run(["git", "log", "-1", "--format=%ct"]))


def compressed(data):
    return gzip.compress(data, 9, mtime=0)


def pack(folder, name, to, form=tarfile.GNU_FORMAT):
    """Writes a folder as an archive, in which it has this name."""
    held, at = io.BytesIO(), moment()
    with tarfile.open(fileobj=held, mode="w", format=form) as archive:
        for file in [folder, *sorted(folder.rglob("*"))]:
            member = archive.gettarinfo(file, f"{name}/{file.relative_to(folder)}" if file != folder else name)
            member.uid = member.gid = 0
            member.uname = member.gname = "root"
            member.mtime = at
            member.mode = 0o755 if member.mode & 0o100 or not member.isreg() else 0o644
            with open(file if member.isreg() else os.devnull, "rb") as content:
                archive.addfile(member, content)
    to.write_bytes(compressed(held.getvalue()))
    return to


def recorded(name, content):
    """The line of a file in the RECORD of a wheel."""
    digest = base64.urlsafe_b64encode(hashlib.sha256(content).digest()).rstrip(b"=").decode()
    return f"{name},sha256={digest},{len(content)}\n"


def digest(file, kind="sha256"):
    return hashlib.new(kind, file.read_bytes()).hexdigest()


def write_sums(folder):
    """Writes SHA256SUMS, as `sha256sum -c` reads it."""
    files = sorted(file for file in folder.iterdir() if file.name != "SHA256SUMS")
    (folder / "SHA256SUMS").write_text("".join(f"{digest(file)}  {file.name}\n" for file in files))
