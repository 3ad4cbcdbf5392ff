"""The table of what `.ci/full` passed for a commit, as `.ci/passed` has one, and the logs that it names:

    python3 scripts/gate_table.py COMMIT TOOL PART.. > TABLE

writes it, of tables that scripts/resume wrote, for this commit and this `rt version`. scripts/dist takes the logs by it.
"""

import hashlib
import pathlib
import re
import subprocess
import sys

TOP = pathlib.Path(__file__).resolve().parent.parent
TABLE = ".ci/passed"
FIELDS = ["checksum", "commit", "when", "seconds", "log", "sha256", "step"]
HEAD = """\
# What .ci/full passed for the commit below. A step is there if it passed on that commit, or on an earlier one on which its
# checksum is the same: that of its command, of each tracked file that .ci/full says it reads, and of the versions of rt,
# rustc and cc. Fields: this checksum; the commit on which it ran; when it ended; seconds (-: not noted); its log; the
# SHA-256 of the log; the command. `make dist LOGS=FOLDER` puts the logs into what is released.
"""


class Wrong(Exception):
    """Why a table, or a folder of logs, is not taken."""


def written(commit, tool, rows, note=""):
    """The text of a table."""
    own = sum(row["commit"] == commit for row in rows)
    others = len({row["commit"] for row in rows} - {commit})
    said = [f"# Commit: {commit}", f"# By: {tool}", f"# Of {len(rows)} steps {own} ran on this commit, {len(rows) - own} on {others} others."]
    return HEAD + note + "\n".join([*said, *("\t".join(row[name] for name in FIELDS) for row in rows)]) + "\n"


def rows_of(text):
    """The rows of a table, or of a part of one."""
    found = [line.split("\t") for line in text.splitlines() if not line.startswith("#")]
    if not found or any(len(row) != len(FIELDS) or not re.fullmatch(r"[\w.-]+", row[4]) for row in found):
        raise Wrong("a row of the table has not seven fields, with the name of a log")
    return [dict(zip(FIELDS, row)) for row in found]


def commit_of(text):
    """The commit for which a table is."""
    found = re.search(r"^# Commit: ([0-9a-f]{40})$", text, re.M)
    if not found:
        raise Wrong("the table names no commit: it was made of sources that were not committed")
    return found[1]


def taken(folder, top=TOP):
    """The rows of the table of this commit, whose logs in this folder are the ones that it names."""
    text = (top / TABLE).read_text()
    commit, rows = commit_of(text), rows_of(text)
    command = ["git", "diff", "--name-only", commit, "HEAD", "--", ".", f":!{TABLE}"]
    ran = subprocess.run(command, cwd=top, capture_output=True, text=True)
    if ran.returncode:
        raise Wrong(f"{TABLE} is for commit {commit}, which is not here")
    other = ran.stdout.split()
    if other:
        raise Wrong(f"{TABLE} is for commit {commit}, from which {len(other)} files differ, such as {other[0]}: run .ci/full")
    for row in rows:
        log = folder / row["log"]
        if not log.is_file():
            raise Wrong(f"{folder} has no {row['log']}, which {TABLE} names")
        if hashlib.sha256(log.read_bytes()).hexdigest() != row["sha256"]:
            raise Wrong(f"{log} has another SHA-256 than {TABLE} says")
    return rows


def main():
    if len(sys.argv) < 4 or sys.argv[1].startswith("-"):
        print(__doc__.strip())
        return 2
    commit, tool, *parts = sys.argv[1:]
    sys.stdout.write(written(commit, tool, rows_of("".join(pathlib.Path(part).read_text() for part in parts))))
    return 0


if __name__ == "__main__":
    sys.exit(main())
