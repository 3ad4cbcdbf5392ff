"""Logs that are also the output, as a shell opens them: refused as `grep` refuses them, and others not."""

import os
import subprocess
import tempfile

import limits

LOG = b"10.0.0.1 a\n11.0.0.1 b\n"


def rows(name, words, shown, at_end, shown_at_end):
    """The options, the shell's words after them, what the log has afterwards, what is reported and the status: of a program
    that prints `shown` of LOG, and with the options `at_end`, when all is read, `shown_at_end`."""

    def refused(*logs):
        return b"".join(f"{name}: {log}: input file is also the output\n".encode() for log in logs)

    return [
        (words, "log >> log", LOG, refused("log"), 2),
        (words, "log > log", b"", refused("log"), 2),
        (words, "< log >> log", LOG, refused("-"), 2),
        (words, "- < log >> log", LOG, refused("-"), 2),
        (words, "hard >> log", LOG, refused("hard"), 2),
        (words, "soft >> log", LOG, refused("soft"), 2),
        (words, "./log >> log", LOG, refused("./log"), 2),
        (words, "/dev/stdin < log >> log", LOG, refused("/dev/stdin"), 2),
        # the others are read
        (words, "log other hard >> log", LOG + shown, refused("log", "hard"), 2),
        (words, "other soft >> log", LOG + shown, refused("soft"), 2),
        # another file, a pipe, devices
        (words, "other >> log", LOG + shown, b"", 0),
        (words, "< other >> log", LOG + shown, b"", 0),
        (words, "log | cat > /dev/null", LOG, b"", 0),
        (words, "log /dev/null > /dev/null", LOG, b"", 0),
        # what is printed when all is read, and a list, which is read before
        (at_end, "log >> log", LOG + shown_at_end, b"", 0),
        (at_end, "< log >> log", LOG + shown_at_end, b"", 0),
        (words, "other >> list", LOG, b"", 0),
    ]


def tried(program, line, *said):
    """Each run of a program, with a list that has this line: what it is, whether all is as wanted, and what came."""
    for words, rest, *wanted in rows(os.path.basename(program), *said):
        with tempfile.TemporaryDirectory() as folder:
            for name, text in (("log", LOG), ("other", LOG), ("list", line)):
                with open(os.path.join(folder, name), "wb") as f:
                    f.write(text)
            os.link(os.path.join(folder, "log"), os.path.join(folder, "hard"))
            os.symlink("log", os.path.join(folder, "soft"))
            command = f'"{os.path.abspath(program)}" {words} {rest}'
            # A program that reads what it writes would write for ever.
            got = limits.run(["sh", "-c", command], cwd=folder, capture_output=True, preexec_fn=limits.small_files)
            with open(os.path.join(folder, "log"), "rb") as f:
                came = [f.read(), got.stderr, got.returncode]
            yield f"{words} {rest}", came == wanted, came
    yield from of_two_file_systems(program, line, *said[:2])


# Two new file systems, whose first files have the same number.
MOUNTED = """mkdir one other; mount -t tmpfs none one && mount -t tmpfs none other || exit 99
cat > one/log; : > other/output
[ "$(stat -c %i one/log)" = "$(stat -c %i other/output)" ] || exit 99
"$@" one/log > other/output; status=$?; cat other/output; exit $status"""


def of_two_file_systems(program, line, words, shown):
    """A log and an output that have one number, each in a file system of its own: two files."""
    name = f"{os.path.basename(program)}: a log on another file system"
    with tempfile.TemporaryDirectory() as folder:
        with open(os.path.join(folder, "list"), "wb") as f:
            f.write(line)
        command = ["unshare", "-rm", "sh", "-c", MOUNTED, "sh", os.path.abspath(program), *words.split()]
        try:
            got = subprocess.run(command, cwd=folder, input=LOG, capture_output=True)
        except FileNotFoundError:
            got = subprocess.CompletedProcess(command, 99)
    # 1 and no output: unshare may not.
    if got.returncode == 99 or got.returncode == 1 and b"unshare" in got.stderr:
        print(f"{name}: skipped, since there is no unshare that mounts here (Debian: util-linux)")
    else:
        yield name, (got.stdout, got.stderr, got.returncode) == (shown, b"", 0), got
