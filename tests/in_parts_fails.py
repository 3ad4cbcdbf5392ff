"""The scripts that cut a large input in parts, for tests/in_parts: where a list is no regular file, and where something
fails. What is expected is what the program does with the whole, or that nothing passes: the status 2."""

import functools
import os
import pathlib
import shutil
import signal
import subprocess
import tempfile
import time

import limits
from programs import program

TEXTS = [f"{n % 223 + 1}.{n // 251 % 256}.{n % 256}.{n * 7 % 256}" for n in range(30000)]
LOG = "".join(f"{text} - GET /{n}\n" for n, text in enumerate(TEXTS)).encode()
SIZES = {"PARALLEL": "--block 64000", "PART_LINES": "4000"}

# Lists that are no regular file, that are none, or that change. $o has an option, $v may be the letter v.
LISTS = [
    '"$script" $o -${v}f <(cat "$list") < "$log"',
    '"$script" $o -${v}f/dev/fd/3 3< <(cat "$list") < "$log"',
    '"$script" $o -${v}f <(cat "$list") -f "$more" -f<(echo 30.0.0.0/8) < "$log"',
    'cat "$list" > "$fifo" & "$script" $o -${v}f "$fifo" < "$log"',
    '"$script" $o -${v}f /dev/null < "$log"',
    '"$script" $o -${v}f "$terminal" < "$log"',
    '"$script" $o -${v}f "$folder" < "$log"',
    '"$script" $o -${v}f "$folder/absent" < "$log"',
    '"$script" $o -${v}f <(echo 10.0.0.0/33) < "$log"',
    '"$script" $o -${v}f "$list" -f < "$log"',
    # The list is emptied while the log is read.
    """cat "$list" > "$copy"; { head -n 20000 "$log"; : > "$copy"; tail -n +20001 "$log"; } | "$script" $o -${v}f "$copy\"""",
]
# The log as a list, by its other names; and a list that other machines do not have.
REFUSED = [
    'cat "$log" | "$script" $o -${v}f /dev/stdin',
    'cat "$log" | "$script" $o -${v}f/dev/fd/0',
    'cat "$log" | "$script" $o -${v}f "$list" -f /proc/self/fd/0',
    'PARALLEL="--sshlogin :" "$script" $o -${v}f <(cat "$list") < "$log"',
]
# Options with which GNU parallel would leave lines out, repeat them or change them, and what is no option.
OF_PARALLEL = ["--cat", "--dry-run", "--halt now,success=1", "--header 1", "--results x", "--rrs", "--resume --joblog x"]
OF_PARALLEL += ["--skip-first-line", "--tag", "--tee", "-0", "--block", "true", "-j4 --fifo"]


def without_parallel(folder):
    """A PATH with the commands that the scripts need, and no GNU parallel."""
    place = folder / "few commands"
    place.mkdir()
    for name in ("awk", "bash", "cat", "dd", "dirname", "head", "mkdir", "mktemp", "mount", "nproc", "rm", "sort", "split", "stat", "tail", "wc"):
        (place / name).symlink_to(shutil.which(name))
    return str(place)


def run(command, data=b"", **env):
    """The status of a command, and what it prints."""
    words = [str(word) for word in command]
    ran = limits.run(words, input=data, capture_output=True, env={**os.environ, **SIZES, **env})
    return ran.returncode, ran.stdout


def run_of_file(command, data, **env):
    """What `run` returns of a command whose standard input is a regular file, which a script cuts by itself."""
    words = [str(word) for word in command]
    with tempfile.TemporaryFile() as file:
        file.write(data)
        file.seek(0)
        ran = limits.run(words, stdin=file, capture_output=True, env={**os.environ, "PARALLEL": "--jobs 3", **env})
    return ran.returncode, ran.stdout


def lists(scripts, folder, path):
    """Each part has the same list, which is read once."""
    env = {name: str(folder / name) for name in ("list", "more", "log", "fifo", "copy")} | {"folder": str(folder)}
    pathlib.Path(env["list"]).write_text("10.0.0.0/8\n64.0.0.0/2\n")
    pathlib.Path(env["more"]).write_text("20.0.0.0/8\n")
    pathlib.Path(env["log"]).write_bytes(LOG)
    pathlib.Path(env["fifo"]).exists() or os.mkfifo(env["fifo"])
    master, terminal = os.openpty()
    env |= {"terminal": os.ttyname(terminal), "PATH": path}
    for name, option, letter in (("cidr_filter", "--quiet", "v"), ("cidr_filter", "", ""), ("cidr_join", "--network", "")):

        def got(text, script):
            if "$terminal" in text:
                os.write(master, b"10.0.0.0/8\n\x04")
            return run(["bash", "-c", text], script=str(script), o=option, v=letter, **env)

        for text in LISTS:
            yield f"{name} {option} {letter}: {text}", got(text, scripts / name / "in_parts.sh"), got(text, program(name))
        for text in REFUSED:
            yield f"{name} {option} {letter}: {text}", got(text, scripts / name / "in_parts.sh"), (2, b"")
    os.close(master)
    os.close(terminal)
    # Routes are a list too.
    finds = "".join(f"find {text}\n" for text in TEXTS).encode()
    routes = b"add 10.0.0.0/8 1\nadd 64.0.0.0/2 2\n"
    (folder / "list").write_bytes(routes)
    status, whole = run([program("cidr")], routes + finds)
    find = '"$script" <(cat "$list")', 'cat "$list" > "$fifo" & "$script" "$fifo" < /dev/stdin'
    for text in find:
        got = run(["bash", "-c", text], finds, script=str(scripts / "cidr/find_in_parts.sh"), **env)
        yield f"find_in_parts.sh: {text}", got, (status, b"".join(whole.splitlines(True)[2:]))


def commands(scripts, folder):
    """Each script with options, an input, and what the program prints of the whole."""
    (folder / "list").write_text("10.0.0.0/8 ten\n")
    (folder / "routes").write_text("add 10.0.0.0/8 1\n")
    reads = "".join(f"read {text}\n" for text in TEXTS).encode()
    finds = reads.replace(b"read", b"find")
    networks = "".join(f"{text}/{16 + n % 17}\n" for n, text in enumerate(TEXTS)).encode()
    found = run([program("cidr")], (folder / "routes").read_bytes() + finds)[1].partition(b"\n")[2]
    yield "cidr/in_parts.sh", [], reads, run([program("cidr")], reads)
    yield "cidr/find_in_parts.sh", [folder / "routes"], finds, (0, found)
    yield "cidr_merge/in_parts.sh", [], networks, run([program("cidr_merge"), "union", "-"], networks)
    for name, words in (("cidr_filter", ["-ve", "10.0.0.0/8"]), ("cidr_filter", ["-Hcve", "10.0.0.0/8"]), ("cidr_join", ["-f", folder / "list"])):
        yield f"{name}/in_parts.sh", words, LOG, run([program(name), *words], LOG)


def failing(scripts, folder, path):
    """Whatever fails, the status is 2, and what is no matter of the scripts changes nothing."""
    (folder / "home/.parallel").mkdir(parents=True, exist_ok=True)
    (folder / "home/.parallel/config").write_text("--skip-first-line\n--tag\n")
    of_others = {"HOME": str(folder / "home"), "SHELL": shutil.which("true"), "PARALLEL_SHELL": shutil.which("true")}
    env, link = {"PATH": path}, folder / "link"
    for name, words, data, whole in commands(scripts, folder):
        command = [scripts / name, *words]
        rows = [("settings of others", run(command, data, **of_others, **env), whole)]
        if shutil.which("parallel", path=path):
            rows += [(f"PARALLEL={it}", run(command, data, **env | {"PARALLEL": it}), (2, b"")) for it in OF_PARALLEL]
            rows += [(it, run([*command, *it.split()], data, **env), (2, b"")) for it in OF_PARALLEL if not words]
        link.unlink(missing_ok=True)
        link.symlink_to(scripts / name)
        rows.append(("as a link", run([link, *words], data, **env), (2, b"")))
        rows.append(("no TMPDIR", run(command, data, TMPDIR=str(folder / "absent"), **env), (2, b"")))
        rows.append(("into a full device", run(["bash", "-c", '"$@" > /dev/full', "bash", *command], data, **env), (2, b"")))
        states = {"of a folder": run(["bash", "-c", '"$@" < /', "bash", *command], **env)}
        for end in ("kill -KILL $$", "kill -PIPE $$", "exit 1", "exit 3"):
            if end != "exit 1" or "filter" not in name:
                states[f"a part ends by {end}"] = ends(end, command, data, folder, **env)
        if shutil.which("parallel", path=path):
            states["hung up"] = hung_up(command, data, folder, **env)
        rows += [(what, got[:1], (2,)) for what, got in states.items()]
        for size in ("size=4k", "size=256k", *(f"nr_inodes={n}" for n in range(2, 7))) if may_mount() else ():
            got = in_little_room(size, command, data, folder, **env)
            rows.append((f"TMPDIR of {size}", got, whole if got[0] == whole[0] else (2, got[1])))
        if not shutil.which("parallel", path=path):
            rows += of_files(command, data, whole, folder, env)
        for what, got, wanted in rows:
            yield f"{name} {' '.join(map(str, words))}: {what}", got, wanted


def of_files(command, data, whole, folder, env):
    """Rows of a script whose input is a regular file."""
    yield "of a file", run_of_file(command, data, **env), whole
    yield "of a file, without its first bytes", run_of_rest(command, data, **env), whole
    for end in ("kill -KILL $$", "exit 3"):
        yield f"of a file, a part ends by {end}", ends(end, command, data, folder, run_of_file, **env)[:1], (2,)
    full = ["bash", "-c", '"$@" > /dev/full', "bash", *command]
    yield "of a file, into a full device", run_of_file(full, data, **env), (2, b"")
    if may_mount():
        got = in_little_room("size=4k", command, data, folder, run_of_file, **env)
        yield "of a file, TMPDIR of 4k", got, whole if got[0] == whole[0] else (2, got[1])
    yield "of a file, ended by a signal", terminated(command, data, folder, **env), "all processes have ended"


def run_of_rest(command, data, **env):
    """What a script prints of a file of which a line was read before: it begins after that line, as a program does."""
    text = 'IFS= read -r _ && exec "$@"'
    return run_of_file(["bash", "-c", text, "bash", *command], b"a line of another reader\n" + data, **env)


def terminated(command, data, folder, **env):
    """Whether the programs that a script has begun end with it, when it gets SIGTERM."""
    place, note = folder / "sleeping", folder / "begun"
    place.mkdir(exist_ok=True)
    for name in ("cidr", "cidr_merge", "cidr_filter", "cidr_join"):
        body = f'[ -p /dev/stdin ] || exit 0\necho $$ >> "$NOTE"\nexec {shutil.which("sleep")} 60\n'
        (place / name).write_text(f'#!{shutil.which("bash")}\n{body}')
        (place / name).chmod(0o755)
    note.write_text("")
    with tempfile.TemporaryFile() as file:
        file.write(data)
        file.seek(0)
        own = {"PARALLEL": "--jobs 3", "CIDR_PROGRAMS": str(place), "NOTE": str(note)}
        quiet = {"stdout": subprocess.DEVNULL, "stderr": subprocess.DEVNULL}
        script = limits.start([str(word) for word in command], stdin=file, env={**os.environ, **env, **own}, **quiet)
        begun = until(lambda: len(note.read_text().split()) == 3)
        script.send_signal(signal.SIGTERM)
        ended = begun and until(lambda: not any(pathlib.Path("/proc", pid).exists() for pid in note.read_text().split()))
        script.wait()
    return "all processes have ended" if ended else f"processes have not ended: {note.read_text().split()}"


def until(holds):
    """Whether something holds within some seconds."""
    for _ in range(1000):
        if holds():
            return True
        time.sleep(0.01 * limits.slowness())
    return False


def ends(how, command, data, folder, run=run, **env):
    """A script whose program ends by this in its third run, which is one of a part."""
    place, marks = folder / "programs", folder / "marks"
    for name in (place, marks):
        shutil.rmtree(name, ignore_errors=True)
        name.mkdir()
    for name in ("cidr", "cidr_merge", "cidr_filter", "cidr_join"):
        count = 'n=1; until mkdir "$MARKS/$n" 2> /dev/null; do n=$((n + 1)); done'
        (place / name).write_text(f'#!{shutil.which("bash")}\n{count}\n[ $n -ne 3 ] || {how}\nexec "{program(name)}" "$@"\n')
        (place / name).chmod(0o755)
    return run(command, data, CIDR_PROGRAMS=str(place), MARKS=str(marks), **env)


def hung_up(command, data, folder, **env):
    """A script whose GNU parallel gets SIGHUP when it has a part of the input, as of a terminal that is closed."""
    place = folder / "noted"
    place.mkdir(exist_ok=True)
    (place / "parallel").write_text(f'#!/bin/sh\necho $$ > "$NOTE"\nexec {shutil.which("parallel")} "$@"\n')
    (place / "parallel").chmod(0o755)
    text = '{ head -c 200000; sleep 1; kill -HUP "$(cat "$NOTE")"; sleep 0.2; cat; } < "$DATA" | "$@"'
    (folder / "data").write_bytes(data)
    env |= {"PATH": f"{place}:{env['PATH']}", "NOTE": str(folder / "note"), "DATA": str(folder / "data")}
    return run(["bash", "-c", text, "bash", *command], **env)


@functools.cache
def may_mount():
    """Whether a folder of a few bytes can be made here."""
    made = subprocess.run(["unshare", "-rm", "mount", "-t", "tmpfs", "none", "/mnt"], capture_output=True).returncode == 0
    if not made:
        print("scripts in little room: skipped, since there is no unshare that mounts here (Debian: util-linux)")
    return made


def in_little_room(size, command, data, folder, run=run, **env):
    """A script whose TMPDIR has little room."""
    place = folder / "little"
    place.mkdir(exist_ok=True)
    text = 'mount -t tmpfs -o "$0" none "$TMPDIR" && exec "$@"'
    here = {"unshare": shutil.which("unshare"), "bash": shutil.which("bash")}
    return run([here["unshare"], "-rm", here["bash"], "-c", text, size, *command], data, TMPDIR=str(place), **env)
