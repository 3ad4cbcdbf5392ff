"""What is released for one machine: the programs, the library for C and the extension of SQLite in one folder, with the
wheel for Python. Either what is proved is taken, or plain Rust is built. scripts/dist asks for it.

A folder of parts has the programs, with glibc in each; libipnetwork_c.a and libipnetwork_c.so.V; cidr.so; the wheel; and of
proved programs in objects/ what each is linked of, but for glibc.
"""

import os
import pathlib
import re
import shutil
import subprocess
import sys

from packing import TOP, module, run

PROGRAMS = ["cidr", "cidr_merge", "cidr_filter", "cidr_join", "cidr_info"]
PROVED, PLAIN = "proved", "made of proved sources"
OUT = TOP / "bindings/out"
HEADER = (TOP / "bindings/c/ipnetwork.h").read_text()
ABI = ".".join(re.search(rf"^#define IPNETWORK_ABI_{name} (\d+)", HEADER, re.M)[1] for name in ["VERSION", "MINOR_VERSION"])
SHARED = f"libipnetwork_c.so.{ABI}"
CARGO = TOP / "rust/target/dist"


class Lacks(Exception):
    """Why a part is left out, and what makes it."""


def sources_of(crate):
    """The tracked files that a crate and those below it are proved of."""
    script = module(TOP / "scripts/prove")
    names = script.with_those_below([crate], script.crates()[0])
    folders = [f"crates/{name}/{part}" for name in names for part in ["src", "specs", "proofs"]]
    return [TOP / file for file in run(["git", "ls-files", *folders]).splitlines()]


def of_this_commit(crate, file, makes):
    """Says why a file is not taken that a crate was built as: it is not there, or a source was written after it."""
    if not file.is_file():
        raise Lacks(f"{file.relative_to(TOP)} is not there: {makes} makes it")
    built = file.stat().st_mtime
    newer = [source for source in sources_of(crate) if source.stat().st_mtime > built]
    if newer:
        raise Lacks(f"{file.relative_to(TOP)} is older than {newer[0].relative_to(TOP)}: {makes} makes it anew")


class Machine:
    """A machine: its name in file names, that of Debian, and what the names of its tools begin with."""

    def __init__(self, name, debian, tools):
        self.name, self.debian, self.tools = name, debian, tools
        self.target = f"{name}-unknown-linux-gnu"
        self.kind, self.folder, self.programs, self.rustc = None, None, [], None

    def tool(self, name):
        found = shutil.which(self.tools + name)
        if not found:
            raise Lacks(f"there is no {self.tools}{name} here (Debian: {'gcc-aarch64-linux-gnu' if self.tools else 'gcc'})")
        return found

    def is_there(self):
        return self.folder is not None and (self.folder / "libipnetwork_c.a").is_file()

    # What is proved

    def take_proved(self, folder, leave_out):
        """Copies what is proved; leave_out is called with why a program is left out."""
        self.kind, self.folder = PROVED, folder
        own = not self.tools
        makes = "make" if own else "make arm64"
        library = TOP / "crates/ipnetwork_c/out/libipnetwork_c.a" if own else OUT / "aarch64/libipnetwork_c.a"
        of_this_commit("ipnetwork_c", library, makes)
        if own:
            run(["make", "-s", "shared", "PLAIN="])
        shared = OUT / SHARED if own else OUT / "aarch64" / SHARED
        of_this_commit("ipnetwork_c", shared, makes)
        folder.mkdir()
        shutil.copy(library, folder)
        shutil.copy(shared, folder)
        for program in PROGRAMS:
            try:
                self.take_program(program, makes)
            except Lacks as why:
                leave_out(f"{program} for {self.name}", why)
        self.extension(leave_out)

    def take_program(self, program, makes):
        """A program that has glibc in it, and in one object what else it is linked of."""
        own, objects = not self.tools, self.folder / "objects"
        place = TOP / f"crates/{program}/out" if own else OUT / "aarch64"
        for name in [program, f"{program}.o"]:
            of_this_commit(program, place / name, makes)
        objects.mkdir(exist_ok=True)
        parts = [place / f"{program}.o"]
        if own:
            kit = pathlib.Path(shutil.which("rt") or "/rt").resolve().parent.parent / "c"
            parts += [kit / "libos_c.a", kit / "liblibc_c.a"]
            if not all(part.is_file() for part in parts):
                raise Lacks(f"the kit's {kit}/libos_c.a is not here, of which it is linked")
        else:
            host = self.folder / "host.o"
            run([self.tool("gcc"), "-std=c11", "-O2", "-c", "bindings/arm64/host.c", "-o", host])
            parts.append(host)
        run([self.tool("ld"), "-r", *parts, "-o", objects / f"{program}.o"])
        run([self.tool("gcc"), "-static", objects / f"{program}.o", "-o", self.folder / program])
        run([self.tool("strip"), self.folder / program])
        (self.folder / "host.o").unlink(missing_ok=True)
        self.programs.append(program)

    def extension(self, leave_out):
        """The extension of SQLite."""
        try:
            if subprocess.run([self.tool("gcc"), "-E", "-x", "c", "-"], input=b"#include <sqlite3ext.h>", capture_output=True).returncode:
                raise Lacks("there is no sqlite3ext.h here (Debian: libsqlite3-dev)")
            if self.tools:
                self.arm64().build_extension(self.folder / "libipnetwork_c.a")
            elif self.kind == PLAIN:
                run(["make", "-s", "sqlite", "PLAIN=1", f"PLAIN_OUT={self.folder}", f"OUT={self.folder}"])
            else:
                run(["make", "-s", "sqlite", "PLAIN="])
                shutil.copy(OUT / "cidr.so", self.folder)
        except Lacks as why:
            leave_out(f"the extension of SQLite for {self.name}", why)

    def arm64(self):
        """The script for ARM64, which writes to the folder of these parts."""
        script = module(TOP / "scripts/arm64")
        script.OUT = self.folder
        return script

    # What is plain Rust

    def build_plain(self, folder, leave_out):
        """Builds plain Rust for this machine, the programs with glibc in them."""
        self.kind, self.folder = PLAIN, folder
        folder.mkdir()
        settings = self.settings()
        static, shared = CARGO / "static", CARGO / "shared"
        self.cargo(static, ["-C", "target-feature=+crt-static"], PROGRAMS, settings)
        self.cargo(shared, [], ["ipnetwork_c"], settings)
        for program in PROGRAMS:
            shutil.copy(static / self.target / "release" / program, folder)
            run([self.tool("strip"), folder / program])
            self.programs.append(program)
        library = folder / "libipnetwork_c.a"
        built = shared / self.target / "release" / library.name
        run(["bindings/c/one_object", built, self.tools])
        if self.tools:
            self.arm64().build_library(built.parent)
        else:
            shutil.copy(built, library)
            run(["make", "-s", "shared", "PLAIN=1", f"PLAIN_OUT={folder}", f"OUT={folder}"])
        self.extension(leave_out)
        for name in [SHARED, "cidr.so"]:
            if (folder / name).is_file():
                run([self.tool("strip"), "--strip-unneeded", folder / name])

    def settings(self):
        """The environment by which cargo builds for this machine."""
        found = {"CARGO_BUILD_TARGET": self.target}
        found[f"CARGO_TARGET_{self.target.upper().replace('-', '_')}_LINKER"] = self.tool("gcc")
        self.rustc = self.compiler()
        if self.rustc != "rustc":
            found["RUSTC"] = str(self.rustc)
        return os.environ | found

    def compiler(self):
        """A rustc that has std for this machine: the one here, or else one that rust/unpack_rustc unpacked."""
        if not shutil.which("cargo") or not shutil.which("rustc"):
            raise Lacks("there is no cargo here")
        folder = pathlib.Path(os.environ.get("RUSTC_FOLDER") or TOP / "rust/target/rustc")
        unpacked = sorted(folder.glob(f"*/root/usr/lib/rustlib/{self.target}"))
        own = run(["rustc", "--print", "target-libdir", "--target", self.target])
        if pathlib.Path(own).is_dir():
            return "rustc"
        if not unpacked:
            raise Lacks(f"rustc has no std for {self.target} here: rust/unpack_rustc unpacks Debian's")
        return folder / unpacked[0].relative_to(folder).parts[0] / "rustc"

    def cargo(self, target, flags, packages, settings):
        """Builds packages; paths of this machine do not get into what is built."""
        kept = {TOP: "/fosibegan", pathlib.Path.home() / ".cargo": "/cargo"}
        flags = [*flags, *(f"--remap-path-prefix={path}={name}" for path, name in kept.items())]
        if self.name == "x86_64":
            flags = ["-C", "target-cpu=x86-64-v2", *flags]
        how = settings | {"CARGO_TARGET_DIR": str(target), "CARGO_ENCODED_RUSTFLAGS": "\x1f".join(flags)}
        run(["scripts/build_plain", *packages], env=how)

    # What is made of either

    def wheel(self):
        """Puts the wheel for Python there, and returns its file."""
        kept = dict(os.environ)
        try:
            if self.tools:
                self.arm64().build_wheel(self.folder / "python")
                shutil.rmtree(self.folder / "python", ignore_errors=True)
            else:
                os.environ["IPNETWORK_C_LIB"] = str(self.folder)
                builder = module(TOP / "bindings/python/build_wheel.py")
                builder.build_wheel(self.folder)
        finally:
            os.environ.clear()
            os.environ.update(kept)
        made = next(self.folder.glob("*.whl"), None)
        if not made:
            raise Lacks("this python3 is older than 3.11, or has free threads")
        return made

    def packages(self, folder, leave_out):
        """Puts the packages of Debian there."""
        words = ["scripts/deb", folder, *(["arm64"] if self.tools else []), *(["--plain", self.folder] if self.kind == PLAIN else [])]
        ran = subprocess.run([str(word) for word in words], cwd=TOP, capture_output=True, text=True)
        if ran.returncode:
            raise Lacks(f"scripts/deb ends with status {ran.returncode}: {ran.stderr.strip().splitlines()[-1]}")
        for line in re.findall(r"^make deb: without (.*?): (.*)", ran.stderr, re.M):
            leave_out(f"the package {line[0]} for {self.debian}", line[1])
        return sorted(folder.glob("*.deb"))

    def version_of_rustc(self):
        return run([self.rustc, "--version"]) if self.rustc else None


def machines():
    sys.dont_write_bytecode = True
    return [Machine("x86_64", "amd64", ""), Machine("aarch64", "arm64", "aarch64-linux-gnu-")]
