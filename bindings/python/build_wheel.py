"""Makes the wheel of the package ipnetwork and of the library that it calls, for `pip install ./bindings/python`, and the
source distribution, which has the static libraries that are proved, the sources of the one that is not, the headers
and the tests, so that it builds where it is unpacked, and `python build_wheel.py ipnetwork`, then `python -m unittest`,
tests it there.

It needs no other package, and so no network: only cc with its objdump, and a library. That is, in this order: the one of
the folder that the environment variable IPNETWORK_C_LIB names; on Linux on x86-64 and ARM64 the proved one, as `rt lib`
in crates/ipnetwork_c and `make arm64` make it; and everywhere else, and where that is not there, the one of cargo, of
plain Rust, which is built here. A line on standard error says which it is. CC and OBJDUMP name other tools than those
two: scripts/arm64 makes the wheel for ARM64 by them.

On Linux, where the headers of Python are (Debian: python3-dev), the wheel has the extension `_native`, which from Python
3.11 on serves all later versions; else it has the library as a shared one, which the package calls by ctypes, and any
Python may take it. The tag of the wheel, such as manylinux_2_17, says which glibc is the least that its library can be
loaded with: 2.17 or later, since every pip knows that from 20.3 on; with another C library, or without objdump, it is
that of this machine alone, such as linux_x86_64. On other systems the wheel has the shared library of cargo, and its tag
says the system that Python was built for, on macOS with the architecture of this machine. `build_wheel.py --sdist
FOLDER` writes the source distribution into a folder, and `build_wheel.py FOLDER` builds what a wheel calls, the
extension or else the shared library, for tests.
"""

import base64
import functools
import gzip
import hashlib
import io
import os
import pathlib
import platform
import re
import shutil
import subprocess
import sys
import sysconfig
import tarfile
import tempfile
import zipfile

HERE = pathlib.Path(__file__).resolve().parent
# In a source distribution all that the package needs lies in its own folder, else in those of the repository.
UNPACKED = (HERE / "PKG-INFO").is_file()
TOP = HERE if UNPACKED else HERE.parent.parent
HEADERS = HERE / "c" if UNPACKED else HERE.parent / "c"
RUST = HERE / "rust" if UNPACKED else TOP / "rust"
PLATFORM = sysconfig.get_platform()
LINUX = PLATFORM.startswith("linux")
# The folders of the library that is proved, by the platform that it is proved for.
PROVED = {
    "linux-x86_64": HERE / "c" / "x86_64" if UNPACKED else TOP / "crates" / "ipnetwork_c" / "out",
    "linux-aarch64": HERE / "c" / "aarch64" if UNPACKED else TOP / "bindings" / "out" / "aarch64",
}
PLAIN = "plain Rust, made of the proved sources, and tested; not proved"
ARCHIVE = "libipnetwork_c.a"
SHARED = {"darwin": "libipnetwork_c.dylib", "win32": "ipnetwork_c.dll"}.get(sys.platform, "libipnetwork_c.so")
# What a library says of itself (ipnetwork_build), and what a wheel with it says.
BUILDS = {
    b"(proved)": "The library in this wheel is proved.",
    b"(plain Rust, made of proved sources)": f"The library in this wheel is {PLAIN}.",
}
NAME = "ipnetwork"
# No symbols but those that are exported, which are bound as the file is loaded, and nothing that they do not need.
LINKED = ("-shared", "-s", "-Wl,--gc-sections", "-Wl,-z,relro", "-Wl,-z,now")
LICENSES = ("LICENSE-MIT", "LICENSE-APACHE", "NOTICE")
MODULES = sorted(path.name for path in (HERE / "ipnetwork").glob("*.py")) + ["_native.pyi", "py.typed"]
THREADED = bool(sysconfig.get_config_var("Py_GIL_DISABLED"))  # a Python with free threads, which has no stable ABI
STABLE = sys.version_info >= (3, 11) and not THREADED  # from this version on the stable ABI has buffers


def version_of(version: str) -> str:
    """A version of the repository as Python writes it (PEP 440): 0.2.0-dev, which comes before 0.2.0, is 0.2.0.dev0."""
    numbers = re.fullmatch(r"(\d+\.\d+\.\d+)(-dev)?", version)
    if not numbers:
        raise SystemExit(f"{NAME}: VERSION has {version}, which is neither like 0.2.0 nor like 0.2.0-dev")
    return numbers[1] + ".dev0" * bool(numbers[2])


VERSION = version_of((TOP / "VERSION").read_text().strip())


def _metadata(library: str, least: str = "3.9") -> bytes:
    """What the package says of itself, with this sentence about its library, for Python from this version on."""
    return f"""Metadata-Version: 2.1
Name: {NAME}
Version: {VERSION}
Summary: IP networks in CIDR notation, by a library of proved sources
License: MIT OR Apache-2.0
Requires-Python: >={least}
Description-Content-Type: text/plain

{library}
""".encode()


def _say(words: str) -> None:
    print(f"{NAME}: {words}", file=sys.stderr, flush=True)


def _by_cargo() -> pathlib.Path:
    """The folder of the library of plain Rust, which cargo builds."""
    command = ["cargo", "build", "--quiet", "--release", "--offline", "--locked", "-p", "ipnetwork_c"]
    # Where cargo puts the library, whatever the environment says of other builds, and apart from that of make plain.
    target = RUST / "target/of_wheel"
    settings = {name: value for name, value in os.environ.items() if name != "CARGO_BUILD_TARGET"}
    try:
        subprocess.run([*command, "--target-dir", str(target)], cwd=RUST, env=settings, check=True, stdout=sys.stderr)
    except subprocess.CalledProcessError as failed:
        raise SystemExit(f"{NAME}: cargo does not build the library (it needs Rust 1.81 or later): {failed}") from None
    return target / "release"


def _what_lacks() -> str:
    """What to do where there is no library."""
    proved = PROVED.get(PLATFORM)
    if not proved:
        lacks = f"none is proved for {PLATFORM}"
    elif UNPACKED:
        lacks = f"this source distribution has no proved one for {PLATFORM}"
    else:
        makes = "`rt lib` in crates/ipnetwork_c" if PLATFORM == "linux-x86_64" else "`make arm64`"
        lacks = f"{proved / ARCHIVE} is not there, which {makes} proves and makes by rt"
    cargo = "there is no cargo, which makes one of plain Rust (Debian: cargo; 1.81 or later)"
    return f"there is no library: {lacks}, and {cargo}"


@functools.lru_cache(None)
def _library() -> pathlib.Path:
    """The library that the package is made of: on Linux the static one, else the shared one."""
    file = ARCHIVE if LINUX else SHARED
    asked, proved = os.environ.get("IPNETWORK_C_LIB"), PROVED.get(PLATFORM)
    if asked:
        library, kind = pathlib.Path(asked) / file, "which IPNETWORK_C_LIB names"
    elif proved and (proved / file).is_file():
        library, kind = proved / file, "proved"
    elif shutil.which("cargo"):
        library, kind = _by_cargo() / file, PLAIN
    else:
        raise SystemExit(f"{NAME}: {_what_lacks()}")
    if not library.is_file():
        raise SystemExit(f"{NAME}: {library} is not there, {kind}")
    _say(f"the library is {library}: {kind}")
    return library


def _about(library: pathlib.Path) -> str:
    """What a wheel says of its library, by the text in that."""
    held = library.read_bytes()
    found = [words for text, words in BUILDS.items() if text in held]
    return found[0] if len(found) == 1 else "ipnetwork.__build__ says how the library in this wheel was made."


def _cc(*arguments: str) -> None:
    try:
        subprocess.run([os.environ.get("CC", "cc"), *arguments], check=True)
    except FileNotFoundError:
        raise SystemExit("there is no cc, which links the library: install a C compiler (Debian: gcc)") from None


def link_shared(folder: pathlib.Path) -> pathlib.Path:
    """The shared library in a folder: on Linux linked from the static one, else that of cargo."""
    shared, library = folder / SHARED, _library()
    if LINUX:
        names = folder / "names.map"
        functions = sorted(set(re.findall(r"\bipnetwork_[a-z0-9_]+(?=\()", (HEADERS / "ipnetwork.h").read_text())))
        names.write_text(f"{{ global: {'; '.join(functions)}; local: *; }};\n")
        whole = ["-Wl,--whole-archive", str(library), "-Wl,--no-whole-archive"]
        _cc(*LINKED, f"-Wl,--version-script={names}", "-Wl,--no-undefined", *whole, "-o", str(shared))
        names.unlink()
    else:
        shutil.copyfile(library, shared)
    return shared


def has_headers() -> bool:
    """Whether an extension of this Python can be compiled."""
    return LINUX and (pathlib.Path(sysconfig.get_paths()["include"]) / "Python.h").is_file()


def compile_native(folder: pathlib.Path) -> pathlib.Path:
    """The extension, compiled into a folder."""
    suffix = ".abi3.so" if STABLE else sysconfig.get_config_var("EXT_SUFFIX")
    native = folder / f"_native{suffix}"
    stable = ["-DPy_LIMITED_API=0x030B0000"] if STABLE else []
    flags = ["-std=c11", "-O2", "-Wall", "-Wextra", "-Werror", "-Wno-cast-function-type", "-fPIC", "-fvisibility=hidden"]
    flags += [*LINKED, "-Wl,--exclude-libs,ALL"]
    paths = [f"-I{sysconfig.get_paths()['include']}", f"-I{HEADERS}", str(HERE / "ipnetwork" / "_native.c")]
    _cc(*flags, *stable, *paths, str(_library()), "-o", str(native))
    return native


def _of_macos() -> str:
    """The platform of the library that cargo builds on macOS: it has one architecture, even where Python has two."""
    major, minor = (int(part) for part in f"{PLATFORM.split('-')[1]}.0".split(".")[:2])
    machine = platform.machine()
    if machine == "arm64":
        major = max(major, 11)  # before, macOS was on no such machine
    return f"macosx_{major}_{0 if major > 10 else minor}_{machine}"


def platform_of(library: pathlib.Path) -> str:
    """The platform in the tag of a wheel: on Linux by the versions of glibc that a library of it asks for (PEP 600)."""
    if PLATFORM.startswith("macosx"):
        return _of_macos()
    here = re.sub(r"[-.]", "_", PLATFORM)
    if not LINUX:
        return here
    try:
        words = [os.environ.get("OBJDUMP", "objdump"), "-p", str(library)]
        needs = subprocess.run(words, check=True, capture_output=True, text=True).stdout
    except FileNotFoundError:
        return here
    if re.search(r"NEEDED +libc\.(?!so\.6)", needs):  # such as that of musl
        return here
    versions = needs.replace("GLIBC_ABI_DT_RELR", "GLIBC_2.36")  # which is not the version of a symbol
    least = max([17, *(int(minor) for minor in re.findall(r"\bGLIBC_2\.(\d+)", versions))])
    return here.replace("linux_", f"manylinux_2_{least}_", 1)


def build_wheel(wheel_directory, config_settings=None, metadata_directory=None):
    """Writes the wheel (PEP 427) into a folder, and gives its file name."""
    version = f"cp{sys.version_info[0]}{sys.version_info[1]}"
    with tempfile.TemporaryDirectory() as folder:
        if has_headers():
            library, least = compile_native(pathlib.Path(folder)), "3.11" if STABLE else "3.9"
            tag = f"{'cp311-abi3' if STABLE else version + '-' + version + 't' * THREADED}-{platform_of(library)}"
        else:
            library, least = link_shared(pathlib.Path(folder)), "3.9"
            tag = f"py3-none-{platform_of(library)}"
        held = library.read_bytes()
    about = f"{NAME}-{VERSION}.dist-info"
    wheel = f"Wheel-Version: 1.0\nGenerator: build_wheel\nRoot-Is-Purelib: false\nTag: {tag}\n"
    files = {
        **{f"ipnetwork/{name}": (HERE / "ipnetwork" / name).read_bytes() for name in MODULES},
        f"ipnetwork/{library.name}": held,
        **{f"{about}/{name}": (TOP / name).read_bytes() for name in LICENSES},
        f"{about}/METADATA": _metadata(_about(_library()), least),
        f"{about}/WHEEL": wheel.encode(),
    }
    rows = []
    for path, content in files.items():
        digest = base64.urlsafe_b64encode(hashlib.sha256(content).digest()).rstrip(b"=").decode()
        rows.append(f"{path},sha256={digest},{len(content)}")
    files[f"{about}/RECORD"] = "\n".join([*rows, f"{about}/RECORD,,", ""]).encode()
    name = f"{NAME}-{VERSION}-{tag}.whl"
    with zipfile.ZipFile(pathlib.Path(wheel_directory) / name, "w", zipfile.ZIP_DEFLATED) as archive:
        for path, content in files.items():
            archive.writestr(zipfile.ZipInfo(path, (1980, 1, 1, 0, 0, 0)), content, zipfile.ZIP_DEFLATED)
    return name


def _proved() -> dict[str, bytes]:
    """The proved libraries that are there, by their names in a source distribution; a line for each says so."""
    held = {}
    for platform, folder in PROVED.items():
        library = folder / ARCHIVE
        if library.is_file():
            held[f"c/{platform.split('-')[1]}/{ARCHIVE}"] = library.read_bytes()
        _say(f"the source distribution has {'the' if library.is_file() else 'no'} proved library for {platform}")
    return held


def _rust() -> dict[str, bytes]:
    """What cargo makes the library of, by the names in a source distribution: a workspace of two packages."""
    packages = ["fosibegan_core", "ipnetwork_c"]
    settings, locked = (RUST / "Cargo.toml").read_text(), (RUST / "Cargo.lock").read_text()
    workspace = '[workspace]\nresolver = "2"\nmembers = ["ipnetwork_c"]\nexclude = ["fosibegan_core", "target"]\n\n'
    head, *blocks = locked.split("[[package]]\n")
    kept = [block.rstrip() for block in blocks if block.split('"')[1] in packages]
    files = {
        "rust/Cargo.toml": (workspace + settings[settings.index("[workspace.lints") :]).encode(),
        "rust/Cargo.lock": (head + "\n\n".join("[[package]]\n" + block for block in kept) + "\n").encode(),
    }
    for package in packages:
        listed = [RUST / package / name for name in ("Cargo.toml", *LICENSES[:2])]
        for file in [*listed, *sorted((RUST / package / "src").rglob("*.rs"))]:
            files[file.relative_to(RUST.parent).as_posix()] = file.read_bytes()
    return files


def build_sdist(sdist_directory, config_settings=None):
    """Writes the source distribution into a folder, and gives its file name."""
    base = f"{NAME}-{VERSION}"
    sources = sorted(file for file in (HERE / "ipnetwork").iterdir() if file.suffix in {".py", ".pyi", ".c", ".h", ".typed"})
    proved = _proved()
    platforms = ", ".join(f"linux-{name.split('/')[1]}" for name in proved) or "no platform"
    files = {
        "PKG-INFO": _metadata(f"It has the proved library for {platforms}. For others cargo builds one of {PLAIN}."),
        **{file.name: file.read_bytes() for file in (HERE / "pyproject.toml", *sorted(HERE.glob("*.py")))},
        **{name: (TOP / name).read_bytes() for name in ("VERSION", *LICENSES)},
        **{f"ipnetwork/{file.name}": file.read_bytes() for file in sources},
        **{f"c/{name}": (HEADERS / name).read_bytes() for name in ("ipnetwork.h", "ranges.h")},
        **proved,
        **_rust(),
    }
    held = io.BytesIO()
    with tarfile.open(fileobj=held, mode="w", format=tarfile.PAX_FORMAT) as archive:
        for path, content in files.items():
            member = tarfile.TarInfo(f"{base}/{path}")
            member.size = len(content)
            archive.addfile(member, io.BytesIO(content))
    # Without the time, so that the same files give the same bytes.
    (pathlib.Path(sdist_directory) / f"{base}.tar.gz").write_bytes(gzip.compress(held.getvalue(), mtime=0))
    return f"{base}.tar.gz"


if __name__ == "__main__":
    if sys.argv[1] == "--sdist":
        print(build_sdist(sys.argv[2]))
    else:
        print((compile_native if has_headers() else link_shared)(pathlib.Path(sys.argv[1])))
