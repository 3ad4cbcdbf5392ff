"""What is linked into each file of a release, with its licence texts: scripts/dist puts it into archives and wheels, and
scripts/deb into the file `copyright`. A row is one of scripts/sbom.py: name, version, licence, what it is."""

import pathlib
import re
import shutil
import tarfile
import tempfile
import zipfile

import packing
from packing import TOP, run

# The text of each licence, by its name in SPDX.
TEXTS = {
    "Apache-2.0": "LICENSE-APACHE",
    "MIT": "LICENSES/MIT.txt",
    "Unicode-3.0": "LICENSES/Unicode-3.0.txt",
    "LLVM-exception": "LICENSES/LLVM-exception.txt",
    "LGPL-2.1-or-later": "LICENSES/LGPL-2.1.txt",
    "GPL-3.0-or-later": "LICENSES/GPL-3.txt",
    "GCC-exception-3.1": "LICENSES/GCC-exception-3.1.txt",
}
# Notices that are also to be given.
NOTICES = {"compiler_builtins": ["LICENSES/libm.txt"]}
OWN = ["LICENSE-MIT", "LICENSE-APACHE", "NOTICE"]
LINKED = "LICENSES/LINKED.txt"
# Where Debian has the notices of the parts of glibc.
OF_GLIBC = ["/usr/share/doc/libc6-dev/copyright", "/usr/share/doc/libc6/copyright"]
# The crates inside Rust's standard library. The first are of the same sources as std.
OF_RUST = {"std", "core", "alloc", "panic_abort", "panic_unwind", "std_detect", "unwind"}
EITHER = "MIT OR Apache-2.0"
INSIDE = {
    "addr2line": EITHER,
    "adler": "0BSD OR MIT OR Apache-2.0",
    "adler2": "0BSD OR MIT OR Apache-2.0",
    "cfg_if": EITHER,
    "compiler_builtins": "MIT AND Apache-2.0 WITH LLVM-exception AND (MIT OR Apache-2.0)",
    "gimli": EITHER,
    "hashbrown": EITHER,
    "libc": EITHER,
    "memchr": "Unlicense OR MIT",
    "miniz_oxide": "MIT OR Zlib OR Apache-2.0",
    "object": EITHER,
    "rustc_demangle": EITHER,
}
# What is in the same folder, and is for tests, macros and measuring.
NOT_LINKED = {"getopts", "proc_macro", "profiler_builtins", "rustc_literal_escaper", "sysroot", "test", "unicode_width",
              "rustc_std_workspace_alloc", "rustc_std_workspace_core", "rustc_std_workspace_std"}


def texts_of(row):
    """The files with the licence of a row. Of several licences at choice, it is Apache-2.0 or else MIT."""
    name, _, licence, _ = row
    found = []
    for part in [] if licence == "NOASSERTION" else licence.split(" AND "):
        choices = part.strip("()").split(" OR ")
        chosen = next((each for each in ["Apache-2.0", "MIT"] if each in choices), choices[0])
        unknown = [word for word in chosen.split(" WITH ") if word not in TEXTS]
        if unknown:
            raise SystemExit(f"scripts/licences.py has no text of {unknown[0]}, the licence of {name}")
        found += [TEXTS[word] for word in chosen.split(" WITH ")]
    return list(dict.fromkeys([*found, *NOTICES.get(name, [])]))


def inside_std(rustc, target, libraries=None):
    """The rows of Rust's standard library and of the crates inside it, as this rustc has them. One without a licence
    above ends the run."""
    version = run([rustc, "--version"])
    folder = pathlib.Path(libraries or run([rustc, "--print", "target-libdir", "--target", target]))
    rows = [("rust-std", version, "(MIT OR Apache-2.0) AND Unicode-3.0", "the standard library of Rust")]
    for file in sorted(folder.glob("lib*.rlib")):
        name = re.fullmatch(r"lib(\w+?)(?:-\w+)?", file.stem)[1]
        if name in OF_RUST | NOT_LINKED:
            continue
        if name not in INSIDE:
            raise SystemExit(f"scripts/licences.py has no licence of the crate {name} in the standard library of {version}")
        word = name.replace("_", "[_-]").encode()
        known = re.search(rb"/(?:deps|vendor)/" + word + rb"-(\d+\.\d+\.\d+)", file.read_bytes())
        rows.append((name, known[1].decode() if known else f"that of {version}", INSIDE[name], "a crate inside the standard library of Rust"))
    if len(rows) == 1:
        raise SystemExit(f"scripts/licences.py: {folder} has no libraries of Rust")
    return rows


def listed(rows):
    """What LINKED says: each row with its licence and the files that have its text."""
    lines = ["What is linked in here. Of Fosibegan itself the licence is MIT or Apache-2.0 (LICENSE-MIT, LICENSE-APACHE, NOTICE).",
             "A file may have only a part of what is listed."]
    for row in sorted(set(rows)):
        name, version, licence, about = row
        lines += ["", f"{name} {version}", f"  {about}", f"  licence: {licence}"]
        texts = texts_of(row)
        lines.append(f"  text: {', '.join(texts)}" if texts else "  text: none: the kit states no licence for it; ask who publishes the kit")
    glibc = [row for row in rows if row[0] == "glibc"]
    if glibc:
        package = re.search(r"package ([\w.+-]+)", glibc[0][3])[1]
        lines += ["", "Programs that have glibc in them can be linked with another version of it, as its licence asks:",
                  "  a proved program: cc -static objects/PROGRAM.o -o PROGRAM; the archive has the folder objects",
                  "  one of plain Rust: RUSTFLAGS='-C target-feature=+crt-static' scripts/build_plain PROGRAM, in the sources",
                  f"Its own sources: apt-get source {package}={glibc[0][1]}. Who passes these programs on has to offer them, too."]
    return "\n".join(lines) + "\n"


def files_of(rows):
    """What goes with files that are linked of these rows: for each name its content."""
    names = {name for row in rows for name in texts_of(row)} | set(OWN)
    held = {name: (TOP / name).read_bytes() for name in sorted(names)}
    notices = next((file for file in map(pathlib.Path, OF_GLIBC) if file.is_file()), None)
    if notices and any(row[0] == "glibc" for row in rows):
        held["LICENSES/glibc.txt"] = notices.read_bytes()
    return held | {LINKED: listed(rows).encode()}


def put(folder, rows):
    """Writes them into a folder."""
    for name, content in files_of(rows).items():
        (folder / name).parent.mkdir(exist_ok=True)
        (folder / name).write_bytes(content)


def put_into_wheel(wheel, rows):
    """Writes them into a wheel, among what it says of itself, and into its list of files."""
    with zipfile.ZipFile(wheel) as archive:
        held = {name: archive.read(name) for name in archive.namelist()}
    about = next(name.split("/")[0] for name in held if name.endswith(".dist-info/RECORD"))
    record = held.pop(f"{about}/RECORD").decode()
    for name, content in files_of(rows).items():
        name = f"{about}/{name}"
        if name not in held:
            held[name] = content
            record = packing.recorded(name, content) + record
    fresh = wheel.with_suffix(".tmp")
    with zipfile.ZipFile(fresh, "w", zipfile.ZIP_DEFLATED) as archive:
        for name, content in {**held, f"{about}/RECORD": record.encode()}.items():
            archive.writestr(zipfile.ZipInfo(name, (1980, 1, 1, 0, 0, 0)), content, zipfile.ZIP_DEFLATED)
    shutil.move(fresh, wheel)


def put_into_archive(file, rows):
    """Writes them into an archive that has one folder."""
    with tempfile.TemporaryDirectory() as place, tarfile.open(file) as archive:
        archive.extractall(place)
        folder = next(pathlib.Path(place).iterdir())
        put(folder, rows)
        packing.pack(folder, folder.name, file, tarfile.PAX_FORMAT)


def copyright_of(rows):
    """The file `copyright` of a package of Debian, which has some of the texts in /usr/share/common-licenses."""
    common = {"LICENSE-APACHE": "Apache-2.0", "LICENSES/LGPL-2.1.txt": "LGPL-2.1", "LICENSES/GPL-3.txt": "GPL-3"}
    parts = ["The licence is MIT or Apache-2.0, at your choice."]
    held = files_of(rows)
    for name, content in {LINKED: held.pop(LINKED), **held}.items():
        where = f"it is /usr/share/common-licenses/{common[name]}\n" if name in common else content.decode()
        parts.append(f"{name}:\n\n{where}")
    return "\n\n".join(parts)
