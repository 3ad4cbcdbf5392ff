"""A list of what is linked into files that are released, as SPDX 2.3 in JSON. scripts/dist writes it."""

import datetime
import json
import pathlib
import re
import shutil
import subprocess
import uuid

from packing import TOP, digest, moment, run

VERSION = (TOP / "VERSION").read_text().strip()
OWN = ("fosibegan", VERSION, "MIT OR Apache-2.0", "the sources of this repository")
PORTS = {"arrayvec": "MIT OR Apache-2.0", "serde_json": "MIT OR Apache-2.0", "serde": "MIT OR Apache-2.0", "ryu": "Apache-2.0 OR BSL-1.0"}


def version_of(package):
    """The version of a package of Debian that is installed here."""
    words = ["dpkg-query", "--show", "--showformat=${Version}", package]
    try:
        return subprocess.run(words, capture_output=True, text=True).stdout.strip() or "of an unknown version"
    except FileNotFoundError:
        return "of an unknown version"


def glibc(machine):
    package = "libc6-dev-arm64-cross" if machine.tools else "libc6-dev"
    return "glibc", version_of(package), "LGPL-2.1-or-later", f"libc.a of Debian's package {package}, in the programs"


def libgcc(machine):
    version = run([machine.tool("gcc"), "-dumpfullversion"])
    return "libgcc", version, "GPL-3.0-or-later WITH GCC-exception-3.1", "what the C compiler links of its own library"


def kit():
    """The parts of the kit that are linked in: its own, of which it states no licence, and its ports of crates of Rust."""
    found = shutil.which("rt")
    version = run(["rt", "version"]) if found else "of an unknown version"
    rows = [("rattle-kit", version, "NOASSERTION", "the standard library of the Rattle kit and its functions of C")]
    for name, licence in PORTS.items():
        about = pathlib.Path(found or "/rt").resolve().parent.parent / "rattle" / name / "README.md"
        known = re.search(rf"`{name}` (\d+\.\d+\.\d+)", about.read_text()) if about.is_file() else None
        rows.append((name, known[1] if known else "of an unknown version", licence, "the kit's port of this crate of Rust"))
    return rows


def host():
    return "fosibegan-host", VERSION, "MIT OR Apache-2.0", "bindings/arm64/host.c, in the place of the kit's functions of C"


def spdx_of(row):
    """A row (name, version, licence, what it is) as a package of SPDX."""
    name, version, licence, about = row
    return {
        "SPDXID": identity("Package", f"{name}-{version}"),
        "name": name,
        "versionInfo": version,
        "downloadLocation": "NOASSERTION",
        "filesAnalyzed": False,
        "licenseConcluded": licence,
        "licenseDeclared": licence,
        "copyrightText": "NOASSERTION",
        "comment": about,
    }


def identity(kind, name):
    return f"SPDXRef-{kind}-{re.sub(r'[^A-Za-z0-9.]+', '-', name).strip('-')}"


def relation(one, kind, other):
    return {"spdxElementId": one, "relationshipType": kind, "relatedSpdxElement": other}


def write(folder, commit, linked, to):
    """Writes the list: `linked` has for each file of the folder the rows of what is linked into it."""
    rows = sorted({row for parts in linked.values() for row in parts} | {OWN})
    relations = [relation("SPDXRef-DOCUMENT", "DESCRIBES", spdx_of(OWN)["SPDXID"])]
    files = []
    for name in sorted(linked):
        file = folder / name
        files.append({
            "SPDXID": identity("File", name),
            "fileName": f"./{name}",
            "checksums": [{"algorithm": kind.upper(), "checksumValue": digest(file, kind)} for kind in ["sha1", "sha256"]],
            "licenseConcluded": "NOASSERTION",
            "copyrightText": "NOASSERTION",
        })
        relations.append(relation(identity("File", name), "GENERATED_FROM", spdx_of(OWN)["SPDXID"]))
        relations += [relation(identity("File", name), "STATIC_LINK", spdx_of(row)["SPDXID"]) for row in sorted(set(linked[name]))]
    created = datetime.datetime.fromtimestamp(moment(), datetime.timezone.utc)
    held = json.dumps(files, sort_keys=True)
    document = {
        "spdxVersion": "SPDX-2.3",
        "dataLicense": "CC0-1.0",
        "SPDXID": "SPDXRef-DOCUMENT",
        "name": f"fosibegan-{VERSION}",
        "documentNamespace": f"urn:uuid:{uuid.uuid5(uuid.NAMESPACE_OID, commit + held)}",
        "creationInfo": {"created": created.strftime("%Y-%m-%dT%H:%M:%SZ"), "creators": ["Tool: fosibegan-scripts-dist"]},
        "comment": f"Of commit {commit}. STATIC_LINK: the file has machine code of the package in it.",
        "packages": [spdx_of(row) for row in rows],
        "files": files,
        "relationships": relations,
    }
    to.write_text(json.dumps(document, indent=1) + "\n")
