#!/usr/bin/env python3
"""Whether each public function of the library whose contract has a `requires` is hidden in plain Rust, or checks it.

    rust/checks/preconditions.py

Reads the sources in crates/ and what scripts/plain has made of them, and the rows in fosibegan_core/tests/preconditions.rs,
which have to call each function that checks. The status is 1 if a function is neither hidden nor checked, or has no row.
"""

import pathlib
import re
import sys

sys.dont_write_bytecode = True
TOP = pathlib.Path(__file__).resolve().parents[2]
sys.path.insert(0, str(TOP / "scripts"))
from erasing import matching, needs  # noqa: E402

LIBRARY = TOP / "rust/fosibegan_core"
# By which call they ask each value for its network, which checks that it has one.
BY_ANOTHER = {"aggregate_held": "clear_host_bits", "is_address_set": "held_network"}
HEAD = re.compile(r"^(?:pub(?:\([a-z]+\))? )?(?:trait|impl|fn)\b[^\n]*", re.M)


def head_of(text, place):
    """The first line of the item of the root that this place is in."""
    found = HEAD.findall(text[:place])
    return found[-1] if found and text[place:].startswith(" ") else ""


def public(text, place):
    """Whether a function of a source is public, and the trait whose method it is."""
    trait = re.match(r"pub trait (\w+)", head_of(text, place))
    return re.match(r" *pub (?:const )?fn", text[place:]) or trait, trait[1] if trait else None


def bodies(texts, name, trait):
    """What follows the signature of each function of this name, of this trait only if there is one."""
    for text in texts:
        for found in re.finditer(rf"^ *((?:pub(?:\([a-z]+\))? )?)(?:const )?fn {name}\b[^(]*(?=\()", text, re.M):
            head = head_of(text, found.start())
            if trait and not re.search(rf"\b{trait}\b[^:]* for |\btrait (?:Inner)?{trait}\b|\bInner{trait} for ", head):
                continue
            end = matching(text, found.end(), "()")
            brace = re.compile(r"[^{;]*([{;])").match(text, end)
            body = text[brace.end() : matching(text, brace.end() - 1)] if brace[1] == "{" else None
            yield head, found[1], body


def state(written, texts, name, trait):
    """`hidden`, `checked`, or `open`."""
    found = list(bodies(texts if trait else [written], name, trait))
    declared = [head if trait else shown for head, shown, body in found if not trait or body is None]
    if all(each.startswith("pub(crate)") for each in declared) and declared:
        return "hidden"
    by = BY_ANOTHER.get(name)
    checks = re.compile(rf'\s*assert!\(|.*panic!\("{name}: |\s*self\s*}}$' + (rf"|.*\b{by}\b" if by else ""), re.S)
    is_checked = all(checks.match(body) for _, shown, body in found if body is not None and shown != "pub(crate) ")
    return "checked" if is_checked else "open"


def main():
    crates = re.search(r"^fosibegan_core: (.*)", (TOP / "rust.txt").read_text(), re.M)[1].split()
    texts = [file.read_text() for file in sorted(LIBRARY.rglob("src/**/*.rs"))]
    rows = (LIBRARY / "tests/preconditions.rs").read_text()
    count, wrong = {"hidden": 0, "checked": 0, "open": 0}, []
    for crate in crates:
        folder = TOP / "crates" / crate / "src"
        # Laws are statements only: nothing is made of them.
        sources = [file for file in sorted(folder.rglob("*.rt")) if "laws" not in file.relative_to(folder).with_suffix("").parts]
        for file in sources:
            text = file.read_text()
            for place, name in needs(text).items():
                is_public, trait = public(text, place)
                if not is_public:
                    continue
                inside = file.relative_to(folder).with_suffix(".rs")
                path = f"{crate}.rs" if inside.name == "lib.rs" else f"{crate}/{inside}"
                said = state((LIBRARY / "src" / path).read_text(), texts, name, trait)
                count[said] += 1
                where = f"{crate}, {file.stem}: {f'{trait}::' if trait else ''}{name}"
                if said == "open":
                    wrong.append(f"{where} is neither hidden nor checked")
                elif said == "checked" and not re.search(rf"\b{name}\b", rows):
                    wrong.append(f"{where} has no row in {LIBRARY.name}/tests/preconditions.rs")
    print(*wrong, sep="\n", end="\n" if wrong else "")
    print(f"public functions with a `requires`: {count['hidden']} hidden, {count['checked']} checked, {count['open']} open")
    return 1 if wrong else 0


if __name__ == "__main__":
    sys.exit(main())
