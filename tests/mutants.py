"""The mutants of mutants/, which has a table for each crate, for `tests/edits`."""

import pathlib
import re
import sys

ROOT = pathlib.Path(__file__).resolve().parent.parent
TABLES = sorted(ROOT.glob("mutants/*.txt"))
# What refuses a promised one: a clause, a clause and a test, or a test.
BY = re.compile(r"(?:(clause)(?: and (\w+::\w+))?|(\w+::\w+))")


class NotJudged(Exception):
    """An edit that cannot be judged, and why."""


def read(lines, where):
    """The texts that an edit changes, each with its file, and what else it says, by the word before the colon."""
    pairs, said, file, old = [], {}, None, None
    for line in lines:
        key, _, text = line.partition(":")
        text = text.removeprefix(" ")
        if key == "file":
            file = text.strip()
        elif key == "old":
            old = text
        elif key == "new":
            pairs.append((file, old, text))
        elif key in ("refused", "promised", "rows") and text and key not in said:
            said[key] = text
        else:
            sys.exit(f"{where}: no line of an edit: {line}")
    return pairs, said


class Edit:
    """A mutant: the texts that it changes, by file."""

    def __init__(self, crate, name, lines):
        self.crate, self.name, self.place = crate, name, f"mutants/{crate}.txt: {name}"
        self.pairs, said = read(lines, self.place)
        self.refused, self.command = said.get("refused"), said.get("rows")
        self.is_of_the_gate = "promised" in said
        by = BY.fullmatch(self.refused or "") if self.is_of_the_gate else None
        self.is_for_the_prover, self.test = (bool(by[1]), by[2] or by[3]) if by else (True, None)
        self.copy = ROOT / "crates" / crate / "must-fail" / f"{name}.edit"
        self.is_tried_by_rt_ci = self.copy.exists()

    def applied(self, folder):
        """The files of this copy of the crate that it changes, each with its new text."""
        if not self.pairs:
            raise NotJudged("it has no `old:` and `new:`")
        texts = {}
        for file, old, new in self.pairs:
            path = folder / file
            text = texts.get(path) or (path.read_text() if path.is_file() else "")
            if text.count(old) != 1:
                raise NotJudged(f"its `old:` occurs in {file} {text.count(old)} times")
            texts[path] = text.replace(old, new)
        return texts

    def apply(self, folder):
        """Changes the files of this copy of the crate."""
        for path, text in self.applied(folder).items():
            path.write_text(text)

    def functions(self):
        """The functions that it changes, each as its module and its name; None stands for text outside of any."""
        found = set()
        for file, old, _ in self.pairs:
            path = ROOT / "crates" / self.crate / file
            text = path.read_text() if path.is_file() else ""
            name = function_at(text, text.find(old)) if old in text else None
            module = file.removeprefix("src/").removesuffix(".rt").replace("/", "::")
            found.add(("" if module in ("lib", "main") else module, name) if name else None)
        return found

    def paths(self):
        """The functions that it changes, as a check names them: type, with its trait, or else module, and name."""
        found = set()
        for file, old, _ in self.pairs:
            text = (ROOT / "crates" / self.crate / file).read_text()
            module = file.removeprefix("src/").removesuffix(".rt").replace("/", "::")
            of = type_at(text, text.find(old)) or ("" if module in ("lib", "main") else module)
            found.add("::".join(filter(None, [of, function_at(text, text.find(old))])))
        return found

    def has_written_proof(self):
        """Whether a function that it changes has a proof written out."""
        for module, name in self.functions() - {None}:
            folder = ROOT / "crates" / self.crate / "proofs" / module.replace("::", "/")
            if any(it.parent.name == name for it in folder.rglob("*.antt")):
                return True
        return False


CLAUSE = re.compile(r"\b(?:requires|ensures|ghost)\b[^{;]*\{")


def code_and_clauses(text):
    """The code of a file without comments and clauses, and the clauses, each without blanks."""
    text, code, clauses = re.sub(r"//[^\n]*", "", text), [], []
    while found := CLAUSE.search(text):
        end, depth = found.end(), 1
        while depth:
            depth += {"{": 1, "}": -1}.get(text[end], 0)
            end += 1
        code.append(text[: found.start()])
        clauses.append(text[found.start() : end])
        text = text[end:]
    return "".join("".join([*code, text]).split()), "".join("".join(clauses).split())


def edits_in(table):
    """The mutants of a crate's table, in its order."""
    texts = re.sub(r"^(#.*)?\n", "", table.read_text(), flags=re.M)
    head, *parts = re.split(r"^== (\w+)\n", texts, flags=re.M)
    if head:
        sys.exit(f"mutants/{table.name}: before the first `== NAME`: {head.splitlines()[0]}")
    for name, text in zip(parts[::2], parts[1::2]):
        yield Edit(table.stem, name, text.splitlines())


EDITS = [edit for table in TABLES for edit in edits_in(table)]


def functions():
    """The names of all functions, of their cycles, and of the tests of the crates."""
    files = [*ROOT.glob("crates/*/src/**/*.rt"), *ROOT.glob("crates/*/tests.rt.txt"), *ROOT.glob("crates/*/tests/*.rt.txt")]
    return {name for file in files for name in re.findall(r"\b(?:fn |cycle\()(\w+)", file.read_text())}


def table_faults():
    """What the tables and crates/*/must-fail/ do not say alike, and edits that cannot be made."""
    names, known = [(it.crate, it.name) for it in EDITS], functions()
    for edit in EDITS:
        place = edit.place
        if names.count((edit.crate, edit.name)) > 1:
            yield f"{place}: a second one of this name"
        try:
            files = edit.applied(ROOT / "crates" / edit.crate)
        except NotJudged as why:
            yield f"{place}: {why}"
            continue
        for path in re.findall(r"\w+(?:::[\w+]+)+", edit.refused or ""):
            if path.rpartition("::")[2].lstrip("+") not in known:
                yield f"{place}: no function or test {path} refuses it"
        if not edit.is_of_the_gate:
            continue
        if not BY.fullmatch(edit.refused or ""):
            yield f"{place}: a promised one is refused by `clause`, `clause and TEST` or `TEST`"
        if any(not (file.startswith("src/") and file.endswith(".rt")) for file, _, _ in edit.pairs):
            yield f"{place}: it changes a file that is no code"
        if edit.is_tried_by_rt_ci and edit.is_for_the_prover and edit.has_written_proof() and not edit.test:
            yield f"{place}: rt ci does not say if only a step of a written proof refuses it, and it names no test"
        changed = [(code_and_clauses(path.read_text()), code_and_clauses(text)) for path, text in files.items()]
        if any(before[1] != after[1] for before, after in changed):
            yield f"{place}: it changes a clause"
        if all(before[0] == after[0] for before, after in changed):
            yield f"{place}: it changes no code"
    promised = {it.copy: it.pairs for it in EDITS if it.is_of_the_gate}
    for copy in sorted(ROOT.glob("crates/*/must-fail/*")):
        if promised.get(copy) != read(copy.read_text().splitlines(), copy.relative_to(ROOT))[0]:
            yield f"{copy.relative_to(ROOT)}: no promised one of mutants/ has its name and its edit"


def function_at(text, at):
    """The name of the function whose text is at this place, if there is one."""
    head = r"^( *)(?:pub(?:\(\w+\))? )?(?:extern \"C\" )?fn (\w+)"
    heads = list(re.finditer(head, text[: text.find("\n", at)], re.M))
    if not heads or re.search(rf"^{heads[-1][1]}}}", text[heads[-1].start() : at], re.M):
        return None
    return heads[-1][2]


def type_at(text, at):
    """The type whose impl, or the trait whose text, is at this place, if there is one: of an impl of a trait, both."""
    head = r"^(?:(?:pub(?:\(\w+\))? )?trait (\w+)|impl(?:<[^{;]*?>)? (?:(?:\w+::)*(\w+)(?:<[^{;]*?>)? for )?&?(\w+))"
    heads = list(re.finditer(head, text[: text.find("\n", at)], re.M))
    if not heads or re.search(r"^}", text[heads[-1].start() : at], re.M):
        return None
    trait, of_type = heads[-1][2] or "", heads[-1][1] or heads[-1][3]
    return of_type + trait


def crates_below():
    """The crates of the repository, each with those that it names in crates.txt."""
    lines = [re.sub(r"#.*", "", it) for it in (ROOT / "crates.txt").read_text().splitlines()]
    named = {it.split(":")[0].split()[0]: it.split(":")[1].split() for it in lines if ":" in it}
    return {crate: [it for it in below if it in named] for crate, below in named.items()}


def crates_above(crate):
    """The crates with tests that depend on this one, those with the least to compile first."""
    below = crates_below()
    above = [it for it, named in below.items() if crate in named and has_tests(it)]
    return sorted(above, key=lambda it: sum(lines_of(other) for other in [it, *below[it]]))


def sources(crate):
    return [it.read_text() for it in (ROOT / "crates" / crate / "src").rglob("*.rt")]


def lines_of(crate):
    return sum(it.count("\n") for it in sources(crate))


def has_tests(crate):
    return (ROOT / "crates" / crate / "tests.rt.txt").exists()
