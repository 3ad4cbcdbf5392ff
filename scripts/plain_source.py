"""Sends a source from its crate to a module of a package, for `scripts/plain`: paths, what is in scope, examples."""

import collections
import re

from erasing import WIDTH, Refused, code_sub, leftover, matching, tokens

# Modules of Rust's std as they are, which are in core too, and one that is not.
CORE = {"cell", "cmp", "error", "fmt", "hash", "marker", "mem", "net", "num", "ops", "str"}
REAL = {"process"}
# Kinds of errors that only unstable Rust names, or Rust from 1.87 on.
UNSTABLE = re.compile(r"^ *ErrorKind::(?:FilesystemLoop|InProgress|InvalidFilename|Uncategorized),\n", re.M)
# What a constant says of the build, and what is so of this one.
BUILD = re.compile(r'^((?:pub\(crate\) )?const \w+: &str = ".*) \(proved\)(?=(?:\\n)?";$)', re.M)
# Casts that cut a number of 64 bits to the 32 of a smaller usize, which no proof covers: there it is the greatest usize.
CUT = re.compile(r"\((self\.saturating_sub\(base\) >> shift)\) as usize;|(most_in\(.*\)\.unwrap_or\(1\)) as usize$", re.M)
# What a source has in scope by itself, and where the stand-in has it.
IN_SCOPE = {
    r"\bVec\b": "vec::Vec",
    r"\bString\b": "string::String",
    r"\bHostRuntime\b": "rt::HostRuntime",
    r"\bAlloc\b": "rt::Alloc",
    r"\.kit_to_string\(": "string::ToString",
    r"\.kit_clone\(": "KitClone",
    r"\.kit_(?:to_vec|repeat)\(": "vec::ToVec",
    r"\.kit_(?:concat|join)\(": "vec::Concat",
    r"\bValue::(?:try_from_str|from_slice|from_str)\(": "serde_json::OfKit",
    r"\bvec!\[in ": "vec",
    r"\bformat!\(in ": "format",
    r"\bprint!\(": "print",
    r"\bprintln!\(": "println",
}
IN_TESTS = {
    r"\bassert!\(": "assert",
    r"\bassert_eq!\(": "assert_eq",
    r"\bassert_ne!\(": "assert_ne",
}


# What a caller from another package has to see to, by the function of the library: the check that is written for it, or none
# where the body refuses by itself; why it panics; and the type whose function the library itself calls without the check,
# where that takes long. What has a `requires` and is not here, no other package can call.
LENGTHS = ("answers.len() == addrs.len()", "there are not as many answers as addresses")
PREFIX = "the prefix length is greater than `WIDTH`"
HELD = "a value holds no network of the family"
PLACE = ("from <= text.len()", "the place is past the end of the text")
NO_SET = "a list is not an address set"
SETS = "H::CHECKED || [first, {}].into_iter().all(super::check::is_address_set::<N, H>)"
CHECKS = {
    "byte_search::byte_search::find_from": PLACE,
    "byte_search::byte_search::find_far": PLACE,
    "ipnetwork_addr::decimal::push_decimal": ("N - text.len() >= 3", "there is no room for three digits"),
    "ipnetwork_addr::decimal::push_number": ("N - text.len() >= 39", "there is no room for 39 digits"),
    "ipnetwork_family::address::mask": ("prefix <= Self::WIDTH", PREFIX),
    "ipnetwork_family::address::greatest": ("prefix <= Self::WIDTH", PREFIX),
    "ipnetwork_blocks::address_space::block_at": (None, PREFIX),
    "ipnetwork_blocks::held_network::held_network": (None, "the value holds no network of the family"),
    "ipnetwork_blocks::aggregate::aggregate_held": (None, HELD),
    "ipnetwork_sets::check::is_address_set": (None, HELD),
    "ipnetwork_sets::common::of": (SETS.format("second"), NO_SET, "Intersection"),
    "ipnetwork_sets::difference::of": (SETS.format("cut"), NO_SET, "Difference"),
    "ipnetwork_sets::union::of": (SETS.format("second"), NO_SET, "Union"),
    "ipnetwork_index::address_index::contains_each": LENGTHS,
    "ipnetwork_index::route_index::lookup_each": LENGTHS,
}

# What the library for C says of its structs: it has asked `is_address_set` of its lists, which takes as long as a union.
TRUSTED = """    /// Whether each list of such values that `Union::of` and its like are given is known to be an
    /// address set, by `is_address_set`, so that they do not ask again. A type that says so has to
    /// see to it.
    const CHECKED: bool = false;

"""
HOLDERS = [
    (re.compile(r"^(pub trait HoldsNetwork<.*\{\n)", re.M), rf"\1{TRUSTED}"),
    (re.compile(r"^(impl HoldsNetwork<\w+> for \w+InC \{\n)", re.M), r"\1    const CHECKED: bool = true;\n\n"),
]

# By crate, the types that get a `Clone` by derive, which the sources have no use for: each field of theirs has one.
CLONES = {
    "ipnetwork_sets": {
        "AddressSet", "AddressSlice", "Blocks", "Ranges", "Intersection", "Difference", "Union",
    },
    "ipnetwork_table": {"PrefixTable", "Values"},
    "ipnetwork_index": {"AddressIndex", "RouteIndex", "Partition", "Places", "LowHalves", "Ranges", "Answers"},
}

# By crate, the modules whose functions are short: what another package calls of them it gets without a call, even if it is
# not optimised as a whole.
INLINED = {
    "ipnetwork_addr": {"ipv4", "ipv6", "ipv6_order", "segments"},
    "ipnetwork_family": {"ipv4", "ipv6"},
    "ipnetwork_index": {"indexed_network"},
}

# The lines of `rust.txt` that are of no package.
KEYS = {"stand_in", "optional", "instead", "left_out"}


class Layout:
    """What `rust.txt` and `crates.txt` say."""

    def __init__(self, listing, crates):
        lines = re.findall(r"^(\w+):(.*)$", listing, re.M)
        self.packages = {package: words.split() for package, words in lines if package not in KEYS}
        said = {key: words.split() for key, words in lines}
        self.stand_in, *self.replaced = said["stand_in"]
        self.optional = dict(zip(said["optional"][::2], said["optional"][1::2]))
        package, crate, module = said["instead"]
        self.instead = {(package, crate): module}
        self.left_out = set(said["left_out"])
        self.package_of = {crate: package for package, names in self.packages.items() for crate in names}
        listing = re.findall(r"^(\w+)( staticlib)?:(.*)$", crates, re.M)
        self.below = {crate: words.split() for crate, _, words in listing}
        self.static = {crate for crate, kind, _ in listing if kind}

    def is_package(self, crate):
        """Whether a crate is its package's root."""
        return self.package_of[crate] == crate

    def place(self, crate, package):
        """The path of a crate, seen from a package."""
        own = self.package_of[crate]
        first = ["crate"] if own == package else [own]
        return first if own == crate else [*first, crate]

    def is_without_std(self, package):
        """Whether a package needs no std: the one with the stand-in, and a static library."""
        return package == self.stand_in.split("::")[0] or package in self.static

    def stand_in_from(self, package):
        own, *rest = self.stand_in.split("::")
        return ["crate" if own == package else own, *rest]

    def mapped(self, path, crate, package):
        """A path of a source of `crate`, seen from `package`."""
        head, rest = path[0], path[1:]
        if head == "crate":
            return [*self.place(crate, package), *rest]
        if head in self.below[crate] or head == crate:
            if head in self.replaced:
                return [*self.stand_in_from(package), self.instead.get((package, head), head), *rest]
            return [*self.place(head, package), *rest]
        if head == "std":
            if rest and rest[0] in CORE | REAL:
                return ["core" if self.is_without_std(package) else "std", *rest]
            return [*self.stand_in_from(package), *rest]
        return path


def uncut(found):
    """A number as a usize, if that has room for it."""
    end = ";" if found[1] else ""
    return f"usize::try_from({found[1] or found[2]}).unwrap_or(usize::MAX){end}"


# Paths


def use_paths(tree):
    """The paths that the tree of a `use` names, each as its words, with the name that it gets or None."""
    words = [token for kind, token, _ in tokens(tree) if kind not in ("space", "comment")]
    found = []

    def walk(at, before):
        path = list(before)
        while at < len(words):
            if words[at] == "{":
                at += 1
                while words[at] != "}":
                    at = walk(at, path)
                    at += words[at] == ","
                return at + 1
            if words[at] in (",", "}"):
                break
            if words[at] == "as":
                found.append((path, words[at + 1]))
                return at + 2
            if words[at] != "::":
                path.append(words[at])
            at += 1
        found.append((path, None))
        return at

    walk(0, [])
    return found


def use_lines(head, paths, indent):
    """`use` items of these paths, in as few lines as fit."""
    by_parent = collections.OrderedDict()
    for path, alias in paths:
        by_parent.setdefault("::".join(path[:-1]), []).append(path[-1] + (f" as {alias}" if alias else ""))
    lines = []
    for parent, names in by_parent.items():
        lead = f"{parent}::" if parent else ""
        names = sorted(dict.fromkeys(names), key=lambda name: name != "self")
        if names == ["self"]:
            lines.append(f"{indent}{head}use {parent};")
        elif len(names) == 1:
            lines.append(f"{indent}{head}use {lead}{names[0]};")
        elif len(line := f"{indent}{head}use {lead}{{{', '.join(names)}}};") <= WIDTH:
            lines.append(line)
        else:
            lines.append(f"{indent}{head}use {lead}{{")
            row = ""
            for name in names:
                if len(indent) + 6 + len(row) + len(name) > WIDTH:
                    lines.append(f"{indent}    {row.rstrip()}")
                    row = ""
                row += f"{name}, "
            lines += [f"{indent}    {row.rstrip()}", f"{indent}}};"]
    return "\n".join(lines)


EXAMPLE = re.compile(r"(?:^[ \t]*///\n)?^[ \t]*/// ```\n(?:[ \t]*///[^\n]*\n)*?[ \t]*/// ```\n", re.M)
USE = re.compile(r"^([ \t]*)((?:#\[[^\]]*\]\s*)*)(pub(?:\([^)]*\))? )?use ([^;]*);[^\n]*\n", re.M)


class Source:
    """A source of a crate, on its way to Rust."""

    def __init__(self, book, crate, file, text, package):
        self.book, self.layout, self.crate, self.file, self.package = book, book.layout, crate, file, package
        self.text = text
        self.dropped = set()

    def mapped(self, path):
        return self.layout.mapped(path, self.crate, self.package)

    def uses(self):
        """Sends the paths of each `use` to where they are; laws go, and what is optional or private is named apart."""

        def new(found):
            indent, attributes, visibility, tree = found[1], found[2], found[3] or "", found[4]
            by_head = collections.OrderedDict()
            for path, alias in use_paths(tree):
                if self.layout.left_out & set(path):
                    self.dropped.add(alias or path[-1])
                    continue
                if path[:2] == ["std", "marker"] and path[-1] == "Model":
                    continue
                name = path[-1]
                shown, gate = visibility, self.book.gate_of(name, self.package)
                if visibility == "pub " and name in self.book.private[self.package]:
                    shown = "pub(crate) "
                head = (f'#[cfg(feature = "{gate}")]\n{indent}' if gate and path[0] not in self.layout.optional else "") + shown
                by_head.setdefault(head, []).append((self.mapped(path), alias))
            lines = [use_lines(head, paths, indent) for head, paths in by_head.items()]
            return "".join(f"{indent}{attributes}{line[len(indent):]}\n" for line in lines)

        self.text = USE.sub(new, self.text)

    def laws(self):
        """Statements that call a law are no code."""
        if not self.layout.left_out:
            return
        names = "|".join(sorted(self.dropped | self.layout.left_out))
        call = rf"^[ \t]*(?:\w+::)*(?:{names})(?:::\w+)*(?:::<[^;]*>)?\((?:[^;()]|\([^;()]*\))*\);\n"
        self.text = re.sub(call, "", self.text, flags=re.M)
        for kind, token, place in tokens(self.text):
            if kind == "word" and token in self.dropped | self.layout.left_out:
                raise Refused(f"a law is more than called: {self.text[place:place + 60]!r}")

    def modules(self):
        """Modules of laws go, and those of what is optional are named as such."""

        def new(found):
            name = found[2]
            if name in self.layout.left_out:
                return ""
            gate = self.book.gate_of_module(self.file, name, self.package)
            return (f'#[cfg(feature = "{gate}")]\n' if gate else "") + found[0]

        self.text = re.sub(r"^((?:pub(?:\([^)]*\))? )?mod (\w+);\n)", new, self.text, flags=re.M)

    def paths(self):
        """Sends the paths that are in the code, outside of `use`, to where they are."""
        heads = {"std", "crate", self.crate, *self.layout.below[self.crate]}
        path = re.compile(rf"({'|'.join(sorted(heads))})::(\w+)")
        parts, at = [], 0
        for found in [*USE.finditer(self.text), None]:
            end = found.start() if found else len(self.text)
            parts.append(self.with_paths(self.text[at:end], path))
            if found:
                parts.append(found[0])
                at = found.end()
        own = "::".join(self.mapped(["crate"]))
        # The links of comments too.
        self.text = "".join(parts).replace("](crate::", f"]({own}::")

    def with_paths(self, text, path):
        """A piece of code with its paths where they are."""
        if not path.search(text):
            return text
        out, before, skip_to = [], "", -1
        for kind, token, place in tokens(text):
            if place < skip_to:
                continue
            found = path.match(text, place) if kind == "word" and before != "::" else None
            if found:
                out.append("::".join(self.mapped([found[1], found[2]])))
                before, skip_to = found[2], found.end()
                continue
            out.append(token)
            if kind not in ("space", "comment"):
                before = token
        return "".join(out)

    def hidden(self):
        """What has a `requires` is no public call, or one that checks it."""
        for place, name in sorted(self.book.needs[self.file].items(), reverse=True):
            if check := self.book.check_of(self.file, name):
                self.checked(name, *check)
                continue
            found = re.search(rf"^([ \t]*)pub ((?:const )?fn {name}\b)", self.text, re.M)
            if not found:
                continue
            lead = self.without_example(found.start())
            shown = "pub(crate)" if name in self.book.private[self.package] else f"#[doc(hidden)]\n{found[1]}pub"
            self.text = f"{lead}{found[1]}{shown} {found[2]}{self.text[found.end():]}"
        for head, new in HOLDERS:
            self.text = head.sub(new, self.text)
        if self.package == self.book.library:
            for (file, trait), names in self.book.methods.items():
                checks = {name: check for name in names if (check := self.book.check_of(file, name))}
                if file != self.file and re.search(rf"^impl\b.*\b{trait} for ", self.text, re.M):
                    for name, check in checks.items():
                        self.checked(name, *check)
                if not self.book.is_public and (inner := [name for name in names if name not in checks]):
                    self.split(file, trait, inner)
            for twin in {check[2]: None for check in CHECKS.values() if check[2:]}:
                self.text = re.sub(rf"\b{twin}::of\(", f"{twin}::of_sets(", self.text)

    def checked(self, name, check, why, twin=None):
        """Writes the check into each body of a function, and into its comment that it panics."""
        said = f'"{f"{twin}::" if twin else ""}{name}: {why}"'
        for found in reversed(list(re.finditer(rf"^([ \t]*)(?:pub )?fn {name}\b[^(]*(?=\()", self.text, re.M))):
            end = matching(self.text, found.end(), "()")
            brace = re.compile(r"[^{;]*([{;])").match(self.text, end)
            text, inside = self.text[brace.end() :], f"\n{found[1]}    "
            if brace[1] == "{" and check:
                line = f"assert!({check}, {said});"
                if len(inside) + len(line) > WIDTH:
                    line = f"assert!({inside}    {check},{inside}    {said}{inside});"
                text = inside + line + text
            elif brace[1] == "{":
                close = matching(self.text, brace.end() - 1) - brace.end()
                text = text[:close].replace("unreachable!()", f"panic!({said})") + text[close:]
            if twin:
                given = re.findall(r"(\w+):", self.text[found.end() : end])
                text = f"{inside}{line}{inside}Self::of_sets({', '.join(given)})\n{found[1]}}}\n\n"
                text += f"{found[1]}/// `of`, without the check.\n{found[1]}pub(crate) fn of_sets"
                text += self.text[found.end() : brace.end()] + self.text[brace.end() :]
            self.text = self.text[: brace.end()] + text
            lead, comment, rest = self.with_comment(found.start())
            if comment:
                comment += f"{found[1]}///\n{found[1]}/// # Panics\n{found[1]}///\n{found[1]}/// Panics if {why}.\n"
            self.text = lead + comment + rest

    def with_comment(self, at):
        """The text before the comment of the item at this place, the comment, and the text from its attributes on."""
        lead = re.search(r"((?:^[ \t]*///[^\n]*\n)*)((?:^[ \t]*#\[[^\n]*\n)*)\Z", self.text[:at], re.M)
        return self.text[: lead.start()], lead[1], self.text[lead.start(2) :]

    def split(self, file, trait, names):
        """Moves methods of a public trait into one that no other package sees, and that the public one depends on."""
        head = re.compile(rf"^(?:pub )?(trait|impl)\b([^\n]*?)\b{trait}\b([^\n{{]*)\{{\n", re.M)
        for found in reversed(list(head.finditer(self.text))):
            if not (found[3].startswith(" for ") if found[1] == "impl" else found[2] == " "):
                continue
            end, moved = matching(self.text, found.end() - 2), ""
            for name in names:
                method = re.compile(rf"^    fn {name}\b[^(]*(?=\()", re.M).search(self.text, found.end(), end)
                close = re.compile(r"[^{;]*([{;])").match(self.text, matching(self.text, method.end(), "()"))
                close = matching(self.text, close.end() - 1) if close[1] == "{" else close.end()
                lead, comment, rest = self.with_comment(method.start())
                made = rest[: close - len(lead) - len(comment)]
                moved += f"\n{EXAMPLE.sub('', comment)}{made}\n"
                self.text = lead + self.text[close:].lstrip("\n")
                end = matching(self.text, found.end() - 2)
            path = "" if file == self.file else f"crate::{file.stem}::"
            inner = f"{found[1]}{found[2]}{path}Inner{trait}{found[3]}{{{moved}}}\n"
            whole, after = self.text[found.start() : end], self.text[end:].strip("\n")
            if found[1] == "trait":
                inner = f"/// What `{trait}` has for the library alone: nothing checks what it needs.\npub(crate) {inner}"
                whole = whole.replace(" {\n", f" + Inner{trait} {{\n", 1)
                whole = f"#[allow(private_bounds)]\n{whole}"
            self.text = f"{self.text[: found.start()]}{whole}\n\n{inner}\n{after}\n"

    def without_example(self, end):
        """The text up to this place, its last comment without examples: no test can call what is not public."""
        lead, comment, rest = self.with_comment(end)
        return lead + EXAMPLE.sub("", comment) + rest[: end - len(lead) - len(comment)]

    def clones(self):
        """Has each type of `CLONES` derive `Clone`."""
        for name in CLONES.get(self.crate, ()):
            head = re.compile(rf"^(?:#\[derive\((.*)\)\]\n)?((?:pub(?:\([a-z]+\))? )?struct {name}\b)", re.M)
            self.text = head.sub(lambda found: f"#[derive(Clone{', ' + found[1] if found[1] else ''})]\n{found[2]}", self.text)

    def inlined(self):
        """Has each function with a body of a module of `INLINED` be inlined, unless its source says something of it."""
        if self.file.stem in INLINED.get(self.crate, ()):
            head = re.compile(r"^((?:[ \t]*#\[[^\n]*\n)*)([ \t]*)((?:pub(?:\([a-z]+\))? )?fn .*\{$)", re.M)
            new = lambda found: found[0] if "#[inline" in found[1] else f"{found[1]}{found[2]}#[inline]\n{found[2]}{found[3]}"
            self.text = head.sub(new, self.text)

    def examples(self):
        """The examples of comments, as rustdoc runs them: with names in scope, and without a handle."""
        out, body = [], None
        for line in self.text.split("\n"):
            comment = re.match(r"(\s*//[/!])(?: (.*))?$", line)
            words = (comment[2] or "") if comment else None
            if body is None:
                out.append(line)
                if words == "```" and self.package is not None:
                    body = []
                elif words is not None and words.startswith("```"):
                    body = None if words == "```" else False
            elif words is None:
                raise Refused(f"an example does not end: {line}")
            elif body is False:
                out.append(line)
                body = None if words == "```" else False
            elif words == "```":
                out += [f"{comment[1]} {text}".rstrip() for text in self.example(body)]
                out.append(line)
                body = None
            else:
                body.append(words)
        self.text = "\n".join(out)

    def example(self, lines):
        text = "\n".join(lines)
        text = re.sub(r"\b(assert(?:_eq|_ne)?!\()rt; ", r"\1", text)
        text = text.replace("rt.alloc()", "Global")
        text = re.sub(r"\.(to_string|to_vec|repeat)\(Global", r".kit_\1(Global", text)
        heads = {"std", self.crate, *self.layout.below[self.crate], *self.layout.package_of}
        own = "|".join(sorted(heads))

        def new(found):
            path = self.layout.mapped([found[1], found[2]], self.crate, None)
            return "::".join(path)

        text = re.sub(rf"(?<![\w:])({own})::(\w+|\{{)", new, text)
        lead = [f"# use {self.package}::in_examples::*;"]
        macros = sorted(set(re.findall(r"\b(vec|format|println)!\(?\[?(?:in|&?rt)\b", text)))
        lead += [f"# use {'::'.join(self.layout.stand_in_from(None))}::{macro};" for macro in macros]
        if re.search(r"\brt\b", text):
            lead.append("# let rt = HostRuntime::new();")
        if re.search(r"\?(?![a-z])|return Ok\b", text):
            return [*lead, "# ended(|| {", *text.split("\n"), "# Ok(())", "# });"]
        return [*lead, *text.split("\n")]

    def scope(self, in_scope):
        """Names that a source has in scope without naming them."""
        code = re.sub(r"//[^\n]*", "", self.text)
        lead = "::".join(self.layout.stand_in_from(self.package))
        wanted = {path.split("::")[-1]: path for pattern, path in in_scope.items() if re.search(pattern, code)}
        wanted = {name: path for name, path in wanted.items() if (self.package, path.split("::")[0]) not in self.layout.instead}
        named = {alias or path[-1] for found in USE.finditer(code) for path, alias in use_paths(found[4])}
        named |= set(re.findall(r"\b(?:struct|enum|type|trait) (\w+)", code))
        lines = "".join(f"use {lead}::{path};\n" for name, path in wanted.items() if name not in named)
        head = re.match(r"(?:\s*//![^\n]*\n|\s*#!\[[^\]]*\]\n)*", self.text)[0].rstrip("\n")
        rest = self.text[len(head) :].lstrip("\n")
        is_use = USE.match(rest)
        self.text = (f"{head}\n\n" if head else "") + (lines if is_use else f"{lines}\n" if lines else "") + rest

    def written_test(self):
        """A file of unit tests as Rust. Lists of error kinds are without those that are unstable."""
        left = len(UNSTABLE.findall(self.text))
        if left:
            self.text = UNSTABLE.sub("", self.text)
            self.text = re.sub(r"(\[ErrorKind; )(\d+)", lambda found: f"{found[1]}{int(found[2]) - left}", self.text)
        self.uses()
        self.modules()
        self.laws()
        self.paths()
        self.scope(IN_SCOPE | IN_TESTS)
        leftover(self.text)
        return self.text

    def written(self):
        """The source as Rust, in its package."""
        self.hidden()
        for name in self.book.gated_items(self.text, self.package):
            gate = self.book.gate_of(name, self.package)
            self.text = re.sub(rf"^((?:pub )?fn {name}\b)", rf'#[cfg(feature = "{gate}")]\n\1', self.text, flags=re.M)
        self.uses()
        self.modules()
        self.laws()
        self.clones()
        self.inlined()
        self.text = code_sub(r"\bprove!\(", "debug_assert!(", self.text)
        self.text = CUT.sub(uncut, self.text)
        self.text = BUILD.sub(r"\1 (plain Rust, made of proved sources)", self.text)
        self.paths()
        self.examples()
        self.scope(IN_SCOPE)
        leftover(self.text)
        return self.text
