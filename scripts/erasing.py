"""Takes what is ghost out of one source in Rattle, and leaves Rust: for `scripts/plain`.

What is ghost is between balanced braces after words that Rust has not, so that this needs tokens and no syntax
tree. It knows the language, and no name of the project. What it does not know it refuses.
"""

import re

TOKEN = re.compile(r"""
    (?P<space>\s+)
  | (?P<comment>//[^\n]*|/\*.*?\*/)
  | (?P<text>b?r(?P<hash>\#*)".*?"(?P=hash)|b?"(?:[^"\\]|\\.)*")
  | (?P<char>b?'(?:[^'\\\n]|\\(?:x[0-9a-fA-F]{2}|u\{[0-9a-fA-F_]+\}|.))')
  | (?P<life>'[A-Za-z_]\w*)
  | (?P<word>[^\W\d]\w*)
  | (?P<number>\d[\w]*(?:\.\d[\w]*)?)
  | (?P<mark>::|->|=>|.)
""", re.X | re.S)
GHOST_ATTRIBUTE = re.compile(r"#!?\[(?:tactic|cycle)\b[^\]]*\]")
MODEL = re.compile(r"impl\b[^{;]*?\bModel\s+for\b[^{]*\{")
CLAUSE = re.compile(r"\*?\s*(?:\w+\s*)?\{")
# What stays is Rust's own, or has one of these names in the stand-in.
ATTRIBUTES = {"allow", "cfg", "derive", "doc", "inline", "macro_export", "must_use", "non_exhaustive", "repr", "test", "export_name"}
WIDTH = 100
GHOST_WORDS = {"ghost", "requires", "ensures", "derive_where"}


class Refused(Exception):
    """What the eraser does not know."""


def tokens(text, at=0):
    """The tokens from a place on: kind, text and place of each."""
    while at < len(text):
        found = TOKEN.match(text, at)
        yield found.lastgroup if found.lastgroup != "hash" else "text", found[0], at
        at = found.end()


def code_of(text):
    """The tokens of the code, without space and comments."""
    return [token for kind, token, _ in tokens(text) if kind not in ("space", "comment")]


def closing(text, at):
    """The place after the brace that closes the one at this place, in what is ghost: only texts are skipped."""
    depth = 0
    for found in re.compile(r'"[^"\n]*"|[{}]').finditer(text, at):
        depth += {"{": 1, "}": -1}.get(found[0], 0)
        if depth == 0:
            return found.end()
    raise Refused("a brace is not closed")


def matching(text, at, pair="{}"):
    """The place after the bracket of Rust code that closes the one at this place."""
    depth = 0
    for kind, token, place in tokens(text, at):
        if kind == "mark":
            depth += (token == pair[0]) - (token == pair[1])
            if depth == 0:
                return place + 1
    raise Refused("a bracket is not closed")


def ghost_end(text, at):
    """The place after a ghost item, which ends with a `;`, or a ghost field, which ends with a `,` or before a brace."""
    for _, token, place in tokens(text, at):
        if token in (";", ","):
            if token == "," and re.match(r"\s*use\b", text[at:]):
                continue
            return place + 1
        if token == "{":
            return ghost_end(text, closing(text, place))
        if token == "}":
            return place
    raise Refused("a ghost item does not end")


def back(out):
    """Takes away the space before what goes."""
    while out and out[-1].isspace():
        out.pop()


def lone(out):
    """Takes away the comments `//` on the lines right before what goes."""
    while len(out) > 1 and re.match(r"//(?![/!])", out[-1]) and "\n" in out[-2] and out[-2].isspace():
        out.pop()
        back(out)


def without_ghosts(text):
    """The code without ghost items, ghost fields, clauses and impls of Model. Each goes with the space before it, and the
    brace that follows a clause comes to the line of the signature, unless that has a `where`."""
    out, at = [], 0
    while at < len(text):
        found = TOKEN.match(text, at)
        token, end = found[0], found.end()
        is_word, is_clause = found.lastgroup == "word", False
        if is_word and token == "ghost":
            back(out)
            if out and out[-1] == "pub":
                out.pop()
                back(out)
            lone(out)
            end = ghost_end(text, end)
        elif is_word and token in ("requires", "ensures"):
            begin = CLAUSE.match(text, end)
            if not begin:
                raise Refused(f"a clause without a brace: {text[at:at + 60]!r}")
            end = closing(text, begin.end() - 1)
            back(out)
            lone(out)
            is_clause = True
        elif is_word and token == "impl" and (head := MODEL.match(text, at)):
            end = closing(text, head.end() - 1)
            back(out)
            lone(out)
        elif token == "#" and (attribute := GHOST_ATTRIBUTE.match(text, at)):
            end = attribute.end()
            back(out)
        else:
            out.append(token)
        at = end
        if is_clause and (brace := re.compile(r"\s*(?=\{)").match(text, at)):
            begin = "".join(each for each in out[-200:] if not each.startswith("//"))
            if not re.search(r"\bwhere\b(?!.*[;}])", begin, re.S):
                out.append(" ")
                at = brace.end()
    return "".join(out)


def code_sub(pattern, new, text):
    """A substitution in code that leaves lines of comments alone."""
    parts = re.split(r"(^\s*//[^\n]*\n)", text, flags=re.M)
    return "".join(part if re.match(r"\s*//", part) else re.sub(pattern, new, part) for part in parts)


def clones(text):
    """`fn clone` gives a Result: its body stays, as a closure that does not fail."""
    head = re.compile(r"fn clone\(&self\) -> Result<Self, AllocError>\s*\{")
    at = 0
    while found := head.search(text, at):
        end = matching(text, found.end() - 1)
        body = text[found.end() - 1 : end]
        new = f"fn clone(&self) -> Self {{\n        std::made(|| -> Result<Self, AllocError> {body})\n    }}"
        text = text[: found.start()] + new + text[end:]
        at = found.start() + len(new)
    # Methods that Rust's slices and options have themselves, without an allocator or a handle.
    text = code_sub(r"\.(to_vec|to_string|concat|join)\((?=[\w&])", r".kit_\1(", text)
    text = code_sub(r"\.repeat\((?=(?:alloc|rt\.alloc\(\)),)", ".kit_repeat(", text)
    text = code_sub(r"\.(expect|expect_err)\(&?rt, ", r".\1(", text)
    return code_sub(r"\.clone\(\)", ".kit_clone()", text)


def formatters(text):
    """A formatter has no type parameter in Rust's std."""
    for found in reversed(list(re.finditer(r"\bfn \w+<(\w+): (?:fmt::)?Write>\(", text))):
        end = matching(text, found.end() - 1, "()")
        if f"Formatter<{found[1]}>" in text[found.start() : end]:
            signature = text[found.start() : end].replace(f"Formatter<{found[1]}>", "Formatter<'_>")
            signature = re.sub(r"<\w+: (?:fmt::)?Write>", "", signature, count=1)
            text = text[: found.start()] + signature + text[end:]
    return text


def drops(text):
    """Every value of Rust may be let go."""
    text = code_sub(r"#\[derive\(Drop\)\]\n\s*", "", text)
    text = re.sub(r"(#\[derive\([^\]]*?), Drop\b", r"\1", text)
    text = code_sub(r"\s*\+ Drop\b", "", text)
    text = code_sub(r"\bDrop \+ ", "", text)
    text = code_sub(r"\n[^\n(]*\S: Drop,(?=\n)", "", text)
    return code_sub(r"(?<=[\w>]): Drop(?=\s*[,>{])", "", text)


def roots(text):
    """`main` and each test are given the runtime."""
    failing = re.compile(r"(fn \w+\()rt: HostRuntime\) -> (Result<\(\), Fail>) \{")
    while found := failing.search(text):
        end = matching(text, found.end() - 1)
        body = text[found.end() - 1 : end]
        head = f"{found[1]}) {{\n    let rt = HostRuntime::new();\n    std::test::ended(|| -> {found[2]} "
        text = f"{text[:found.start()]}{head}{body})\n}}{text[end:]}"
    return re.sub(r"(fn \w+\()(_?rt): HostRuntime(\)[^{]*\{)", r"\1\3\n    let \2 = HostRuntime::new();", text)


def wheres(text):
    """`derive_where` of Debug is an impl: Rust's derive asks nothing of an associated type that a field only passes on."""
    head = re.compile(r"#\[derive_where\(Debug; ([^\]]*)\)\]\n(?=pub struct (\w+)<)")
    while found := head.search(text):
        brace = text.index("{", found.end())
        end = matching(text, brace)
        generics = text[text.index("<", found.end()) : brace].strip()
        each_of = [each for each in re.split(r",\s*(?![^<]*>.)", generics[1:-1]) if each]
        parameters = ", ".join(each.split(":")[0].split("=")[0].strip() for each in each_of)
        fields = re.findall(r"^\s*(?:pub(?:\([a-z]+\))? )?(\w+):", text[brace:end], re.M)
        bounds = "".join(f"\n    {each}: core::fmt::Debug," for each in found[1].split(", "))
        shown = "".join(f'\n            .field("{field}", &self.{field})' for field in fields)
        bare = re.sub(r" = [^,>]*", "", generics)
        made = (
            f"\n\nimpl{bare} core::fmt::Debug for {found[2]}<{parameters}>\nwhere{bounds}\n{{\n"
            "    fn fmt(&self, f: &mut core::fmt::Formatter<'_>) -> core::fmt::Result {\n"
            f'        f.debug_struct("{found[2]}"){shown}\n            .finish()\n    }}\n}}'
        )
        text = text[: found.start()] + text[found.end() : end] + made + text[end:]
    return text


def for_c(text):
    """A function for C is a plain one, and next to it one that C calls: a slice comes as a pointer and a length."""
    head = re.compile(r'#\[unsafe\(no_mangle\)\]\n(#\[inline[^\n]*\n)?pub extern "C" fn (\w+)\(')
    at = 0
    while found := head.search(text, at):
        end = matching(text, found.end() - 1, "()")
        inside = text[found.end() : end - 1]
        brace = text.index("{", end)
        gives = text[end:brace].strip()
        close = matching(text, brace)
        taken, passed = [], []
        parameter = r"(\w+): ([^,\[]*(?:\[(?:[^\[\]]|\[[^\]]*\])*\])?[^,]*)"
        for name, kind in re.findall(parameter, inside):
            slice_of = re.fullmatch(r"&(mut )?\[((?:[^;]|\[[^\]]*\])*)\]", kind.strip())
            if slice_of:
                mut = slice_of[1] or ""
                taken += [f"{name}: *{'mut' if mut else 'const'} {slice_of[2]}", f"{name}_length: usize"]
                passed.append(f"crate::lent::lent{'_mut' if mut else ''}({name}, {name}_length)")
            else:
                taken.append(f"{name}: {kind.strip()}")
                passed.append(name)
        call = f"{found[2]}({', '.join(passed)})"
        is_lent = passed != [each.split(":")[0] for each in taken]
        made = (
            f'\n\nconst _: () = {{\n    #[export_name = "{found[2]}"]\n'
            f'    {"unsafe " if is_lent else ""}extern "C" fn called({", ".join(taken)}) {gives} {{\n'
            f"        {f'unsafe {{ {call} }}' if is_lent else call}\n    }}\n}};"
        )
        plain = f"{found[1] or '#[inline]' + chr(10)}pub fn {found[2]}{text[found.end() - 1 : close]}"
        text = text[: found.start()] + plain + made + text[close:]
        at = found.start() + len(plain) + len(made)
    return text


def pushes(text):
    """Calls of `push` in a row, in which nothing can fail, are one call: so there is one question whether there is room."""
    call = re.compile(r"^([ \t]*)(\w+)\.push(?=\()", re.M)
    at = 0
    while found := call.search(text, at):
        receiver, given, end = found[2], [], found.start()
        while (each := call.match(text, end)) and each[2] == receiver:
            close = matching(text, each.end(), "()")
            argument = text[each.end() + 1 : close - 1]
            if text[close : close + 2] != ";\n" or re.search(rf"\b{receiver}\b", argument):
                break
            given.append(argument)
            end = close + 2
        if len(given) > 1:
            made = f"{found[1]}{receiver}.push_all([{', '.join(given)}]);\n"
            if len(made) > WIDTH + 1:
                rows = "".join(f"{found[1]}    {argument},\n" for argument in given)
                made = f"{found[1]}{receiver}.push_all([\n{rows}{found[1]}]);\n"
            text = text[: found.start()] + made + text[end:]
        at = found.end()
    return text


def inlined(text):
    """What writes at the end of a text of a fixed room is better put where it is called: the length then needs no memory."""
    head = re.compile(r"((?:^[ \t]*#\[[^\n]*\n)*)^([ \t]*)((?:pub(?:\([a-z]+\))? )?fn \w+(?:<[^()]*>)?)(?=\()", re.M)

    def new(found):
        end = matching(text, found.end(), "()")
        if "#[inline" in found[1] or "&mut ArrayString<" not in text[found.end() : end]:
            return found[0]
        return f"{found[1]}{found[2]}#[inline]\n{found[2]}{found[3]}"

    return head.sub(new, text)


def texts(text):
    """The bytes of a text, and a text that is put after another one, are taken as they are: `as_str` would look at each
    byte first, whether it is one of a text."""
    text = code_sub(r"\.as_str\(\)\s*\.as_bytes\(\)", ".as_bytes()", text)
    return code_sub(r"\.push_str\(([\w.()]+)\.as_str\(\)\)", r".push_text(&\1)", text)


def slices(text):
    """A parameter that is a list of the kit's, lent to be read, is a slice: of a list of Rust's as well."""
    return code_sub(r"(\w: )&Vec<(\w+)>", r"\1&[\2]", text)


def laid(text):
    """No blank line at the begin or end of a block, no two together, and none at the begin of the file."""
    text = re.sub(r"[ \t]+\n", "\n", text)
    text = re.sub(r"\{\n\n+", "{\n", text)
    text = re.sub(r"\n\n+(\s*\})", r"\n\1", text)
    return re.sub(r"\n\n\n+", "\n\n", text).lstrip("\n")


def erased(text):
    """The source as Rust. Its paths are those of the source."""
    text = without_ghosts(text)
    for step in (drops, wheres, formatters, clones, roots, for_c, pushes, inlined, texts, slices):
        text = step(text)
    return laid(text)


def needs(text):
    """The functions of a source that have a `requires` of their own: their names, by their places."""
    found = {}
    for head in re.finditer(r"^ *(?:pub(?:\([a-z]+\))? )?(?:const )?fn (\w+)", text, re.M):
        place = matching(text, text.index("(", head.end()), "()")
        after = text[place + re.match(r"[^{;]*?(?=\brequires\b|\bensures\b|\{|;)", text[place:], re.S).end() :]
        while clause := re.match(r"\s*(requires|ensures)\b", after):
            begin = CLAUSE.match(after, clause.end())
            if clause[1] == "requires":
                found[head.start()] = head[1]
            after = after[closing(after, begin.end() - 1) :]
    return found


def leftover(text):
    """Refuses what is no Rust any more, and attributes that nobody has looked at."""
    for kind, token, place in tokens(text):
        if kind == "word" and token in GHOST_WORDS:
            raise Refused(f"`{token}` is left: {text[place:place + 60]!r}")
    for found in re.finditer(r"^\s*#!?\[(\w+)", re.sub(r"//[^\n]*", "", text), re.M):
        if found[1] not in ATTRIBUTES:
            raise Refused(f"the attribute `{found[1]}` is not known")
