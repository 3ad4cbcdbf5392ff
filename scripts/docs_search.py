"""What the search of the site looks in: the sections of its pages. scripts/docs writes it for docs/site/search.js.

A section begins at a heading with a name for links, or at an option of a manual page; on a page of rustdoc also at a method,
variant, field or constant. Of a page of rustdoc nothing is taken after its own items: traits that it implements have the text
of the standard library.
"""

import html.parser
import json
import re

HEADINGS = {"h1", "h2", "h3", "h4", "dt"}
# Elements without an end, and those that begin a new word.
VOID = {"area", "br", "col", "hr", "img", "input", "link", "meta", "wbr"}
BREAKS = {"p", "li", "dd", "tr", "td", "th", "pre", "div", "br", "section", "blockquote", *HEADINGS}
ITEM = re.compile(r"(?:method|tymethod|variant|structfield|associatedconstant)\.(\w+)")
NOT_OWN = {"trait-implementations", "synthetic-implementations", "blanket-implementations"}
# Of rustdoc: its buttons, signs and declarations.
NO_TEXT = {"script", "style", "button", "rustdoc-toolbar", "noscript"}
NO_CLASS = {"src", "doc-anchor", "back"}


class Sections(html.parser.HTMLParser):
    """The sections of a page: [name for links, heading, text] of each."""

    def __init__(self, text, is_rustdoc):
        super().__init__()
        self.is_rustdoc, self.found, self.is_heading, self.title = is_rustdoc, [], False, ""
        # How many elements are open, where the text begins, and where text begins that is not taken.
        self.open, self.within, self.silent, self.is_past = [], None, None, False
        self.feed(text)

    def begin(self, name, heading=""):
        self.found.append([name, heading, ""])

    def handle_starttag(self, tag, attributes):
        given = dict(attributes)
        name, classes = given.get("id") or "", (given.get("class") or "").split()
        if tag not in VOID:
            self.open.append(tag)
        if self.within is None:
            if tag == "main":
                self.within = len(self.open)
                self.begin("")
            return
        self.is_past |= self.is_rustdoc and name in NOT_OWN
        if self.is_past:
            return
        if self.silent is None and (tag in NO_TEXT or NO_CLASS & {*classes}):
            self.silent = len(self.open)
        if self.is_rustdoc and (item := ITEM.fullmatch(name)):
            self.begin(name, item[1])
        elif (tag in {"h1", "h2"} if self.is_rustdoc else tag in HEADINGS) and (name or tag == "h1"):
            self.begin(name)
            self.is_heading = True
        elif tag in BREAKS:
            self.handle_data(" ")

    def handle_endtag(self, tag):
        if tag not in self.open:
            return
        while self.open.pop() != tag:
            pass
        depth = len(self.open)
        if self.silent is not None and depth < self.silent:
            self.silent = None
        self.is_past |= self.within is not None and depth < self.within
        if tag in HEADINGS:
            self.is_heading = False

    def handle_data(self, data):
        if self.open[-1:] == ["title"]:
            self.title += data
        if self.within is not None and self.silent is None and not self.is_past:
            self.found[-1][1 if self.is_heading else 2] += data


def plain(text):
    return " ".join(text.split())


def sections(address, text):
    """The rows of a page: address, title, heading and text of each section that has any."""
    is_rustdoc = 'name="generator" content="rustdoc"' in text
    page = Sections(text, is_rustdoc)
    title = plain(page.title).removesuffix(" - Rust")
    for name, heading, words in page.found:
        if plain(heading + words):
            yield [f"{address}#{name}" if name else address, title, plain(heading) or title, plain(words)]


def index(pages):
    """The text of search-index.js for pages by their addresses, in their order."""
    rows = [row for address, text in pages.items() for row in sections(address, text)]
    return "const SECTIONS = [\n" + ",\n".join(json.dumps(row, ensure_ascii=False) for row in rows) + "\n];\n"
