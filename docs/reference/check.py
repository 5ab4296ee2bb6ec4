"""Checks the reference in a folder: each link leads to an anchor, each item and definition has a page, and nothing is loaded from
elsewhere."""
import html
import json
import re
import urllib.parse

from sources import all_modules, examples, hidden_types, text_of
from text import reached_words
from words import CRATES, EXAMPLES, TOP


class Page:
    """The anchors of a page, those that it has twice, what it links to and loads, links within others, and how many first headings."""

    def __init__(self, text):
        self.ids, self.links, self.loads, self.twice = set(), [], [], []
        self.tops = text.count("<h1")
        self.nested = re.findall(r"<a [^>]*>(?:(?!</a>)[^\n])*<a [^>]*>", text)
        for tag, attributes in re.findall(r"<([a-z]\w*)((?:\s[^<>]*)?)>", text):
            for name, value in re.findall(r'\s(id|href|src)="([^"]*)"', attributes):
                value = html.unescape(value)
                if name == "id":
                    self.twice += [value] if value in self.ids else []
                    self.ids.add(value)
                else:
                    (self.loads if name == "src" or tag == "link" else self.links).append(value)


def read(file):
    """Reads a page; the lines of one that shows a source are read apart."""
    text = file.read_text(encoding="utf-8")
    if file.parent.name != "source":
        return Page(text)
    before, _, rest = text.partition('<pre class="source">')
    lines, _, after = rest.partition("</pre>")
    page = Page(before + after)
    page.ids |= set(re.findall(r'^<a id="(L\d+)"', lines, re.M))
    return page


def faults(folder):
    """What is wrong with the pages in a folder."""
    pages = {str(file.relative_to(folder)): read(file) for file in folder.rglob("*.html")}
    for name, page in pages.items():
        yield from (f"{name} has a link within a link: {it}" for it in page.nested)
        if page.tops != 1:
            yield f"{name} has {page.tops} headings of the first level"
        yield from (f"{name} has the anchor {it} twice" for it in page.twice)
        for target in page.links + page.loads:
            wrong = lost(folder, pages, name, target)
            if wrong:
                yield f"{name} links to {target}: {wrong}"
        for target in page.loads:
            if re.match(r"(\w+:)?//", target):
                yield f"{name} loads {target} from elsewhere"
    yield from missing(pages)
    for name, of, _, target, *_ in entries(folder):
        wrong = lost(folder, pages, "index.html", target)
        if wrong:
            yield f"the search finds {name} {of} at {target}: {wrong}"
    style, *scripts = ((folder / it).read_text(encoding="utf-8") for it in ("reference.css", "reference.js", "search.js", "buttons.js"))
    for script in scripts:
        if re.search(r"url\(|@import", style) or re.search(r"\b(fetch|XMLHttpRequest|import)\b\s*\(", script):
            yield "the stylesheet or a script loads something"
        if script.count("\n") > 200:
            yield f"a script has {script.count(chr(10))} lines, of 200"


def entries(folder):
    """What the search box looks through."""
    line = (folder / "data.js").read_text(encoding="utf-8").split("\n")[0]
    return json.loads(line.removeprefix("const ITEMS = ").removesuffix(";"))


def lost(folder, pages, name, target):
    """Why a link leads nowhere, if it does."""
    if re.match(r"\w+:", target):
        return None
    path, _, anchor = target.partition("#")
    there = (folder / name).parent / urllib.parse.unquote(path) if path else folder / name
    if not there.exists():
        return "no such file"
    key = str(there.resolve().relative_to(folder.resolve()))
    if anchor and key in pages and urllib.parse.unquote(anchor) not in pages[key].ids:
        return "no such anchor"
    return None


def missing(pages):
    """The public functions, types and definitions that no page has; found in the sources anew, line by line."""
    links = [it for name, page in pages.items() if not name.startswith("source/") for it in page.links]
    named = {urllib.parse.unquote(it) for it in links if it.startswith("source/")}
    for module in all_modules((*CRATES, *examples())):
        hidden, owner, shown = hidden_types(module), "", True
        for at, line in enumerate(text_of(module.file).split("\n"), 1):
            if re.match(r"impl\b", line):
                owner, shown = line, not any(re.search(rf"\b{it}\b", line) for it in hidden)
            elif line == "}":
                owner, shown = "", True
            of_module = re.match(r"pub (?:fn|struct|enum|trait|type|const) (\w+)", line) if module.public else None
            there = re.match(r"    pub fn (\w+)", line) if owner else of_module
            where = f"source/{'.'.join(module.file.relative_to(TOP / 'crates').parts)}.html#L{at}"
            if there and shown and where not in named:
                yield f"no page has {there.group(1)} of {module.file.relative_to(TOP)}, line {at}"
    ids = {it for page in pages.values() for it in page.ids}
    for word in [*reached_words(), *(it for it in reached_words(tuple(examples())) if it.file.crate in [*CRATES, *EXAMPLES])]:
        if f"{word.file.key[1]}.{word.name}" not in ids:
            yield f"no page has the word {word.name} of {word.file.path.relative_to(TOP)}"
