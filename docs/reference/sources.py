"""Reads the crates' sources: their modules, and the items of each with signature, comment and contract.

INDEX and WORDS (`text.py`) and the reference for a browser (`pages.py`) are made of what this returns.
"""
import collections
import functools
import re

from words import CRATES, EXAMPLES, TOP, whole_clauses

ITEM = re.compile(r"^(\s*)pub (fn|struct|enum|trait|error|source|const|type|union) (\w+)")
FACT = re.compile(r"\s+ghost (\w+) ?[=:] \{")
# What a comment says of the original, where the names differ.
ORIGINAL = re.compile(r"Corresponds to .*?\.(?=\s|<|$)|Not in allocator-api2\.")
# A source file: its module's path, and whether all modules on the way are public.
Module = collections.namedtuple("Module", "crate file path public")


class Section:
    """An `impl`, a trait, or a file's items outside of both (with no head): what it says of ghost members, and its items."""

    def __init__(self, file, head, line):
        self.file, self.head, self.line = file, head.replace("unsafe ", "", 1), line
        self.shown = head
        self.facts, self.items, self.doc = [], [], []
        self.of_trait = self.head.startswith("pub trait") or self.head.startswith("impl") and " for " in head

    @property
    def type(self):
        """The type that it is for."""
        if self.head.startswith("pub trait"):
            return re.match(r"pub trait (\w+)", self.head).group(1)
        return type_of(self.head) if self.head else ""

    @property
    def trait(self):
        """The trait that it implements for the type, if it does."""
        found = re.match(r"([\w:]+)(<.*)? for ", without_generics(self.head)) if self.head.startswith("impl") else None
        return found.group(1) if found else ""


class Item:
    """A public item: its kind and name, its signature on one line and on its own lines, its comment, its clauses, and its line."""

    def __init__(self, section, kind, name, signature, shown, doc, clauses, line):
        self.section, self.kind, self.name, self.signature, self.shown = section, kind, name, signature, shown
        self.doc, self.clauses, self.line, self.derives = doc, clauses, line, []


def original_of(doc):
    """The sentence of a comment on the original, if there is one."""
    found = ORIGINAL.search(" ".join(doc))
    return found.group(0) if found else ""


@functools.lru_cache(maxsize=None)
def text_of(file):
    return file.read_text(encoding="utf-8")


def modules(crate):
    """Each source file of the crate, with its module's path."""
    src = TOP / "crates" / crate / "src"
    opened = {()}
    for file in sorted(src.rglob("*.rt"), key=lambda f: (f.stem != "lib", len(f.relative_to(src).parts), str(f))):
        parts = tuple(p for p in file.relative_to(src).with_suffix("").parts if p != "lib")
        if parts in opened:
            opened |= {parts + (name,) for name in re.findall(r"^pub mod (\w+);", text_of(file), re.M)}
        yield Module(crate, file, "::".join((crate,) + parts), parts in opened)


def without_generics(head):
    """The head of an `impl` after its own generics, which may have brackets inside."""
    rest, depth = head.removeprefix("impl"), 0
    for at, sign in enumerate(rest):
        depth += (sign == "<") - (sign == ">" and rest[at - 1] != "-")
        if depth == 0:
            return rest[at + 1 :].strip() if sign == ">" else rest.strip()
    return rest


def type_of(head):
    """The type that an `impl` is for."""
    text = head.split(" for ")[-1] if " for " in head else without_generics(head)
    return (re.findall(r"\w+(?:::\w+)*", re.sub(r"^&('\w+ )?(mut )?", "", text)) or [""])[0].split("::")[-1]


def joined(lines, at, ends):
    """The text from line `at` up to where `ends` holds, on one line, and the number of the line after it."""
    text = ""
    while at < len(lines):
        line = lines[at].strip()
        at += 1
        text += (" " if text and not text.endswith(("(", "<")) else "") + line
        if ends(text):
            break
    return text, at


def closed(text):
    """Whether all brackets that the text opens are closed, but for arrows."""
    plain = text.replace("->", "").replace("=>", "")
    return all(plain.count(a) <= plain.count(b) for a, b in ("()", "[]", "<>"))


def signature_of(text):
    text = re.sub(r"\s*(\{.*|;)$", "", text)
    text = re.sub(r"\s+(requires|ensures)\b.*$", "", text)
    return text.replace(",)", ")").replace(", )", ")").replace(",>", ">").replace(", >", ">")


def is_method(line):
    return re.match(r"^\s+(pub )?(unsafe )?fn \w+", line)


class Reader:
    """Reads a file's lines once, and keeps its sections."""

    def __init__(self, file, lines=None):
        self.file, self.lines = file, lines or text_of(file).split("\n")
        self.section = Section(file, "", 1)
        self.sections, self.doc, self.derives = [self.section], [], []

    def read(self):
        at = 0
        while at < len(self.lines):
            at = self.line(at)
        return self.sections

    def line(self, at):
        """Reads what begins at this line, and returns the line after it."""
        line = self.lines[at]
        bare = line.strip()
        if bare.startswith("///"):
            self.doc.append(bare[3:].strip())
            return at + 1
        if re.match(r"^(pub )?(unsafe )?(impl|trait)\b", line):
            return self.head(at)
        if line == "}":
            self.section = self.sections[0]
        if FACT.match(line) and self.section.head:
            return self.fact(at)
        if bare == "#[macro_export]":
            return self.macro(at + 1)
        found = ITEM.match(line) or (self.section.of_trait and is_method(line))
        if found:
            return self.item(at)
        if bare.startswith("#[derive("):
            self.derives = re.findall(r"\w+", bare[9:])
        elif bare and not bare.startswith("#["):
            self.doc, self.derives = [], []
        return at + 1

    def head(self, at):
        text, after = joined(self.lines, at, lambda t: t.endswith(("{", "}", ";")))
        self.section = Section(self.file, signature_of(text), at + 1)
        self.section.bare = text.endswith("{}")
        self.sections.append(self.section)
        self.section.doc, self.doc = self.doc, []
        if text.endswith("{}"):
            self.section = self.sections[0]
        return after

    def fact(self, at):
        """Reads what an `impl` says of a ghost member of its trait, or a trait of one that it requires."""
        start, text = at, [self.lines[at].strip()]
        while "".join(text).count("{") > "".join(text).count("}"):
            at += 1
            text.append(self.lines[at].strip())
        name, body = re.match(r"ghost (\w+) ?[=:] \{(.*)\};?$", "\n".join(text), re.S).groups()
        self.section.facts.append((name, body.strip().split("\n"), start + 1, self.doc))
        self.doc = []
        return at + 1

    def macro(self, at):
        name = re.match(r"macro_rules! (\w+)", self.lines[at]).group(1)
        self.sections[0].items.append(Item(self.sections[0], "macro", name, f"{name}!", [f"{name}!"], self.doc, [], at + 1))
        self.doc = []
        return at + 1

    def item(self, at):
        lines = self.lines
        text, after = joined(lines, at, lambda t: closed(t) and ("fn " not in t or "(" in t))
        # The bounds may be on lines of their own after the signature.
        while after < len(lines) and lines[after].strip().startswith("where"):
            more, after = joined(lines, after, lambda t: t.endswith((",", "{")))
            text += " " + more
            while after < len(lines) and re.match(r"\s+[\w:'<>, ]+: [\w:'<>,&() +=?-]+,$", lines[after]):
                after += 1
        kind, name = re.search(r"\b(fn|struct|enum|trait|error|source|const|type|union) (\w+)", text).groups()
        clauses = whole_clauses(lines, after)[0] if kind == "fn" else []
        section = self.section if lines[at].startswith(" ") else self.sections[0]
        shown = shape(lines, at, after) if kind == "fn" else body(lines, at)
        item = Item(section, kind, name, signature_of(text), shown, self.doc, clauses, at + 1)
        item.derives, self.doc, self.derives = self.derives, [], []
        section.items.append(item)
        return after


def shape(lines, at, after):
    """The lines of a function's signature, without their indent and without what opens the body."""
    columns = len(lines[at]) - len(lines[at].lstrip())
    text = "\n".join(line[columns:] for line in lines[at:after])
    return re.sub(r"\s*(\{|;|\s(requires|ensures)\b.*)$", "", text.rstrip(), flags=re.S).split("\n")


def body(lines, at):
    """The lines of a type, but for fields that are not public."""
    if not lines[at].rstrip().endswith("{"):
        return [lines[at].rstrip()]
    end = next(i for i in range(at, len(lines)) if lines[i] == "}")
    inside = lines[at + 1 : end]
    if lines[at].startswith("pub enum"):
        return [lines[at], *inside, "}"]
    kept, doc = [], []
    for line in inside:
        if line.strip().startswith("///"):
            doc.append(line)
        elif line.startswith("    pub ") and not line.startswith("    pub(crate)"):
            kept += doc + [line]
            doc = []
        else:
            doc = []
    return [lines[at], *kept, "}"] if kept else [re.sub(r" \{$", "", lines[at])]


@functools.lru_cache(maxsize=None)
def sections(file):
    """The sections of a file, in order."""
    return Reader(file).read()


def passed_on(file):
    """What the file re-exports under its own path."""
    return [name.rstrip(";") for name in re.findall(r"^pub use (.*;)$", text_of(file), re.M)]


@functools.lru_cache(maxsize=None)
def passed_names(crate):
    """The names that the crate's files re-export under their own paths."""
    lists = [text for it in modules(crate) for text in passed_on(it.file)]
    return {name for text in lists for name in re.findall(r"\w+", text)}


@functools.lru_cache(maxsize=None)
def types_of(crate):
    """The types and traits of a crate, and those of them that can be named from outside."""
    every, named = set(), set(passed_names(crate))
    for module in modules(crate):
        every |= set(re.findall(r"^(?:pub(?:\(crate\))? )?(?:struct|enum|trait) (\w+)", text_of(module.file), re.M))
        named |= set(re.findall(r"^pub (?:struct|enum|trait) (\w+)", text_of(module.file), re.M)) if module.public else set()
    return every, named


def hidden_types(module):
    """The types and traits of its crate that cannot be named from outside."""
    every, named = types_of(module.crate)
    return every - named


def open_sections(module):
    """The sections of a file with those of their items that can be reached from outside."""
    hidden = hidden_types(module)
    for section in sections(module.file):
        if section.head and section.type in hidden:
            continue
        items = section.items
        if not section.head and not module.public:
            items = [it for it in items if it.kind == "macro" or it.name in passed_names(module.crate)]
        # What the trait says of a function is not repeated.
        if section.of_trait and not section.head.startswith("pub trait"):
            items = [it for it in items if it.doc]
        yield section, items


def comment_of(file):
    """A file's own comment."""
    lines = [line[3:].strip() for line in text_of(file).split("\n") if line.startswith("//!")]
    return "\n".join(lines)


@functools.lru_cache(maxsize=None)
def all_modules(crates=tuple(CRATES)):
    return [module for crate in crates for module in modules(crate)]


@functools.lru_cache(maxsize=None)
def examples():
    """The crates of examples that are there."""
    return [it for it in EXAMPLES if (TOP / "crates" / it / "src").is_dir()]
