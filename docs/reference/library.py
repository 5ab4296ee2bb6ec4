"""Puts the library's items on pages: one for each module, each type with its methods, in the order of the original's documentation."""
import functools
import re

import callers
import original
import toolchain
from linked import Context, Links, fields_of, names_of_equations, slug
from sources import all_modules, examples, open_sections, text_of, without_generics
from text import reached_words
from words import CRATES, EXAMPLES, reached, uses

LIBRARY = "allocator_api2"
# Members of traits that are proofs, or that relate a type to its fields: no contract names them.
INNER = {"laws", "total", "matches_partial_cmp", "matches_eq", "respects_eq", "view", "invariant", "also_owns", "also_shares"}


class Type:
    """A public type or trait: its item, the section that it is declared in, and its `impl`s."""

    def __init__(self, page, name, item, section):
        self.page, self.name, self.item, self.section = page, name, item, section
        self.calls, self.impls, self.model = [], [], None

    @property
    def href(self):
        return f"{self.page.file}#{self.name}"


class Page:
    """A module's page: that of a module of the library, or of one of an example's crate."""

    def __init__(self, key, crate):
        self.key, self.crate, self.modules = key, crate, []
        self.types, self.functions, self.macros, self.others = [], [], [], []

    @property
    def file(self):
        return (self.key.replace("::", ".") or "crate") + ".html"

    @property
    def title(self):
        return self.key if self.crate != LIBRARY else LIBRARY + ("::" + self.key if self.key else "")


class Library:
    """The pages of the library's modules, or of those of an example's crate."""

    def __init__(self, crate=LIBRARY):
        self.crate, self.crates = crate, tuple(CRATES) if crate == LIBRARY else (crate,)
        self.pages, self.types, self.anchors = {}, {}, {}
        self.aliases = {}  # the names of types, by what a `pub type` makes them of
        self.collect()
        self.order()

    def collect(self):
        left = []
        for module in all_modules(self.crates):
            page = self.page_of(module)
            page.modules.append(module)
            for section, items in open_sections(module):
                if section.head.startswith("pub trait"):
                    self.add_type(page, section.type, None, section).calls = [(section, it) for it in section.items]
                elif section.head:
                    left.append((page, section, items))
                for item in items if not section.head else []:
                    self.add_item(page, section, item)
        for page, section, items in left:
            self.add_impl(page, section, items)

    def page_of(self, module):
        """The page of a module: its own if it is public, else that of the module around it."""
        parts = module.path.split("::")[1:]
        if not module.public:
            opened = {it.path for it in all_modules(self.crates) if it.public}
            while parts and "::".join([module.crate, *parts]) not in opened:
                parts.pop()
        key = "::".join(parts)
        key = original.HOMES.get(key, key) if self.crate == LIBRARY else "::".join([self.crate, *parts])
        return self.pages.setdefault(key, Page(key, self.crate))

    def add_type(self, page, name, item, section):
        # Of two types of one name, as the drains of a table and of a set, the second has its module in its key.
        there = self.types.get(name)
        key = f"{page.key}::{name}" if item and there and there.item and there.item is not item else name
        made = self.types.setdefault(key, Type(page, name, item, section))
        if made not in page.types:
            page.types.append(made)
        return made

    def add_item(self, page, section, item):
        if item.kind in ("struct", "enum", "trait", "type"):
            self.add_type(page, item.name, item, section)
            self.aliases[item.shown[0].partition(" = ")[2].rstrip(";")] = item.name
        else:
            (page.macros if item.kind == "macro" else page.functions).append((section, item))

    def add_impl(self, page, section, items):
        alias = self.aliases.get(without_generics(section.head))
        there = self.types.get(f"{page.key}::{section.type}") or self.types.get(alias or section.type)
        if not there:
            if items:
                page.others.append((section, items))
        elif section.trait == "Model":
            there.model = section
        elif section.trait:
            there.impls.append((section, items))
        else:
            there.calls += [(section, it) for it in items]

    def order(self):
        """Puts pages, types and methods in the original's order, and makes an anchor for each item. An example has that of its sources."""
        rank = {key: at for at, key in enumerate(original.MODULES if self.crate == LIBRARY else [self.crate])}
        empty = [key for key, page in self.pages.items() if not any((page.types, page.functions, page.macros, page.others)) and key not in rank]
        for key in empty:
            del self.pages[key]
        self.pages = dict(sorted(self.pages.items(), key=lambda it: (it[0] != "", rank.get(it[0], len(rank)), it[0])))
        for page in self.pages.values():
            types = original.TYPES if self.crate == LIBRARY else []
            page.types.sort(key=lambda it: (types.index(it.name) if it.name in types else len(types)))
            page.taken = set()
            for it in page.types:
                if self.crate == LIBRARY:
                    it.calls = [it.calls[at] for at in original.place(it.name, [(section.file, call.name) for section, call in it.calls])]
                else:
                    it.calls.sort(key=lambda call: call[0].file != it.section.file)
                self.name_calls(page, it)
            for _, item in page.functions + page.macros:
                self.anchor(page, item.name, item)
            for section, items in page.others:
                self.anchor(page, f"{section.type}.{section.trait}", section)
                for item in items:
                    self.anchor(page, f"{section.type}.{section.trait}.{item.name}", item)

    def name_calls(self, page, of):
        page.taken.add(of.name)
        self.anchors[of.item or of.section] = (page, of.name)
        for _, call in of.calls:
            self.anchor(page, f"{of.name}.{call.name}", call)
        for section, items in of.impls:
            self.anchor(page, f"{of.name}.{section.trait.split('::')[-1]}", section)
            for item in items:
                self.anchor(page, f"{of.name}.{section.trait.split('::')[-1]}.{item.name}", item)

    def anchor(self, page, name, what):
        base, count = slug(name), 1
        while (base if count == 1 else f"{base}-{count}") in page.taken:
            count += 1
        name = base if count == 1 else f"{base}-{count}"
        page.taken.add(name)
        self.anchors[what] = (page, name)

    def href(self, what):
        page, name = self.anchors[what]
        return f"{page.file}#{name}"

    def entries(self):
        """Each item for the search: its name, its type or module, its kind, and itself."""
        for page in self.pages.values():
            for it in page.types:
                yield it.name, page.title, (it.item.kind if it.item else "trait"), it.item or it.section
                for _, call in it.calls:
                    yield call.name, it.name, "call", call
                for section, items in it.impls:
                    for item in items:
                        yield item.name, f"{it.name} as {section.trait.split('::')[-1]}", "call", item
            for _, item in page.functions + page.macros:
                yield item.name, page.title, "function" if item.kind == "fn" else item.kind, item
            for section, items in page.others:
                for item in items:
                    yield item.name, section.type, "call", item


def libraries():
    """The library, and the examples' crates, by their names."""
    return {it: Library(it) for it in [LIBRARY, *examples()]}


def all_words(those):
    """The link of each definition that clauses reach, or an `impl` by what it says of its trait's members."""
    seen = list(reached_words()) + [it for it in reached_words(tuple(examples())) if it.file.crate in [*CRATES, *EXAMPLES]]
    seen = list(dict.fromkeys(seen))
    for of in [it for library in those for it in library.types.values()]:
        for section in [it for it, _ in of.impls] + ([of.model] if of.model else []):
            scope = uses(text_of(section.file).split("\n"))
            for name, lines, *_ in section.facts:
                there = [it for it in reached(" ".join(lines), scope) if it not in seen and name not in INNER]
                seen += [it for it in there if it.file.crate in [*CRATES, *EXAMPLES]]
    return {word: f"words-{word.file.crate}.html#{slug(word.file.key[1] + '.' + word.name)}" for word in seen}


class Reference:
    """A library with what its pages link to: definitions, those of the toolchain, sources and callers; `below` are those it stands on."""

    def __init__(self, library, words, below=()):
        self.library = library
        those = [*(it.library for it in below), library]
        crates = [crate for it in those for crate in it.crates]
        near = sorted((it for it in words if it.file.crate in crates), key=lambda it: crates.index(it.file.crate))
        self.words = {word: words[word] for word in near}
        self.known = {name: it for there in those for name, it in there.types.items()}
        types = {name: it.href for name, it in self.known.items()}
        members = {name: it.href for it in self.known.values() for name, *_ in (it.section.facts if it.section else [])}
        self.links = Links(self.words, types, members)
        for it in below[:1]:
            self.links.far, self.links.counts, self.links.unknown = it.links.far, it.links.counts, it.links.unknown
        for name, it in self.known.items():
            fields = re.findall(r"^    (?:pub )?(\w+):", "\n".join(struct_of(it)), re.M)
            self.links.by_record.setdefault(name, set(fields))
        methods, meant = self.methods(), self.methods_meant()
        self.callers = callers.callers(set(library.types), {it: methods[of] for it, of in meant.items()} | methods, library.crates, meant)
        self.named = {}
        for word, href in self.words.items():
            self.named.setdefault(word.name, []).append(href)

    def methods(self):
        """The methods of types, each with the first of these types in what it returns, if there is one; functions of no type, and macros."""
        found = {}
        for it in self.library.types.values():
            for _, call in it.calls:
                returned = call.signature.partition("->")[2].replace("Self", it.name)
                found[it.name, call.name] = next((name for name in re.findall(r"\w+", returned) if name in self.library.types), None)
        return found | {("", item.name): None for page in self.library.pages.values() for _, item in page.functions + page.macros}

    def methods_meant(self):
        """The methods that types have by the library's traits, each with what it is of the trait, and by a `pub type`, of the type that it names."""
        types = self.library.types
        there = [(of.name, types[section.trait]) for of in types.values() for section, _ in of.impls if section.trait in types]
        for written, name in self.library.aliases.items():
            base = types.get(re.match(r"\w*", written)[0])
            while base and base.item and base.item.kind == "type":
                base = types.get(re.search(r" = (\w+)", base.item.shown[0])[1])
            there += [(name, base)] if base else []
        return {(name, call.name): (it.name, call.name) for name, it in there for _, call in it.calls}

    def context(self, section, item=None):
        """The context of an item's clauses."""
        said = item.signature if item else ""
        there = re.finditer(r"[(,<] ?(?:mut )?(\w+): ", said)
        params = {it.group(1): re.split(r"[,)]", said[it.end() :])[0] for it in there}
        generics = bounds_in(section.head) | bounds_in(said)
        if section.head.startswith("pub trait"):
            generics = generics | {"Self": {section.type}}
        records = {name: self.records_in(of, section.type) for name, of in params.items()}
        records["self"] = self.records_in("Self", section.type)
        of = self.library.types.get(section.type)
        inside = " ".join(struct_of(of)) if of and not of.model else ""
        records[""] = self.records_in(f"{said.partition('->')[2]} {section.type} {inside}", section.type)
        return Context(scope_of(section.file), None, set(params) | set(generics), generics, records)

    def records_in(self, text, own):
        """The names of the records that are the models of the types in a text."""
        found = []
        for name in re.findall(r"\w+", text.replace("Self", own)):
            of = self.known.get(name)
            record = self.model(of)
            found += [record.name if record else name] if of else []
        return found

    def model(self, of):
        """The record that is the model of a type, if it is one."""
        if not of or not of.model:
            return None
        value = next((" ".join(lines) for name, lines, *_ in of.model.facts if name == "Value"), "")
        name = (re.findall(r"\w+", value) or [""])[0]
        path, there = scope_of(of.model.file).get(name, (None, None))
        found = [word for word in self.words if path and word.name == there and fields_of(word) and path.endswith(word.file.key[1])]
        return next((it for it in found if f".{it.file.crate}." in path), found[0] if found else None)

    def word_context(self, word):
        """The context of a definition's text."""
        given = names_of_equations(word)
        return Context(scope_of(word.file.path), word.file, given, None, {name: [of] for name, of in given.items()})


def struct_of(of):
    """The lines of a struct's fields."""
    if not of.item or of.item.kind != "struct":
        return []
    lines = text_of(of.section.file).split("\n")
    return lines[of.item.line : next((at for at in range(of.item.line, len(lines)) if lines[at] == "}"), of.item.line)]


def bounds_in(text):
    """The type parameters of a head or a signature, each with the names of its bounds."""
    found = {}
    for name, bounds in re.findall(r"\b([A-Z]\w?)(?:: ([^,>=]+))?(?=[,>= ]|$)", text):
        found.setdefault(name, set()).update(re.findall(r"[A-Z]\w+", bounds))
    return found


@functools.lru_cache(maxsize=None)
def scope_of(file):
    return toolchain.used_names(text_of(file).split("\n"))
