"""Lays out a module's items: signature, comment, contract clause by clause, what that reaches, how it differs from the original, callers."""
import re
import textwrap

import callers
import groups
from library import INNER, LIBRARY
from markdown import Renderer
from sources import ORIGINAL, comment_of, passed_on, text_of
from tags import code, entry, folded, here, link, piece, plain, section
from text import sentence
from words import EXAMPLES, TOP, reached, uses

# How many callers are quoted whole, and how many more are named.
QUOTED, NAMED = 2, 12
# The original's types, and what DIFFERENCES calls several of them.
OF_TYPES = {
    "Vec": "vectors?", "Box": "boxes|a box", "RawVec": "blocks", "Drain": "drains", "Splice": "splices", "IntoIter": "iterators",
    "SliceExt": "slices", "BoxedSlice": "boxed slices|boxes|a box", "BoxedText": "boxed texts|boxes|a box",
}  # fmt: skip


class Items:
    """Makes the HTML of items of a library; `below` are the makers of those it stands on, whose names it has, too."""

    def __init__(self, reference, source_link, below=()):
        self.reference, self.library, self.links = reference, reference.library, reference.links
        self.source_link = source_link
        self.renderer = Renderer(lambda target: target, self.code)
        names = {}
        for name, of, kind, what in self.library.entries():
            names.setdefault(f"{of}::{name}" if kind == "call" else name, self.library.href(what))
        names.update({page.title.split("::", 1)[-1]: page.file for page in self.library.pages.values() if page.key})
        self.names = {name: href for it in below for name, href in it.names.items()} | names
        self.differences = [] if below else differences()
        self.of, self.given = "", set()  # the type that a comment is of, and the names of the function's parameters

    def prose(self, text):
        return self.renderer.inline(text)

    def unlinked(self, text):
        """The same without links, to put into one."""
        return re.sub(r"`([^`]*)`", r"<code>\1</code>", plain(text))

    def first_sentence(self, doc):
        return sentence([it for it in doc if it])

    def code(self, text):
        """A piece of code in a line: a link if it names one item or one definition."""
        # A plain word of English is no name, but of a method of the type at hand.
        common = text in self.given or re.fullmatch(r"[a-z]+", text)
        href = None if text in self.given else self.names.get(f"{self.of}::{text}")
        if not href and not common:
            href = self.names.get(re.sub(r"<[^>]*>", "", text))
        if href:
            return code(link(href, plain(text), "w type"))
        there = [] if common else self.reference.named.get(text, [])
        return code(link(there[0], plain(text), "w own") if len(there) == 1 else plain(text))

    def rust(self, text, but=()):
        """A piece of Rust, with its comments marked and the library's types as links, but for these names."""
        out = []
        for line in text.split("\n"):
            before, mark, comment = line.partition("//")
            out.append(self.types_linked(before, but) + (f'<i class="c">{plain(mark + comment)}</i>' if mark else ""))
        return "\n".join(out)

    def types_linked(self, text, but):
        def linked(found):
            href = self.links.types.get(found.group(0)) if found.group(0) not in but else None
            return link(href, found.group(0), "w type") if href else found.group(0)

        return re.sub(r"\b[A-Z]\w+\b", linked, plain(text))

    def signature(self, lines, file):
        """A signature, in which a type is no link if the file imports it from the toolchain."""
        taken = re.findall(r"^use (?:std|core)::(.*?);", text_of(file), re.M | re.S)
        return self.rust("\n".join(lines), {name for it in taken for name in re.findall(r"\w+", it)})

    def page(self, page):
        """A module's page."""
        kind = "Crate" if page.key == page.crate else "Module" if page.key else "Library"
        out = [f'<h1><span class="kind">{kind}</span> {code(plain(page.title))}</h1>']
        if page.crate != LIBRARY:
            out.append(self.example_note(page.crate))
        # If two crates have the path, the comment is that of the upper one's file.
        module = [it for it in page.modules if it.public][-1]
        out.append(self.renderer.page(comment_of(module.file), 1))
        uses = [name for it in page.modules if it.public for path in passed_on(it.file) for name in last_names(path)]
        named = [code(link(self.names[it], plain(it))) if it in self.names else code(plain(it)) for it in dict.fromkeys(uses)]
        passed = f"Re-exports {', '.join(named)}. " if uses else ""
        out.append(f'<p class="where">{passed}{self.source(module.file, 1)}</p>')
        out.append(self.modules(page) if page.key == page.crate else "")
        out.append(self.local_contents(page))
        out += [self.type(it) for it in page.types]
        by_kind = [[it for it in page.functions if (it[1].kind == "fn") == is_function] for is_function in (False, True)]
        for title, items in (("Constants", by_kind[0]), ("Functions", by_kind[1]), ("Macros", page.macros)):
            if items:
                out.append(f"<h2>{title}</h2>" + "\n".join(self.item(section_of, item, None) for section_of, item in items))
        for section_of, items in page.others:
            out.append(self.impl(section_of, items))
        return "\n".join(out)

    def example_note(self, crate):
        """What a page of an example begins with: that it is one, and where it is explained."""
        what, href = EXAMPLES[crate]
        name = code(crate)
        text = f"{what}: an example of this repository. It is a crate of its own, {name}, and no part of {code(LIBRARY)}; a crate that uses it "
        text += f"lists {name} in {code('crates.txt')}. {link(href, 'What it shows')}."
        if any(it.file.crate == crate for it in self.reference.words):
            text += f" {link(f'words-{crate}.html', 'The words of its contracts')}."
        return f'<p class="example">{text}</p>'

    def modules(self, page):
        """The modules of an example's crate, and their items."""
        others = [it for it in self.library.pages.values() if it is not page]
        return "\n".join(map(self.list_of, others))

    def local_contents(self, page):
        """The contents of a page: its types with their methods, its functions and macros."""
        rows = []
        for it in page.types:
            parts = "".join(f'<br><span class="calls">{part}</span>' for part in self.grouped(it))
            said = self.prose(self.first_sentence((it.item or it.section).doc))
            rows.append(entry(link(it.href, code(it.name)), said + parts))
        for _, item in page.functions + page.macros:
            name = item.name + ("!" if item.kind == "macro" else "")
            rows.append(entry(link(self.library.href(item), code(name)), self.prose(self.first_sentence(item.doc))))
        return f'<dl class="contents">{"".join(rows)}</dl>' if rows else ""

    def grouped(self, of):
        """The calls of a type as links, by group."""
        for title, calls in groups.grouped([call for _, call in of.calls]):
            there = ", ".join(link(self.library.href(call), plain(call.name)) for call in calls)
            yield f"<b>{title}</b>: {there}" if title else there

    def type(self, of):
        what = of.item or of.section
        kind = of.item.kind if of.item else "trait"
        head = f'<span class="kind">{kind}</span> {here(of.name, code(of.name))} {self.source(of.section.file, what.line)}'
        shown = self.signature(of.item.shown if of.item else [of.section.head], of.section.file)
        out = [f"<h2>{head}</h2>{piece(shown, 'signature')}{self.comment(what.doc)}"]
        if of.item and of.item.derives:
            out.append("<p>Derives " + ", ".join(code(it) for it in of.item.derives) + ".</p>")
        out.append(self.differing(of.name, None))
        if of.section.head.startswith("pub trait"):
            out.append(self.facts(of.section))
        out.append(self.model(of))
        out += [self.item(section_of, call, of) for section_of, call in of.calls]
        made = section("type", of.name, "\n".join(out))
        if of.impls:
            made += f"<h3>Trait implementations of {code(of.name)}</h3>"
            made += "\n".join(self.impl(section_of, items) for section_of, items in of.impls)
        return made

    def model(self, of):
        """The model of a type."""
        if not of.model:
            return ""
        value = next(("\n".join(lines) for name, lines, *_ in of.model.facts if name == "Value"), "")
        seen = self.links.mark(value, self.reference.context(of.model))
        record = self.reference.model(of)
        text = piece(self.definition(record)) if record else ""
        return f'<div class="model"><p>In contracts it is {code(seen)}.</p>{text}</div>'

    def definition(self, word, counted=None):
        return self.links.mark(textwrap.dedent(word.text), self.reference.word_context(word), counted)

    def facts(self, section_of):
        """What an `impl` says of its trait's members, or a trait of those that it requires."""
        context, out = self.reference.context(section_of), []
        for name, lines, _, doc in section_of.facts:
            if name not in INNER:
                note = f"<p>{self.prose(' '.join(doc))}</p>" if doc else ""
                text = piece(self.links.mark("\n".join(lines), context, "fact"))
                out.append(f'<div class="clause"><span class="name">{name}</span><div>{note}{text}</div></div>')
        return f'<div class="contract">{"".join(out)}</div>' if out else ""

    def impl(self, section_of, items):
        name = self.library.anchors[section_of][1]
        head = code(self.signature([section_of.shown], section_of.file))
        inside = "\n".join(self.item(section_of, item, None) for item in items)
        title = f'<h4>{here(name, "§")} {head} {self.source(section_of.file, section_of.line)}</h4>'
        return section("impl", name, title + self.facts(section_of) + inside)

    def item(self, section_of, item, of):
        name, head = self.library.anchors[item][1], section_of.head
        place = f'<span class="of">{code(plain(head))}</span>' if of and head.startswith("impl") else ""
        more = self.reaches(section_of, item) + self.differing(of.name if of else section_of.type, item) + self.called(section_of, item, of)
        return section(
            "item",
            name,
            f"<h3>{here(name, code(item.name))} {place} {self.source(section_of.file, item.line)}</h3>"
            + piece(self.signature(item.shown, section_of.file), "signature")
            + self.comment(item.doc, section_of.type, item.signature)
            + self.contract(section_of, item, name)
            + (f'<div class="more">{more}</div>' if more else ""),
        )

    def comment(self, doc, of="", signature=""):
        self.of, self.given = of, set(re.findall(r"\b(\w+):", signature))
        text = self.renderer.page("\n".join(doc), 3)
        self.of, self.given = "", set()
        return ORIGINAL.sub(r'<span class="original">\g<0></span>', text, count=1)

    def contract(self, section_of, item, name):
        """The clauses, each in a row of its own, under the headings of their groups."""
        context, out, group = self.reference.context(section_of, item), [], ""
        for at, clause in enumerate(item.clauses):
            if clause.group != group:
                group = clause.group
                out.append(f'<p class="group">{self.prose(group)}</p>')
            owed = clause.word == "requires"
            anchor = f"{name}.{clause.name or clause.word}" + (f"-{at}" if owed or not clause.name else "")
            label = ('<span class="owed">requires</span> ' if owed else "") + here(anchor, clause.name or ("" if owed else "ensures"))
            text = piece(self.links.mark("\n".join(clause.lines), context, "clause"))
            out.append(f'<div class="clause" id="{anchor}"><span class="name">{label}</span>{text}</div>')
        return f'<div class="contract">{"".join(out)}</div>' if out else ""

    def reaches(self, section_of, item):
        """The definitions that the clauses reach, as `docs/reach` counts them."""
        scope = uses(text_of(section_of.file).split("\n"))
        words = list(dict.fromkeys(word for clause in item.clauses for word in reached(" ".join(clause.lines), scope)))
        if not words:
            return ""
        words.sort(key=lambda it: (it.file.key, it.line))
        title = f"Its contract reaches {len(words)} definition{'s' if len(words) > 1 else ''}"
        return folded(title, "<p>" + ", ".join(link(self.reference.words[it], plain(it.name), "w own") for it in words) + "</p>")

    def differing(self, type_name, item):
        """The rows of DIFFERENCES that name an item."""
        name = item.name if item else type_name
        rows = [(what, why) for what, why, named in self.differences if applies(what, named, type_name, name, bool(item))]
        if not rows:
            return ""
        whys = [f' <span class="why">Why: {self.prose(why)}.</span>' if why else "" for _, why in rows]
        listed = "".join(f"<li>{self.prose(what)}{why}</li>" for (what, _), why in zip(rows, whys))
        rest = link("DIFFERENCES.html", "All differences")
        return folded(f"How it differs from the original ({len(rows)})", f"<ul>{listed}</ul><p>{rest}</p>")

    def called(self, section_of, item, of):
        """Its callers in the guide, the examples and the tests: some quoted whole."""
        there = self.reference.callers.get((of.name if of else section_of.type, item.name), [])
        if section_of.trait:
            return ""
        proved, tests = ([it for it in there if (it.crate in callers.TESTS) == is_test] for is_test in (False, True))
        owner = of.name if of else section_of.type
        return self.calling("Proved callers", proved, item, owner) + self.calling("Tests that call it", tests, item, owner)

    def calling(self, title, there, item, of):
        """A list of callers."""
        if not there:
            return ""
        quoted = "".join(self.quote(it, item.name, of) for it in there[:QUOTED])
        others = [link(self.source_link(it.file, it.line), code(f"{it.crate}::{it.name}")) for it in there[QUOTED : QUOTED + NAMED]]
        more = f", and {len(there) - QUOTED - NAMED} more" if len(there) > QUOTED + NAMED else ""
        rest = f"<p>Also by {', '.join(others)}{more}.</p>" if others else ""
        return folded(f"{title}: {len(there)}", quoted + rest)

    def quote(self, caller, name, of):
        text = self.rust(textwrap.dedent("\n".join(caller.text)))
        before = "(?<=[.:])" if of else r"(?<!fn )(?<![\w.:])"
        text = re.sub(rf"{before}{name}(?=(::&lt;[^(]*)?\(|!)", f"<mark>{name}</mark>", text)
        where = link(self.source_link(caller.file, caller.line), f"{caller.file.relative_to(TOP)}:{caller.line}")
        return f'<p class="where">{where}</p>{piece(text, "quote")}' + ("" if of else self.proof(caller, name))

    def proof(self, caller, name):
        """The part of a caller's proof that uses what its call of a function ensures."""
        file, parts = callers.proofs_by(caller, name)
        text = plain("\n\n".join(parts)).replace(f"c.{name}.", f"c.<mark>{name}</mark>.")
        where = link(self.source_link(file), f"{file.relative_to(TOP)}") if parts else ""
        return f'<p class="where">{where}</p>{piece(text, "quote")}' if parts else ""

    def source(self, file, line):
        return link(self.source_link(file, line), f"{file.name}:{line}", "line")

    def list_of_all(self):
        out = [f"<h1>Every item of {code(LIBRARY)}</h1>"]
        return "\n".join([*out, *map(self.list_of, self.library.pages.values())])

    def list_of(self, page, head="h2"):
        """A page's contents, under its name."""
        listed = self.local_contents(page)
        return f"<{head}>{link(page.file, code(plain(page.title)))}</{head}>{listed}" if listed else ""


def last_names(path):
    """The names that a `pub use` re-exports."""
    inner = re.search(r"\{(.*)\}", path)
    return re.split(r", *", inner.group(1)) if inner else [path.split("::")[-1]]


def differences():
    """The first list of DIFFERENCES: what differs, why, and the names in it."""
    file = TOP / "docs" / "DIFFERENCES.md"
    lines = file.read_text(encoding="utf-8").split("\n## ")[0].split("\n") if file.exists() else []
    found = []
    for line in re.findall(r"^- (.*(?:\n  .*)*)", "\n".join(lines), re.M):
        what, _, why = re.sub(r"\s+", " ", line).partition(" *Why: ")
        found.append((what, why.rstrip(".*"), re.findall(r"`([^`]+)`", what)))
    return found


def applies(what, named, type_name, name, of_call):
    """Whether a row of DIFFERENCES is about an item: it names it, and names the item's type, or no type."""
    plain = [re.sub(r"[<(].*", "", it) for it in named]
    if not of_call:
        return name in plain
    if f"{type_name}::{name}" in plain:
        return True
    if name not in plain or type_name not in OF_TYPES:
        return False
    prose = re.sub(r"`[^`]*`", "", what).lower()
    types = {it for it, word in OF_TYPES.items() if it in plain or re.search(rf"\b{word}\b", prose)}
    types |= {plain[0].split("::")[0]} & set(OF_TYPES)
    return not types or type_name in types
