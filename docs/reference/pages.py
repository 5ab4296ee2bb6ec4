"""Makes the pages for a browser in a folder: `docs/index --html FOLDER`."""
import html
import json
import re
import shutil
import textwrap

import allocator
import guides
import toolchain
from carried import Carried
from items import Items
from library import LIBRARY, Reference, all_words, libraries
from linked import slug
from search import Search
from sources import examples, text_of
from tags import code, entry, folded, here, link, piece, plain, section
from words import ALLOCATORS, COLLECTIONS, CRATES, TOP, cited, files, uses

HERE = TOP / "docs" / "reference"
# The version is the first that CHANGELOG names.
VERSION = re.search(r"^## (.+)$", text_of(TOP / "CHANGELOG.md"), re.M).group(1)
# The groups of the table of contents, each with its pages of markdown in order; a page that no group names is in the last.
GUIDES = [
    ("Begin", ["README.md", "docs/TUTORIAL.md", "docs/CALLING.md", "docs/EXAMPLES.md", "docs/ALLOCATORS.md"]),
    ("Rules", ["docs/SPECIFICATION.md", "docs/DIFFERENCES.md", "docs/RULESETS.md"]),
    ("This project", ["docs/DESIGN.md", "docs/DECISIONS.md", "CONTRIBUTING.md", "tools/vim/README.md", "CHANGELOG.md"]),
    ("Measures and tests", ["bench/README.md", "bench/TRIED.md", "tests/scripts/README.md"]),
]


def importing(word):
    """The line by which a user imports a definition: by the crate that passes the library's on, if it does."""
    crate, file = word.file.key
    doors = {place[:2]: name for name, place in files()[LIBRARY, "Lib"].scope.items() if place[2] is None}
    crate, file = (LIBRARY, doors[crate, file]) if (crate, file) in doors else (crate, file)
    return f"ghost use Rattle.{crate}.specs.{file}.{{{word.name}}};"


class Site:
    """All pages: made in memory, and written to a folder."""

    def __init__(self):
        self.sources, self.pages = {}, {}
        self.libraries = libraries()
        self.words = all_words(self.libraries.values())
        self.reference = Reference(self.libraries[LIBRARY], self.words)
        self.links, self.library = self.reference.links, self.reference.library
        self.items = Items(self.reference, self.source_link)
        self.makers = {LIBRARY: self.items, **{crate: self.items for crate in CRATES}}
        for crate in examples():
            below = [self.items, *(self.makers[it] for it in stands_on(crate) if it in self.makers and it not in CRATES)]
            reference = Reference(self.libraries[crate], self.words, [it.reference for it in below])
            self.makers[crate] = Items(reference, self.source_link, below)
        for it in set(self.makers.values()):
            it.links.members.setdefault("dealloc_token", "alloc.html#Allocator")
        self.carried = Carried(self.reference)
        self.guides = self.guide_pages()

    def guide_pages(self):
        named = {name for _, names in GUIDES for name in names} | set(guides.REPLACED)
        there = sorted(f"docs/{it.name}" for it in (TOP / "docs").glob("*.md"))
        groups = [(title, [it for it in names if (TOP / it).exists()]) for title, names in GUIDES]
        groups[-1][1].extend(it for it in there if it not in named)
        return groups

    def source_link(self, file, line=None):
        """The page of a source, which this adds, and the line on it."""
        name = ".".join(file.relative_to(TOP / "crates").parts) + ".html"
        self.sources[name] = file
        return f"source/{name}" + (f"#L{line}" if line else "")

    def make(self):
        for crate, library in self.libraries.items():
            for page in library.pages.values():
                self.add(page.file, page.title, self.makers[crate].page(page), "module")
        self.add("items.html", "Every item", self.items.list_of_all(), "wide")
        self.add("example-items.html", "Every item of the examples", self.example_items(), "wide")
        self.pages["alloc.html"] = (self.pages["alloc.html"][0], self.pages["alloc.html"][1] + allocator.section(self), "module")
        for _, names in self.guides:
            for name in names:
                renderer = guides.Guide(name, self)
                self.add(guides.page_name(name), guides.title_of(name), renderer.made(), "guide")
        self.words_pages()
        self.add("toolchain.html", "Words of the toolchain", self.toolchain_page(), "words")
        for name, file in list(self.sources.items()):
            self.add(f"source/{name}", str(file.relative_to(TOP)), source_page(file), "source")
        return self

    def example_items(self):
        """The contents of all pages of examples."""
        out = ["<h1>Every item of the examples</h1>", "<p>Crates of their own, over the library; it has none of these.</p>"]
        for crate in examples():
            items = self.makers[crate]
            listed = [items.list_of(page, "h3") for page in self.libraries[crate].pages.values()]
            out.append(f"<h2>{link(f'{crate}.html', code(crate))}</h2>{items.example_note(crate)}" + "".join(listed))
        return "\n".join(out)

    def add(self, name, title, body, kind):
        self.pages[name] = (title, body, kind)

    def words_pages(self):
        rows, users = [], self.citing()
        for crate in [*CRATES, *examples()]:
            there = [(file, [it for it in file.words.values() if it in self.words]) for file in files().values() if file.crate == crate]
            there = [(file, words) for file, words in there if words]
            if there or crate in CRATES:
                self.add(f"words-{crate}.html", f"Words of {crate}", self.words_page(crate, there, users), "words")
            for file, words in there:
                head = link(f"words-{crate}.html#{slug(file.key[1])}", self.items.unlinked(heading(file)))
                named = ", ".join(link(self.words[it], plain(it.name), "w own") for it in words)
                rows.append(f"<li>{head}: {named}</li>")
        count = f"{len(self.words)} definitions, by file: those that clauses of public functions reach, or an {code('impl')} of a trait. "
        count += "The library's crates come first, then the examples'."
        self.add("words.html", "Words", f'<h1>The words of the contracts</h1><p>{count}</p><ul class="plain">{"".join(rows)}</ul>', "words")

    def words_page(self, crate, there, users):
        items = self.makers[crate]
        out = [f"<h1>Words of {code(crate)}</h1>"]
        for file, words in there:
            title = f'<h2 id="{slug(file.key[1])}">{items.prose(heading(file))}</h2>'
            out.append(f'{title}<p class="where">{self.items.source(file.path, 1)}</p>')
            out += [self.word(word, users.get(word, [])) for word in words]
        return "\n".join(out)

    def word(self, word, calls):
        name, items = self.words[word].split("#")[1], self.makers[word.file.crate]
        head = f"<h3>{here(name, code(plain(word.name)))} {self.items.source(word.file.path, word.line)}</h3>"
        used = folded(f"Functions whose clauses name it: {len(calls)}", f"<p>{', '.join(calls)}</p>") if calls else ""
        comment = f"<p>{items.prose(word.sentence())}</p>"
        return section("word", name, head + comment + piece(items.definition(word, "definition")) + piece(html.escape(importing(word)), "import") + used)

    def citing(self):
        """The functions whose clauses name a definition, by the definition."""
        found = {}
        for library, (name, of, kind, what) in ((library, it) for library in self.libraries.values() for it in library.entries()):
            if kind in ("call", "function"):
                scope = uses(text_of(what.section.file).split("\n"))
                there = link(library.href(what), code(plain(f"{of}::{name}" if kind == "call" else name)))
                for word in dict.fromkeys(it for clause in what.clauses for it in cited(" ".join(clause.lines), scope)):
                    found.setdefault(word, []).append(there)
        return found

    def toolchain_page(self):
        groups = {}
        for far in self.links.far.values():
            groups.setdefault(far.place, []).append(far)
        out = ["<h1>Words of the toolchain</h1>"]
        out.append("<p>What clauses and definitions name of the toolchain, with its text if the toolchain's folder has it.</p>")
        if not toolchain.folder():
            out.append("<p>This reference was made without that folder. So most words of the toolchain are marked in clauses, and are no links.</p>")
        for place in sorted(groups, key=lambda it: (it != "sign", it)):
            title = "Signs, and words of each clause" if place == "sign" else code(plain(place))
            rows = []
            for far in sorted(groups[place], key=lambda it: it.name):
                text = piece(plain(textwrap.dedent(far.text))) if far.text else ""
                rows.append(entry(code(plain(far.name)), self.items.prose(far.comment) + text, slug(far.key)))
            out.append(f'<h2>{title}</h2><dl class="contents">{"".join(rows)}</dl>')
        return "\n".join(out)

    def contents(self, name, root):
        """The one table of contents, which is on each page."""

        def row(target, label, deep=False):
            current = ' aria-current="page"' if target == name else ""
            return f'<li{" class=deep" if deep else ""}><a href="{root}{target}"{current}>{plain(label)}</a></li>'

        parts = [(title, [row(guides.page_name(it), guides.title_of(it)) for it in names]) for title, names in self.guides]
        modules = []
        for page in self.library.pages.values():
            modules.append(row(page.file, page.key or LIBRARY, "::" in page.key))
            modules += self.on_page(page, self.items) if page.file == name else []
        words = [row(f"words-{crate}.html", crate, True) for crate in CRATES]
        beside = []
        for title, crates in (("Example collections", COLLECTIONS), ("Example allocators", ALLOCATORS)):
            rows = []
            for crate in [it for it in crates if it in self.libraries]:
                inside = [it for it in self.libraries[crate].pages.values() if it.key != crate]
                here = name.split(".")[0] in (crate, f"words-{crate}")
                rows.append(row(f"{crate}.html", f"{crate}: {crates[crate][0].lower()}"))
                for it in inside if here else []:
                    rows.append(row(it.file, it.key.split("::", 1)[1], True))
                    rows += self.on_page(it, self.makers[crate]) if it.file == name else []
                rows += [row(f"words-{crate}.html", "words", True)] if here and f"words-{crate}.html" in self.pages else []
            beside.append((title, rows))
        beside[0][1].insert(0, row("example-items.html", "Every item of the examples"))
        parts[1:1] = [
            ("Reference", [row("items.html", "Every item"), *modules]),
            *beside,
            ("Words", [row("words.html", "Every word"), *words, row("toolchain.html", "The toolchain")]),
        ]
        return "".join(f"<h2>{title}</h2><ul>{''.join(rows)}</ul>" for title, rows in parts)

    def on_page(self, page, items):
        """The rows of the table of contents for the types of the page that is shown, with their calls."""
        for of in page.types:
            yield f'<li class="deep">{link(of.href, plain(of.name))}</li>'
            yield from (f'<li class="deep calls">{part}</li>' for part in items.grouped(of))

    def whole(self, name):
        title, body, kind = self.pages[name]
        root = "../" * name.count("/")
        return TEMPLATE.format(title=html.escape(title), root=root, contents=self.contents(name, root), body=body, kind=kind, version=VERSION)

    def data(self):
        """What the search and the notes of words read."""
        items, notes = Search(self).entries(), {}
        for word, href in self.words.items():
            notes[href] = [word.name, word.sentence().replace("`", ""), textwrap.dedent(word.text)]
        for far in self.links.far.values():
            notes[f"toolchain.html#{slug(far.key)}"] = [far.name, far.comment.replace("`", ""), textwrap.dedent(far.text)]
        for of in [it for library in self.libraries.values() for it in library.types.values()]:
            notes[of.href] = [of.name, self.items.first_sentence((of.item or of.section).doc).replace("`", ""), ""]
        return f"const ITEMS = {json.dumps(items, ensure_ascii=False)};\nconst WORDS = {json.dumps(notes, ensure_ascii=False)};\n"

    def write(self, folder):
        (folder / "source").mkdir(parents=True, exist_ok=True)
        for name in self.pages:
            (folder / name).write_text(self.whole(name), encoding="utf-8")
        (folder / "data.js").write_text(self.data(), encoding="utf-8")
        for name in ("reference.css", "search.js", "reference.js", "buttons.js"):
            shutil.copyfile(HERE / name, folder / name)
        for picture in sorted((TOP / "docs").glob("*.svg")):
            shutil.copyfile(picture, folder / picture.name)

    def counts(self):
        """How many words clauses have, and how many of them are links."""
        kinds = ("own", "type", "member", "field", "far", "sign", "unlinked", "missing")
        of = {kind: sum(self.links.counts[where, kind] for where in ("clause", "fact")) for kind in kinds}
        linked = sum(of[kind] for kind in kinds[:-2])
        return (
            f"{len(self.pages)} pages; of {sum(of.values())} words in contracts {linked} are links: {of['own'] + of['type'] + of['member']} to "
            f"the library's words and types, {of['field']} to fields, {of['far']} to words of the toolchain, {of['sign']} to signs"
        )


def stands_on(crate):
    """The crates that a crate stands on, by its line of crates.txt."""
    line = next(it for it in text_of(TOP / "crates.txt").split("\n") if it.startswith(f"{crate}:"))
    return line.partition(":")[2].partition("#")[0].split()


def heading(file):
    return file.title.rstrip(".") or file.key[1]


def source_page(file):
    lines = text_of(file).rstrip("\n").split("\n")
    rows = "\n".join(f'<a id="L{at}" href="#L{at}">{at:4}</a> {plain(line)}' for at, line in enumerate(lines, 1))
    return f'<h1>{code(file.relative_to(TOP))}</h1><pre class="source">{rows}</pre>'


TEMPLATE = """<!doctype html>
<html lang="en">
<head>
<meta charset="utf-8">
<meta name="viewport" content="width=device-width, initial-scale=1">
<title>{title} - Bozhenaw</title>
<link rel="stylesheet" href="{root}reference.css">
<script defer src="{root}data.js"></script>
<script defer src="{root}search.js"></script>
<script defer src="{root}reference.js"></script>
<script defer src="{root}buttons.js"></script>
</head>
<body class="{kind}" data-root="{root}">
<a class="skip" href="#main">To the text</a>
<header>
<a class="name" href="{root}index.html">Bozhenaw <small>{version}</small></a>
<div class="search" role="search">
<input id="search" type="search" placeholder="Search items, words, pages, names of std ( / )"
 aria-label="Search items, words, pages and names of std" autocomplete="off" spellcheck="false"
 role="combobox" aria-expanded="false" aria-controls="found" aria-autocomplete="list">
<ul id="found" role="listbox" aria-label="What was found" hidden></ul>
</div>
<a class="menu" href="#contents">Contents</a>
</header>
<main id="main" tabindex="-1">
{body}
</main>
<nav id="contents" aria-label="Contents">{contents}</nav>
<div id="note" role="tooltip" hidden></div>
</body>
</html>
"""
