"""What the search box looks through: items, definitions, words of the toolchain, pages with their headings, names of std, names left out.

An entry is a name, what it is of, its kind, its link, a line on it, and other names that find it.
"""
import re

import aliases
import allocator
import guides
from library import LIBRARY
from linked import slug
from markdown import anchor
from sources import comment_of, text_of
from text import sentence
from words import TOP


class Search:
    """Makes the entries."""

    def __init__(self, site):
        self.site, self.items, self.libraries = site, site.items, site.libraries.values()
        self.impls = {}

    def entries(self):
        parts = (self.of_items, self.of_words, self.of_impls, self.of_aliases, self.of_std, self.of_original, self.of_toolchain, self.of_pages)
        found = [it for part in parts for it in part()]
        return [[name, of, kind, href, summary.replace("`", "")] + ([also] if also else []) for name, of, kind, href, summary, also in found]

    def of_items(self):
        for library in self.libraries:
            for page in library.pages.values():
                module = [it for it in page.modules if it.public][-1]
                said = sentence(comment_of(module.file).split("\n"))
                yield page.title.removeprefix(f"{LIBRARY}::"), "", "module" if library.crate == LIBRARY else "example", page.file, said, []
            for name, of, kind, what in library.entries():
                place = of if library.crate == LIBRARY or of.startswith(library.crate) else f"{library.crate}::{of}"
                yield name, place, kind, library.href(what), self.items.first_sentence(what.doc), []
            # The trait `Allocator` comes after the library, and before the examples.
            if library.crate == LIBRARY:
                for name, of, kind, href, said in allocator.entries():
                    yield name, of, kind, href, sentence([said]), []

    def of_words(self):
        for word, href in self.site.words.items():
            yield word.name, word.file.key[1], "word", href, word.sentence(), []

    def of_toolchain(self):
        for far in self.site.links.far.values():
            yield far.name, far.place, "word", f"toolchain.html#{slug(far.key)}", far.comment, [far.name.strip("◌")]

    def of_impls(self):
        """The traits that a type implements, named as `Vec as Write`."""
        for library, page in [(library, page) for library in self.libraries for page in library.pages.values()]:
            there = [(of.name, section) for of in page.types for section, _ in of.impls] + [(section.type, section) for section, _ in page.others]
            for of, section in there:
                name = f"{of} as {section.trait.split('::')[-1]}"
                name = name if library.crate == LIBRARY else f"{library.crate}::{name}"
                if name not in self.impls:
                    self.impls[name] = library.href(section) if section in library.anchors else page.file
                    yield name, page.title, "impl", self.impls[name], f"`{section.head}`", []

    def target(self, name):
        """The link of an item, an `impl`, a page or a heading."""
        crate, _, item = name.partition("::")
        there = self.site.makers[crate].names.get(item) if crate in self.site.libraries else self.items.names.get(name)
        page, mark, heading = name.partition("#")
        return self.impls.get(name) or there or f"{page}.html{mark}{heading}"

    def of_aliases(self):
        for names, target, said in aliases.ALIASES:
            first, *others = names.split(", ")
            yield first, "", "see", self.target(target), said, others

    def of_std(self):
        """What is written in std, by CALLING's table, and here."""
        for written, here in aliases.in_std():
            for it in written:
                yield it, "", "in std", self.target(aliases.TABLE), f"Here: {here}", [it.partition("(")[0].split(".")[-1].split("::")[-1]]

    def of_original(self):
        """The original's names that are left out, each with the reason and what to use, and those that are here in another way."""
        instead = aliases.instead()
        for row in aliases.rows():
            for name in row.names:
                href = f"DIFFERENCES.html#{row.anchor}"
                if row.is_left_out and name not in aliases.KEPT:
                    use = instead.get(name, "")
                    yield name, "", "left out", href, f"{row.said}. {use if use.startswith('Nothing') else f'Use {use}'}.", []
                elif not row.is_left_out and not row.said.startswith(("kept", "left out")) and name not in self.items.names:
                    yield name, "", "in the original", href, f"Here: {row.said}", []

    def of_pages(self):
        """The pages of documentation, with their headings."""
        for _, names in self.site.guides:
            for name in names:
                title, page = guides.title_of(name), guides.page_name(name)
                for level, heading, said in headings(text_of(TOP / name)):
                    if level == 1:
                        yield title, "", "page", page, said, []
                    else:
                        yield re.sub(r"[`*]", "", heading[1]), title, "section", f"{page}#{heading[0]}", said, []


def headings(text):
    """The headings of a file of markdown: the level, the anchor and the title, and the first sentence after it."""
    text = re.sub(r"^ *```.*?^ *```$", "", text, flags=re.M | re.S)
    seen = {}
    for marks, title, after in re.findall(r"^(#+) (.*)\n+((?:[A-Z`*].*\n)*)", text, re.M):
        yield len(marks), (anchor(title, seen), title), sentence(re.sub(r"\[([^\]]*)\]\([^)]*\)", r"\1", after).replace("*", "").split("\n")).strip()
