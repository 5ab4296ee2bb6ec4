"""Renders the repository's documentation in markdown beside the reference."""
import html
import re

import aliases
from carried import modules_in
from markdown import Renderer
from tags import link, plain
from words import TOP

NAMES = {"README.md": "Bozhenaw", "bench/README.md": "Costs", "tests/scripts/README.md": "Stored scripts"}
FILES = {
    "README.md": "index.html",
    "bench/README.md": "costs.html",
    "tests/scripts/README.md": "scripts.html",
    "tools/vim/README.md": "EDITOR.html",
}
# Files that the reference itself replaces.
REPLACED = {"docs/INDEX.md": "items.html", "docs/WORDS.md": "words.html"}


def page_name(name):
    return FILES.get(name) or name.rsplit("/", 1)[-1].replace(".md", ".html")


def title_of(name):
    if name in NAMES:
        return NAMES[name]
    return re.match(r"# (.*)", (TOP / name).read_text(encoding="utf-8")).group(1).replace("`", "")


class Guide:
    """One file of markdown: where its links lead, and how its code is shown."""

    def __init__(self, name, site):
        self.name, self.site = name, site
        self.renderer = Renderer(self.link, site.items.code)
        self.renderer.block = self.block
        if name == "docs/SPECIFICATION.md":
            self.renderer.bracket = self.carried
        if name == "docs/DIFFERENCES.md":
            self.renderer.mark, self.renderer.item = self.row_mark, self.row

    def made(self):
        body = self.renderer.page((TOP / self.name).read_text(encoding="utf-8"))
        inner = [(anchor, title) for level, anchor, title in self.renderer.headings if level == 2]
        if len(inner) < 3:
            return body
        first, rest = body.split("</h1>", 1) if "</h1>" in body else ("", body)
        listed = "".join(f'<li><a href="#{anchor}">{self.renderer.bare(title)}</a></li>' for anchor, title in inner)
        return f'{first}</h1><details class="here" open><summary>On this page</summary><ul>{listed}</ul></details>{rest}'

    def row_mark(self, lines):
        """The anchor of a row on the original's items, to which the search leads."""
        row = aliases.row_of(lines)
        return f' id="{row.anchor}"' if row else ""

    def row(self, lines):
        """A row; if its names are left out, with what to use in place of each."""
        row, instead = aliases.row_of(lines), {}
        for name in row.names if row and row.is_left_out else ():
            if name in aliases.instead():
                instead.setdefault(aliases.instead()[name], []).append(f"<code>{plain(name)}</code>")
        uses = "".join(f"<li>{', '.join(names)}: {self.renderer.inline(use)}</li>" for use, names in instead.items())
        return Renderer.item(self.renderer, lines) + (f'<p class="why">Use, in place of</p><ul class="why">{uses}</ul>' if uses else "")

    def carried(self, bracket):
        """What carries a rule, each name with its link."""
        shown, modules = [], modules_in(self.renderer.title)
        for name, clauses in self.site.carried.parts(bracket):
            found = self.site.carried.links(name, clauses, modules) or [(it, None) for it in (name, *clauses)]
            names = [link(href, plain(it), "w type") if href else plain(it) for it, href in found]
            head, rest = (name, names) if name in ("tested", "killed") else (names[0], names[1:])
            shown.append(head + (": " + ", ".join(rest) if rest else ""))
        return f'<small class="carried">[{"; ".join(shown)}]</small>'

    def link(self, target):
        """Where a link of this file leads in the reference; none if the reference does not have it."""
        if re.match(r"\w+:", target):
            return target
        path, _, anchor = target.partition("#")
        if not path:
            return target
        there = ((TOP / self.name).parent / path).resolve()
        name = str(there.relative_to(TOP)) if there.is_relative_to(TOP) else ""
        end = f"#{anchor}" if anchor else ""
        if name in REPLACED:
            return REPLACED[name]
        if any(name in names for _, names in self.site.guides):
            return page_name(name) + end
        if there.suffix == ".svg" and there.exists():
            return there.name
        if there.suffix in (".rt", ".antt") and name.startswith("crates/") and there.exists():
            return self.site.source_link(there)
        return None

    def block(self, kind, text):
        return self.site.items.rust(text) if kind == "rust" else html.escape(text, quote=False)
