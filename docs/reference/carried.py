"""What carries the rules of SPECIFICATION: the names in brackets after them.

`[push: fits, pushed]` are clauses of a function, `[Box as Iterator]` is a trait that a type implements, `[Replaced: fits]` is a
definition with one of its fields, `[tested: liars]` is a test: a function, a file of them, a crate of these, or a file of tests/, and
`[killed: EDIT]` is a mutant that the checker kills. A bracket may have several, separated by `;`. A function without its type is one of
the modules that the section's heading names.
"""
import functools
import re

from linked import fields_of
from sources import text_of
from words import CRATES, TOP, files

PAGE = TOP / "docs" / "SPECIFICATION.md"
BRACKET = re.compile(r"\[([^\[\]()`]+)\](?!\()")


class Carried:
    """Finds what the brackets name."""

    def __init__(self, reference):
        self.reference, self.library = reference, reference.library
        self.calls = {}
        for name, of, _, what in self.library.entries():
            self.calls.setdefault(name, []).append((of.split(" as ")[0], what))

    def parts(self, bracket):
        """The names of a bracket, each with its clauses."""
        for part in re.sub(r"\s+", " ", bracket).split(";"):
            name, _, clauses = part.strip().partition(": ")
            yield name, [it.strip() for it in clauses.split(",") if it.strip()]

    def place(self, name, modules):
        """The functions and types of this name, those of the section's modules before all others."""
        of, _, call = name.rpartition("::")
        there = [what for owner, what in self.calls.get(call, ()) if not of or owner == of]
        near = [it for it in there if self.library.anchors[it][0].key.split("::")[0] in modules]
        return near or there

    def impl(self, name):
        """The `impl`s of a trait for a type, as `Box as Iterator`, with their items."""
        of, trait = name.split(" as ")
        there = self.library.types.get(of)
        beside = [it for page in self.library.pages.values() for it in page.others if it[0].type == of]
        return [it for it in (there.impls if there else beside) if it[0].trait.split("::")[-1] == trait]

    def links(self, name, clauses, modules):
        """The links of a name and its clauses, each with its text; none if one of them does not exist."""
        if name == "tested":
            return [(it, None) for it in clauses] if all(is_test(it) for it in clauses) else None
        if name == "killed":
            return [(it, None) for it in clauses] if set(clauses) <= edits() else None
        if " as " in name:
            found = self.impl(name)
            targets = [self.library.href(section) for section, _ in found]
            said = {clause.name for _, items in found for item in items for clause in item.clauses}
        else:
            found = self.place(name, modules)
            targets = [self.library.href(it) for it in found] or self.reference.named.get(name, []) or [None] * (name in words_beside())
            said = {clause.name for it in found for clause in getattr(it, "clauses", ())}
            said |= {field for word in self.reference.words if not found and word.name == name for field in fields_of(word)}
        if not targets or not set(clauses) <= said:
            return None
        return [(name, targets[0])] + [(clause, self.clause(clause, found) or targets[0]) for clause in clauses]

    def clause(self, name, found):
        """The link of a clause of this name, of the first function that has one."""
        items = [it for part in found for it in (part[1] if isinstance(part, tuple) else [part])]
        for item in items:
            for at, clause in enumerate(item.clauses):
                if clause.name == name:
                    return f"{self.library.href(item)}.{name}" + (f"-{at}" if clause.word == "requires" else "")
        return None

    def faults(self):
        """The names in brackets that name nothing."""
        modules = set()
        for line in blocks(PAGE.read_text(encoding="utf-8")):
            if line.startswith("#"):
                modules = modules_in(line)
            for bracket in BRACKET.findall(re.sub(r"`[^`]*`", "", line)):
                for name, clauses in self.parts(bracket):
                    if not self.links(name, clauses, modules):
                        yield f"docs/SPECIFICATION.md: [{name}{': ' if clauses else ''}{', '.join(clauses)}] names nothing"


def modules_in(heading):
    """The modules that a heading names in backticks."""
    return set(re.findall(r"`(\w+)`", heading))


def blocks(text):
    """The page's paragraphs and headings, each on one line, without code."""
    text = re.sub(r"^```.*?^```$", "", text, flags=re.M | re.S)
    for part in re.split(r"\n\s*\n|\n(?=#|- )", text):
        yield " ".join(line.strip() for line in part.split("\n"))


@functools.lru_cache(maxsize=None)
def words_beside():
    """The definitions and functions of crates above the library, which have no page in the reference."""
    calls = {name for file in (TOP / "crates" / "vecscript" / "src").rglob("*.rt") for name in re.findall(r"pub fn (\w+)", text_of(file))}
    return calls | {name for file in files().values() if file.crate not in CRATES for name in file.words}


@functools.lru_cache(maxsize=None)
def tests():
    """The names of tests: those of tests/, test functions, files with one or with a proved claim, and crates of such files."""
    found = {it.name for it in (TOP / "tests").iterdir()}
    for file in sorted((TOP / "crates").glob("*_tests/src/**/*.rt")):
        named = set(re.findall(r"#\[test\]\n(?:#.*\n)*fn (\w+)", text_of(file)))
        if named or "ensures" in text_of(file):
            found |= named | {file.stem, file.relative_to(TOP).parts[1]}
    return found


@functools.lru_cache(maxsize=None)
def edits():
    """The names of the mutants."""
    return {it.stem for kind in ("must-fail", "mutants") for it in (TOP / "crates").glob(f"*/{kind}/*.edit")}


def is_test(name):
    return name in tests()
