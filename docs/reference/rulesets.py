"""Reads the rulesets that `allocator_api2` re-exports, with the statements of their lemmas, for docs/RULESETS.md."""
import functools
import re

from words import TOP

# The files of proofs that users name rulesets of.
DOORS = ["Blocks", "Callers"]
USE = re.compile(r"^(?:pub )?use Rattle\.(\w+)\.proofs\.([\w.]+)\.\{(.*)\}$")
HEAD = """# Rulesets, and what their lemmas say

Written by `docs/index` from the sources; `.ci/run` checks that it is up to date. It has each ruleset that users
name in an attribute, as `#[tactic(auto, using(allocator_api2::proofs::Blocks::at_ends))]`, with its lemmas. The
search applies them by itself. In a proof by hand, import a lemma from the file named above it. `rt lemma WORD..`
finds lemmas by name. Both need the lemma's crate in your line of `crates.txt`.
"""


def whole(lines):
    """The lines, with the head of a module, a ruleset or a statement that goes on over several of them on one."""
    rows, is_open, declared = [], False, 0
    for line in lines:
        depth = len(line) - len(line.lstrip())
        if is_open and line.strip() and (depth > declared or line.strip() == ")"):
            rows[-1] += " " + line.strip()
        else:
            declared, is_open = depth, bool(re.match(r"\s*(module _|(pub )?ruleset|(pub )?\S+ :) ", line))
            rows.append(line)
        is_open = is_open and not rows[-1].endswith(" where")
    return rows


class Proofs:
    """A file of proofs: its rulesets, its lemmas with their statements, and the names that it imports."""

    def __init__(self, crate, path):
        self.name = f"Rattle.{crate}.proofs.{path}"
        file = TOP / "crates" / crate / "proofs" / (path.replace(".", "/") + ".antt")
        self.lines = whole(file.read_text(encoding="utf-8").split("\n"))
        self.taken = dict(self.names(self.lines))
        self.re_exported = dict(self.names(it for it in self.lines if it.startswith("pub ")))
        self.rulesets = {name: re.findall(r"[^,\s]+", text) for name, text in re.findall(r"^ *pub ruleset (\w+) = \((.*)\)$", "\n".join(self.lines), re.M)}

    def names(self, lines):
        """Each name that the lines import, with the file of proofs that it comes from and its name there."""
        for line in lines:
            found = USE.match(line)
            for part in re.split(r",\s*", found.group(3)) if found else []:
                there, _, here = part.partition(" as ")
                yield here or there, (found.group(1), found.group(2), there)

    def statement(self, name):
        """The lemma's statement, with the variables of the modules that it is in; none if it is in another file."""
        around = []
        for line in self.lines:
            depth = len(line) - len(line.lstrip())
            if line.strip():
                around = [it for it in around if it[0] < depth]
            if line.strip().startswith("module _"):
                around.append((depth, line.strip()[len("module _ ") : -len(" where")]))
            found = re.match(r"\s*(?:pub )?" + re.escape(name) + r" : (.*)$", line)
            if found:
                bound = re.sub(r"\{\w+( \w+)* : Type 0\}", "", " ".join(it[1] for it in around)).strip()
                said = found.group(1)
                return f"{bound} {said}" if bound and said.startswith("(") else f"{bound} → {said}" if bound else said
        return None


@functools.lru_cache(None)
def proofs(crate, path):
    return Proofs(crate, path)


def of_repository(file, name):
    """The file of this repository that has the name, and its name there; none if it is the toolchain's."""
    while name in file.taken and (TOP / "crates" / file.taken[name][0]).exists():
        crate, path, name = file.taken[name]
        file = proofs(crate, path)
    return None if name in file.taken else (file, name)


def lemmas(file, ruleset):
    """The lemmas of a ruleset, those of the rulesets in it among them: each with its file."""
    for name in file.rulesets[ruleset]:
        there = of_repository(file, name)
        if there and there[1] in there[0].rulesets:
            yield from lemmas(*there)
        elif there and there[0].statement(there[1]):
            yield there


def broken(said):
    """The statement in lines of at most 120 columns, broken before an arrow if one is near, else at the end of a word."""
    while len(said) > 120:
        at = said.rfind(" → ", 40, 120)
        at = at if at > 0 else said.rfind(" ", 40, 120)
        yield said[:at]
        said = "    " + said[at + 1 :]
    yield said


def section(door, name):
    """The lines of a ruleset."""
    by_file = {}
    for file, lemma in dict.fromkeys(lemmas(*of_repository(door, name))):
        by_file.setdefault(file.name, []).extend(broken(f"{lemma} : {file.statement(lemma)}"))
    yield f"\n### `{name}`"
    for file, said in by_file.items():
        yield f"\n`{file}`\n\n```text"
        yield from said
        yield "```"


def page():
    out = [HEAD]
    for path in DOORS:
        door = proofs("allocator_api2", path)
        out.append(f"\n## `allocator_api2::proofs::{path}`")
        for name in [*door.re_exported, *door.rulesets]:
            there = of_repository(door, name)
            if there and there[1] in there[0].rulesets:
                out.extend(section(door, name))
    return re.sub(r"\n{3,}", "\n\n", "\n".join(out)) + "\n"
