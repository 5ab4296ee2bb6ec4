"""Reads the definitions of the crates' specs, and which of them a clause reaches.

`docs/index` uses it for docs/WORDS.md and the reference for a browser, and `docs/reach` for its counts.
"""
import collections
import functools
import pathlib
import re

TOP = pathlib.Path(__file__).resolve().parent.parent.parent
# The library's crates, each after those that it depends on.
CRATES = ["aa_raw", "aa_boxed", "aa_vec", "aa_gap", "allocator_api2"]
# The examples that have pages: crates of their own, each after those that it depends on, with what it is and its part of the documentation.
COLLECTIONS = {
    "aa_table": ("A hash table", "EXAMPLES.html#a-hash-table"),
    "aa_ring": ("A queue with two ends", "EXAMPLES.html#a-ring"),
    "aa_inline": ("A small vector", "EXAMPLES.html#a-small-vector"),
    "aa_slots": ("A slot map", "EXAMPLES.html#a-slot-map"),
    "aa_ordered": ("An ordered map", "EXAMPLES.html#an-ordered-map"),
    "aa_ordered_set": ("An ordered set", "EXAMPLES.html#an-ordered-set"),
    "aa_heap": ("A priority queue", "EXAMPLES.html#a-heap"),
    "ex_small": ("An arena, a text builder, a line editor", "EXAMPLES.html#an-arena-by-handles"),
}
ALLOCATORS = {
    "aa_watched": ("A budget, a count", "EXAMPLES.html#allocators"),
    "aa_allocators": ("A pool, a recycler", "ALLOCATORS.html#a-pool"),
    "aa_allocator_tests": ("The test suite", "ALLOCATORS.html#the-allocator-test-suite"),
}
EXAMPLES = {**ALLOCATORS, **COLLECTIONS}
# The examples that have no page.
LESSONS = ["ex_trees"]
HEAD = re.compile(r"^((?:  )*)(?:(abbrev|unfoldable|opaque|irreducible) )?pub (?:(record|data) )?([^\s.:{}()]+)(?=[\s:(]|$)")
NAME = re.compile(r"[^\s(){},;.\[\]λ]+")
USE = re.compile(r"(?:pub |ghost )*use Rattle\.(\w+)\.specs\.([\w.]+?)(?:\.\{(.*?)\}| as (\w+))?;?\s*$")


class Word:
    """A definition of a specs file: its name, its comment, its text, and the line where that begins."""

    def __init__(self, file, name, comment, text, around, line):
        self.file, self.name, self.comment, self.text, self.line = file, name, comment, text, line
        self.around = around  # the heads of the modules that it is in

    def sentence(self):
        return " ".join(self.comment)

    def parameters(self):
        """How many parameters it takes, but for those in braces: its own, and those of the modules that it is in."""
        head = re.split(r"\bwhere\b|\n\s*" + re.escape(self.name) + r"\s", self.text)[0]
        bound, _, arrows = parted(head.split(self.name, 1)[1], ":")
        return sum(named(part) for part in self.around) + named(bound) + arrow_parameters(arrows)


def sliced(lines, at, indent, name):
    """The lines of the definition that begins here: those with a greater indent, and the equations that begin with its name."""
    end = at + 1
    while end < len(lines) and lines[end].strip() and lines[end].startswith((indent + "  ", indent + name)):
        end += 1
    return lines[at:end]


def parted(text, mark):
    """The text before the first mark outside of all brackets, the mark, and the text after it."""
    depth = 0
    for at, letter in enumerate(text):
        depth += (letter in "({[") - (letter in ")}]")
        if not depth and text.startswith(mark, at):
            return text[:at], mark, text[at + len(mark) :]
    return text, "", ""


def named(text):
    """How many names `(a b : T) {C : D} (e : F)` binds, but for those in braces."""
    return sum(len(parted(group[1:-1], ":")[0].split()) for group in groups(text) if group[0] == "(")


def groups(text):
    """The bracketed parts of a text that are in no other."""
    depth, start = 0, 0
    for at, letter in enumerate(text):
        if letter in "({":
            start = start if depth else at
            depth += 1
        elif letter in ")}":
            depth -= 1
            if not depth:
                yield text[start : at + 1]


def arrow_parameters(text):
    """How many parameters the arrows of a type `A → (b c : B) → {D : E} → F` take, but for those in braces."""
    first, arrow, rest = parted(text, "→")
    if not arrow:
        return 0
    part = first.strip()
    if part.startswith("{"):
        return arrow_parameters(rest)
    names = parted(part[1:-1], ":") if part.startswith("(") and len(list(groups(part))) == 1 else ("", "", "")
    return (len(names[0].split()) if names[1] else 1) + arrow_parameters(rest)


class File:
    """A specs file: its path of names, its first comment, its definitions, and the names that it imports."""

    def __init__(self, crate, path):
        self.crate, self.path = crate, path
        self.key = (crate, ".".join(path.relative_to(TOP / "crates" / crate / "specs").with_suffix("").parts))
        lines = path.read_text(encoding="utf-8").split("\n")
        self.title = " ".join(line[3:] for line in lines[: next((i for i, l in enumerate(lines) if not l.startswith("-- ")), 0)])
        self.words = dict(self.read(lines))
        self.scope = uses(lines)

    def read(self, lines):
        comment, at, modules = [], 0, []
        while at < len(lines):
            line = lines[at]
            found = HEAD.match(line)
            depth = len(line) - len(line.lstrip())
            if line.strip():
                modules = [it for it in modules if it[0] < depth]
            if line.strip().startswith("module _"):
                end = next(i for i in range(at, len(lines)) if lines[i].rstrip().endswith(" where"))
                modules.append((depth, " ".join(lines[at : end + 1]).split("_", 1)[1]))
                comment, at = [], end + 1
                continue
            if line.strip().startswith("-- "):
                comment.append(line.strip()[3:])
            elif found and not line.startswith(("pub use", "pub module")):
                text = sliced(lines, at, found.group(1), found.group(4))
                yield found.group(4), Word(self, found.group(4), comment, "\n".join(text), [it[1] for it in modules], at + 1)
                comment, at = [], at + len(text)
                continue
            else:
                comment = []
            at += 1


def uses(lines):
    """What the lines import from specs: each name with its crate, its file and its name there; for a module the last is none."""
    names, text = {}, []
    for line in lines:
        line = line.strip()
        if text or re.match(r"(pub |ghost )*use ", line):
            text.append(line)
            joined = " ".join(text)
            if joined.count("{") > joined.count("}"):
                continue
            found = USE.match(joined)
            text = []
            if not found:
                continue
            crate, file, inner, alias = found.groups()
            for part in (inner or "").split(",") if inner else []:
                there, _, here = part.strip().partition(" as ")
                names[here.strip() or there] = (crate, file, there)
            if not inner:
                names[alias or file.split(".")[-1]] = (crate, file, None)
    return names


@functools.lru_cache(maxsize=None)
def files():
    found = {}
    for crate in sorted(p.name for p in (TOP / "crates").iterdir() if (p / "specs").is_dir()):
        for path in sorted((TOP / "crates" / crate / "specs").rglob("*.antt")):
            if not {"declared", "formers", "contracts"} & set(path.parts):
                file = File(crate, path)
                found[file.key] = file
    return found


def word_at(crate, file, name):
    """The definition of this name in a file, or in one that the file re-exports it from."""
    there = files().get((crate, file))
    if not there:
        return None
    if name in there.words:
        return there.words[name]
    passed = there.scope.get(name)
    return word_at(passed[0], passed[1], passed[2]) if passed and passed[2] and passed[:2] != (crate, file) else None


def cited(text, scope, own=None):
    """The definitions that a text cites, if names mean what `scope` and the file `own` say."""
    text = re.sub(r"--.*", "", text)
    for module, name in re.findall(r"\b(\w+)\.(\w[^\s(){},;.]*)", text):
        place = scope.get(module)
        if place and place[2] is None:
            word = word_at(place[0], place[1], name)
            if word:
                yield word
    for name in NAME.findall(text):
        if own and name in own.words:
            yield own.words[name]
        elif name in scope and scope[name][2]:
            word = word_at(*scope[name])
            if word:
                yield word


def reached(text, scope):
    """All definitions that a clause reaches: those that it cites, and those that these cite."""
    seen, left = [], list(cited(text, scope))
    while left:
        word = left.pop()
        if word not in seen:
            seen.append(word)
            left += [it for it in cited(word.text, word.file.scope, word.file) if it is not word]
    return seen


# A clause: `requires` or `ensures`, its label, the lines of its text without the clause's own indent, the heading of its group (the `//`
# lines above the group's first clause), and its line.
Clause = collections.namedtuple("Clause", "word name lines group line")


def whole_clauses(lines, at):
    """The clauses from line `at` to the body, and the line after them."""
    found, group, heading = [], "", []
    while at < len(lines):
        line = lines[at].strip()
        if re.match(r"(requires|ensures)\b", line):
            group, heading = " ".join(heading) or group, []
            text, first, columns = [line], at, len(lines[at]) - len(line)
            while "".join(text).count("{") > "".join(text).count("}"):
                at += 1
                indent = len(lines[at]) - len(lines[at].lstrip())
                text.append(" " * max(0, indent - columns - 4) + lines[at].strip())
            head = re.match(r"(requires|ensures)\*?\s*([a-z_]\w*)?\s*\{(.*)\}\s*;?\s*\{?$", "\n".join(text), re.S)
            found.append(Clause(head.group(1), head.group(2) or "", head.group(3).strip().split("\n"), group, first + 1))
            if line.endswith((";", "} {")) or text[-1].endswith((";", "} {")):
                break
        elif line.startswith("//") and not line.startswith("///"):
            heading.append(line[2:].strip())
        elif line in ("{", "{}") or line.endswith(";") or line.startswith(("pub ", "fn ", "impl", "}")):
            break
        at += 1
    return found, at


def clauses(lines, at):
    """The clauses from line `at` to the body: the word, label and text of each; and the line after them."""
    found, after = whole_clauses(lines, at)
    return [(it.word, it.name, " ".join(line.strip() for line in it.lines)) for it in found], after
