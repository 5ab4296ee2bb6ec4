"""Sees that the labels of clauses are of one set: those in CONTRIBUTING's tables, the fields of models, and past participles.

`docs/index --check` reports each label that is in none of these, and `docs/words` lists them with their crates. A model is the record that
contracts see a type as: the `Value` of its `Model`.
"""
import collections
import fnmatch
import functools
import re

from linked import fields_of
from sources import text_of
from words import CRATES, EXAMPLES, LESSONS, TOP, files

PAGE = TOP / "CONTRIBUTING.md"
HEAD = re.compile(r"\| *Label *\| *Says *\|")
CLAUSE = re.compile(r"\s*(?:requires|ensures)\*? +([a-z_]\w*) *\{")
# Past participles that do not end in `ed`, and words that do but are none.
IRREGULAR = set("made kept put cut left found split run taken written held set sorted known lost sent begun".split())
NO_PARTICIPLES = set("hundred need seed speed".split())
# Labels that stay for a reason: the files (a pattern), the label, and why.
ALLOWED = []
# A label of a clause: its crate, its file within the repository, its function, and itself.
Label = collections.namedtuple("Label", "crate file function name")


def crates():
    """The library's crates, and those of the examples, but none of tests."""
    return [it for it in [*CRATES, "guide", *sorted([*EXAMPLES, *LESSONS])] if (TOP / "crates" / it / "src").is_dir()]


def labels():
    """Each label of a clause."""
    for crate in crates():
        for file in sorted((TOP / "crates" / crate / "src").rglob("*.rt")):
            function = ""
            for line in text_of(file).split("\n"):
                function = next(iter(re.findall(r"\bfn (\w+)", line.partition("//")[0])), function)
                found = CLAUSE.match(line)
                if found:
                    yield Label(crate, str(file.relative_to(TOP)), function, found.group(1))


@functools.lru_cache(maxsize=None)
def listed():
    """The labels in the tables of CONTRIBUTING that are headed `Label` and `Says`."""
    found, inside = set(), False
    for line in text_of(PAGE).split("\n") if PAGE.exists() else []:
        inside = line.startswith("|") and (inside or bool(HEAD.match(line)))
        if inside:
            found |= set(re.findall(r"`([a-z_]\w*)`", line.split("|")[1]))
    return found


@functools.lru_cache(maxsize=None)
def model_fields():
    """The fields of the records that are models of types."""
    sources = [text_of(file) for crate in crates() for file in (TOP / "crates" / crate / "src").rglob("*.rt")]
    values = " ".join(value for text in sources for value in re.findall(r"ghost Value = \{(.*?)\}", text))
    models = set(re.findall(r"[A-Z]\w+", values))
    return {field for file in files().values() for name in models & set(file.words) for field in fields_of(file.words[name])}


def is_participle(name):
    return name in IRREGULAR or bool(re.fullmatch(r"[a-z]+ed", name)) and name not in NO_PARTICIPLES


def is_known(label):
    """Whether a label is in the set, or stays for a reason."""
    allowed = any(name == label.name and fnmatch.fnmatch(label.file, files) for files, name, _ in ALLOWED)
    return allowed or label.name in listed() or label.name in model_fields() or is_participle(label.name)


def unknown():
    """The labels that are not in the set, by their name, the most frequent name first."""
    found = {}
    for label in labels():
        if not is_known(label):
            found.setdefault(label.name, []).append(label)
    return dict(sorted(found.items(), key=lambda it: (-len(it[1]), it[0])))


def places_of(those):
    """How many labels of one name each crate has, and in which functions."""
    by_crate = {}
    for label in those:
        by_crate.setdefault(label.crate, []).append(label.function)
    return [f"{crate} {len(names)}: {', '.join(dict.fromkeys(names))}" for crate, names in by_crate.items()]


def faults():
    """The labels that are not in the set, a line for each."""
    for name, those in unknown().items() if PAGE.exists() else ():
        first = those[0]
        count = f"{len(those)} clauses have" if len(those) > 1 else "a clause has"
        yield f"{count} the label `{name}` (first {first.function} of {first.file}), which no table of CONTRIBUTING has"
