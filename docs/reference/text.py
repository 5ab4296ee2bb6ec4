"""Makes docs/INDEX.md and docs/WORDS.md: the items, and the definitions that contracts use."""
import functools
import re
import textwrap

from sources import all_modules, closed, is_method, joined, modules, open_sections, original_of, passed_on, text_of
from words import CRATES, TOP, clauses, files, reached, uses

WIDTH = 112
HEAD = """# Every public item

Written by `docs/index` from the sources; `.ci/run` checks that it is up to date. An item has its signature, its first
sentence, what it corresponds to in the original if the names differ, and its contract, a line for each clause: its
label, and what it says. A clause that the caller must meet begins with `requires`; what a call ensures has no such
word. [WORDS](WORDS.md) says what the names in clauses mean. `docs/index --html FOLDER` makes the same for a browser,
with each name a link.

An item is named by the path of its module, or by one of those that re-export it. Functions of the standard library's
traits are under their `impl`. A contract that is just the trait's own is not repeated.
"""
WORDS_HEAD = """# The words of the contracts

Written by `docs/index` from the comments in `specs/`; `.ci/run` checks that it is up to date. It has every definition
that a clause of a public function reaches, by crate and by file. Names of the standard library (`length`, `take`,
`OnOk`) are the toolchain's: its guides explain them, and `docs/index --html FOLDER` shows them, too.
"""


def sentence(doc):
    """The first sentence of a comment."""
    text = " ".join(doc)
    found = re.match(r"(.*?[.:])(\s|$)", text)
    return (found.group(1) if found else text).rstrip(":")


def wrapped(text, first="", rest=""):
    """Lines of a text that is no code, of at most `WIDTH` columns."""
    return textwrap.wrap(text, WIDTH, initial_indent=first, subsequent_indent=rest, break_long_words=False, break_on_hyphens=False)


def summary(doc):
    """What an item does, and what its comment says of the original."""
    does, original = sentence([it for it in doc if it]), original_of(doc)
    ended = does + ("" if not does or does.endswith(".") else ".")
    return " ".join(it for it in (ended, "" if original == ended else original) if it)


def entry(shown, doc, clauses):
    """An item as lines of a piece of code: its signature, what it does, and each clause."""
    lines = ["    " + line for line in shown]
    lines += wrapped(summary(doc), " " * 8, " " * 8) if summary(doc) else []
    for word, name, text, group, _ in clauses:
        head = " ".join(it for it in [word if word == "requires" else "", name] if it)
        lines.append(" " * 8 + (f"{head}: " if head else "") + text[0])
        lines += [" " * 12 + line for line in text[1:]]
    return "\n".join(lines) + "\n"


def signature(item):
    """A signature on as many lines as it has; of a type what is public, without comments."""
    return [line for line in item.shown if not line.strip().startswith("//")]


def entries_of(module):
    """The items of a file, each under the head of its section; macros first."""
    found = {}
    in_order = sorted(open_sections(module), key=lambda it: it[1][0].line if it[1] and not it[0].head else it[0].line)
    for section, items in in_order:
        trait = section.head.startswith("pub trait")
        if items or trait:
            there = found.setdefault(section.head, [])
            if trait:
                there.append(entry([section.head], section.doc, []))
            there.extend(entry(signature(it), it.doc, it.clauses) for it in items)
    return found


def bare_impls(file):
    """The traits that the file implements without a function, as derived ones and markers."""
    return re.findall(r"^(impl[^{\n]* for [^{\n]*) \{\}$", text_of(file), re.M)


def page():
    out, count = [HEAD], 0
    for crate in CRATES:
        out.append(f"\n## `{crate}`\n")
        for module in modules(crate):
            passed = passed_on(module.file) if module.public else []
            marks, found = bare_impls(module.file), entries_of(module)
            if not (found or passed or marks):
                continue
            where = f"`{module.file.relative_to(TOP)}`" + ("" if module.public else ", a private module")
            where += "; re-exports " + ", ".join(f"`{it}`" for it in passed) if passed else ""
            out.append(f"\n### `{module.path}`\n\n" + "\n".join(wrapped(where)) + "\n")
            count += sum(len(there) for there in found.values())
            for head, there in found.items():
                out += [f"**`{head}`**\n"] if head and not head.startswith("pub trait") else []
                out += there
            out += [f"**`{mark}`**\n" for mark in marks]
    out.append(f"\n{count} items.\n")
    return re.sub(r"\n{3,}", "\n\n", "\n".join(out))


def contracts(crates):
    """The clauses of all public functions, each with the names of its file."""
    for module in all_modules(crates):
        lines = text_of(module.file).split("\n")
        scope, trait = uses(lines), False
        for at, line in enumerate(lines):
            trait = trait and line != "}" or bool(re.match(r"(pub trait|impl.* for )", line))
            if re.match(r"\s*pub fn \w+", line) or trait and is_method(line):
                _, after = joined(lines, at, lambda t: closed(t) and "(" in t)
                while after < len(lines) and lines[after].strip().startswith("where"):
                    _, after = joined(lines, after, lambda t: t.endswith((",", "{")))
                for _, _, text in clauses(lines, after)[0]:
                    yield scope, text


@functools.lru_cache(maxsize=None)
def reached_words(crates=tuple(CRATES)):
    """The definitions that clauses of public functions reach, each once."""
    seen = []
    for scope, text in contracts(crates):
        seen += [it for it in reached(text, scope) if it not in seen]
    return seen


def words_page():
    reached_all, out, count = reached_words(), [WORDS_HEAD], 0
    for crate in CRATES:
        there = [(file, [it for it in file.words.values() if it in reached_all]) for file in files().values() if file.crate == crate]
        if not any(words for _, words in there):
            continue
        out.append(f"\n## `{crate}`\n")
        for file, words in there:
            if words:
                title = file.title.rstrip(".") + ". " if file.title else ""
                out.append(f"\n### `{file.key[1]}`\n\n" + "\n".join(wrapped(f"{title}`{file.path.relative_to(TOP)}`")) + "\n")
                out += ["\n".join(wrapped(f"`{it.name}`: {it.sentence()}", "- ", "  ")) for it in words]
                count += len(words)
    out.append(f"\n{count} words.\n")
    return re.sub(r"\n{3,}", "\n\n", "\n".join(out))
