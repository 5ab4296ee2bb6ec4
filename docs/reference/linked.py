"""Turns clauses and definitions into HTML in which each word is a link to its definition."""
import collections
import html
import re

import toolchain
from signs import SIGNS
from words import CRATES, EXAMPLES, parted, word_at

TOKEN = re.compile(r"--[^\n]*|\[\]|[^\W\d](?:[\w'-]*[\w'])?|\d+|[^\s\w(){},;.\[\]]+|[\s\S]")
# How a clause binds names.
BOUND = re.compile(r"λ ([^.]*)\.|\blet ([^\s:]+)|[({]([^(){}:]+?) : ")


def slug(text):
    """A name in the form of an anchor."""
    return "".join(c if re.match(r"[\w.-]", c) else f"-{ord(c):x}" for c in text)


class Context:
    """The context of a text: the names that its file imports, the specs file itself, and the names that are bound there."""

    def __init__(self, scope, own=None, given=(), bounds=None, records=None):
        self.scope, self.own, self.given, self.bounds = scope, own, set(given), bounds or {}
        self.records = records or {}  # what has fields, by the names that are bound; those without a name under ""
        self.signs = {part: name for name in list(scope) + list(own.words if own else ()) if "◌" in name for part in name.split("◌") if part}


class Links:
    """Links each word to its definition; counts the links, and keeps the toolchain's words that are cited."""

    def __init__(self, words, types, members):
        self.words, self.types, self.members = words, types, members  # each with its link
        self.far, self.counts, self.unknown = {}, collections.Counter(), collections.Counter()
        self.fields = collections.defaultdict(list)
        for word in words:
            for field in fields_of(word):
                self.fields[field].append(word.name)
        self.places = {word.name: words[word] for word in words if fields_of(word)}
        self.by_record = {word.name: set(fields_of(word)) for word in words if fields_of(word)}

    def mark(self, text, context, counted=None):
        """The text as HTML; its words are counted under `counted`."""
        given = context.given | names_bound(text)
        out, tokens = [], TOKEN.findall(text)
        for at, token in enumerate(tokens):
            base = tokens[at - 2] if at > 1 and tokens[at - 1] == "." and not tokens[at - 2].isspace() else None
            root = base
            for back in range(at - 2, 0, -2) if base else ():
                root = tokens[back]
                if tokens[back - 1] != ".":
                    break
            kind, href = self.resolved(token, base, context, given, root)
            if kind in ("unknown", "own", "far", "given") and tokens[at + 1 : at + 3] == [" ", "="] and "record" in text:
                kind, href = self.field(token, context, "")
            if counted:
                self.counts[counted, kind if href or kind in ("given", "mark", "comment") else "unlinked"] += 1
                if kind == "field" and not href:
                    self.unknown[f".{token}"] += 1
                if kind in ("unknown", "missing"):
                    self.unknown[token] += 1
            out.append(shown(token, kind, href))
        return "".join(out)

    def resolved(self, token, base, context, given, root):
        """What kind of thing a token is, and its link."""
        if token.isspace() or token.isdigit() or token in set("(){},;.[]"):
            return "mark", None
        if token.startswith("--"):
            return "comment", None
        if base:
            return self.after_dot(token, base, context, root)
        if token in given or token in ("as", "static"):
            return "given", None
        if context.scope.get(token, ("", ""))[1] is None:
            return "given", None
        name = context.signs.get(token, token)
        word = self.word(name, context)
        if word:
            return word
        if token in self.types:
            return "type", self.types[token]
        if token in SIGNS or f"◌{token}◌" in SIGNS:
            return self.sign(token)
        if token in self.members:
            return "member", self.members[token]
        if re.match(r"\W", token):
            return "mark", None
        if context.own is not None:
            return "given", None
        return self.rust(token) if token[0].isupper() else ("unknown", None)

    def rust(self, token):
        """A type or a trait of Rust's library that a clause names."""
        far = toolchain.Far(token, "Rust", f"`{token}` of Rust's library, in the toolchain")
        self.far[far.key] = far
        return "far", f"toolchain.html#{slug(far.key)}"

    def word(self, name, context):
        """A word of the library or of the toolchain, by the names that the file imports."""
        if context.own and name in context.own.words and context.own.words[name] in self.words:
            return "own", self.words[context.own.words[name]]
        path, there = context.scope.get(name, (None, None))
        return self.word_of(path, there, name) if path and there else None

    def word_of(self, path, there, name):
        found = re.match(r"Rattle\.(\w+)\.specs\.([\w.]+)$", path)
        if found and found.group(1) in [*CRATES, *EXAMPLES]:
            word = word_at(found.group(1), found.group(2), there)
            if word in self.words:
                return "own", self.words[word]
            # What is declared of a type of Rust: the type itself, or its variants.
            of = re.sub(r"\.The\w+$", "", path).split(".")[-1]
            return ("type", self.types[of]) if of in self.types else None
        far = toolchain.word(path, there)
        if far:
            self.far[far.key] = far
            return "far", f"toolchain.html#{slug(far.key)}"
        return ("missing", path) if found or "." in path else None

    def after_dot(self, token, base, context, root):
        """A part of something: a module's word, a type's variant, a trait's member, or a field."""
        path, there = context.scope.get(base, (None, None))
        if path and there is None:
            return self.word_of(path, token, token) or ("given", None)
        if base in self.types and token[0].isupper():
            return "type", self.types[base]
        if base in context.bounds:
            return self.member(token, base, context)
        if token in ("old", "new", "now", "entry", "exit", "ghost_name", "row"):
            return self.sign(token)
        return self.field(token, context, root)

    def field(self, token, context, root):
        """A field: of the record of the name before the dot, else of the one record in reach that has it, or of the only one."""
        for names in (context.records.get(root, ()), [it for there in context.records.values() for it in there], self.fields[token]):
            there = {it for it in names if token in self.known_fields(it)}
            if len(there) == 1:
                name = there.pop()
                return "field", self.places.get(name) or self.types.get(name)
        return "field", None

    def known_fields(self, name):
        return self.by_record.get(name, ())

    def member(self, token, base, context):
        """A ghost member of a trait that a type parameter has."""
        if token in self.members:
            return "member", self.members[token]
        if token == "row" or token[0].isupper():
            return self.sign("row")
        there = toolchain.members().get("steps" if token == "step" else token, ())
        far = next((it for it in there if it.place.split()[-1] in context.bounds[base]), there[0] if there else None)
        if not far:
            return "missing", f"a trait's member {token}"
        self.far[far.key] = far
        return "far", f"toolchain.html#{slug(far.key)}"

    def sign(self, token):
        name = token if token in SIGNS else f"◌{token}◌"
        far = toolchain.Far(name, "sign", SIGNS[name])
        self.far[far.key] = far
        return "sign", f"toolchain.html#{slug(far.key)}"


def names_bound(text):
    """The names that a text binds."""
    found = set()
    for groups in BOUND.findall(text):
        found |= {name for part in groups for name in re.findall(r"[^\W\d][\w'-]*", part)}
    return found


def names_of_equations(word):
    """The names that a definition's equations and binders bind, each with the first word of its type if the text has it."""
    lines, found = word.text.split("\n"), {}
    for names, of in re.findall(r"[({]([^(){}:]+?) : \(?([^\W\d][\w'-]*)", " ".join(word.around) + word.text):
        found.update({name: of for name in names.split()})
    head = re.split(r"\n\s*" + re.escape(word.name) + r"\s", word.text)[0]
    types = list(of_arrows(parted(head.split(word.name, 1)[1], ":")[2]))
    for line in lines[1:]:
        if line.strip().startswith(word.name + " ") and "=" in line:
            parts = re.findall(r"\([^()]*(?:\([^()]*\)[^()]*)*\)|[^\s()]+", line.split("=")[0].strip())[1:]
            for at, part in enumerate(parts):
                if re.fullmatch(r"[^\W\d][\w'-]*", part):
                    found[part] = types[at] if at < len(types) else found.get(part, "")
                for name in re.findall(r"[^\W\d][\w'-]*", part) if part.startswith("(") else ():
                    if name[0].islower():
                        found.setdefault(name, "")
    return {name: of for name, of in found.items() if name[0].islower()}


def of_arrows(text):
    """The first word of each parameter's type, of a type with arrows; those in braces are left out."""
    first, arrow, rest = parted(text, "→")
    if not arrow:
        return
    part = first.strip()
    if not part.startswith("{"):
        names, mark, of = parted(part[1:-1], ":") if part.startswith("(") else ("", "", "")
        word = re.search(r"[^\W\d][\w'-]*", of if mark else part)
        for _ in names.split() if mark else ("",):
            yield word.group(0) if word else ""
    yield from of_arrows(rest)


def fields_of(word):
    """The fields of a definition that is a record."""
    head = word.text.lstrip()
    return re.findall(r"^\s+pub ([^\s:]+) :", word.text, re.M) if head.startswith("pub record") else []


def shown(token, kind, href):
    text = html.escape(token, quote=False)
    if kind == "comment":
        return f'<i class="c">{text}</i>'
    if kind == "missing":
        return f'<span class="far" title="a word of the toolchain: {html.escape(str(href))}">{text}</span>'
    # A sign is in nearly every clause, so the Tab key passes over it.
    skipped = ' tabindex="-1"' if kind == "sign" else ""
    return f'<a class="w {kind}" href="{href}"{skipped}>{text}</a>' if href else text
