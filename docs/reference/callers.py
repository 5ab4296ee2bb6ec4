"""The proved functions of the guide and the examples, and the tests, and which functions of the library or of an example each calls."""
import collections
import functools
import re

from sources import text_of, type_of
from words import CRATES, EXAMPLES, LESSONS, TOP, parted

# A function that calls others: its crate, file, name, first line and text, and what it calls.
Caller = collections.namedtuple("Caller", "crate file name line text calls")
SKIPPED = {"faulty"}
# The crates of tests whose functions are quoted, too.
TESTS = ["ex_tests", "table_tests", "ring_tests", "inline_tests", "slots_tests", "ordered_tests", "ordered_set_tests", "heap_tests", "layer_tests", "refusal_tests"]
# The layers that stand on the block. Their functions are quoted if no other calls an item, as a collection's own are.
LAYERS = ["aa_boxed", "aa_vec", "aa_gap"]
# The traits whose methods are called on a type of another crate, or of a parameter.
TRAITS = {"SliceExt", "Repeat", "Watch", "Layer", "Chooser", "Hinted"}


def sources():
    for crate in ["guide", *sorted([*EXAMPLES, *LESSONS]), *TESTS, *LAYERS]:
        for file in sorted((TOP / "crates" / crate / "src").rglob("*.rt")):
            if not SKIPPED & set(file.relative_to(TOP).with_suffix("").parts):
                yield crate, file


@functools.lru_cache(maxsize=None)
def functions(file):
    """Each function of a file with a body: its name, its first line, the lines of its comment and text, and its type."""
    return list(read_functions(text_of(file).split("\n")))


def read_functions(lines):
    owner = ""
    for at, line in enumerate(lines):
        if line.startswith("impl"):
            owner = type_of(line)
        elif line == "}":
            owner = ""
        found = re.match(r"(\s*)(?:pub(?:\(crate\))? )?fn (\w+)", line)
        if not found:
            continue
        indent = found.group(1)
        end = next((i for i in range(at, len(lines)) if lines[i].startswith(indent + "}") or lines[i] == indent + "{}"), at)
        start = at
        while start and lines[start - 1].startswith((indent + "///", indent + "//", indent + "#[")):
            start -= 1
        yield found.group(2), at + 1, lines[start : end + 1], owner


@functools.lru_cache(maxsize=None)
def variants():
    """The type that each variant of a public enum has in it, where it is one type with parameters."""
    texts = [text_of(file) for crate in EXAMPLES for file in (TOP / "crates" / crate / "src").rglob("*.rt")]
    enums = re.findall(r"^pub enum .*?^}", "\n".join(texts), re.M | re.S)
    return {name: of for it in enums for name, of in re.findall(r"^    (\w+)\((\w+)<", it, re.M)}


def leaves(tree, before=()):
    """The names that a tree of a `use` brings into scope, each with its path."""
    head, brace, inside = tree.strip().partition("{")
    if brace:
        inside = inside.rsplit("}", 1)[0]
        while inside.strip():
            part, _, inside = parted(inside, ",")
            yield from leaves(part, before + tuple(it for it in head.strip().split("::") if it)) if part.strip() else ()
        return
    path, _, alias = head.partition(" as ")
    path = before + tuple(path.strip().split("::"))
    path = path[:-1] if path[-1] == "self" else path
    yield alias.strip() or path[-1], path


class Scope:
    """What a file's names mean, by its `use` lines: a name that no line imports is the toolchain's, or the file's own.

    `returned` has the types that the file's functions return, a method's under `self.NAME`, and `parts` those of a tuple that is returned.
    """

    def __init__(self, text, types, crates):
        own = re.findall(r"^pub (?:struct|enum|trait|fn) (\w+)", text, re.M) if "crate" in crates else ()
        trees = re.findall(r"^[ ]*(?:pub(?:\(\w+\))? )?use ([^;]+);", text, re.M)
        self.names = {name: ("crate", name) for name in own} | {name: path for tree in trees for name, path in leaves(tree)}
        self.types, self.crates, self.returned, self.parts = types, crates, {}, {}
        for name, path in re.findall(r"^(?:pub(?:\(\w+\))? )?type (\w+)(?:<[^=]*>)? = ((?:\w+::)*\w+)", text, re.M):
            self.names.setdefault(name, self.path(path))
        for name, of in re.findall(r"[<,] ?([A-Z]): (\w+)", text):
            self.names.setdefault(name, self.path(of))
        for indent, name, of in re.findall(r"^( *)(?:pub(?:\(\w+\))? )?fn (\w+)(?:[^;{\[]|\[[^\]]*\])*?\) -> (.*)", text, re.M):
            self.returned["self." * bool(indent) + name] = self.first_type(of)
            self.parts[name] = [self.first_type(it) for it in re.findall(r"[^(), ]+", of)] if re.match(r"\([\w, ]+\)", of) else []

    def type(self, written):
        """The type that a path names, if it is one of these crates', or none."""
        path = self.path(written)
        return path[-1] if path[0] in self.crates and path[-1] in self.types else None

    def first_type(self, text):
        """The first type of these crates that a text names, or none."""
        return next((it for it in map(self.type, re.findall(r"(?:\w+::)*\w+", text)) if it), None)

    def path(self, written):
        """A path from its crate on, if the file imports its first name."""
        first, *rest = written.split("::")
        return self.names.get(first, (first,)) + tuple(rest)

    def typed(self, text):
        """The names in a text that have a type of the library: parameters, fields, and what a type's functions return."""
        written = re.findall(r"\b(\w+): (?:&(?:'\w+ )?(?:mut )?)?((?:\w+::)*\w+)", text)
        written += re.findall(r"let (?:mut )?(\w+) = ((?:\w+::)*\w+)(?:::<[^>]*>)?::\w+\(", text)
        calls = re.findall(r"let (?:(?:Ok|Some)\()?(?:mut )?(\w+)\)? = (\w+)\(", text)
        for names, made in re.findall(r"let \(([\w, ]+)\) = \(([^;]*)\);", text):
            calls += zip(re.findall(r"\w+", names.replace("mut ", "")), re.findall(r"(?:^|, )(\w+)\(", made))
        found = {name: self.returned.get(call) for name, call in calls}
        for names, call in re.findall(r"let \(([\w, ]+)\) = (\w+)\(", text):
            names = [it.split()[-1] for it in names.split(", ")]
            found.update(zip(names, self.parts.get(call, ())) if len(names) == len(self.parts.get(call, ())) else ())
        found.update({name: self.type(path) for name, path in written})
        return {name: of for name, of in found.items() if of}


def fields_in(text, scope):
    """The fields of each of the file's structs that have a type of the library."""
    structs = re.findall(r"^(?:pub(?:\(crate\))? )?struct (\w+)[^;{]*\{\n(.*?)^\}", text, re.M | re.S)
    return {name: scope.typed(inside) for name, inside in structs}


# A name that is bound to what a function of a type returns, or a method called, whose result may be bound to a name.
MADE_OR_CALLED = re.compile(
    r"let (?:(?:Ok|Some)\()?(?:mut )?(\w+)\)? = ((?:\w+::)*\w+)(?:::<[^>]*>)?::\w+\("
    r"|(?:let (?:mut )?(\w+) = )?((?:\w+\.)*\w+)\.(\w+)(?:::<[^>]*>)?\("
)


def calls_of(lines, fields, scope, methods):
    """The library's functions that a function calls, each as its type and name. `methods` has the type that each returns, or none."""
    text = "\n".join(line for line in lines if not line.strip().startswith("//"))
    indent = re.search(r"(?m)^( *)(?:pub(?:\(crate\))? )?fn ", text)[1]
    parts = text.split(f"\n{indent}{{\n", 1)
    known = scope.typed(text)
    inside = re.sub(r"\s*\n\s*\.", ".", parts[1] if len(parts) > 1 else text)
    found = set()
    known.update({name: known[of] for name, of in re.findall(r"let (?:mut )?(\w+) = (\w+);", inside) if of in known})
    for of, name in re.findall(r"\b((?:\w+::)*\w+)(?:::<[^>]*>)?::(\w+)(?:::<[^>]*>)?\(", inside):
        if (scope.type(of), name) in methods:
            found.add((scope.type(of), name))
    for let, made, named, path, name in MADE_OR_CALLED.findall(inside):
        if let:
            known[let] = scope.type(made) or known.get(let)
            continue
        parts = path.split(".")
        of = fields.get(parts[-1]) if len(parts) > 1 else known.get(parts[0])
        if of and (of, name) in methods:
            found.add((of, name))
            if named and methods[of, name]:
                known[named] = methods[of, name]
    # What an arm of a match calls on the value of its variant.
    arms = [it for it in re.finditer(r"(\w+)\((?:mut )?(\w+)\) =>", inside) if it[1] in variants()]
    for arm, end in zip(arms, [it.start() for it in arms[1:]] + [len(inside)]):
        for name in re.findall(rf"\b{arm[2]}\.(\w+)\(", inside[arm.end() : end]):
            found |= {(of, name) for of in [variants()[arm[1]]] if (of, name) in methods}
    # Functions that belong to no type, macros, and methods of a trait that the file imports.
    for name in re.findall(r"(?<![\w.:])(\w+)(?:(?:::<[^>]*>)?\(|!\[)", inside):
        if scope.path(name)[0] in scope.crates and ("", name) in methods:
            found.add(("", name))
    traits = {of for of in scope.names if scope.type(of)}
    for name in re.findall(r"(?:\.|\bu\d+::)(\w+)(?:::<[^>]*>)?\(", inside):
        found |= {(of, name) for of in traits & TRAITS if (of, name) in methods}
    # What is called on what a function of the file returns, and on what a call returns, from left to right.
    for own, first, name in re.findall(r"(?<![\w:.])(self\.)?(\w+)\((?:[^()]|\([^()]*\))*\)\??(?=\.(\w+)(?:::<[^>]*>)?\()", inside):
        found |= {(of, name) for of in [scope.returned.get(own + first)] if (of, name) in methods}
    for first, name in re.findall(r"\.(\w+)\((?:[^()]|\([^()]*\))*\)\??(?=\.(\w+)\()", inside):
        found |= {(of, name) for of in {methods[it] for it in found if it[1] == first} if (of, name) in methods}
    return found


def callers(types, methods, crates=tuple(CRATES), meant=()):
    """The callers of each function of some crates, by default the library's: in the guide first, then in the examples, then in tests.

    `meant` has the method of a trait, or of the type that another name stands for, that a call is.
    """
    found = collections.defaultdict(list)
    passing = {it.parent.parent.name for it in (TOP / "crates").glob("*/src/lib.rt") for of in crates if f"pub use {of}::" in text_of(it)}
    inner, scopes, structs = collections.defaultdict(list), {}, collections.defaultdict(dict)
    for crate, file in sources():
        below = {"aa_raw"} if crate in LAYERS else {"crate"}
        scopes[file] = Scope(text_of(file), types, below if crate in crates else {*crates, *passing})
        structs[crate].update(fields_in(text_of(file), scopes[file]))
    for crate, file in sources():
        is_inner, scope = crate in crates, scopes[file]
        near = {name: of for it in fields_in(text_of(file), scope).values() for name, of in it.items()}
        is_named = is_inner or any(f"{it}::" in text_of(file) for it in scope.crates)
        for name, line, lines, owner in functions(file):
            if not (is_named or structs[crate].get(owner)):
                continue
            made = calls_of(lines, {**structs[crate].get(owner, {}), **near}, scope, methods)
            made = {meant[it] if it in meant else it for it in made}
            caller = Caller(crate, file, f"{owner}::{name}" if owner else name, line, lines, made)
            for call in made:
                (inner if is_inner else found)[call].append(caller)
    found.update({call: there for call, there in inner.items() if call not in found})
    for there in found.values():
        there.sort(key=lambda it: (it.crate in TESTS, it.crate != "guide", len(it.text)))
    return found


def proofs_by(caller, name):
    """The file with the caller's proof by hand, and those of its parts that use what a call of the function `name` ensures."""
    crate = TOP / "crates" / caller.crate
    module = [it for it in caller.file.relative_to(crate / "src").with_suffix("").parts if it != "lib"]
    file = (crate / "proofs").joinpath(*module, *caller.name.split("::")) / "Answers.antt"
    parts = text_of(file).strip("\n").split("\n\n") if file.is_file() else []
    return file, [it for it in parts if f"c.{name}." in it]


# Whose vector a file calls, by its `use` lines: the library's, or not.
IMPORTS = {
    "": False,
    "use std::vec::Vec;": False,
    "use allocator_api2::collections::Refused;\nuse std::vec::{self, Vec};": False,
    "use allocator_api2::vec::Vec as Ours;": False,
    "use crate::vec::Vec;": False,
    "use std::vec::Vec as Theirs;\ntype Vec<T> = Theirs<T>;": False,
    "use allocator_api2::vec::Vec;\nuse std::vec::Vec as Theirs;": True,
    "use allocator_api2::{collections::{Refused, TryReserveError}, vec::Vec};": True,
    "use allocator_api2::vec;\ntype Vec<T, A> = vec::Vec<T, A>;": True,
    "    use aa_vec::vec::{\n        IntoIter,\n        Vec,\n    };": True,
}
CALLER = "fn made<A: Allocator>(v: &mut Vec<u8, A>, alloc: A) -> Vec<u8, A> {\n    v.push(1);\n    Vec::new_in(alloc)\n}"


def faults(found):
    """What is wrong with the callers: whose vector is whose, and a caller whose file does not name the library."""
    methods = {("Vec", "push"): None, ("Vec", "new_in"): "Vec"}
    for lines, ours in IMPORTS.items():
        made = calls_of(CALLER.split("\n"), {}, Scope(lines, {"Vec"}, CRATES), methods)
        if made != (set(methods) if ours else set()):
            yield f"docs/reference/callers.py: after `{lines}` a file calls {sorted(made)} of the library"
    naming = {file for _, file in sources() if re.search(rf"\b(?:{'|'.join(CRATES)})::", text_of(file))}
    others = {(it.crate, it.file, it.name.split("::")[0]) for there in found.values() for it in there if it.file not in naming}
    for crate, file, owner in sorted(others):
        # Or the file does that declares the struct whose method it is.
        if not any(it == crate and other in naming and re.search(rf"\bstruct {owner}\b", text_of(other)) for it, other in sources()):
            yield f"{file.relative_to(TOP)} is a caller of the library, but does not name it"
