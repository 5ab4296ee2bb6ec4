"""The toolchain's words, if its folder has their text: those of specs, and the ghost members of its traits.

The folder is looked up beside `rt`. If there is none, only the signs of `signs.py` are known.
"""
import functools
import pathlib
import re
import shutil

from signs import SIGNS
from words import HEAD, sliced

USE = re.compile(r"(?:pub |ghost )*use ([\w.]+?)(?:\.\{(.*?)\}| as (\w+))?;?\s*$")


class Far:
    """A word of the toolchain: its name, comment and text, and the module that it is in."""

    def __init__(self, name, place, comment="", text=""):
        self.name, self.place, self.comment, self.text = name, place, comment, text

    @property
    def key(self):
        return f"{self.place}.{self.name}"


@functools.lru_cache(maxsize=None)
def folder():
    """The folder of the toolchain's crates, or none."""
    rt = shutil.which("rt")
    there = pathlib.Path(rt).resolve().parent.parent / "rattle" if rt else None
    return there if there and (there / "std" / "specs").is_dir() else None


def used_names(lines):
    """What the lines import: each name with the path of its module and its name there; a module's own name has none."""
    names, text = {}, ""
    for line in lines:
        line = line.strip()
        if not text and not re.match(r"(pub |ghost )*use ", line):
            continue
        text += (" " if text else "") + line
        if text.count("{") > text.count("}"):
            continue
        found, text = USE.match(text), ""
        if not found:
            continue
        path, inner, alias = found.groups()
        for part in (inner or "").split(",") if inner else []:
            there, _, here = part.strip().partition(" as ")
            names[here.strip() or there] = (path, there)
        if not inner:
            names[alias or path.split(".")[-1]] = (path, None)
    return names


@functools.lru_cache(maxsize=None)
def file_of(crate, file):
    """The specs file of a toolchain's crate; std re-exports most of the others'."""
    if not folder():
        return None
    path = folder() / crate / "specs" / (file.replace(".", "/") + ".antt")
    if path.is_file():
        return path
    head, _, rest = file.partition(".")
    passed = scope_of(folder() / crate / "specs" / "Lib.antt").get(head)
    found = re.match(r"Rattle\.(\w+)\.specs\.([\w.]+)$", passed[0]) if passed and not passed[1] else None
    if not found or found.group(1) == crate:
        return None
    return file_of(found.group(1), found.group(2) + ("." + rest if rest else ""))


@functools.lru_cache(maxsize=None)
def lines_of(path):
    return path.read_text(encoding="utf-8").split("\n") if path.is_file() else []


@functools.lru_cache(maxsize=None)
def scope_of(path):
    return used_names(lines_of(path))


@functools.lru_cache(maxsize=None)
def definitions(path):
    """The definitions of a specs file: comment and text by name."""
    lines, found, comment = lines_of(path), {}, []
    for at, line in enumerate(lines):
        if line.strip().startswith("-- "):
            comment.append(line.strip()[3:])
            continue
        head = HEAD.match(line)
        if head and not line.startswith(("pub use", "pub module", "pub mod ")):
            found.setdefault(head.group(4), (" ".join(comment), "\n".join(sliced(lines, at, head.group(1), head.group(4)))))
        comment = [] if line.strip() else comment
    return found


def logic_file(path):
    """The file of a module of the logic that the toolchain's words are built on."""
    parts = path.split(".")
    roots = {"mathlib.Core": "antt/lib/src", "native.Mathlib": "antt/lib/native/src/Mathlib"}
    root = roots.get(".".join(parts[:2]))
    there = [root, *parts[2:]] if root else ["logic", parts[0].capitalize(), *parts[1:]]
    file = folder() and folder() / ("/".join(there) + ".antt")
    return file if file and file.is_file() else None


@functools.lru_cache(maxsize=None)
def word(path, name):
    """The word of this name in a module such as `Rattle.std.specs.Prelude`."""
    if re.match(r"Rattle\.\w+\.specs\.declared\.", path):
        return Far(name, path, declared_as(path, name))
    found = re.match(r"Rattle\.(\w+)\.specs\.([\w.]+)$", path)
    file = file_of(*found.groups()) if found else logic_file(path)
    if file:
        comment, text = definitions(file).get(name, ("", ""))
        if text:
            return Far(name, place_of(file) if found else path, SIGNS.get(name) or comment, text)
        passed = scope_of(file).get(name)
        there = word(*passed) if passed and passed[1] else None
        if there:
            return there
    return Far(name, path, SIGNS[name]) if name in SIGNS else None


def place_of(file):
    """The module of a specs file."""
    parts = file.relative_to(folder()).with_suffix("").parts
    return f"Rattle.{parts[0]}.specs.{'.'.join(parts[2:])}"


def declared_as(path, name):
    """What a name that the toolchain derives from a type of Rust means."""
    parts = path.split(".")
    if parts[-1] == "TheVariants":
        return f"{name} of the type {parts[-2]}"
    return f"the type {name}" if parts[-1] == name else f"{name} of the type {parts[-1]}"


@functools.lru_cache(maxsize=None)
def members():
    """The ghost members of the toolchain's traits: each name with the words of that name."""
    found = {}
    sources = [it for crate in ("core", "std_alloc", "std_io", "std") for it in sorted((folder() / crate / "src").rglob("*.rt"))] if folder() else []
    for file in sources:
        trait, comment = "", []
        for line in lines_of(file):
            head = re.match(r"pub (?:unsafe )?trait (\w+)", line)
            trait = head.group(1) if head else "" if line == "}" else trait
            bare = line.strip()
            said = re.match(r"ghost (\w+): \{(.*)", bare)
            if trait and said:
                place = f"trait {trait}"
                found.setdefault(said.group(1), []).append(Far(said.group(1), place, " ".join(comment), bare))
            comment = comment + [bare.lstrip("/").strip()] if bare.startswith("//") else []
    return found
