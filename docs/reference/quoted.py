"""Finds the public functions and macros that the reference shows without an example: no caller in the guide, the examples or the tests."""
from words import TOP

# What needs no example, as its crate and name, with the reason.
EXEMPT = {}


def items(library):
    """Each public function and macro of a library, with the type that has it, if one does, and the file that it is in."""
    for page in library.pages.values():
        yield from ((of.name, item, section.file) for of in page.types for section, item in of.calls)
        yield from (("", item, section.file) for section, item in page.functions + page.macros if item.kind in ("fn", "macro"))


def without_example(site):
    """The items that no function calls which the reference quotes: each as its name, and the file and line that it is at."""
    for crate, library in site.libraries.items():
        there = site.makers[crate].reference.callers
        for of, item, file in items(library):
            name = f"{crate}::{of}::{item.name}" if of else f"{crate}::{item.name}"
            if not there.get((of, item.name)):
                yield name, f"{file.relative_to(TOP)}:{item.line}"


def faults(site):
    """What is wrong: an item without an example that is not exempt, or one that is exempt and has one."""
    left = dict(without_example(site))
    for name, place in left.items():
        if name not in EXEMPT:
            yield f"{place}: {name} has no caller in the guide, the examples or the tests, so the reference shows no example of it"
    yield from (f"docs/reference/quoted.py exempts {name}, which has an example or does not exist" for name in EXEMPT if name not in left)
