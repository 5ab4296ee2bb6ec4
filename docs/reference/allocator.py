"""The toolchain's trait `Allocator`, as a part of the page of `alloc`: what is required of an allocator, from the toolchain's source."""
import re

import toolchain
from sources import Reader, text_of
from tags import code, here, link, piece, plain
from tags import section as section_of_page

# What an author of an allocator reads: a heading of ALLOCATORS, and what it has.
READING = [
    ("what-a-collection-requests", "What a collection requests", "sizes, alignments, zero-sized elements, and what happens after a failure"),
    ("in-which-order", "In which order", "the requests of each call"),
    ("what-a-clone-of-the-allocator-is-for", "What a clone of the allocator is for", "which calls need `A: Clone`"),
    ("a-in-place-of-a", "`&A` in place of `A`", "several collections over one allocator"),
    ("an-allocator-of-ones-own-without-a-proof", "Without a proof", "a watch that decides about each request"),
    ("an-allocator-of-ones-own-with-a-proof", "With a proof", "the right to free a block, step by step"),
    ("the-allocator-test-suite", "The test suite", "random calls over an allocator, and the first fault"),
]  # fmt: skip
SAID = """A collection calls `allocate` and `deallocate` alone. `grow` and `shrink` have bodies over these two, so an `impl` need not write them.

- `allocate` has the size and the alignment of the type `ty` that the block is for (`HasLayout`). On success the caller owns the block, with
  the right to free it; on an error nothing. The contract allows a size of 0, but no collection here requests it.
- `deallocate` takes this right, with the block and the layout of its request. In between the handle may be moved. A clone may be another
  allocator, so a block is freed by the handle that allocated it.
- `dealloc_token` is chosen by the `impl`: it is what the right to free a block consists of. So the checker proves that each block is freed at
  most once, and by its own allocator.
- An allocator is `Drop`. Dropping the handle leaves its blocks valid."""
# The other names that `alloc` re-exports: the file of the toolchain that declares each, and what it is.
OTHERS = {
    "AllocError": ("core/src/alloc.rt", "The error of a failed allocation."),
    "Global": ("std_heap/src/lib.rt", "The allocator of the global heap, a value that callers hold."),
    "Layout": ("core/src/alloc/layout.rt", "A size and an alignment."),
}


def trait(file):
    """The trait's section of the toolchain's file, in which comments begin with `//`."""
    lines = [re.sub(r"^(\s*)// ?", r"\1/// ", line) for line in text_of(file).split("\n")]
    found = next(it for it in Reader(file, lines).read() if it.head.startswith("pub trait Allocator"))
    found.facts = [it for it in found.facts if lines[it[2] - 1].endswith(";")]
    for item in found.items:
        ghosts = [it for it in lines[item.line : item.line + 12] if re.match(r"\s+(ghost|requires|ensures)", it)]
        item.shown += ["    " + it.strip() for it in ghosts[:1] if it.strip().startswith("ghost")]
    return found


def source():
    """The toolchain's file with the trait, if it is there."""
    file = toolchain.folder() and toolchain.folder() / "core" / "src" / "alloc.rt"
    return file if file and file.is_file() else None


def entries():
    """The trait and its functions for the search."""
    if source():
        there = trait(source())
        yield "Allocator", "std::alloc", "trait", "alloc.html#Allocator", " ".join(there.doc)
        yield from ((it.name, "Allocator", "call", f"alloc.html#Allocator.{it.name}", " ".join(it.doc)) for it in there.items)
        yield from ((name, "std::alloc", "struct", f"alloc.html#{name}", " ".join(doc)) for name, _, doc in others())


def others():
    """The other types: the name, the line that declares it, and what it is, with the toolchain's comment."""
    for name, (path, said) in OTHERS.items():
        lines = text_of(toolchain.folder() / path).split("\n")
        at = next(i for i, line in enumerate(lines) if re.match(rf"pub struct {name}\b", line))
        start = next((i + 1 for i in range(at - 1, -1, -1) if not lines[i].startswith(("//", "#["))), 0)
        yield name, re.sub(r" \{$", "", lines[at]), [said, *(it.lstrip("/").strip() for it in lines[start:at] if it.startswith("//"))]


def section(site):
    """The part of the page on the trait."""
    items, renderer = site.items, site.items.renderer
    out = [f'<h2><span class="kind">trait</span> {here("Allocator", code("Allocator"))}</h2>']
    out.append(f"<p>It is the toolchain's {code('std::alloc::Allocator')}. All collections here allocate by it.</p>")
    if source():
        there = trait(source())
        out.append(piece(plain(there.shown), "signature") + renderer.page("\n".join(there.doc)) + renderer.page(SAID) + items.facts(there))
        out += [method(items, there, it) for it in there.items]
    else:
        out.append("<p>This reference was made without the toolchain's folder, so the trait's functions are not shown.</p>")
    rows = "".join(f"<li>{link(f'ALLOCATORS.html#{anchor}', items.unlinked(title))}: {items.prose(what)}</li>" for anchor, title, what in READING)
    out.append(f'<h3>For authors of allocators</h3><ul class="plain">{rows}</ul>')
    rows = "".join(f"<li>{code(link(href, plain(head)))} in {link(f'{crate}.html', code(crate))}</li>" for crate, head, href in implementations(site))
    out.append(f'<h3>Implementations in this repository, as examples</h3><ul class="plain">{rows}</ul>')
    made = section_of_page("type", "Allocator", "\n".join(out))
    for name, line, doc in others() if source() else ():
        head = f'<h2><span class="kind">struct</span> {here(name, code(name))}</h2>'
        made += section_of_page("type", name, head + piece(plain(line), "signature") + renderer.page("\n".join(doc)))
    return made


def method(items, there, item):
    """A function of the trait."""
    name = f"Allocator.{item.name}"
    head = f"<h3>{here(name, code(item.name))}</h3>" + piece(plain("\n".join(item.shown)), "signature")
    return section_of_page("item", name, head + items.renderer.page("\n".join(item.doc), 3) + items.contract(there, item, name))


def implementations(site):
    """The examples' `impl`s of the trait: the crate, the head and the link."""
    for crate, library in site.libraries.items():
        for of in library.types.values():
            yield from ((crate, it.head, library.href(it)) for it, _ in of.impls if it.trait == "Allocator")
