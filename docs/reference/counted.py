"""Checks that numbers in the documentation are those of the sources: lines of code and proof, sizes of types, edits, rows of the bench.

`of_sources`, `of_types` and `of_bench` have a line for each sentence: its file, its text with `{}` in place of each number, and what
each of these counts. A line break of the file is a blank. A number is written in digits, or as a word up to twelve.
"""
import functools
import itertools
import re

from sources import text_of
from words import CRATES, TOP

SMALL = "no one two three four five six seven eight nine ten eleven twelve".split()
NUMBER = rf"(\d[\d,]*(?:\.\d+)?|(?i:\b(?:{'|'.join(SMALL)})\b))"
# The examples that are a part of a crate, by the first words of their row: the files and folders of its src, specs and proofs. A row that
# says `the rest` counts what is in no other, and any other row counts its whole crate.
LAYERS = "choice fallback guarded layered rounded segregated spaced suffix zeroing"
PARTS = {
    "A leaf of a B-tree": ("leaf moves", "Entries LeafInside LeafLends", "LeafBorrowed LeafOrder leaf"),
    "An arena by handles": ("arena", "Lends", ""),
    "A vector of fixed capacity": ("fixed", "FixedInner", ""),
    "A text builder": ("text", "", "text"),
    "What these three are": ("", "Held", ""),
    "A line editor": ("editor", "Editor", "editor"),
    "Records as bytes": ("records", "Records", "Decoding Rooms records"),
    "Allocators with a watch": ("budget counting watched", "Sizes", "Walk Watching watched"),
    "Layers and choices": (LAYERS, "Choices Layers Rounding Suffixes Zeros", "Choosing Layering Rounding Suffixing Zeroed " + LAYERS),
}
FOLDERS = ("src", "specs", "proofs")
# The columns of the bench's tables, of instructions and then of times.
SIDES = ("ours", "original", "std", "toolchain")


def files_in(crate, folder):
    """The files of a crate's folder, each by the first part of its path there, without an ending."""
    top = TOP / "crates" / crate / folder
    return [(file.relative_to(top).parts[0].split(".")[0], file) for file in sorted(top.rglob("*.*"))]


def lines_of(crate, folder, names=None, but=()):
    """The lines of a crate's folder: of these files and folders, or of all but some."""
    return sum(text_of(file).count("\n") for name, file in files_in(crate, folder) if name not in but and (names is None or name in names))


def example_rows():
    """The rows of EXAMPLES: the first cell, the crate, whether it is the rest of one, and the numbers; a blank counts as 0."""
    for row in re.findall(r"^\| (.*) \|$", text_of(TOP / "docs" / "EXAMPLES.md"), re.M):
        cells = [it.strip() for it in row.split("|")]
        if len(cells) == 5 and re.match(r"`(?:aa|ex)_", cells[1]):
            yield cells[0], re.search(r"(?:aa|ex)_\w+", cells[1]).group(), "the rest" in cells[1], [int(it or 0) for it in cells[2:]]


def part_of(title):
    return next((parts for head, parts in PARTS.items() if title.startswith(head)), None)


def example_faults():
    """The numbers of lines in EXAMPLES that are wrong."""
    rows = list(example_rows())
    for title, crate, is_rest, said in rows:
        for at, folder in enumerate(FOLDERS):
            parts = part_of(title)
            others = [part_of(it)[at].split() for it, of, _, _ in rows if is_rest and of == crate and part_of(it)]
            counted = lines_of(crate, folder, parts[at].split() if parts else None, sum(others, []))
            if said[at] != counted:
                yield f"docs/EXAMPLES.md: says {said[at]} lines of {folder} for '{title}', there are {counted}"


@functools.lru_cache(maxsize=None)
def sizes():
    """The bytes of types, as the tests claim them."""
    tests = [text_of(file) for file in sorted((TOP / "crates").glob("*_tests/src/**/*.rt"))]
    return dict(re.findall(r"size_of::<(.+?)>\(\) == (\d+)", "\n".join(tests)))


def size(of):
    return f"bytes for {of}", sizes().get(of, "no test of it")


@functools.lru_cache(maxsize=None)
def cases():
    """The cells of the bench's tables of cases, by the case: four of instructions, four of times, and one of a vector that resizes."""
    page = text_of(TOP / "bench" / "README.md")
    tables = re.findall(r"<!-- (?:cases|uses), by bench/run page -->\n(.*?)<!-- end -->", page, re.S)
    rows = [[cell.strip() for cell in row.split("|")] for row in re.findall(r"^\| (`.*) \|$", "".join(tables), re.M)]
    return {re.match(r"`(\w+)`", row[0]).group(1): row[1:] for row in rows}


def ratio(case, other, of="ns"):
    """Our time, or instructions, divided by those of another side; not a number if that side has no such function."""
    cells = cases()[case][4:] if of == "ns" else cases()[case][:4]
    ours, theirs = (float(re.match(r"[\d.]+|-", cells[at]).group().replace("-", "nan")) for at in (0, SIDES.index(other)))
    return 1.0 if ours == theirs else ours / theirs if theirs else float("inf")


def ahead(other):
    """The cases in which another side is faster than ours by more than a tenth."""
    return f"cases in which {other} is ahead", sum(ratio(case, other) > 1.1 for case in cases())


def slower(other):
    return f"cases in which {other} is behind", sum(1.1 * ratio(case, other) < 1 for case in cases())


def takes(case, other, of="ns"):
    return f"times of {other}, by {of}, for `{case}`", f"{ratio(case, other, of):.2f}"


def taken(case, other, of="ns"):
    """The other way around: the other side's time divided by ours."""
    return f"times ours, by {of}, for `{case}` of {other}", f"{1 / ratio(case, other, of):.2f}"


def beyond():
    """The cases of users' programs in which ours is much slower."""
    uses = list(cases())[list(cases()).index("serialise") :]
    return "cases", sum(ratio(case, "original") > 1.2 or ratio(case, "std") > 1.2 for case in uses)


def as_original():
    """The cases that the original has, too, and those of them in which ours is not marked for its instructions."""
    there = [cells for cells in cases().values() if cells[1] != "-"]
    return ("cases", sum("!" not in cells[0] for cells in there)), ("cases", len(there))


def beside_std(begins):
    """The least and the greatest ratio to std's time, of cases whose names begin so, at any size."""
    rows = re.findall(rf"(?m)^\| `({begins}\w*)` \| ((?:[\d.]+ \| ){{3}}[\d.]+) \|$", text_of(TOP / "bench" / "README.md"))
    found = [float(it) for _, cells in rows for it in cells.split(" | ")]
    return [(f"times std's, for `{begins}`", f"{it:.2f}") for it in (min(found), max(found))]


def nanoseconds(case, side):
    """The time of a case at 100,000, as the table of cases has it."""
    return f"ns of {side} for `{case}`", re.match(r"[\d.]+|-", cases()[case][4 + SIDES.index(side)]).group()


def kept(case, side):
    """The same where the heap's end is kept."""
    row = re.search(rf"(?m)^\| `{case}` \| (?:[\d.-]+ \| ){{3}}([\d.-]+) \| ([\d.-]+) \| ([\d.-]+) \|$", text_of(TOP / "bench" / "README.md"))
    return f"ns of {side} for `{case}` where the heap's end is kept", row.group(1 + SIDES.index(side)) if row else "none"


def wrong_allocators():
    """The wrong allocators, those whose fault is named, the steps, and those at which the run stops."""
    text = text_of(TOP / "tests" / "wrong-allocators" / "lib.rt.txt")
    named = len(re.findall(r"^    assert!.*Broken::", text, re.M))
    stops = len(re.findall(r"^stops ", text_of(TOP / "tests" / "wrong_allocators"), re.M))
    steps = re.search(r"const STEPS: u64 = (\d+)", text).group(1)
    return ("wrong allocators", named + stops), ("named faults", named), ("steps", steps), ("that stop", stops)


def failing_scripts():
    """The scripts of tests/refuse."""
    lists = re.findall(r'^(?:BAD_)?SCRIPTS = "+([^"]*)"', text_of(TOP / "tests" / "refuse"), re.M)
    return "scripts", sum(len(it.split()) for it in lists)


def must_fail():
    return "must-fail edits", len(list((TOP / "crates").glob("*/must-fail/*.edit")))


def proofs_by_hand(crate, but=()):
    """The functions of a crate that have a proof by hand."""
    return "proofs by hand", sum(file.name == "Proof.antt" for name, file in files_in(crate, "proofs") if name not in but)


def of_sources():
    """Sentences with a number of lines, edits or files: the file, the sentence, and for each number what it counts and the count."""
    trees = [("lines", lines_of("ex_trees", "src", it)) for it in (None, ["list"], ["tree"], ["search"])]
    yield "README.md", "here the library's {} crates", [("crates", len(CRATES))]
    yield "CONTRIBUTING.md", "`allocator_api2` alone, has {} exact ones", [must_fail()]
    yield "CONTRIBUTING.md", "read and write of {} of them in turn", [failing_scripts()]
    yield "docs/DECISIONS.md", "The {} that stand for a promise", [must_fail()]
    yield "docs/ALLOCATORS.md", "has {} wrong allocators. The fault of {} is named, in {} steps. At {} `rt try`", wrong_allocators()
    yield "docs/EXAMPLES.md", "Of the {} lines of code {} are for lists, {} for trees, {} for search trees.", trees
    yield "docs/EXAMPLES.md", "search trees. The tests have {}.", [("lines", lines_of("ex_tests", "src", ["trees"]))]
    yield "docs/EXAMPLES.md", "twelve for layers and choices, and for the pool, the rack and their shelf {};", [proofs_by_hand("aa_allocators", LAYERS.split())]


def of_types():
    """The same of sizes of types."""
    box, vector, slice_, ring = (size(f"{it}<u64, Global>") for it in ("Box", "Vec", "BoxedSlice", "Ring"))
    small, bytes_ = (size(f"InlineVec<{it}>") for it in ("u64, Global, 4", "u8, Global, 16"))
    yield "docs/DECISIONS.md", "form they take {} and {} (", [small, bytes_]
    yield "docs/DECISIONS.md", "A `Box` is {} bytes over `Global`, and a vector {},", [box, vector]
    yield "docs/DECISIONS.md", "**A boxed slice is {} bytes**", [slice_]
    yield "docs/DIFFERENCES.md", "A `Box` has {} bytes over `Global`, and a vector {},", [box, vector]
    yield "docs/DIFFERENCES.md", "A boxed slice has {},", [slice_]
    yield "docs/DIFFERENCES.md", "a ring has {}, and an `InlineVec<u64, Global, 4>` {}.", [ring, small]
    yield "docs/EXAMPLES.md", "A ring of numbers takes {} bytes", [ring]
    yield "docs/EXAMPLES.md", "four numbers of 64 bits in place make {} bytes, and sixteen bytes {}.", [small, bytes_]


def of_bench():
    """The same of the bench's tables."""
    yield "README.md", "the original's instructions in {} of {} cases", as_original()
    yield "README.md", "by more than a tenth in {} of {} cases, and slower in {}.", [ahead("toolchain"), ("cases", len(cases())), slower("toolchain")]
    yield "README.md", "Rust's std is ahead in {}, and slower in {}.", [ahead("std"), slower("std")]
    yield "bench/README.md", "{} cases are measured over this library", [("cases", len(cases()))]
    yield "bench/README.md", "Of the {} cases that also run over the original, ours takes at most 1.05 times its instructions in {}.", list(as_original())[::-1]
    yield "bench/README.md", "than 1.1 times its time in {}.", [ahead("original")]
    yield "bench/README.md", "std is ahead by more than a tenth in {} of the {} cases, and slower in {}.", [ahead("std"), ("cases", len(cases())), slower("std")]
    yield "bench/README.md", "The toolchain is ahead in {}, and slower in {}.", [ahead("toolchain"), slower("toolchain")]
    yield "bench/README.md", "{} take more than 1.2 times the time", [beyond()]
    yield "bench/README.md", "`window`, beside std, by {}:", [takes("window", "std")]
    yield "bench/README.md", "By instructions `lines` takes {} times the original's", [takes("lines", "original", "instructions")]
    yield "bench/README.md", "Its time is {} of the original's, and {} of std's.", [takes("rows", it) for it in ("original", "std")]
    yield "bench/README.md", "a table takes {} to {} times as long", beside_std("table")
    yield "bench/README.md", "and an ordered map {} to {} times as long", beside_std("map")
    yield "bench/README.md", "a `push_in_place` takes {} ns over ours and {} over std", [nanoseconds("push_in_place", it) for it in ("ours", "std")]
    yield "bench/README.md", "a `push` takes {}, and a `push_24` {} over ours and {} over std", [nanoseconds("push", "ours"), nanoseconds("push_24", "ours"), nanoseconds("push_24", "std")]
    yield "bench/README.md", "these are {}, {} and {}", [kept("push", "ours"), kept("push_24", "ours"), kept("push_24", "std")]
    yield "bench/README.md", "`gap_typing` at 100,000 takes {} of the time", [takes("gap_typing", "original")]
    yield "bench/README.md", "over the original, and {} over std", [takes("gap_typing", "std")]
    yield "bench/README.md", "std takes {} of `pieces_of_4`", [taken("pieces_of_4", "std", "instructions")]
    yield "bench/README.md", "by time it takes {}, since", [taken("pieces_of_4", "std")]
    yield "docs/EXAMPLES.md", "{} times as long in `table_hit`, and {} in `table_reserved`", [takes(f"table_{it}", "std") for it in ("hit", "reserved")]
    yield "docs/EXAMPLES.md", "{} times as long in `ring_queue`, and {} in `ring_push`", [takes(f"ring_{it}", "toolchain") for it in ("queue", "push")]
    yield "docs/EXAMPLES.md", "{} times as long in `map_insert`, {} in `map_get`", [takes(f"map_{it}", "std") for it in ("insert", "get")]
    yield "docs/EXAMPLES.md", "`inline_few` takes {} times as long", [takes("inline_few", "toolchain")]
    yield "docs/EXAMPLES.md", "{} times as long as Rust's in `heap_push`, and {} in `heap_pop`", [takes(f"heap_{it}", "std") for it in ("push", "pop")]


def value(said):
    """A number of the documentation in digits without commas."""
    return str(SMALL.index(said.lower())) if said.lower() in SMALL else said.replace(",", "")


def sentence_faults(page, sentence, counted):
    """What is wrong with the numbers of a sentence."""
    pattern = NUMBER.join(re.escape(it) for it in sentence.split("{}"))
    found = re.findall(pattern, re.sub(r"\s+", " ", text_of(TOP / page)))
    if len(found) != 1:
        yield f"{page}: has '{sentence}' {len(found)} times, but docs/reference/counted.py expects it once"
        return
    said = found[0] if isinstance(found[0], tuple) else found
    for one, (what, count) in zip(said, counted, strict=True):
        if value(one) != str(count):
            yield f"{page}: says {one} {what}, there are {count}"


def unnamed_scripts():
    """The scripts that `.ci/run` runs but CONTRIBUTING does not name."""
    if not (TOP / "CONTRIBUTING.md").exists():
        return
    page = text_of(TOP / "CONTRIBUTING.md")
    for script in dict.fromkeys(re.findall(r"^ *((?:docs|tests|bench)/\w+)", text_of(TOP / ".ci" / "run"), re.M)):
        if f"`{script}" not in page:
            yield f"CONTRIBUTING.md: does not name {script}, which .ci/run runs"


def faults():
    """All that is wrong with the numbers in the documentation."""
    for page, sentence, counted in itertools.chain(of_sources(), of_types(), of_bench()):
        if (TOP / page).exists():
            yield from sentence_faults(page, sentence, counted)
    yield from example_faults()
    yield from unnamed_scripts()
