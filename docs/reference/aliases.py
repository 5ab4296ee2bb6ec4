"""What people type, and where it leads: names of std and of the original that are written in another way here, or are left out.

The rows come from CALLING (`In std, and here`), from DIFFERENCES (`Where each public item of the original is`), and from the two tables
below. A target is an item (`Vec::push`, `aa_watched::Budget`), an `impl` (`Vec as Write`), a page (`CALLING`), or a heading of one
(`CALLING#as-a-slice`); `docs/index --check` sees that each leads somewhere.
"""
import collections
import functools
import re

from sources import text_of
from words import TOP

# A row of DIFFERENCES: its anchor and text, the names in it, what it says of them, and whether they are left out.
Row = collections.namedtuple("Row", "anchor text names said is_left_out")
CALLING, DIFFERENCES = TOP / "docs" / "CALLING.md", TOP / "docs" / "DIFFERENCES.md"
TABLE = "CALLING#in-std-and-here"
# What is typed (several forms, separated by commas), its target, and what is there.
ALIASES = [
    ("iterate, iteration, iterating, for loop, loop, for_each, foreach, for x in, while loop", "CALLING#positions-and-loops-over-elements",
     "`for x in &v`, `for x in v`, `v.iter()`, and what a loop's invariant says."),
    ("sort, sort_by, sort_by_key, sort_unstable, sort_unstable_by, sorting, sorted, order", TABLE,
     "`v.sort_unstable()` as in std; the stable sort allocates: `v.sort(alloc)?`."),
    ("[], index, indexing, v[0], operator [], subscript, get, get_mut", TABLE,
     "`w[0]`, `&w[1..]`, `&mut v[..2]` and `w.get(1)` as in std; an index in range is required."),
    ("first, last, swap, reverse, fill, contains, binary_search, windows, chunks, split_at, starts_with, concat, join, slice methods, &[T]",
     "CALLING#as-a-slice", "A vector is a slice by dot, so a slice's methods are called on it."),
    ("map, filter, fold, sum, enumerate, zip, rev, position, max, collect, iterator adapters", "CALLING#as-a-slice",
     "The toolchain's adapters, from `v.iter()`; `collect(alloc)?` takes the allocator."),
    ("HashMap, HashSet, hashbrown, hash map, hash table, map of keys, dictionary", "EXAMPLES#a-hash-table",
     "`Table`, an example over this library; the toolchain has its own `HashMap`."),
    ("BTreeMap, ordered map, sorted map, B-tree", "EXAMPLES#an-ordered-map", "`OrderedMap`, an example over this library."),
    ("BTreeSet, ordered set, sorted set", "EXAMPLES#an-ordered-set", "`OrderedSet`, an example over this library."),
    ("VecDeque, deque, queue, push_back, push_front, pop_back, pop_front, ring buffer", "EXAMPLES#a-ring",
     "`Ring`, a double-ended queue: an example over this library."),
    ("SmallVec, smallvec, ArrayVec, arrayvec, inline storage", "EXAMPLES#a-small-vector",
     "`InlineVec` and `Fixed`, examples over this library."),
    ("SlotMap, slotmap, slab, generational arena", "EXAMPLES#a-slot-map", "`SlotMap`, an example over this library."),
    ("HashMap, HashSet, hashbrown, hash map, hash table", "aa_table::Table", "`Table`: its calls, with their contracts."),
    ("BTreeMap, ordered map, sorted map", "aa_ordered::OrderedMap", "`OrderedMap`: its calls, with their contracts."),
    ("BTreeSet, ordered set, sorted set", "aa_ordered_set::OrderedSet", "`OrderedSet`: its calls, with their contracts."),
    ("VecDeque, deque, queue, ring buffer", "aa_ring::Ring", "`Ring`: its calls, with their contracts."),
    ("SmallVec, smallvec, inline storage", "aa_inline::InlineVec", "`InlineVec`: its calls, with their contracts."),
    ("slotmap, slab", "aa_slots::SlotMap", "`SlotMap`: its calls, with their contracts."),
    ("BinaryHeap, heap, priority queue", "aa_heap::Heap", "`Heap`: its calls, with their contracts."),
    ("LinkedList, linked list, tree, recursive type", "EXAMPLES#lists-trees-search-trees",
     "Lists and trees of boxes, an example over this library."),
    ("String, str, &str, text, format, push_str, utf8, UTF-8", "CALLING#bytes-and-texts",
     "`BoxedText` and bytes in vectors; `format!(in alloc; ..)?`."),
    ("io::Write, std::io::Write, Write, write_all, write!, flush, io", "Vec as Write",
     "`Vec<u8, A>` implements it: `v.write_all(b\"abc\")?`."),
    ("io::Read, std::io::Read, Read, BufRead, Seek, read_exact", "Box as Read", "A box forwards it to its value."),
    ("vec!, vec![], macro", "vec_of", "`vec_of![in alloc; 1u32, 2, 3]?`."),
    ("panic, unwrap, expect, abort, out of memory, OOM, handle_alloc_error", "TryReserveError",
     "A failed allocation is a `Result`; nothing panics or aborts."),
    ("error, errors, ?, question mark, Result", "TryReserveError", "Why a call failed; `Refused` also returns the value."),
    ("mem::take, take", TABLE, "`mem::replace(v, Vec::new(alloc))`."),
    ("allocator, Allocator, custom allocator, arena, bump, bumpalo, my own allocator, GlobalAlloc", "ALLOCATORS",
     "What the library requires of an allocator, and how to write one."),
    ("budget, memory limit, quota", "aa_watched::Budget", "An allocator with a limit on the bytes in use."),
    ("pool, free list, recycler, cache", "ALLOCATORS#a-pool", "Allocators that keep freed blocks."),
    ("fuzz, stress test, test an allocator", "ALLOCATORS#the-allocator-test-suite",
     "Random calls over an allocator, with a report or the first fault."),
    ("contract, requires, ensures, clause, precondition, postcondition, specification, v.old, v.new", "CALLING#reserve-and-push",
     "The contract of `push`, read aloud: what a clause, `OnOk` and `IfErr` say."),
    ("proof, prove, does not prove, rt check fails, unproved, help", "CALLING#when-it-does-not-prove", "What to do if a function does not prove."),
    ("install, getting started, quick start, dependency, Cargo.toml, cargo add", "CALLING#in-a-repository-of-your-own",
     "The lines that make a crate over the library."),
    ("no_std, alloc crate, feature", "DIFFERENCES#left-nightly", "There are no features."),
    ("serde, Serialize, Deserialize, serialize", "DIFFERENCES#left-nightly", "Left out. Write bytes yourself, as `records` in EXAMPLES."),
    ("dyn, trait object, Box<dyn Trait>, unsized, downcast", "DIFFERENCES#left-unsize_box",
     "Left out. Use an `enum`, or a type parameter."),
    ("async, thread, threads, Sync, Arc, Rc, Mutex", "DIFFERENCES#left-send", "Left out: nothing here is `Send` or `Sync`."),
    ("unsafe, pointer, raw pointer, *mut T, NonNull", "DIFFERENCES#left-as_mut", "Left out. Only one module of the library has pointers."),
]  # fmt: skip
# What to use in place of names that are left out; a row's own words are for its other names. The names are those of DIFFERENCES.
INSTEAD = {
    "assume_init": "`UninitBox::write`, which returns the box of the value",
    "downcast_unchecked": "an `enum`, and `match`",
    "from_non_null, from_non_null_in, from_raw, from_raw_in": "the box itself, moved or borrowed; there is no pointer to make one of",
    "from_raw_parts, from_raw_parts_in": "`Vec::from_block`, `BoxedSlice::from_block` and `IntoIter::from_block` of a block",
    "set_len": "`truncate`, `resize`, or `push_within_capacity` for each element",
    "as_ptr, as_non_null_ptr": "`as_slice`, or `&v[..]`",
    "as_mut, as_mut_ptr": "`as_mut_slice`, or `&mut v[..]`",
    "as_ref": "`as_slice`, or `&*b` of a box",
    "fmt::Pointer": "`Debug` of the value",
    "into_non_null, into_non_null_with_allocator, into_raw, into_raw_with_allocator": "`Box::into_inner`, or move the box",
    "into_raw_parts, into_raw_parts_with_alloc": "`Vec::into_block`",
    "leak": "the box or vector itself, for as long as the value is needed",
    "RawVec::ptr, Unique, new_unchecked": "the calls by places of `RawVec`: `put`, `take`, `slice`",
    "allocate_zeroed, grow_zeroed": "`allocate`; what is read is written first",
    "with_capacity_zeroed, with_capacity_zeroed_in": "`Vec::from_elem_in(0, n, alloc)`, or `vec_of![in alloc; 0u32; n]`",
    "new_zeroed, new_zeroed_in, try_new_zeroed, try_new_zeroed_in": "`Box::new_in` of the value that the zeroes are",
    "new_zeroed_slice, new_zeroed_slice_in, try_new_zeroed_slice, try_new_zeroed_slice_in":
        "`Vec::from_elem_in(0, n, alloc)`, then `into_boxed_slice`",
    "new_uninit_slice, new_uninit_slice_in, try_new_uninit_slice, try_new_uninit_slice_in":
        "`RawVec`, which knows its filled places, then `BoxedSlice::from_block`",
    "spare_capacity_mut, split_at_spare_mut": "`push_within_capacity`, or `put` of `RawVec`",
    "unsize_box!, downcast, Any, Box<dyn Error>, Error, CStr": "an `enum`, a type parameter, `BoxedSlice` or `BoxedText`",
    "Send, Sync, Pin, Unpin, pin, pin_in, into_pin, Future": "Nothing in its place: a value is moved, or borrowed by `&mut`",
    "alloc, alloc_zeroed, dealloc, realloc, GlobalAlloc, System": "`Global`, which a caller holds and passes on",
    "handle_alloc_error": "the `Result` of each call that allocates",
    "by_ref, &mut A": "`&A`, which is an allocator if `A` is",
    "LayoutError, From<LayoutError>": "`CapacityOverflow` of `TryReserveErrorKind`",
    "Borrow, BorrowMut": "`AsSlice`, or `&v[..]`",
    "write_vectored": "`write_all` for each piece",
    "clone_from": "`assign_from` of a vector; of a box, `clone`",
    "nightly, fresh-rust, must_use, const fn": "Nothing in its place",
    "InPlaceSeed": "a function of your own that writes and reads bytes, as `records` in EXAMPLES",
}  # fmt: skip
# Names in those rows that are here under the same name, or are plain words.
KEPT = {"Allocator", "Box", "std", "&mut", "vec!", "in", "MaybeUninit"}


def instead():
    """What to use in place of each name."""
    return {name: use for names, use in INSTEAD.items() for name in names.split(", ")}


def slug(name):
    return "left-" + re.sub(r"[^\w-]", "", name.lower())


@functools.lru_cache(maxsize=None)
def rows():
    """The rows of DIFFERENCES on the original's items, in order."""
    text = text_of(DIFFERENCES) if DIFFERENCES.exists() else ""
    listed, _, left = text.partition("\n## ")[2].partition("\nLeft out, by name")
    found = []
    for part, is_left_out in ((listed, False), (left, True)):
        for row in re.findall(r"^- (.*(?:\n  .*)*)", part, re.M):
            row = re.sub(r"\s+", " ", row)
            before, arrow, after = row.partition(" → ")
            if is_left_out:
                names, said = re.findall(r"`([^`]+)`", row), re.split(r": (?=`|boxes|serde)|: `|: ", row)[0]
            else:
                names, said = re.findall(r"`([^`]+)`", before), after
            found.append(Row(slug(names[0]) if is_left_out else f"row-{len(found) + 1}", row, names, said.strip(), is_left_out))
    return found


def row_of(lines):
    """The row of DIFFERENCES that a list's item is, if it is one."""
    text = re.sub(r"\s+", " ", " ".join(lines)).strip()
    return next((it for it in rows() if it.text == text), None)


def in_std():
    """The calls of CALLING's table: what is written in std, and here."""
    text = text_of(CALLING).partition("| In std you write | Here you write |\n|---|---|\n")[2]
    for line in re.match(r"(?:\|.*\n)*", text).group().split("\n"):
        cells = [it.replace("\\|", "|").strip() for it in re.split(r"(?<!\\)\|", line.strip("|"))]
        if len(cells) == 2:
            yield re.findall(r"`([^`]+)`", cells[0]), cells[1]


def faults():
    """Names of the tables that DIFFERENCES does not have, and names that are left out for which there is nothing to use."""
    left = {name for row in rows() if row.is_left_out for name in row.names} - KEPT
    known = {name for row in rows() for name in row.names}
    yield from (f"docs/reference/aliases.py: DIFFERENCES does not name `{it}`" for it in instead() if it not in known)
    yield from (f"docs/reference/aliases.py: nothing is said to use in place of `{it}`" for it in sorted(left) if it not in instead())
