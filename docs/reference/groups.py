"""The groups in which the calls of a type are listed: by what one wants to do."""
import re

# The title of a group, and its names; a call is in the first that has its name, and in `Other` if none has.
GROUPS = [
    ("Make", r"new\w*|try_new\w*|with_(capacity|growth|hasher)\w*|from_(?!filled)\w+|from|default|try_default|allocate_in|over"),
    ("Copy and compare", r"(\w+_)?clone\w*|clone_from|eq|ne|cmp|partial_cmp|\w*compare\w*|same\w*|hash|duplicate"),
    ("Size and capacity", r"len|is_\w+|capacity\w*|room\w*|(try_)?reserve\w*|shrink\w*|growth|spare\w*|set_len|count|size_hint|prove_\w+|slots|issued"),
    ("Ranges", r"drain\w*|splice\w*|split\w*|extract\w*|take_range\w*|extend_from_within\w*|range\w*|move_\w+|transfer|take_run|keep_rest|finish\w*"),
    ("Add", r"push\w*|insert\w*|append\w*|extend\w*|put\w*|write\w*|fill\w*|resize\w*|assign\w*|entry|put_back|replace"),
    ("Closures", r"retain\w*|dedup\w*|\w+_with|\w+_by|\w+_by_key|for_each|map_in_place|binary_search\w*"),
    ("Remove", r"pop\w*|remove\w*|swap_remove|truncate|clear|take\w*|drop\w*|forget\w*|delete\w*|backspace"),
    ("Convert", r"into_\w+|leak\w*|to_\w+|unwrap\w*|finished"),
    ("Look", r"get\w*|first\w*|last\w*|as_\w+|iter\w*|deref\w*|place\w*|slice\w*|index\w*|contains\w*|keys|values\w*|peek\w*|front\w*|back\w*|next\w*|"
             r"nth\w*|text\w*|before|after|cursor\w*|allocator|hasher|key\w*|value\w*|make_contiguous|entries_mut|pair_with"),
]  # fmt: skip
# A type with fewer calls has no groups.
FEW = 8


def grouped(calls):
    """The calls, in order, by the titles of their groups; one without a title if they are few."""
    if len(calls) < FEW:
        return [("", calls)]
    found = {title: [] for title, _ in GROUPS} | {"Other": []}
    for call in calls:
        found[next((title for title, names in GROUPS if re.fullmatch(names, call.name)), "Other")].append(call)
    return [(title, those) for title, those in found.items() if those]
