"""The order in which the original documents its modules, and each type's methods.

A method that the original lacks comes after the one that its name begins with, or after the one before it in its file.
"""

# The original's modules in the order of its documentation, then those that are private there, and this project's own.
MODULES = [
    "alloc", "boxed", "collections", "slice", "vec", "vec::drain", "vec::extend::hints", "vec::extend::items", "vec::extract_if", "vec::into_iter",
    "vec::splice", "raw_vec", "gap_buffer", "laws", "runner",
]  # fmt: skip
# Modules that are re-exported as parts of others.
HOMES = {"slices": "vec", "macros": ""}
CALLS = {
    "Vec": """new with_capacity new_in with_growth_in with_capacity_in capacity reserve reserve_exact try_reserve try_reserve_exact shrink_to_fit
        shrink_to into_boxed_slice truncate as_slice as_mut_slice allocator swap_remove insert remove retain retain_mut dedup_by_key
        dedup_by push push_within_capacity pop append drain clear len is_empty split_off resize_with resize extend_from_slice
        extend_from_within into_flattened dedup clone assign_from iter iter_mut from_iter extend splice extend_copied from_slice
        from_array from_text from_elem_in from_elem""",
    "Box": """new new_uninit try_new try_new_uninit new_in try_new_in new_uninit_in try_new_uninit_in into_boxed_slice into_inner
        allocator try_default clone slice into_vec""",
    "BoxedSlice": "into_vec from_slice from_array from_iter try_into_array clone",
    "BoxedText": "clone from_text into_bytes",
    "RawVec": """new with_capacity new_in with_growth_in with_capacity_in with_capacity_and_growth_in capacity allocator reserve
        reserve_for_push try_reserve reserve_exact
        try_reserve_exact shrink_to_fit""",
    "IntoIter": "as_slice as_mut_slice allocator next size_hint count next_back len clone",
    "Drain": "as_slice allocator keep_rest",
    "SliceExt": "to_vec to_vec2 to_vec_in to_vec_in2 repeat repeat2",
}
TYPES = "TryReserveError TryReserveErrorKind Vec Box BoxedSlice BoxedText Drain Splice IntoIter RawVec SliceExt GapBuffer ExtractIf Items".split()


def place(type_name, calls):
    """The places of these methods, which are in the order of the sources, in the order of the original's documentation."""
    listed = CALLS.get(type_name, "").split()
    places, last = {}, None
    for at, (file, name) in enumerate(calls):
        stem = max((it for it in listed if name.startswith(it + "_")), key=len, default=None)
        if name in listed:
            places[at] = (listed.index(name), 0, at)
        elif stem:
            places[at] = (listed.index(stem), 1, at)
        elif last and last[0] == file:
            places[at] = (places[last[1]][0], 1, at)
        else:
            places[at] = (len(listed), 1, at)
        last = (file, at)
    return sorted(range(len(calls)), key=lambda at: places[at])
