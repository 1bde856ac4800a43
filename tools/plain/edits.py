"""What `tools/plain_rust` changes beside taking out what only the prover reads.

Each edit is a pattern, what takes its place, and how often it has to be found in its file, or `None` for a comment that may be said in
other words; the file is named by its crate.
"""

# How the package begins. The lints are about how the proved code is written, which the package leaves as it is.
LINTS = '''#![doc = include_str!("../README.md")]
#![no_std]
#![forbid(unsafe_code)]
#![warn(missing_docs)]
#![allow(
    clippy::manual_map,
    clippy::question_mark,
    clippy::too_many_arguments,
    clippy::only_used_in_recursion,
    clippy::needless_range_loop,
    reason = "the code is that which was proved, and a proof counts by some arguments"
)]
#![allow(
    clippy::should_implement_trait,
    reason = "the names are those of cranelift-bforest"
)]

extern crate alloc;

'''

# What the package does not have: there `cursor_mut` of `Maps`, in `rust.rs`, lends a cursor.
LEFT_OUT = ["bforest_indexed/edit.rt"]

# Functions that the package does not call.
UNUSED = {
    "bforest_indexed/maps.rt": ["edit"],
    "forest_run/main.rt": ["arguments", "main"],
    "bforest_nodes/node.rt": ["unwrap_leaf_mut"],
    "bforest_nodes/entries.rt": ["parts_mut"],
    "bforest_nodes/row.rt": ["front_mut"],
    "bforest_nodes/lent.rt": ["front_mut"],
    "bforest_core/path/insert.rt": ["needed"],
    "bforest_core/pool.rt": ["new"],
}

USE_GLOBAL = (r"^use std::alloc::Global;\n", "", 1)
# `cargo doc` lists the calls of a type of forests by themselves only where the capacity of its leaves is written as a number.
FOREST = [
    USE_GLOBAL,
    (r"pub fn new\(alloc: Global\)", "pub fn new()", 1),
    (r"with_node_limit\(alloc, u32::MAX\)", "with_node_limit(u32::MAX)", 1),
    (r"pub fn with_node_limit\(alloc: Global, limit: u32\)", "pub fn with_node_limit(limit: u32)", 1),
    (r"Trees::with_limit\(alloc, limit\)", "Trees::with_limit(limit)", 1),
]
# The comments at the front of a file, and those of them behind the first paragraph, which speak of contracts and of the crates.
FRONT = r"\A(?://![^\n]*\n)*"
BEHIND_FIRST = (r"^//!\n(?://![^\n]*\n)+", "", 1)

# What the docs of `range` and `remove_range` say of their bounds.
BOUNDS = (
    "    ///\n    /// Any bounds serve: `3..9`, `..=9`, `..` for all, or a pair of `Bound`s. A pair of two `Unbounded` does not say\n"
    "    /// of which type its bounds are, so write `..` for it.\n"
)

# Handles in a vector that asks for memory by Rust's names.
INDEXED = [
    (r"^use std::alloc::\{AllocError, Global\};\n", "use alloc::collections::TryReserveError;\nuse alloc::vec::Vec;\n", 1),
    (r"\balloc: Global, ", "", 4),
    (r"(typed|with_node_limit)\(alloc, ", r"\1(", 4),
    (r"Vec::new\(alloc\)", "Vec::new()", 1),
    (r"\bAllocError\b", "TryReserveError", 4),
    (r"^use std::ops::Bound;", "use std::ops::RangeBounds;", 1),
    # A panic names the line of the caller, also where the index is looked up below the call.
    (r"^(?=    fn (?:map|set)\(&self, index: I\))", "    #[track_caller]\n", 1),
    (
        r"pub fn (range|remove_range)\((&(?:mut )?self, index: I), bounds: \(Bound<K>, Bound<K>\)\)",
        r"pub fn \1<R: RangeBounds<K>>(\2, bounds: R)",
        2,
    ),
    (r"^(?=    pub fn (?:range|remove_range)<)", BOUNDS, 2),
    (
        r"^(?=        let tail = self\.(maps|sets)\[from\.index\(\)\]\.split_off\()",
        r"        // An index that is not there panics before an entry moves.\n        _ = &self.\1[to.index()];\n",
        1,
    ),
    (
        r"^        let index = I::new\(self\.(maps|sets)\.len\(\)\);\n",
        "\\g<0>        assert!(index.index() == self.\\1.len(), \"this type of index has no value for {}\", self.\\1.len());\n",
        1,
    ),
]

# A range is named by any bounds, as in the standard library.
RANGE = [
    (r"^(?=    pub fn (?:range|remove_range)<)", BOUNDS, 2),
    (r"^use std::ops::Bound;", "use std::ops::RangeBounds;", 1),
    (r"pub fn range<'a, C: Comparator<K>>\(", "pub fn range<'a, R: RangeBounds<K>, C: Comparator<K>>(", 1),
    (r"pub fn remove_range<C: Comparator<K>>\(", "pub fn remove_range<R: RangeBounds<K>, C: Comparator<K>>(", 1),
    (r"bounds: \(Bound<K>, Bound<K>\),", "bounds: R,", 2),
    (
        r"(trees\.(?:range\(root|remove_range\(&mut self\.root), )bounds",
        r"\1(bounds.start_bound().cloned(), bounds.end_bound().cloned())",
        2,
    ),
]
# The mark of roots that builds with guards keep in each slot (`guards.rs`). A slot that is made, copied or freed is no root.
MARKED = [
    (r"^(?=use crate::entries::)", "use crate::guards::{RootMark, place_of};\n", 1),
    (r"^(    state: State<K, V, N>,\n)(?=\})", r"\1    pub(crate) root_mark: RootMark,\n", 1),
    (r"\bNodeData \{(?=\s*state\b)", "NodeData { root_mark: RootMark::NONE,", 3),
    (r"^( *)self\.state = State::Vacant\(next\);\n", r"\g<0>\1self.root_mark = RootMark::NONE;\n", 1),
]
# A new tree, whose root is marked.
NEW_TREE = (r"\bOk\(PackedNode::some\((\w+)\)\)", r"Ok(self.named(\1))", 1)
# A handle that gets a new root in a function without the trees, which keep the marks.
RENAMED = [(r"^( *)\*handle = (PackedNode::some\(left\));\n", r"\1rename_in(pool, handle, \2);\n", 1)]
# The place of a key that the call looked up in a leaf: builds with guards compare the keys beside it.
LOOKED_UP = (
    r"^( *)let \((\w+), stored\) = self\.pool\.look_up_in_leaf\((leaf|way\.leaf\(\)), key, comp\);\n",
    r"\g<0>\1self.expect_order(\3, \2, stored.is_some(), key, comp);\n",
    2,
)
# What is met where a call was made on a handle that was not live.
MISUSED = (
    'panic!("this call or an earlier one was made on a handle that was not live: the trees of this forest share nodes. Debug builds, and \
those with the feature `guards`, tell which call it was")'
)

EDITS = {
    "bforest/lib.rt": [(FRONT, "", 1)],
    "bforest/map_forest.rt": [*FOREST, (r"^(pub type .*)\bMAP_LEAF>", r"\g<1>7>", 1)],
    "bforest/set_forest.rt": [*FOREST, (r"^(pub type .*)\bSET_LEAF>", r"\g<1>15>", 1)],
    "bforest/map.rt": [*RANGE, (r"(?:\s|///)*\(docs/RULES\.md[^)]*\)", "", None)],
    "bforest/set.rt": RANGE,
    "bforest_calls/collection.rt": [(r"(pub trait Collection<K: Copy, V: Copy>)(?:: Drop)? \{", r"\1: Sized {", 1)],
    # The call that is not offered is named by the contract alone.
    "bforest_calls/engine.rt": [(r"(fn not_offered<[^(]*\(\n {4})call:", r"\1_call:", 1)],
    "bforest_indexed/lib.rt": [
        (r"^pub use bforest::\{Comparator, OutOfMemory\};\n", "", 1),
        (r"^(?:mod edit|pub use edit::Edit);\n", "", 2),
    ],
    "bforest_indexed/handles.rt": [
        (r"^use std::alloc::AllocError;\n", "use alloc::collections::TryReserveError;\nuse alloc::vec::Vec;\n", 1),
        (r"\bAllocError\b", "TryReserveError", 2),
        (r"handles\.reserve_exact\(", "handles.try_reserve_exact(", 1),
        (r"\.push_reserved\(", ".push(", 2),
        (r": Drop \+ Default>", ": Default>", 2),
    ],
    "bforest_indexed/room.rt": [
        (r"^use bforest::OutOfMemory;\n", "use alloc::vec::Vec;\nuse bforest::OutOfMemory;\n", 1),
    ],
    "bforest_indexed/load_error.rt": [(r"(#\[derive\(Clone, Copy, Debug, PartialEq, Eq)(?=\)\]\npub enum LoadError)", r"\1, Hash", 1)],
    "bforest_indexed/maps.rt": [
        *INDEXED,
        (r"^use crate::edit::\{Edit, lend\};\n", "", 1),
        (r"^pub struct Maps<K: Copy, V: Copy, C: Comparator<K>,", "pub struct Maps<K: Copy, V: Copy, C: Comparator<K> = (),", 1),
        (r"\.push_reserved\(", ".push(", 1),
    ],
    "bforest_indexed/sets.rt": [
        *INDEXED,
        (r"^pub struct Sets<K: Copy, C: Comparator<K>,", "pub struct Sets<K: Copy, C: Comparator<K> = (),", 1),
        (r"\.push_reserved\(", ".push(", 1),
    ],
    "bforest_nodes/lib.rt": [BEHIND_FIRST],
    "bforest_nodes/comparator.rt": [
        (
            r"An implementation(?: |\n/// )[^.]*`order`[^.]*\.",
            "An implementation\n/// has to be a total order, always the same: each key equals itself, swapping two keys reverses the "
            "result, and less than and\n/// equal are transitive. Two keys may compare equal and still be different values. Where an "
            "implementation replaces a search,\n/// it has to return what the provided body does.",
            1,
        )
    ],
    "bforest_nodes/lent.rt": [BEHIND_FIRST],
    "bforest_nodes/node.rt": [
        (r"^use std::alloc::\{AllocError, Global\};\n", "", 1),
        (r"pub fn new\(_alloc: Global\) -> Result<Self, AllocError>", "pub fn new() -> Self", 1),
        (r"Ok\((NodeData \{\s*state: State::Vacant\(PackedNode::none\(\)\),\s*\})\)", r"\1", 1),
        (r" It takes no memory and always succeeds[^.]*\.", " It takes no memory.", None),
        (r"\bunreachable!\(\)", MISUSED, 29),
        # what only a caller of the prover reads
        (r"(?:\n    //[^\n]*)+\n    pub rhs_entries: usize,", "", 1),
        (r"\n *rhs_entries: len - \w+,", "", 2),
        *MARKED,
        # in `put` and `take`, and not in `look_up`
        (r"\bcomp\.search_prefix\(key, &keys\.items, (\w+)\)(?= \{\n *Ok\(index\) => \{)", r"place_of(key, &keys.items, \1, comp)", 2),
    ],
    "bforest_nodes/node/fill.rt": [(r"\bunreachable!\(\)", MISUSED, 2)],
    "bforest_core/lib.rt": [
        BEHIND_FIRST,
        (r"\n    Comparator, Node, NodeData, PackedNode, Removed, SetValue, Source, SplitOff,\n", "Comparator, Node, NodeData, PackedNode, SetValue, Source", 1),
    ],
    # What the search alone uses, which goes with it.
    "bforest_core/pool.rt": [
        (r"^use std::alloc::\{AllocError, Global\};\n", "use alloc::collections::TryReserveError;\nuse alloc::vec::Vec;\n", 1),
        (r"(#\[derive\(Clone, Copy, Debug, PartialEq, Eq)(?=\)\]\npub enum OutOfMemory)", r"\1, Hash", 1),
        (r"(?:\n    //[^\n]*)+\n    blank: NodeData<K, V, N>,", "", 1),
        (r"\n    alloc: Global,(?=\n\})", "", 1),
        (r"\n *blank: NodeData::new\(alloc\)\.unwrap\(\),", "", 1),
        (r"\n            alloc,", "", 1),
        (r"\n\n    /// [^\n]*\n    pub fn allocator\(&self\) -> Global \{\n        self\.alloc\n    \}", "", 1),
        (r"pub fn with_limit\(alloc: Global, limit: u32\)", "pub fn with_limit(limit: u32)", 1),
        (r"Vec::new\(alloc\)", "Vec::new()", 1),
        (r", self\.alloc\)", ")", 1),
        (r"\n    alloc: Global,(?=\n\))", "", 1),
        (r"Result<PackedNode, AllocError>", "Result<PackedNode, TryReserveError>", 1),
        (r"slots\.reserve_exact\(", "slots.try_reserve_exact(", 1),
        (r"fn hold<T>\(slots: &mut Vec<T>, more: usize\) -> Result<\(\), AllocError>", "fn hold<T>(slots: &mut Vec<T>, more: usize) -> Result<(), TryReserveError>", 1),
        (r"NodeData::new\((?:self\.)?alloc\)\.unwrap\(\)", "NodeData::new()", 2),
        (r"nodes\.push_reserved\(", "nodes.push(", 2),
    ],
    "bforest_trees/lib.rt": [
        BEHIND_FIRST,
        (r"^pub use bforest_core::\{[^}]*\};\n", "", 1),
    ],
    # Where an index is tested, the compiler drops the test if the entry is read on each way by itself; where none is, reading it once is less.
    "bforest_trees/reader.rt": [
        (
            r"if self\.goes_on\(pool\) \{\n {12}Some\(self\.take_first\(\)\)\n",
            "if self.index < self.keys.len() {\n            return Some(self.take_first());\n        }\n"
            "        if self.enter_next(pool) {\n            Some(self.take_first())\n",
            1,
        ),
    ],
    "bforest_trees/trees.rt": [
        USE_GLOBAL,
        (r"pub fn with_limit\(alloc: Global, limit: u32\)", "pub fn with_limit(limit: u32)", 1),
        (r"NodePool::with_limit\(alloc, limit\)", "NodePool::with_limit(limit)", 1),
        (
            r"^( *)if let Some\(old\) = (path\.find_here\(key, root, &self\.pool, comp\)) \{",
            r"\1let found = \2;\n\1if let Some((leaf, index)) = path.leaf_pos() {\n"
            r"\1    self.expect_order(leaf, index, found.is_some(), key, comp);\n\1}\n\1if let Some(old) = found {",
            1,
        ),
    ],
    "bforest_trees/retain.rt": [*RENAMED, (r"^(?=use crate::predicate::)", "use crate::guards::rename_in;\n", 1)],
    "bforest_trees/keep.rt": [*RENAMED, (r"^(?=use bforest_core::\{Comparator)", "use crate::guards::rename_in;\n", 1)],
    "bforest_trees/trees/copy.rt": [NEW_TREE],
    "bforest_trees/trees/load.rt": [NEW_TREE],
    "bforest_trees/trees/part.rt": [
        (r"^        Ok\(behind\)$", "        Ok(self.marked(behind))", 1),
        (
            r"^(?= *let mut path = Path::default\(\);\n *let _value = self\.goto\()",
            "        self.expect_order_at(*handle, Bound::Included(key), comp);\n",
            1,
        ),
        (
            r"^(?= *let mut path = Path::default\(\);\n *if let Bound::Unbounded = )",
            "        self.expect_order_at(*handle, bounds.0, comp);\n        self.expect_order_at(*handle, bounds.1, comp);\n",
            1,
        ),
        # Functions without the trees, which keep the marks, write the handle.
        (
            r"^( *)\*handle = (PackedNode::some\(path\.remove_next_leaf\(next, pool\)\));\n",
            r"\1let left = \2;\n\1rename_in(pool, handle, left);\n",
            1,
        ),
        (r"^(?=use crate::trees::\{Trees, packed\};)", "use crate::guards::rename_in;\n", 1),
        (
            r"^( *)return (cut_front_at\(&mut self\.pool, )handle(, &mut path\));\n",
            r"\1let mut left = *handle;\n\1let changed = \2&mut left\3;\n\1self.rename(handle, left);\n\1return changed;\n",
            1,
        ),
    ],
    "bforest_trees/trees/get_or_insert.rt": [LOOKED_UP],
    "bforest_trees/trees/unite.rt": [
        (r"^use crate::trees::\{Trees, fewest_nodes\};\n", r"\g<0>use alloc::vec::Vec;\n", 1),
        (r"Vec::new\(self\.pool\.allocator\(\)\)", "Vec::new()", 1),
        (r"union\.reserve\(", "union.try_reserve(", 1),
        (r"union\.push_reserved\(", "union.push(", 1),
    ],
    # a condition beside a `let` is newer than the package's rust-version
    "live_ranges_example/main.rt": [
        (r"self\.live_at\(point\)\s*&& start < point\s*\{", "self.live_at(point).filter(|it| it.0 < point) {", 1),
    ],
    "forest_run/main.rt": [(r"^use std::(?:io::ErrorKind|process::ExitCode|rt::Env|\{env, io\});\n", "", 4)],
}

# Types that get a `Clone`, which nothing proved calls.
CLONED = {
    "bforest_nodes/entries.rt": ["Entries"],
    "bforest_nodes/node.rt": ["NodeData", "State"],
    "bforest_core/pool.rt": ["NodePool"],
    "bforest_core/path.rt": ["Path"],
    "bforest_trees/trees.rt": ["Trees"],
    "bforest_trees/trees/range.rt": ["Ends"],
    "bforest_trees/look.rt": ["Look"],
    "bforest_trees/reader.rt": ["Reader"],
    "bforest/forest.rt": ["Forest"],
    "bforest/map_iter.rt": ["MapIter"],
    "bforest/map_iter_back.rt": ["MapIterBack"],
    "bforest/map_into_iter.rt": ["MapIntoIter"],
    "bforest/set_iter.rt": ["SetIter"],
    "bforest/set_iter_back.rt": ["SetIterBack"],
    "bforest/set_merge.rt": ["Ahead"],
    "bforest_indexed/maps.rt": ["Maps"],
    "bforest_indexed/sets.rt": ["Sets"],
}

# Types whose fields `rust.rs` reads.
OPENED = {
    "bforest/map_cursor.rt": ["MapCursor"],
    "bforest/set_merge.rt": ["Merge"],
    "bforest_indexed/maps.rt": ["Maps"],
    "bforest_indexed/sets.rt": ["Sets"],
}

# Functions that can be called where a constant is made.
CONSTANT = {
    "bforest_nodes/number.rt": ["none"],
    "bforest_core/pool.rt": ["with_limit"],
    "bforest_trees/trees.rt": ["with_limit"],
    "bforest/map.rt": ["new"],
    "bforest/set.rt": ["new"],
    "bforest/map_forest.rt": ["new", "with_node_limit"],
    "bforest/set_forest.rt": ["new", "with_node_limit"],
}

# Functions between a call and the test of the order beside a key's place: a panic there names the caller's place.
CALLED_FROM = {
    "bforest_nodes/node.rt": ["put", "take"],
    "bforest_core/access.rt": ["put", "take"],
    "bforest_core/leaf.rt": ["put_in_leaf", "take_from_leaf"],
    "bforest_trees/trees.rt": ["insert", "insert_under", "remove"],
    "bforest_trees/trees/put.rt": ["put", "put_under", "put_below", "put_alone"],
    "bforest_trees/trees/remove.rt": ["remove_under", "remove_below", "remove_alone"],
    "bforest_trees/trees/part.rt": ["remove_range", "split_off"],
    "bforest_trees/trees/get_or_insert.rt": ["get_or_insert", "get_or_insert_under", "update_or_insert", "update_or_insert_under"],
    "bforest/map_cursor_mut.rt": ["insert", "try_insert"],
    "bforest/set_cursor.rt": ["insert", "try_insert"],
}

# Functions that only tell something, so that a call whose result is dropped is a mistake.
TELLING = ["is_empty", "contains", "get", "get_or_less", "get_or_greater", "first", "last", "levels", "increases"]
MANY = ["new", "with_node_limit", "typed", "typed_with_node_limit", "len", "slots", "nodes_in_use", "free_slots", "node_limit"]
SET_TELLING = [*(it for it in TELLING if it not in ("get", "increases")), "is_subset", "is_disjoint"]
COUNTING = ["nodes_for", "fewest_nodes_for"]
MUST_USE = {
    "bforest/map.rt": ["new", "clone", "is_same_handle", "cursor", "cursor_mut", "len", "is_subset", "is_disjoint", *COUNTING, *(it for it in TELLING if it != "contains")],
    "bforest/set.rt": ["new", "clone", "is_same_handle", "cursor", "len", "is_subset", "is_disjoint", *COUNTING, *(it for it in TELLING if it != "get")],
    "bforest/forest.rt": ["slots", "nodes_in_use", "free_slots", "node_limit"],
    "bforest/map_forest.rt": ["new", "with_node_limit", "holds", "get_mut"],
    "bforest/set_forest.rt": ["new", "with_node_limit", "holds"],
    "bforest_indexed/maps.rt": [*MANY, "cursor", "get_mut", "len_of", "is_subset", "is_disjoint", *(it for it in TELLING if it not in ("contains", "increases"))],
    "bforest_indexed/sets.rt": [*MANY, "len_of", *SET_TELLING],
    "bforest/map_cursor.rt": ["is_empty", "entry", "key", "value"],
    "bforest/map_cursor_mut.rt": ["is_empty", "entry", "key", "value", "value_mut"],
    "bforest/set_cursor.rt": ["is_empty", "elem"],
}

# Names under which Rust's users look for a call, which its docs are found by.
IN_ORDER = {"get_or_less": ["floor"], "get_or_greater": ["ceiling", "lower_bound"], "levels": ["height"]}
ENDS = {"first": ["first_key_value"], "last": ["last_key_value"]}
WHOLE = {"union_with": ["append"], "remove_range": ["truncate"]}
ALIASES = {
    "bforest/map.rt": {**IN_ORDER, **ENDS, **WHOLE, "increases": ["is_sorted"]},
    "bforest/set.rt": {**IN_ORDER, **WHOLE, "contains": ["contains_key"], "increases": ["is_sorted"]},
    "bforest_indexed/maps.rt": {**IN_ORDER, **ENDS},
    "bforest_indexed/sets.rt": {**IN_ORDER, "contains": ["contains_key"]},
    "bforest/map_cursor.rt": {"goto": ["lower_bound"]},
    "bforest/map_cursor_mut.rt": {"goto": ["lower_bound"]},
    "bforest/set_cursor.rt": {"goto": ["lower_bound"]},
}

# What a source of a program takes from `fallible.rs`, with the calls for which it does.
FALLIBLE = {"AllocError": "AllocError", "TryCollect": "try_collected", "TryVec": "try_with_room|try_push|try_extend"}
IMPORT = "// what memory may be refused to\n"

# What is changed in each source of a program: Rust's library takes no allocator, and its calls that may be refused memory have other names.
PROGRAM = [
    (r"^use std::alloc::(?:AllocError|\{AllocError, Global\});\n", IMPORT),
    (r"^use std::alloc::Global;\n", ""),
    (r"\b_?alloc: Global(?:,\s*|(?=\)))", ""),
    (r"^use bforest_indexed::", "use bforest::"),
    (r"rt: HostRuntime|rt\.alloc\(\)(?:, )?", ""),
    (r"\balloc,\s+", ""),
    (r"\.collect\(alloc\)", ".try_collected()"),
    (r"\(alloc\)", "()"),
    (r"\bformat!\(in alloc; (.*)\)(?=[?;,]|$)", r"crate::fallible::text(format_args!(\1))"),
    (r"Vec::with_capacity\(", "Vec::try_with_room("),
    (r"\.push\((.*)\)\.unwrap\(\);", r".push(\1);"),
    (r"\.push\((.*)\)\?;", r".try_push(\1)?;"),
    (r"\.push_reserved\(", ".push("),
    (r"\.extend_from_slice\(", ".try_extend("),
    (r"\btrait Named \{", "trait Named: Sized {"),
    (r"\btype Answer: fmt::Display \+ Drop;", "type Answer: fmt::Display;"),
    (r"<W: fmt::Write>\(", "("),
    (r"\bfmt::Formatter<W>", "fmt::Formatter<'_>"),
]
