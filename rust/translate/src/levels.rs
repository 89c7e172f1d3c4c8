//! What is there twice: for any processor of the target, and as `crate::v3` for one of the level x86-64-v3, and what calls from the first copy into
//! the second. `copies.rs` writes both.

/// A file of a module, by its path in the folder of the crate.
pub type File = (&'static str, &'static str);

/// The modules that have a second copy. Chains and the functions for C have none: they call functions that go over to it.
pub const COPIED: [&str; 10] =
    ["register", "bitpacking", "groups", "slices", "sets", "queries", "roaring", "columns", "ranking", "wide"];

/// The features of the level that the functions of the second copy have. `rust/src/level.rs` asks the processor for them.
pub const FEATURES: &str = "avx2,bmi1,bmi2,lzcnt,popcnt";

/// Types that both copies share. In the second copy the file of such a type re-exports the type of the first copy.
pub const SHARED: [(File, &str); 11] = [
    (("bitpacking", "kind.rt"), "Kind"),
    (("groups", "group_error.rt"), "GroupError"),
    (("slices", "operation.rt"), "Operation"),
    (("slices", "set_error.rt"), "SetError"),
    (("queries", "query_error.rt"), "QueryError"),
    (("queries", "step.rt"), "Step"),
    (("queries", "as_step.rt"), "AsStep"),
    (("columns", "column_error.rt"), "ColumnError"),
    (("columns", "column_kind.rt"), "ColumnKind"),
    (("ranking", "block_bounds.rt"), "BlockBounds"),
    (("wide", "wide_error.rt"), "WideError"),
];

/// Types that each copy has, and whose values cross from one to the other: both have the layout of C. The sources give it to `Place` and `ChunkPlace`.
pub const CROSSING: [(File, &str); 14] = [
    (("bitpacking", "bitpacker8x.rt"), "BitPacker8x"),
    (("bitpacking", "instruction_set.rt"), "InstructionSet"),
    (("bitpacking", "memory.rt"), "Steps"),
    (("sets", "cursor.rt"), "Cursor"),
    (("sets", "id_set.rt"), "IdSet"),
    (("sets", "opening.rt"), "Parts"),
    (("queries", "query.rt"), "Query"),
    (("queries", "query/walking.rt"), "Walk"),
    (("columns", "column.rt"), "Column"),
    (("columns", "column.rt"), "Parts"),
    (("ranking", "parts.rt"), "Parts"),
    (("ranking", "walk.rt"), "Walk"),
    (("wide", "opening.rt"), "Parts"),
    (("wide", "wide_set.rt"), "WideSet"),
];

/// Functions of one file that go over to the second copy, and what names them there: a type, or a module.
pub struct Entries {
    pub file: File,
    pub of: &'static str,
    pub functions: &'static [&'static str],
}

const fn entries(file: File, of: &'static str, functions: &'static [&'static str]) -> Entries {
    Entries { file, of, functions }
}

/// What the functions for Rust and for C call, if it reads or writes more than a few bytes. Blocks of 128 and of 32 values gain less than the choice
/// costs, and so does one value of a column.
pub const ENTRIES: [Entries; 33] = [
    entries(("bitpacking", "bitpacker8x.rt"), "BitPacker8x", &["pack_unmeasured", "unpack_counted", "width_counted"]),
    entries(("sets", "opening.rt"), "opening", &["test_encoding"]),
    entries(("queries", "combining.rt"), "combining", &["combine_to", "combine_count", "is_disjoint", "is_subset"]),
    entries(("queries", "combining_all.rt"), "combining_all", &["combine_all_to", "combine_all_count"]),
    entries(("queries", "combining_all_sets.rt"), "combining_all_sets", &["combine_all_set_to"]),
    entries(("queries", "in_place.rt"), "in_place", &["retain", "remove", "add", "add_to", "retain_if"]),
    entries(("sets", "encoding.rt"), "encoding", &["encode", "encode_to", "encoded_len"]),
    entries(("sets", "appending.rt"), "appending", &["append", "append_to"]),
    entries(("sets", "id_set.rt"), "IdSet", &["contains", "rank", "select", "seek", "append_to", "copy_to", "copy_range"]),
    entries(("sets", "cursor.rt"), "Cursor", &["fill", "seek"]),
    entries(("queries", "query.rt"), "Query", &["next_ids"]),
    entries(("queries", "query.rt"), "query", &["query_to"]),
    entries(("queries", "query/packing.rt"), "query::packing", &["query_set_to"]),
    entries(("roaring", "reading.rt"), "reading", &["fill_from_roaring"]),
    entries(("roaring", "writing.rt"), "writing", &["roaring_len", "set_to_roaring"]),
    entries(("sets", "encoding/order.rt"), "encoding::order", &["first_unsorted"]),
    entries(("columns", "opening.rt"), "opening", &["test_column"]),
    entries(("columns", "encoding.rt"), "encoding", &["encode", "encode_to", "encoded_len"]),
    entries(("columns", "encoding/order.rt"), "encoding::order", &["test_pushed"]),
    entries(("columns", "appending.rt"), "appending", &["append", "append_to"]),
    entries(("columns", "appending/joining.rt"), "appending::joining", &["join", "join_to"]),
    entries(("columns", "column/ranges.rt"), "Column", &["count_between", "positions_between"]),
    entries(("columns", "column/copying.rt"), "Column", &["append_to", "copy_to", "copy_range"]),
    entries(("columns", "column/search.rt"), "Column", &["seek"]),
    entries(("columns", "column/getting.rt"), "Column", &["gather"]),
    entries(("columns", "reads/blocks.rt"), "Column", &["read_block"]),
    entries(("ranking", "ranking.rt"), "ranking", &["best_bounded"]),
    entries(("ranking", "bounding.rt"), "bounding", &["bound_blocks"]),
    entries(("ranking", "among.rt"), "among", &["best_among"]),
    entries(
        ("wide", "combining.rt"),
        "combining",
        &["combine_count", "combine_set_to", "combine_to", "is_disjoint", "is_subset"],
    ),
    entries(("wide", "encoding.rt"), "encoding", &["encode", "encode_to", "encoded_len"]),
    entries(("wide", "opening.rt"), "opening", &["test_encoding"]),
    entries(("wide", "wide_set.rt"), "WideSet", &["contains", "rank", "select", "seek", "copy_to", "copy_range"]),
];

/// Functions of `ENTRIES` that go over only if the slice that is named has at least `MANY` values. Builders call them for each value.
pub const OF_MANY: [(File, &str, &str); 2] =
    [(("sets", "encoding/order.rt"), "first_unsorted", "ids"), (("columns", "encoding/order.rt"), "test_pushed", "pushed")];
/// A call that goes over takes 24 % more instructions for 31 or 63 values, and with 1 a call for one value takes 5 % more.
pub const MANY: usize = 64;

/// Functions that the first copy calls and that are always inlined there: in the second copy they are functions with its features.
pub const CALLED: [(File, &str); 1] = [(("bitpacking", "kernel/least_width.rt"), "width")];

/// The files that the lists name.
pub fn files() -> impl Iterator<Item = File> {
    let called = CALLED.iter().map(|it| it.0).chain(ENTRIES.iter().map(|it| it.file));
    SHARED.iter().chain(&CROSSING).map(|it| it.0).chain(called)
}
