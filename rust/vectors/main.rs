//! Runs the tables of a folder over the crate: `vectors FOLDER`. It prints each check that fails, and last 'N passed, M failed'.

mod appended_columns;
mod blocks;
mod columns;
mod combined_sets;
mod digests;
mod lists;
mod query_trees;
mod report;
mod roaring;
mod rows;
mod sets;
mod wide_sets;

use std::env;
use std::process::ExitCode;

use report::Report;
use rows::Row;

/// Each table, and what checks a row of it.
const TABLES: [(&str, fn(&Row, &mut Report)); 24] = [
    ("blocks.tsv", blocks::packed),
    ("single.tsv", blocks::packed),
    ("loose.tsv", blocks::packed),
    ("refused_blocks.tsv", blocks::refused),
    ("lists.tsv", lists::version1),
    ("lists2.tsv", lists::version2),
    ("refused.tsv", lists::refused1),
    ("refused2.tsv", lists::refused2),
    ("refused_values.tsv", lists::refused_values),
    ("upgrade.tsv", lists::upgraded),
    ("seek.tsv", lists::sought),
    ("intersect.tsv", lists::intersected),
    ("digests.tsv", digests::long),
    ("id_sets.tsv", sets::opened),
    ("refused_id_sets.tsv", sets::refused),
    ("combined_id_sets.tsv", combined_sets::combined),
    ("combined_id_sets.tsv", query_trees::queried),
    ("wide_sets.tsv", wide_sets::opened),
    ("refused_wide_sets.tsv", wide_sets::refused),
    ("bitmaps.tsv", roaring::read),
    ("refused_bitmaps.tsv", roaring::refused),
    ("columns.tsv", columns::opened),
    ("columns.tsv", appended_columns::appended),
    ("refused_columns.tsv", columns::refused),
];

fn main() -> ExitCode {
    let Some(folder) = env::args().nth(1) else {
        eprintln!("vectors FOLDER");
        return ExitCode::FAILURE;
    };
    let mut report = Report::new();
    for (table, check) in TABLES {
        let rows = rows::of(&folder, table);
        report.check(table, "whether it has rows", !rows.is_empty(), true);
        for row in &rows {
            report.begin(&row.name);
            check(row, &mut report);
        }
    }
    appended_columns::joined_by_hand(&mut report);
    combined_sets::counted_by_hand(&mut report);
    report.ended()
}
