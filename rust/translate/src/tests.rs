//! Each rule by an example, and what has no rule by its refusal.

mod c_calls;
mod clauses;
mod copies;
mod files;
mod ghosts;
mod items;
mod refusals;
mod rules;
mod unchecked;

use crate::paths::{CRATES, Module};
use crate::{Wrong, in_rust};

fn module(name: &str) -> Module {
    CRATES.into_iter().find(|it| it.name == name).unwrap()
}

/// The Rust of a source of `bitpack_lists`.
fn rust(source: &str) -> String {
    in_rust(source, module("lists"), true).unwrap_or_else(|it| panic!("{it}: {source}"))
}

fn refusal(source: &str) -> Wrong {
    in_rust(source, module("lists"), true).expect_err(source)
}

/// Tests that a source is refused at a line, for a reason that has these words.
#[track_caller]
fn refused(source: &str, line: usize, why: &str) {
    let found = refusal(source);
    assert!(found.line == line && found.what.contains(why), "{source}\nis refused by {found:?}");
}

/// Tests that an item is as it was, below imports.
#[track_caller]
fn becomes(source: &str, made: &str) {
    assert_eq!(rust(source), made, "{source}");
}
