//! Tests of what the crate adds to the proved code, and of both together.

mod allocations;
mod bitmap_blocks;
mod chains;
mod chunk_bounds;
mod column_appending;
mod column_bytes;
mod column_model;
mod column_packing;
mod column_reading;
mod column_searching;
mod hints;
#[cfg(level_v3)]
mod level;
mod packers;
mod panics;
mod ranked;
mod set_combining;
mod set_iter;
mod set_models;
mod set_packing;
mod set_query;
mod set_ranges;
mod set_reading;
mod set_roaring;
mod set_types;
mod wide_combining;
mod wide_sets;
mod wide_types;

/// The rounds of a test. A release runs all; a build with debug assertions runs each third, since models are slow there.
fn rounds(count: u32) -> impl Iterator<Item = u32> {
    (0..count).step_by(if cfg!(debug_assertions) { 3 } else { 1 })
}
