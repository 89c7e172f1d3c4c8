//! The functions for C, for the package in `rust/c/`.

pub use crate::c::*;
