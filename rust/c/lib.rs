//! The functions for C, as `libbitpacking.a` and `libbitpacking.so`.
//!
//! A release ends the program at a panic. So it has nothing of Rust's standard library, and calls only `abort` and functions of `<string.h>`.
//!
//! The library `libbitpacking.so` of cargo lacks the functions that the header defines as `static inline`. `scripts/build/install.py PREFIX --from
//! cargo` links one that has them, of `libbitpacking.a`.
#![cfg_attr(panic = "abort", no_std)]

pub use source::c_functions::*;

#[cfg(panic = "abort")]
mod no_std;
