//! The vectors of the second copy of the modules, which has AVX2.
// These files are modules of `simd` too, for what the target has.
#![allow(clippy::duplicate_mod)]

#[path = "eight_avx2.rs"]
mod eight;
#[path = "four_sse2.rs"]
mod four;
#[path = "by_sse41.rs"]
mod newer;
#[cfg(test)]
#[path = "tests.rs"]
mod tests;
#[path = "vectors.rs"]
mod vectors;

pub(crate) use vectors::*;
