//! Vectors of four and eight words, with the names of `std::simd`, by `core::arch`: SSE2, AVX2, NEON or SIMD128, as the target has.
//! Any other target has arrays. A shift has one count for all lanes, below their bits. A shuffle has the name of its lanes: one that is not
//! here does not compile.
#![allow(non_camel_case_types)]

/// The operations of a machine. Each is always inlined, since it is one instruction or few.
macro_rules! operations {
    ($($(#[$attribute:meta])* fn $name:ident($($given:ident: $of:ty),*) $(-> $result:ty)? $body:block)*) => {
        $($(#[$attribute])*
        #[inline(always)]
        pub(super) fn $name($($given: $of),*) $(-> $result)? $body)*
    };
}

#[cfg(all(any(target_arch = "x86", target_arch = "x86_64"), target_feature = "sse2"))]
#[path = "simd/four_sse2.rs"]
mod four;

#[cfg(all(any(target_arch = "x86", target_arch = "x86_64"), target_feature = "sse2", not(target_feature = "sse4.1")))]
#[path = "simd/by_sse2.rs"]
mod newer;

#[cfg(all(any(target_arch = "x86", target_arch = "x86_64"), target_feature = "sse4.1"))]
#[path = "simd/by_sse41.rs"]
mod newer;

#[cfg(all(target_arch = "aarch64", target_feature = "neon", target_endian = "little"))]
#[path = "simd/four_neon.rs"]
mod four;

#[cfg(all(target_arch = "wasm32", target_feature = "simd128"))]
#[path = "simd/four_wasm.rs"]
mod four;

#[cfg(not(any(
    all(any(target_arch = "x86", target_arch = "x86_64"), target_feature = "sse2"),
    all(target_arch = "aarch64", target_feature = "neon", target_endian = "little"),
    all(target_arch = "wasm32", target_feature = "simd128"),
)))]
#[path = "simd/four_arrays.rs"]
mod four;

#[cfg(all(any(target_arch = "x86", target_arch = "x86_64"), target_feature = "avx2"))]
#[path = "simd/eight_avx2.rs"]
mod eight;

#[cfg(not(all(any(target_arch = "x86", target_arch = "x86_64"), target_feature = "avx2")))]
#[path = "simd/eight_fours.rs"]
mod eight;

#[cfg(level_v3)]
pub(crate) mod v3;
mod vectors;

pub(crate) use vectors::*;

#[cfg(test)]
mod tests;
