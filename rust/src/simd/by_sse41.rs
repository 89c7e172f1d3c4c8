//! What SSSE3 and SSE4.1 do in one instruction, for registers of four words.
// SAFETY, for all blocks: `simd.rs` takes this file only if the target has the instructions. A load or store reads or writes one array, of
// its own size and at any alignment.

#[cfg(target_arch = "x86")]
use core::arch::x86::*;
#[cfg(target_arch = "x86_64")]
use core::arch::x86_64::*;

use super::four::Words;

operations! {
    fn ge(a: Words, b: Words) -> Words { unsafe { _mm_cmpeq_epi32(_mm_max_epu32(a, b), a) } }
    fn shuffle_3_4_5_6(a: Words, b: Words) -> Words { unsafe { _mm_alignr_epi8::<12>(b, a) } }
    fn select(mask: Words, a: Words, b: Words) -> Words { unsafe { _mm_blendv_epi8(b, a, mask) } }
    fn bytes_at(bytes: [u8; 8], indices: [u8; 8]) -> [u8; 8] {
        let mut taken = [0; 8];
        unsafe {
            let (all, at) = (_mm_loadl_epi64(bytes.as_ptr().cast()), _mm_loadl_epi64(indices.as_ptr().cast()));
            _mm_storel_epi64(taken.as_mut_ptr().cast(), _mm_shuffle_epi8(all, at));
        }
        taken
    }
    fn bytes_at_16(a: Words, indices: Words) -> Words { unsafe { _mm_shuffle_epi8(a, indices) } }
}
