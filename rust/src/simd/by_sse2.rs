//! What SSE2 does in several instructions, for registers of four words.
// SAFETY, for all blocks: `simd.rs` takes this file only if the target has the instructions. A load or store reads or writes one array, of
// its own size and at any alignment.

#[cfg(target_arch = "x86")]
use core::arch::x86::*;
#[cfg(target_arch = "x86_64")]
use core::arch::x86_64::*;

use super::four::{Words, load_bytes, store_bytes};

operations! {
    /// SSE2 compares words with a sign alone.
    fn ge(a: Words, b: Words) -> Words {
        unsafe {
            let sign = _mm_set1_epi32(i32::MIN);
            let less = _mm_cmplt_epi32(_mm_xor_si128(a, sign), _mm_xor_si128(b, sign));
            _mm_xor_si128(less, _mm_set1_epi32(-1))
        }
    }
    fn shuffle_3_4_5_6(a: Words, b: Words) -> Words {
        // The compiler joins two shuffles to one, so that a loop of few of them is unrolled.
        unsafe {
            let (a, b) = (_mm_castsi128_ps(a), _mm_castsi128_ps(b));
            _mm_castps_si128(_mm_shuffle_ps::<0x98>(_mm_shuffle_ps::<0x03>(a, b), b))
        }
    }
    fn select(mask: Words, a: Words, b: Words) -> Words { unsafe { _mm_or_si128(_mm_and_si128(mask, a), _mm_andnot_si128(mask, b)) } }
    fn bytes_at(bytes: [u8; 8], indices: [u8; 8]) -> [u8; 8] { indices.map(|index| bytes[usize::from(index & 7)]) }
    fn bytes_at_16(a: Words, indices: Words) -> Words {
        let (mut bytes, mut at) = ([0; 16], [0; 16]);
        store_bytes(a, &mut bytes);
        store_bytes(indices, &mut at);
        load_bytes(&at.map(|index| bytes[usize::from(index & 15)]))
    }
}
