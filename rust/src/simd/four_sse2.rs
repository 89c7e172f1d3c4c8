//! Four words in a register of SSE2, with instructions of SSSE3 and SSE4.1 if the target has them (`newer`). `four_arrays` says what each
//! function returns.
// SAFETY, for all blocks: `simd.rs` takes this file only if the target has the instructions. A load or store reads or writes one array, of
// its own size and at any alignment.

#[cfg(target_arch = "x86")]
use core::arch::x86::*;
#[cfg(target_arch = "x86_64")]
use core::arch::x86_64::*;

// Registers of eight words may have their own.
#[allow(unused_imports)]
pub(super) use super::newer::{bytes_at, bytes_at_16, ge, select, shuffle_3_4_5_6};

pub(super) type Words = __m128i;

operations! {
    fn load(words: &[u32; 4]) -> Words { unsafe { _mm_loadu_si128(words.as_ptr().cast()) } }
    fn store(a: Words, words: &mut [u32; 4]) { unsafe { _mm_storeu_si128(words.as_mut_ptr().cast(), a) } }
    fn load_bytes(bytes: &[u8; 16]) -> Words { unsafe { _mm_loadu_si128(bytes.as_ptr().cast()) } }
    fn store_bytes(a: Words, bytes: &mut [u8; 16]) { unsafe { _mm_storeu_si128(bytes.as_mut_ptr().cast(), a) } }
    fn splat(word: u32) -> Words { unsafe { _mm_set1_epi32(word as i32) } }
    fn splat_byte(byte: u8) -> Words { unsafe { _mm_set1_epi8(byte as i8) } }
    fn shl(a: Words, count: u32) -> Words { unsafe { _mm_sll_epi32(a, _mm_cvtsi32_si128(count as i32)) } }
    fn shr(a: Words, count: u32) -> Words { unsafe { _mm_srl_epi32(a, _mm_cvtsi32_si128(count as i32)) } }
    fn shr_bytes(a: Words, count: u32) -> Words { and(shr(a, count), splat_byte(255 >> count)) }
    fn or(a: Words, b: Words) -> Words { unsafe { _mm_or_si128(a, b) } }
    fn and(a: Words, b: Words) -> Words { unsafe { _mm_and_si128(a, b) } }
    fn add(a: Words, b: Words) -> Words { unsafe { _mm_add_epi32(a, b) } }
    fn sub(a: Words, b: Words) -> Words { unsafe { _mm_sub_epi32(a, b) } }
    fn bits(a: Words) -> u32 { unsafe { _mm_movemask_ps(_mm_castsi128_ps(a)) as u32 } }
    fn widen(bytes: [u8; 8]) -> (Words, Words) {
        unsafe {
            let zero = _mm_setzero_si128();
            let halves = _mm_unpacklo_epi8(_mm_loadl_epi64(bytes.as_ptr().cast()), zero);
            (_mm_unpacklo_epi16(halves, zero), _mm_unpackhi_epi16(halves, zero))
        }
    }
    /// One shift if `a` is zero.
    fn shuffle_0_4_5_6(a: Words, b: Words) -> Words {
        unsafe { _mm_or_si128(_mm_and_si128(a, _mm_set_epi32(0, 0, 0, -1)), _mm_slli_si128::<4>(b)) }
    }
    fn shuffle_0_1_4_5(a: Words, b: Words) -> Words { unsafe { _mm_unpacklo_epi64(a, b) } }
    fn swizzle_3_3_3_3(a: Words) -> Words { unsafe { _mm_shuffle_epi32::<0xff>(a) } }
    fn equal_bytes(a: Words, b: Words) -> Words { unsafe { _mm_cmpeq_epi8(a, b) } }
    /// SSE2 compares bytes with a sign alone.
    fn less_bytes(a: Words, b: Words) -> Words {
        unsafe {
            let sign = _mm_set1_epi8(i8::MIN);
            _mm_cmplt_epi8(_mm_xor_si128(a, sign), _mm_xor_si128(b, sign))
        }
    }
    fn at_most_bytes(a: Words, b: Words) -> Words { unsafe { _mm_cmpeq_epi8(_mm_min_epu8(a, b), a) } }
    fn high_bits(a: Words) -> u32 { unsafe { _mm_movemask_epi8(a) as u32 } }
}
