//! Eight words in a register of AVX2. `four_arrays` says for four what each function returns.
// SAFETY, for all blocks: `simd.rs` takes this file only if the target has the instructions. A load or store reads or writes one array, of
// its own size and at any alignment.

#[cfg(target_arch = "x86")]
use core::arch::x86::*;
#[cfg(target_arch = "x86_64")]
use core::arch::x86_64::*;

pub(super) type Words = __m256i;

operations! {
    fn load(words: &[u32; 8]) -> Words { unsafe { _mm256_loadu_si256(words.as_ptr().cast()) } }
    fn store(a: Words, words: &mut [u32; 8]) { unsafe { _mm256_storeu_si256(words.as_mut_ptr().cast(), a) } }
    fn load_bytes(bytes: &[u8; 32]) -> Words { unsafe { _mm256_loadu_si256(bytes.as_ptr().cast()) } }
    fn store_bytes(a: Words, bytes: &mut [u8; 32]) { unsafe { _mm256_storeu_si256(bytes.as_mut_ptr().cast(), a) } }
    fn splat(word: u32) -> Words { unsafe { _mm256_set1_epi32(word as i32) } }
    fn splat_byte(byte: u8) -> Words { unsafe { _mm256_set1_epi8(byte as i8) } }
    fn shl(a: Words, count: u32) -> Words { unsafe { _mm256_sll_epi32(a, _mm_cvtsi32_si128(count as i32)) } }
    fn shr(a: Words, count: u32) -> Words { unsafe { _mm256_srl_epi32(a, _mm_cvtsi32_si128(count as i32)) } }
    fn shr_bytes(a: Words, count: u32) -> Words { and(shr(a, count), splat_byte(255 >> count)) }
    fn or(a: Words, b: Words) -> Words { unsafe { _mm256_or_si256(a, b) } }
    fn and(a: Words, b: Words) -> Words { unsafe { _mm256_and_si256(a, b) } }
    fn add(a: Words, b: Words) -> Words { unsafe { _mm256_add_epi32(a, b) } }
    fn sub(a: Words, b: Words) -> Words { unsafe { _mm256_sub_epi32(a, b) } }
    fn ge(a: Words, b: Words) -> Words { unsafe { _mm256_cmpeq_epi32(_mm256_max_epu32(a, b), a) } }
    fn bits(a: Words) -> u32 { unsafe { _mm256_movemask_ps(_mm256_castsi256_ps(a)) as u32 } }
    fn widen(bytes: [u8; 8]) -> Words { unsafe { _mm256_cvtepu8_epi32(_mm_loadl_epi64(bytes.as_ptr().cast())) } }
    fn shuffle_7_8_9_10_11_12_13_14(a: Words, b: Words) -> Words {
        unsafe { _mm256_alignr_epi8::<12>(b, _mm256_permute2x128_si256::<0x21>(a, b)) }
    }
    fn shuffle_0_8_9_10_4_12_13_14(a: Words, b: Words) -> Words {
        unsafe { _mm256_blend_epi32::<0b0001_0001>(_mm256_slli_si256::<4>(b), a) }
    }
    fn shuffle_0_1_8_9_4_5_12_13(a: Words, b: Words) -> Words { unsafe { _mm256_unpacklo_epi64(a, b) } }
    fn shuffle_0_1_2_3_11_11_11_11(a: Words, b: Words) -> Words {
        unsafe { _mm256_blend_epi32::<0xf0>(a, _mm256_permutevar8x32_epi32(b, _mm256_set1_epi32(3))) }
    }
    fn swizzle_7_7_7_7_7_7_7_7(a: Words) -> Words { unsafe { _mm256_permutevar8x32_epi32(a, _mm256_set1_epi32(7)) } }
    fn equal_bytes(a: Words, b: Words) -> Words { unsafe { _mm256_cmpeq_epi8(a, b) } }
    fn at_most_bytes(a: Words, b: Words) -> Words { unsafe { _mm256_cmpeq_epi8(_mm256_min_epu8(a, b), a) } }
    fn high_bits(a: Words) -> u32 { unsafe { _mm256_movemask_epi8(a) as u32 } }
    fn select(mask: Words, a: Words, b: Words) -> Words { unsafe { _mm256_blendv_epi8(b, a, mask) } }
    /// The first four words, and the others.
    fn halves_of(a: Words) -> (__m128i, __m128i) { unsafe { (_mm256_castsi256_si128(a), _mm256_extracti128_si256::<1>(a)) } }
}
