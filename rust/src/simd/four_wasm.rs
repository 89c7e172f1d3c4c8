//! Four words in a register of WebAssembly. `four_arrays` says what each function returns.
// SAFETY, for all blocks: a load or store reads or writes one array, of its own size and at any alignment.

use core::arch::wasm32::*;

pub(super) type Words = v128;

operations! {
    fn load(words: &[u32; 4]) -> Words { unsafe { v128_load(words.as_ptr().cast()) } }
    fn store(a: Words, words: &mut [u32; 4]) { unsafe { v128_store(words.as_mut_ptr().cast(), a) } }
    fn load_bytes(bytes: &[u8; 16]) -> Words { unsafe { v128_load(bytes.as_ptr().cast()) } }
    fn store_bytes(a: Words, bytes: &mut [u8; 16]) { unsafe { v128_store(bytes.as_mut_ptr().cast(), a) } }
    fn splat(word: u32) -> Words { u32x4_splat(word) }
    fn splat_byte(byte: u8) -> Words { u8x16_splat(byte) }
    fn shl(a: Words, count: u32) -> Words { u32x4_shl(a, count) }
    fn shr(a: Words, count: u32) -> Words { u32x4_shr(a, count) }
    fn shr_bytes(a: Words, count: u32) -> Words { u8x16_shr(a, count) }
    fn or(a: Words, b: Words) -> Words { v128_or(a, b) }
    fn and(a: Words, b: Words) -> Words { v128_and(a, b) }
    fn add(a: Words, b: Words) -> Words { u32x4_add(a, b) }
    fn sub(a: Words, b: Words) -> Words { u32x4_sub(a, b) }
    fn ge(a: Words, b: Words) -> Words { u32x4_ge(a, b) }
    fn bits(a: Words) -> u32 { u32x4_bitmask(a) as u32 }
    fn widen(bytes: [u8; 8]) -> (Words, Words) {
        let halves = unsafe { v128_load64_zero(bytes.as_ptr().cast()) };
        let halves = u16x8_extend_low_u8x16(halves);
        (u32x4_extend_low_u16x8(halves), u32x4_extend_high_u16x8(halves))
    }
    fn shuffle_3_4_5_6(a: Words, b: Words) -> Words { u32x4_shuffle::<3, 4, 5, 6>(a, b) }
    fn shuffle_0_4_5_6(a: Words, b: Words) -> Words { u32x4_shuffle::<0, 4, 5, 6>(a, b) }
    fn shuffle_0_1_4_5(a: Words, b: Words) -> Words { u32x4_shuffle::<0, 1, 4, 5>(a, b) }
    fn swizzle_3_3_3_3(a: Words) -> Words { u32x4_shuffle::<3, 3, 3, 3>(a, a) }
    fn equal_bytes(a: Words, b: Words) -> Words { u8x16_eq(a, b) }
    fn at_most_bytes(a: Words, b: Words) -> Words { u8x16_le(a, b) }
    fn high_bits(a: Words) -> u32 { u8x16_bitmask(a) as u32 }
    fn bytes_at(bytes: [u8; 8], indices: [u8; 8]) -> [u8; 8] {
        let all = i8x16_swizzle(i64x2(i64::from_le_bytes(bytes), 0), i64x2(i64::from_le_bytes(indices), 0));
        i64x2_extract_lane::<0>(all).to_le_bytes()
    }
    fn less_bytes(a: Words, b: Words) -> Words { u8x16_lt(a, b) }
    fn select(mask: Words, a: Words, b: Words) -> Words { v128_bitselect(a, b, mask) }
    fn bytes_at_16(a: Words, indices: Words) -> Words { i8x16_swizzle(a, indices) }
}
