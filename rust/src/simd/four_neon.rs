//! Four words in a register of NEON. `four_arrays` says what each function returns.
// SAFETY, for all blocks: `simd.rs` takes this file only if the target has the instructions. A load or store reads or writes one array, of
// its own size and at any alignment.

use core::arch::aarch64::*;

pub(super) type Words = uint32x4_t;

operations! {
    fn load(words: &[u32; 4]) -> Words { unsafe { vld1q_u32(words.as_ptr()) } }
    fn store(a: Words, words: &mut [u32; 4]) { unsafe { vst1q_u32(words.as_mut_ptr(), a) } }
    fn load_bytes(bytes: &[u8; 16]) -> Words { unsafe { vreinterpretq_u32_u8(vld1q_u8(bytes.as_ptr())) } }
    fn store_bytes(a: Words, bytes: &mut [u8; 16]) { unsafe { vst1q_u8(bytes.as_mut_ptr(), vreinterpretq_u8_u32(a)) } }
    fn splat(word: u32) -> Words { unsafe { vdupq_n_u32(word) } }
    fn splat_byte(byte: u8) -> Words { unsafe { vreinterpretq_u32_u8(vdupq_n_u8(byte)) } }
    fn shl(a: Words, count: u32) -> Words { unsafe { vshlq_u32(a, vdupq_n_s32(count as i32)) } }
    fn shr(a: Words, count: u32) -> Words { unsafe { vshlq_u32(a, vdupq_n_s32(-(count as i32))) } }
    fn shr_bytes(a: Words, count: u32) -> Words {
        unsafe { vreinterpretq_u32_u8(vshlq_u8(vreinterpretq_u8_u32(a), vdupq_n_s8(-(count as i8)))) }
    }
    fn or(a: Words, b: Words) -> Words { unsafe { vorrq_u32(a, b) } }
    fn and(a: Words, b: Words) -> Words { unsafe { vandq_u32(a, b) } }
    fn add(a: Words, b: Words) -> Words { unsafe { vaddq_u32(a, b) } }
    fn sub(a: Words, b: Words) -> Words { unsafe { vsubq_u32(a, b) } }
    fn ge(a: Words, b: Words) -> Words { unsafe { vcgeq_u32(a, b) } }
    fn bits(a: Words) -> u32 { unsafe { vaddvq_u32(vandq_u32(a, vld1q_u32([1, 2, 4, 8].as_ptr()))) } }
    fn widen(bytes: [u8; 8]) -> (Words, Words) {
        unsafe {
            let halves = vmovl_u8(vld1_u8(bytes.as_ptr()));
            (vmovl_u16(vget_low_u16(halves)), vmovl_high_u16(halves))
        }
    }
    fn shuffle_3_4_5_6(a: Words, b: Words) -> Words { unsafe { vextq_u32::<3>(a, b) } }
    fn shuffle_0_4_5_6(a: Words, b: Words) -> Words { unsafe { vcopyq_laneq_u32::<0, 0>(vextq_u32::<3>(b, b), a) } }
    fn shuffle_0_1_4_5(a: Words, b: Words) -> Words { unsafe { vcombine_u32(vget_low_u32(a), vget_low_u32(b)) } }
    fn swizzle_3_3_3_3(a: Words) -> Words { unsafe { vdupq_laneq_u32::<3>(a) } }
    fn equal_bytes(a: Words, b: Words) -> Words {
        unsafe { vreinterpretq_u32_u8(vceqq_u8(vreinterpretq_u8_u32(a), vreinterpretq_u8_u32(b))) }
    }
    fn at_most_bytes(a: Words, b: Words) -> Words {
        unsafe { vreinterpretq_u32_u8(vcleq_u8(vreinterpretq_u8_u32(a), vreinterpretq_u8_u32(b))) }
    }
    fn high_bits(a: Words) -> u32 {
        const BITS: [u8; 16] = [1, 2, 4, 8, 16, 32, 64, 128, 1, 2, 4, 8, 16, 32, 64, 128];
        unsafe {
            let bits = vandq_u8(vcltzq_s8(vreinterpretq_s8_u32(a)), vld1q_u8(BITS.as_ptr()));
            u32::from(vaddv_u8(vget_low_u8(bits))) | u32::from(vaddv_u8(vget_high_u8(bits))) << 8
        }
    }
    fn bytes_at(bytes: [u8; 8], indices: [u8; 8]) -> [u8; 8] {
        let mut taken = [0; 8];
        unsafe { vst1_u8(taken.as_mut_ptr(), vtbl1_u8(vld1_u8(bytes.as_ptr()), vld1_u8(indices.as_ptr()))) }
        taken
    }
    fn less_bytes(a: Words, b: Words) -> Words {
        unsafe { vreinterpretq_u32_u8(vcltq_u8(vreinterpretq_u8_u32(a), vreinterpretq_u8_u32(b))) }
    }
    fn select(mask: Words, a: Words, b: Words) -> Words { unsafe { vbslq_u32(mask, a, b) } }
    fn bytes_at_16(a: Words, indices: Words) -> Words {
        unsafe { vreinterpretq_u32_u8(vqtbl1q_u8(vreinterpretq_u8_u32(a), vreinterpretq_u8_u32(indices))) }
    }
}
