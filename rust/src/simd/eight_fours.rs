//! Eight words as two times four. `four_arrays` says for four what each function returns.

use super::four;

pub(super) type Words = (four::Words, four::Words);

#[inline(always)]
fn halves<T, const N: usize>(all: &[T]) -> (&[T; N], &[T; N]) {
    (all.first_chunk().unwrap(), all.last_chunk().unwrap())
}

operations! {
    fn load(words: &[u32; 8]) -> Words {
        let (low, high) = halves(words);
        (four::load(low), four::load(high))
    }
    fn store(a: Words, words: &mut [u32; 8]) {
        let (low, high) = words.split_at_mut(4);
        four::store(a.0, low.first_chunk_mut().unwrap());
        four::store(a.1, high.first_chunk_mut().unwrap());
    }
    fn load_bytes(bytes: &[u8; 32]) -> Words {
        let (low, high) = halves(bytes);
        (four::load_bytes(low), four::load_bytes(high))
    }
    fn store_bytes(a: Words, bytes: &mut [u8; 32]) {
        let (low, high) = bytes.split_at_mut(16);
        four::store_bytes(a.0, low.first_chunk_mut().unwrap());
        four::store_bytes(a.1, high.first_chunk_mut().unwrap());
    }
    fn splat(word: u32) -> Words { (four::splat(word), four::splat(word)) }
    fn splat_byte(byte: u8) -> Words { (four::splat_byte(byte), four::splat_byte(byte)) }
    fn shl(a: Words, count: u32) -> Words { (four::shl(a.0, count), four::shl(a.1, count)) }
    fn shr(a: Words, count: u32) -> Words { (four::shr(a.0, count), four::shr(a.1, count)) }
    fn shr_bytes(a: Words, count: u32) -> Words { (four::shr_bytes(a.0, count), four::shr_bytes(a.1, count)) }
    fn or(a: Words, b: Words) -> Words { (four::or(a.0, b.0), four::or(a.1, b.1)) }
    fn and(a: Words, b: Words) -> Words { (four::and(a.0, b.0), four::and(a.1, b.1)) }
    fn add(a: Words, b: Words) -> Words { (four::add(a.0, b.0), four::add(a.1, b.1)) }
    fn sub(a: Words, b: Words) -> Words { (four::sub(a.0, b.0), four::sub(a.1, b.1)) }
    fn ge(a: Words, b: Words) -> Words { (four::ge(a.0, b.0), four::ge(a.1, b.1)) }
    fn bits(a: Words) -> u32 { four::bits(a.0) | four::bits(a.1) << 4 }
    fn widen(bytes: [u8; 8]) -> Words { four::widen(bytes) }
    fn shuffle_7_8_9_10_11_12_13_14(a: Words, b: Words) -> Words { (four::shuffle_3_4_5_6(a.1, b.0), four::shuffle_3_4_5_6(b.0, b.1)) }
    fn shuffle_0_8_9_10_4_12_13_14(a: Words, b: Words) -> Words { (four::shuffle_0_4_5_6(a.0, b.0), four::shuffle_0_4_5_6(a.1, b.1)) }
    fn shuffle_0_1_8_9_4_5_12_13(a: Words, b: Words) -> Words { (four::shuffle_0_1_4_5(a.0, b.0), four::shuffle_0_1_4_5(a.1, b.1)) }
    fn shuffle_0_1_2_3_11_11_11_11(a: Words, b: Words) -> Words { (a.0, four::swizzle_3_3_3_3(b.0)) }
    fn swizzle_7_7_7_7_7_7_7_7(a: Words) -> Words { (four::swizzle_3_3_3_3(a.1), four::swizzle_3_3_3_3(a.1)) }
    fn equal_bytes(a: Words, b: Words) -> Words { (four::equal_bytes(a.0, b.0), four::equal_bytes(a.1, b.1)) }
    fn at_most_bytes(a: Words, b: Words) -> Words { (four::at_most_bytes(a.0, b.0), four::at_most_bytes(a.1, b.1)) }
    fn high_bits(a: Words) -> u32 { four::high_bits(a.0) | four::high_bits(a.1) << 16 }
    fn select(mask: Words, a: Words, b: Words) -> Words { (four::select(mask.0, a.0, b.0), four::select(mask.1, a.1, b.1)) }
    /// The first four words, and the others.
    fn halves_of(a: Words) -> (four::Words, four::Words) { a }
}
