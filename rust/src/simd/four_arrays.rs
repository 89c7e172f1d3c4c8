//! Four words in an array, for any target. The tests compare all other targets with it.

pub(super) type Words = [u32; 4];

#[inline(always)]
fn of(word: impl Fn(usize) -> u32) -> Words {
    [word(0), word(1), word(2), word(3)]
}

/// All bits of the words that pass a test of two.
#[inline(always)]
fn mask(a: Words, b: Words, test: impl Fn(&u32, &u32) -> bool) -> Words {
    of(|n| if test(&a[n], &b[n]) { u32::MAX } else { 0 })
}

#[inline(always)]
fn bytes_of(a: Words) -> [u8; 16] {
    let mut bytes = [0; 16];
    store_bytes(a, &mut bytes);
    bytes
}

/// All bits of the bytes that pass a test of two.
#[inline(always)]
fn byte_mask(a: Words, b: Words, test: impl Fn(&u8, &u8) -> bool) -> Words {
    of(|n| {
        let (x, y) = (a[n].to_le_bytes(), b[n].to_le_bytes());
        u32::from_le_bytes([0, 1, 2, 3].map(|at: usize| if test(&x[at], &y[at]) { 255 } else { 0 }))
    })
}

operations! {
    fn load(words: &[u32; 4]) -> Words { *words }
    fn store(a: Words, words: &mut [u32; 4]) { *words = a; }
    /// The words of little-endian bytes.
    fn load_bytes(bytes: &[u8; 16]) -> Words {
        of(|n| u32::from_le_bytes([bytes[4 * n], bytes[4 * n + 1], bytes[4 * n + 2], bytes[4 * n + 3]]))
    }
    /// Writes the words as little-endian bytes.
    fn store_bytes(a: Words, bytes: &mut [u8; 16]) {
        for n in 0..4 {
            bytes[4 * n..4 * n + 4].copy_from_slice(&a[n].to_le_bytes());
        }
    }
    fn splat(word: u32) -> Words { [word; 4] }
    fn splat_byte(byte: u8) -> Words { splat(u32::from_le_bytes([byte; 4])) }
    /// Each word shifted left by a count below 32.
    fn shl(a: Words, count: u32) -> Words { of(|n| a[n] << count) }
    /// Each word shifted right by a count below 32.
    fn shr(a: Words, count: u32) -> Words { of(|n| a[n] >> count) }
    /// Each byte shifted right by a count below 8.
    fn shr_bytes(a: Words, count: u32) -> Words { and(shr(a, count), splat_byte(255 >> count)) }
    fn or(a: Words, b: Words) -> Words { of(|n| a[n] | b[n]) }
    fn and(a: Words, b: Words) -> Words { of(|n| a[n] & b[n]) }
    /// The sums modulo 2^32.
    fn add(a: Words, b: Words) -> Words { of(|n| a[n].wrapping_add(b[n])) }
    /// The differences modulo 2^32.
    fn sub(a: Words, b: Words) -> Words { of(|n| a[n].wrapping_sub(b[n])) }
    /// All bits of the words that are greater or equal.
    fn ge(a: Words, b: Words) -> Words { mask(a, b, u32::ge) }
    /// A bit for each word of a comparison, the lowest for the first word.
    fn bits(a: Words) -> u32 { a[0] & 1 | a[1] & 2 | a[2] & 4 | a[3] & 8 }
    /// Each byte as a word: the first four, and the others.
    fn widen(bytes: [u8; 8]) -> (Words, Words) { (of(|n| bytes[n].into()), of(|n| bytes[4 + n].into())) }

    // Shuffles have the name of their lanes: `a` has 0 to 3, and `b` 4 to 7.

    fn shuffle_3_4_5_6(a: Words, b: Words) -> Words { [a[3], b[0], b[1], b[2]] }
    fn shuffle_0_4_5_6(a: Words, b: Words) -> Words { [a[0], b[0], b[1], b[2]] }
    fn shuffle_0_1_4_5(a: Words, b: Words) -> Words { [a[0], a[1], b[0], b[1]] }
    fn swizzle_3_3_3_3(a: Words) -> Words { [a[3]; 4] }
    /// All bits of the bytes that are equal.
    fn equal_bytes(a: Words, b: Words) -> Words { byte_mask(a, b, u8::eq) }
    /// All bits of the bytes that are less.
    fn less_bytes(a: Words, b: Words) -> Words { byte_mask(a, b, u8::lt) }
    /// All bits of the bytes that are less or equal.
    fn at_most_bytes(a: Words, b: Words) -> Words { byte_mask(a, b, u8::le) }
    /// The highest bit of each byte, the lowest for the first byte.
    fn high_bits(a: Words) -> u32 {
        let bytes = bytes_of(a);
        (0..16).map(|n| u32::from(bytes[n] >> 7) << n).sum()
    }
    /// Bytes of `a` at all bits of the mask, and of `b` at none.
    fn select(mask: Words, a: Words, b: Words) -> Words { of(|n| mask[n] & a[n] | !mask[n] & b[n]) }
    /// The bytes at these indices, each below 8.
    fn bytes_at(bytes: [u8; 8], indices: [u8; 8]) -> [u8; 8] { indices.map(|index| bytes[usize::from(index & 7)]) }
    /// The bytes at these indices, each below 16.
    fn bytes_at_16(a: Words, indices: Words) -> Words {
        let bytes = bytes_of(a);
        load_bytes(&bytes_of(indices).map(|index| bytes[usize::from(index & 15)]))
    }
}
