//! The vectors, by the operations of `four` and `eight`.

use core::ops::{Add, BitAnd, BitOr, Shl, Shr, Sub};

use super::{eight, four};

/// Eight bytes.
#[derive(Clone, Copy)]
pub(crate) struct u8x8([u8; 8]);

impl u8x8 {
    #[inline(always)]
    pub(crate) fn from_array(bytes: [u8; 8]) -> Self {
        u8x8(bytes)
    }

    #[inline(always)]
    pub(crate) fn from_slice(bytes: &[u8]) -> Self {
        u8x8(*bytes.first_chunk().unwrap())
    }

    #[inline(always)]
    pub(crate) fn copy_to_slice(self, bytes: &mut [u8]) {
        *bytes.first_chunk_mut().unwrap() = self.0;
    }

    /// The bytes at these indices, each below 8.
    #[inline(always)]
    pub(crate) fn swizzle_dyn(self, indices: Self) -> Self {
        u8x8(four::bytes_at(self.0, indices.0))
    }
}

/// The bytes of a vector of one word.
#[derive(Clone, Copy)]
pub(crate) struct u8x4([u8; 4]);

impl u8x4 {
    #[inline(always)]
    pub(crate) fn from_slice(bytes: &[u8]) -> Self {
        u8x4(*bytes.first_chunk().unwrap())
    }

    #[inline(always)]
    pub(crate) fn copy_to_slice(self, bytes: &mut [u8]) {
        *bytes.first_chunk_mut().unwrap() = self.0;
    }
}

/// One word.
#[derive(Clone, Copy)]
pub(crate) struct u32x1([u32; 1]);

impl u32x1 {
    #[inline(always)]
    pub(crate) fn from_array(words: [u32; 1]) -> Self {
        u32x1(words)
    }

    #[inline(always)]
    pub(crate) fn to_array(self) -> [u32; 1] {
        self.0
    }

    #[inline(always)]
    pub(crate) fn from_le_bytes(bytes: u8x4) -> Self {
        u32x1([u32::from_le_bytes(bytes.0)])
    }

    #[inline(always)]
    pub(crate) fn to_le_bytes(self) -> u8x4 {
        u8x4(self.0[0].to_le_bytes())
    }
}

/// Operators of a vector by functions of a module: with another vector, and shifts.
macro_rules! operators {
    ($name:ident, $of:ident: $($trait:ident $call:ident $function:ident),*; $($shift:ident $by:ident $shifted:ident),*) => {
        $(impl $trait for $name {
            type Output = Self;

            #[inline(always)]
            fn $call(self, other: Self) -> Self {
                $name($of::$function(self.0, other.0))
            }
        })*

        $(impl $shift<u32> for $name {
            type Output = Self;

            #[inline(always)]
            fn $by(self, count: u32) -> Self {
                $name($of::$shifted(self.0, count))
            }
        })*
    };
}

/// Shuffles of a vector, by functions of a module, named by the lanes that they take: `self` has the first lanes, and `other` the next.
macro_rules! shuffles {
    ($name:ident, $of:ident: $($shuffle:ident)*; $($swizzle:ident)*) => {
        impl $name {
            $(#[inline(always)]
            pub(crate) fn $shuffle(self, other: Self) -> Self {
                $name($of::$shuffle(self.0, other.0))
            })*

            $(#[inline(always)]
            pub(crate) fn $swizzle(self) -> Self {
                $name($of::$swizzle(self.0))
            })*
        }
    };
}

/// A vector of words and the one of its little-endian bytes, by functions of a module.
macro_rules! vector {
    ($name:ident, $bytes:ident, $mask:ident, $lanes:literal, $size:literal, $of:ident) => {
        #[derive(Clone, Copy)]
        pub(crate) struct $bytes($of::Words);

        /// All bits of the bytes that passed a test.
        #[derive(Clone, Copy)]
        pub(crate) struct $mask($of::Words);

        impl $mask {
            #[inline(always)]
            pub(crate) fn to_bitmask(self) -> u64 {
                $of::high_bits(self.0).into()
            }

            #[inline(always)]
            pub(crate) fn select(self, passed: $bytes, failed: $bytes) -> $bytes {
                $bytes($of::select(self.0, passed.0, failed.0))
            }
        }

        impl $bytes {
            #[inline(always)]
            pub(crate) fn from_slice(bytes: &[u8]) -> Self {
                $bytes($of::load_bytes(bytes.first_chunk().unwrap()))
            }

            #[inline(always)]
            pub(crate) fn copy_to_slice(self, bytes: &mut [u8]) {
                $of::store_bytes(self.0, bytes.first_chunk_mut().unwrap())
            }

            #[inline(always)]
            pub(crate) fn from_array(bytes: [u8; $size]) -> Self {
                $bytes($of::load_bytes(&bytes))
            }

            #[inline(always)]
            pub(crate) fn to_array(self) -> [u8; $size] {
                let mut bytes = [0; $size];
                $of::store_bytes(self.0, &mut bytes);
                bytes
            }

            #[inline(always)]
            pub(crate) fn splat(byte: u8) -> Self {
                $bytes($of::splat_byte(byte))
            }

            #[inline(always)]
            pub(crate) fn simd_eq(self, other: Self) -> $mask {
                $mask($of::equal_bytes(self.0, other.0))
            }

            #[inline(always)]
            pub(crate) fn simd_le(self, other: Self) -> $mask {
                $mask($of::at_most_bytes(self.0, other.0))
            }
        }

        #[derive(Clone, Copy)]
        pub(crate) struct $name($of::Words);

        impl $name {
            #[inline(always)]
            pub(crate) fn splat(word: u32) -> Self {
                $name($of::splat(word))
            }

            #[inline(always)]
            pub(crate) fn from_slice(words: &[u32]) -> Self {
                $name($of::load(words.first_chunk().unwrap()))
            }

            #[inline(always)]
            pub(crate) fn copy_to_slice(self, words: &mut [u32]) {
                $of::store(self.0, words.first_chunk_mut().unwrap())
            }

            #[inline(always)]
            pub(super) fn to_array(self) -> [u32; $lanes] {
                let mut words = [0; $lanes];
                $of::store(self.0, &mut words);
                words
            }

            #[inline(always)]
            pub(crate) fn from_le_bytes(bytes: $bytes) -> Self {
                $name(bytes.0)
            }

            #[inline(always)]
            pub(crate) fn to_le_bytes(self) -> $bytes {
                $bytes(self.0)
            }

            #[inline(always)]
            pub(crate) fn reduce_or(self) -> u32 {
                let words = self.to_array();
                let mut all = 0;
                for lane in 0..$lanes {
                    all |= words[lane];
                }
                all
            }
        }

        operators!($mask, $of: BitOr bitor or;);
        operators!($bytes, $of: BitOr bitor or, BitAnd bitand and; Shr shr shr_bytes);
        operators!($name, $of: BitOr bitor or, BitAnd bitand and, Add add add, Sub sub sub; Shl shl shl, Shr shr shr);
    };
}

vector!(u32x4, u8x16, mask8x16, 4, 16, four);
vector!(u32x8, u8x32, mask8x32, 8, 32, eight);

impl u8x16 {
    #[inline(always)]
    pub(crate) fn simd_lt(self, other: Self) -> mask8x16 {
        mask8x16(four::less_bytes(self.0, other.0))
    }

    /// The bytes at these indices, each below 16.
    #[inline(always)]
    pub(crate) fn swizzle_dyn(self, indices: Self) -> Self {
        u8x16(four::bytes_at_16(self.0, indices.0))
    }
}

impl u8x32 {
    /// The 16 bytes from `START` on, which is 0 or 16.
    #[inline(always)]
    pub(crate) fn extract<const START: usize, const LEN: usize>(self) -> u8x16 {
        let (low, high) = eight::halves_of(self.0);
        u8x16(if START == 0 { low } else { high })
    }
}

impl u32x8 {
    #[inline(always)]
    pub(crate) fn simd_ge(self, other: Self) -> Self {
        u32x8(eight::ge(self.0, other.0))
    }

    #[inline(always)]
    pub(crate) fn simd_le(self, other: Self) -> Self {
        other.simd_ge(self)
    }

    /// A bit for each lane of a comparison.
    #[inline(always)]
    pub(crate) fn to_bitmask(self) -> u64 {
        eight::bits(self.0) as u64
    }
}

impl u8x8 {
    #[inline(always)]
    pub(crate) fn cast(self) -> u32x8 {
        u32x8(eight::widen(self.0))
    }
}

shuffles!(u32x4, four: shuffle_3_4_5_6 shuffle_0_4_5_6 shuffle_0_1_4_5; swizzle_3_3_3_3);
shuffles!(
    u32x8, eight:
    shuffle_7_8_9_10_11_12_13_14 shuffle_0_8_9_10_4_12_13_14 shuffle_0_1_8_9_4_5_12_13 shuffle_0_1_2_3_11_11_11_11;
    swizzle_7_7_7_7_7_7_7_7
);
