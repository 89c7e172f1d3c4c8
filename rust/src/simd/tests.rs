//! Compares each operation of the machine's vectors with the one of arrays, on random and extreme words. `worked` has results by hand.

// A machine may have the vectors of arrays itself.
#![allow(clippy::duplicate_mod)]

#[path = "tests/worked.rs"]
mod worked;

// The vectors of arrays: `eight` is twice this `four`.
#[path = "eight_fours.rs"]
mod eight;
#[path = "four_arrays.rs"]
mod four;

use alloc::vec::Vec;

/// How many random vectors each operation gets.
const ROUNDS: u64 = 512;
const EXTREMES: [u32; 4] = [0, 1, 1 << 31, u32::MAX];

/// Random words, the same ones for the same seed (xorshift64*).
struct Random(u64);

impl Random {
    fn next(&mut self) -> u32 {
        self.0 ^= self.0 >> 12;
        self.0 ^= self.0 << 25;
        self.0 ^= self.0 >> 27;
        (self.0.wrapping_mul(0x2545_f491_4f6c_dd1d) >> 32) as u32
    }

    /// A number below a bound.
    fn below(&mut self, bound: u32) -> u32 {
        ((u64::from(self.next()) * u64::from(bound)) >> 32) as u32
    }

    /// A word: one of three is extreme.
    fn word(&mut self) -> u32 {
        if self.below(3) == 0 { EXTREMES[self.below(4) as usize] } else { self.next() }
    }

    /// A word for a comparison with another: one of four is the same, and one of four is greater by one in a byte.
    fn near(&mut self, word: u32) -> u32 {
        match self.below(4) {
            0 => word,
            1 => word.wrapping_add(1 << (8 * self.below(4))),
            _ => self.word(),
        }
    }

    fn bytes<const N: usize>(&mut self, byte: impl Fn(u32) -> u32) -> [u8; N] {
        core::array::from_fn(|_| byte(self.word() >> 24) as u8)
    }
}

/// What the operations get: words, a mask of bytes, indices below 16, eight bytes and the count of a shift, in turn.
#[derive(Debug)]
struct Given<const N: usize, const SIZE: usize> {
    a: [u32; N],
    b: [u32; N],
    mask: [u8; SIZE],
    indices: [u8; SIZE],
    bytes: [u8; 8],
    count: u32,
}

impl<const N: usize, const SIZE: usize> Given<N, SIZE> {
    fn new(round: u64) -> Self {
        let mut random = Random(round + 1);
        let a = core::array::from_fn(|_| random.word());
        Given {
            a,
            b: a.map(|word| random.near(word)),
            mask: random.bytes(|byte| if byte < 128 { 0 } else { 255 }),
            indices: random.bytes(|byte| byte % 16),
            bytes: random.bytes(|byte| byte),
            count: (round % 32) as u32,
        }
    }
}

/// The name of an operation, and the bytes that it returned.
type Returned = (&'static str, Vec<u8>);

/// A function that calls each operation that a module for four words and one for eight have.
macro_rules! calls {
    ($name:ident, $($of:ident)::+, $lanes:literal, $size:literal, $($shuffle:ident)*; $($swizzle:ident)*) => {
        fn $name(given: &Given<$lanes, $size>) -> Vec<Returned> {
            use $($of)::+::*;
            let bytes_of = |a: Words| -> Vec<u8> {
                let mut bytes = [0; $size];
                store_bytes(a, &mut bytes);
                bytes.into()
            };
            let words_of = |a: Words| -> Vec<u8> {
                let mut words = [0; $lanes];
                store(a, &mut words);
                words.iter().flat_map(|it: &u32| it.to_le_bytes()).collect()
            };
            let (a, b) = (load(&given.a), load(&given.b));
            let binary: &[(&str, fn(Words, Words) -> Words)] = &[
                $((stringify!($shuffle), $shuffle),)*
                ("or", or), ("and", and), ("add", add), ("sub", sub), ("ge", ge),
                ("equal_bytes", equal_bytes), ("at_most_bytes", at_most_bytes),
            ];
            let mut returned: Vec<Returned> = binary.iter().map(|(name, call)| (*name, words_of(call(a, b)))).collect();
            returned.extend([
                ("load", words_of(a)),
                ("store_bytes", bytes_of(a)),
                ("load_bytes", words_of(load_bytes(&given.mask))),
                ("splat", words_of(splat(given.a[0]))),
                ("splat_byte", words_of(splat_byte(given.bytes[0]))),
                ("shl", words_of(shl(a, given.count))),
                ("shr", words_of(shr(a, given.count))),
                ("shr_bytes", words_of(shr_bytes(a, given.count % 8))),
                $((stringify!($swizzle), words_of($swizzle(a))),)*
                ("select", words_of(select(load_bytes(&given.mask), a, b))),
                ("bits", bits(ge(a, b)).to_le_bytes().into()),
                ("high_bits", high_bits(a).to_le_bytes().into()),
            ]);
            returned
        }
    };
}

/// The test of a module: its operations return the same on the machine's vectors as on arrays.
macro_rules! test_of {
    ($test:ident, $of:ident, $lanes:literal, $size:literal, $($names:tt)*) => {
        #[test]
        fn $test() {
            calls!(by_machine, super::$of, $lanes, $size, $($names)*);
            calls!(by_arrays, $of, $lanes, $size, $($names)*);
            for given in (0..ROUNDS).map(Given::new) {
                for (found, right) in by_machine(&given).iter().zip(&by_arrays(&given)) {
                    assert_eq!(found, right, "of {given:x?}");
                }
            }
        }
    };
}

test_of!(four_words_are_as_arrays, four, 4, 16, shuffle_3_4_5_6 shuffle_0_4_5_6 shuffle_0_1_4_5; swizzle_3_3_3_3);
test_of!(
    eight_words_are_as_arrays, eight, 8, 32,
    shuffle_7_8_9_10_11_12_13_14 shuffle_0_8_9_10_4_12_13_14 shuffle_0_1_8_9_4_5_12_13 shuffle_0_1_2_3_11_11_11_11;
    swizzle_7_7_7_7_7_7_7_7
);

fn array_of(a: super::four::Words) -> [u32; 4] {
    let mut words = [0; 4];
    super::four::store(a, &mut words);
    words
}

/// What only one of the two modules has.
#[test]
fn bytes_taken_compared_and_widened_are_as_arrays() {
    for given in (0..ROUNDS).map(Given::<4, 16>::new) {
        let (bytes, indices) = (given.bytes, core::array::from_fn(|n| given.indices[n] % 8));
        assert_eq!(super::four::bytes_at(bytes, indices), four::bytes_at(bytes, indices), "{bytes:?} at {indices:?}");
        let found = super::four::bytes_at_16(super::four::load(&given.a), super::four::load_bytes(&given.indices));
        let right = four::bytes_at_16(given.a, four::load_bytes(&given.indices));
        assert_eq!(array_of(found), right, "{:x?} at {:?}", given.a, given.indices);
        let less = super::four::less_bytes(super::four::load(&given.a), super::four::load(&given.b));
        assert_eq!(array_of(less), four::less_bytes(given.a, given.b), "{given:x?}");
        let (low, high) = super::four::widen(bytes);
        assert_eq!((array_of(low), array_of(high)), four::widen(bytes), "{bytes:?}");
        let mut wide = [0; 8];
        super::eight::store(super::eight::widen(bytes), &mut wide);
        assert_eq!(wide, bytes.map(u32::from));
    }
}

#[test]
fn halves_are_the_first_four_words_and_the_others() {
    for words in (0..ROUNDS).map(|round| Given::<8, 32>::new(round).a) {
        let (low, high) = super::eight::halves_of(super::eight::load(&words));
        assert_eq!((array_of(low).as_slice(), array_of(high).as_slice()), words.split_at(4));
    }
}
