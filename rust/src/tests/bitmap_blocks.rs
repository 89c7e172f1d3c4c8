//! Blocks of bitmaps. The expected bytes were worked by hand from the layout.

use crate::slices::bitmap::writing::{LONGEST_BLOCKS, write_blocks};
use std::vec::Vec;

/// At least one number is given, and the blocks are these bytes.
fn writes(numbers: impl IntoIterator<Item = usize>, expected: &[u8]) {
    let mut words = [0; 1024];
    for number in numbers {
        words[number / 64] |= 1 << (number % 64);
    }
    let mut out = [7; LONGEST_BLOCKS];
    let end = write_blocks(&words, &mut out);
    assert_eq!(out[..end], *expected);
}

#[test]
fn one_number() {
    writes([3 * 256 + 5], &[0, 3, 0, 5]);
    writes([0], &[0, 0, 0, 0]);
    writes([65535], &[0, 255, 0, 255]);
}

#[test]
fn bytes_and_bits() {
    // 31 numbers are bytes, here of two words.
    let low_bytes: Vec<u8> = (40..71).collect();
    writes(2 * 256 + 40..2 * 256 + 71, &[&[0, 2, 30], &low_bytes[..]].concat());
    // 32 numbers are bits: of 40 to 71 the bytes 5 to 8.
    let bits: Vec<u8> = (0..32).map(|i| if (5..9).contains(&i) { 255 } else { 0 }).collect();
    writes(2 * 256 + 40..2 * 256 + 72, &[&[0, 2, 31], &bits[..]].concat());
    // All but the number 3.
    let bits: Vec<u8> = (0..32).map(|i| if i == 0 { 247 } else { 255 }).collect();
    writes((0..256).filter(|i| *i != 3), &[&[0, 0, 254], &bits[..]].concat());
}

#[test]
fn full_slice() {
    writes(9 * 256..10 * 256, &[0, 9, 255]);
}

#[test]
fn first_and_last_high_byte() {
    writes([7, 255 * 256 + 1, 255 * 256 + 255], &[1, 0, 255, 0, 1, 7, 1, 255]);
}

#[test]
fn many_high_bytes() {
    // 40 high bytes are bits. High byte h has the number h.
    let mut expected = [0; 113];
    expected[0] = 39;
    expected[1..6].fill(255);
    for (i, low_byte) in expected[73..].iter_mut().enumerate() {
        *low_byte = i as u8;
    }
    writes((0..40).map(|high| high * 256 + high), &expected);
}

#[test]
fn all_numbers() {
    writes(0..65536, &[255; 257]);
}

#[test]
fn longest() {
    // 32 numbers of each high byte, 8 apart: a bit of each byte.
    let expected: Vec<u8> = [vec_of(255, 1), vec_of(31, 256), vec_of(1, 8192)].concat();
    assert_eq!(expected.len(), LONGEST_BLOCKS);
    writes((0..65536).step_by(8), &expected);
}

/// So many bytes of this value.
fn vec_of(value: u8, count: usize) -> Vec<u8> {
    std::iter::repeat_n(value, count).collect()
}
