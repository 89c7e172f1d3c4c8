//! What the operations of each vector return, worked by hand.

use super::super::{mask8x16, mask8x32, u8x4, u8x8, u8x16, u8x32, u32x1, u32x4, u32x8};

/// 2^31.
const HIGH: u32 = 1 << 31;
const MAX: u32 = u32::MAX;

fn four(words: [u32; 4]) -> u32x4 {
    u32x4::from_slice(&words)
}

fn eight(words: [u32; 8]) -> u32x8 {
    u32x8::from_slice(&words)
}

/// Bytes that count up from a first one.
fn counted<const N: usize>(first: u8) -> [u8; N] {
    core::array::from_fn(|n| first + n as u8)
}

#[test]
fn one_word() {
    let one = u32x1::from_le_bytes(u8x4::from_slice(&[1, 2, 3, 4, 5]));
    assert_eq!(one.to_array(), [0x0403_0201]);
    let mut bytes = [9; 5];
    u32x1::from_array([0x8070_6050]).to_le_bytes().copy_to_slice(&mut bytes);
    assert_eq!(bytes, [0x50, 0x60, 0x70, 0x80, 9]);
}

#[test]
fn words_and_bytes() {
    let bytes = u8x16::from_array(counted(1));
    let words = [0x0403_0201, 0x0807_0605, 0x0c0b_0a09, 0x100f_0e0d];
    assert_eq!(u32x4::from_le_bytes(bytes).to_array(), words);
    assert_eq!(four(words).to_le_bytes().to_array(), counted(1));
    let mut more = [7; 5];
    four(words).copy_to_slice(&mut more);
    assert_eq!(more, [words[0], words[1], words[2], words[3], 7]);
    let mut more = [7; 17];
    u8x16::from_slice(&counted::<20>(1)).copy_to_slice(&mut more);
    assert_eq!(more, core::array::from_fn(|n| if n < 16 { n as u8 + 1 } else { 7 }));

    let wide = eight([0x0403_0201, 0x0807_0605, 0x0c0b_0a09, 0x100f_0e0d, 0x1413_1211, 0x1817_1615, 0x1c1b_1a19, 0x201f_1e1d]);
    assert_eq!(wide.to_le_bytes().to_array(), counted(1));
    assert_eq!(u32x8::from_le_bytes(u8x32::from_array(counted(1))).to_array(), wide.to_array());
    let mut more = [7; 33];
    u8x32::from_slice(&counted::<40>(1)).copy_to_slice(&mut more);
    assert_eq!(more, core::array::from_fn(|n| if n < 32 { n as u8 + 1 } else { 7 }));
    let mut more = [7; 9];
    wide.copy_to_slice(&mut more);
    assert_eq!((&more[..8], more[8]), (wide.to_array().as_slice(), 7));
    assert_eq!(u8x32::from_array(counted(1)).extract::<0, 16>().to_array(), counted(1));
    assert_eq!(u8x32::from_array(counted(1)).extract::<16, 16>().to_array(), counted(17));
}

#[test]
fn four_words() {
    let (a, b) = (four([0, 1, HIGH, MAX]), four([1, 1, 7, HIGH]));
    assert_eq!((a << 1).to_array(), [0, 2, 0, MAX - 1]);
    assert_eq!((a << 31).to_array(), [0, HIGH, 0, HIGH]);
    assert_eq!((a >> 1).to_array(), [0, 0, 1 << 30, HIGH - 1]);
    assert_eq!((a >> 31).to_array(), [0, 0, 1, 1]);
    assert_eq!(((a >> 0).to_array(), (a << 0).to_array()), (a.to_array(), a.to_array()));
    assert_eq!((a | b).to_array(), [1, 1, HIGH + 7, MAX]);
    assert_eq!((a & b).to_array(), [0, 1, 0, HIGH]);
    assert_eq!((a + b).to_array(), [1, 2, HIGH + 7, HIGH - 1]);
    assert_eq!((a - b).to_array(), [MAX, 0, HIGH - 7, HIGH - 1]);
    assert_eq!(four([1, 2, 4, 256]).reduce_or(), 263);
    assert_eq!(u32x4::splat(HIGH + 1).to_array(), [HIGH + 1; 4]);
}

#[test]
fn eight_words() {
    let (a, b) = (eight([0, 1, HIGH, MAX, 0, 1, HIGH, MAX]), eight([1, 1, 7, HIGH, MAX, HIGH, MAX, MAX]));
    assert_eq!((a << 1).to_array(), [0, 2, 0, MAX - 1, 0, 2, 0, MAX - 1]);
    assert_eq!((a >> 31).to_array(), [0, 0, 1, 1, 0, 0, 1, 1]);
    assert_eq!((a | b).to_array(), [1, 1, HIGH + 7, MAX, MAX, HIGH + 1, MAX, MAX]);
    assert_eq!((a & b).to_array(), [0, 1, 0, HIGH, 0, 0, HIGH, MAX]);
    assert_eq!((a + b).to_array(), [1, 2, HIGH + 7, HIGH - 1, MAX, HIGH + 1, HIGH - 1, MAX - 1]);
    assert_eq!((a - b).to_array(), [MAX, 0, HIGH - 7, HIGH - 1, 1, HIGH + 1, HIGH + 1, 0]);
    assert_eq!(eight([1, 2, 4, 8, 16, 32, 64, 256]).reduce_or(), 383);
    assert_eq!(u32x8::splat(7).to_array(), [7; 8]);
}

/// No sign: 2^31 is greater than 1.
#[test]
fn comparisons() {
    let (a, b) = (eight([0, 1, HIGH, MAX, 0, 1, HIGH, MAX]), eight([1, 1, 7, HIGH, MAX, HIGH, MAX, MAX]));
    assert_eq!(a.simd_ge(b).to_bitmask(), 0b1000_1110);
    assert_eq!(a.simd_le(b).to_bitmask(), 0b1111_0011);
    assert_eq!(a.simd_ge(b).to_array(), [0, MAX, MAX, MAX, 0, 0, 0, MAX]);
}

#[test]
fn shuffles() {
    let (a, b) = (four([10, 11, 12, 13]), four([14, 15, 16, 17]));
    assert_eq!(a.shuffle_3_4_5_6(b).to_array(), [13, 14, 15, 16]);
    assert_eq!(a.shuffle_0_4_5_6(b).to_array(), [10, 14, 15, 16]);
    assert_eq!(a.shuffle_0_1_4_5(b).to_array(), [10, 11, 14, 15]);
    assert_eq!(a.swizzle_3_3_3_3().to_array(), [13; 4]);

    let (a, b) = (eight([20, 21, 22, 23, 24, 25, 26, 27]), eight([28, 29, 30, 31, 32, 33, 34, 35]));
    assert_eq!(a.shuffle_7_8_9_10_11_12_13_14(b).to_array(), [27, 28, 29, 30, 31, 32, 33, 34]);
    assert_eq!(a.shuffle_0_8_9_10_4_12_13_14(b).to_array(), [20, 28, 29, 30, 24, 32, 33, 34]);
    assert_eq!(a.shuffle_0_1_8_9_4_5_12_13(b).to_array(), [20, 21, 28, 29, 24, 25, 32, 33]);
    assert_eq!(a.shuffle_0_1_2_3_11_11_11_11(b).to_array(), [20, 21, 22, 23, 31, 31, 31, 31]);
    assert_eq!(a.swizzle_7_7_7_7_7_7_7_7().to_array(), [27; 8]);
}

#[test]
fn sixteen_bytes() {
    let a = u8x16::from_array([0, 1, 127, 128, 255, 0, 1, 127, 128, 255, 10, 11, 12, 13, 14, 15]);
    let b = u8x16::from_array([0, 0, 128, 127, 255, 255, 2, 127, 1, 0, 10, 12, 11, 13, 15, 14]);
    assert_eq!(a.simd_eq(b).to_bitmask(), 0b0010_0100_1001_0001);
    assert_eq!(a.simd_lt(b).to_bitmask(), 0b0100_1000_0110_0100);
    assert_eq!(a.simd_le(b).to_bitmask(), 0b0110_1100_1111_0101);
    let either: mask8x16 = a.simd_eq(b) | a.simd_lt(b);
    assert_eq!(either.to_bitmask(), a.simd_le(b).to_bitmask());
    let least = either.select(a, b).to_array();
    assert_eq!(least, [0, 0, 127, 127, 255, 0, 1, 127, 1, 0, 10, 11, 11, 13, 14, 14]);
    assert_eq!((a >> 1).to_array(), [0, 0, 63, 64, 127, 0, 0, 63, 64, 127, 5, 5, 6, 6, 7, 7]);
    assert_eq!((a >> 7).to_array(), [0, 0, 0, 1, 1, 0, 0, 0, 1, 1, 0, 0, 0, 0, 0, 0]);
    assert_eq!((a | b).to_array(), [0, 1, 255, 255, 255, 255, 3, 127, 129, 255, 10, 15, 15, 13, 15, 15]);
    assert_eq!((a & b).to_array(), [0, 0, 0, 0, 255, 0, 0, 127, 0, 0, 10, 8, 8, 13, 14, 14]);
    assert_eq!(u8x16::splat(200).to_array(), [200; 16]);
    let backwards: [u8; 16] = core::array::from_fn(|n| 15 - n as u8);
    let taken = u8x16::from_array(counted(100)).swizzle_dyn(u8x16::from_array(backwards));
    assert_eq!(taken.to_array(), core::array::from_fn(|n| 115 - n as u8));
}

#[test]
fn thirty_two_bytes() {
    let a: [u8; 32] = core::array::from_fn(|n| 8 * n as u8);
    let b = [128; 32];
    let (first, second) = (u8x32::from_array(a), u8x32::from_array(b));
    assert_eq!(first.simd_eq(second).to_bitmask(), 1 << 16);
    assert_eq!(first.simd_le(second).to_bitmask(), 0x1_ffff);
    let either: mask8x32 = second.simd_le(first) | first.simd_eq(second);
    assert_eq!(either.to_bitmask(), 0xffff_0000);
    assert_eq!(either.select(first, second).to_array(), core::array::from_fn(|n| if n < 16 { 128 } else { 8 * n as u8 }));
    assert_eq!((first >> 3).to_array(), counted(0));
    assert_eq!((first & second).to_array(), core::array::from_fn(|n| if n < 16 { 0 } else { 128 }));
    assert_eq!((first | second).to_array(), core::array::from_fn(|n| if n < 16 { 128 + 8 * n as u8 } else { 8 * n as u8 }));
    assert_eq!(u8x32::splat(3).to_array(), [3; 32]);
}

#[test]
fn eight_bytes() {
    let bytes = u8x8::from_slice(&[10, 11, 12, 13, 14, 15, 16, 255, 9]);
    assert_eq!(bytes.cast().to_array(), [10, 11, 12, 13, 14, 15, 16, 255]);
    let taken = bytes.swizzle_dyn(u8x8::from_array([7, 0, 6, 1, 5, 2, 4, 3]));
    assert_eq!(taken.cast().to_array(), [255, 10, 16, 11, 15, 12, 14, 13]);
    assert_eq!(bytes.swizzle_dyn(u8x8::from_array([7; 8])).cast().to_array(), [255; 8]);
}
