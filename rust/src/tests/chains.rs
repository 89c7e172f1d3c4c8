//! Chains against their blocks, one by one.

use alloc::string::ToString;
use alloc::vec;
use alloc::vec::Vec;

use super::packers::{CANARY, CANARY_VALUE, decompress, pack, width};
use crate::chain::{Error, Kind, pack_all, unpack_all};
use crate::{BitPacker1x, BitPacker4x, BitPacker8x, Packer};

/// The kind of a block, as the tests of blocks have it.
fn of_block(kind: Kind) -> super::packers::Kind {
    match kind {
        Kind::Plain => super::packers::Kind::Plain,
        Kind::Sorted(initial) => super::packers::Kind::Sorted(initial),
        Kind::StrictlySorted(initial) => super::packers::Kind::Strict(initial),
    }
}

/// The kind of the block after one that ends with this value.
fn next(kind: Kind, last: u32) -> Kind {
    match kind {
        Kind::Plain => Kind::Plain,
        Kind::Sorted(_) => Kind::Sorted(last),
        Kind::StrictlySorted(_) => Kind::StrictlySorted(Some(last)),
    }
}

/// The widths and the bytes of the blocks, which are packed one by one.
fn one_by_one<P: Packer>(packer: P, kind: Kind, values: &[u32]) -> (Vec<u8>, Vec<u8>) {
    let (mut kind, mut widths, mut bytes) = (kind, Vec::new(), Vec::new());
    for block in values.chunks(P::BLOCK_LEN) {
        let mut room = vec![0; 4 * P::BLOCK_LEN];
        let (size, width_of_block) = pack(&packer, of_block(kind), block, &mut room);
        assert_eq!(width_of_block, width(&packer, of_block(kind), block));
        widths.push(width_of_block);
        bytes.extend_from_slice(&room[..size]);
        kind = next(kind, block[P::BLOCK_LEN - 1]);
    }
    (widths, bytes)
}

/// The chain has those widths and bytes, and comes back. It needs room for its own bytes alone.
fn agrees<P: Packer>(packer: P, kind: Kind, values: &[u32]) {
    let (right_widths, right_bytes) = one_by_one(packer, kind, values);
    let (blocks, size) = (right_widths.len(), right_bytes.len());
    for room in [size, size + 1, 4 * values.len() + 8] {
        let (mut widths, mut bytes) = (vec![CANARY; blocks], vec![CANARY; room]);
        assert_eq!(pack_all(packer, kind, values, &mut widths, &mut bytes), Ok(size));
        assert_eq!((&widths, &bytes[..size]), (&right_widths, &right_bytes[..]));
    }
    let mut unpacked = vec![CANARY_VALUE; values.len() + 2];
    assert_eq!(unpack_all(packer, kind, &right_widths, &right_bytes, &mut unpacked), Ok(size));
    assert_eq!((&unpacked[..values.len()], &unpacked[values.len()..]), (values, &[CANARY_VALUE; 2][..]));
    if let Some(first) = values.get(..P::BLOCK_LEN) {
        let mut block = vec![0; P::BLOCK_LEN];
        decompress(&packer, of_block(kind), &right_bytes, &mut block, right_widths[0]);
        assert_eq!(block, first);
    }
}

/// Each error, after which nothing is written.
fn fails<P: Packer>(packer: P, kind: Kind, values: &[u32]) {
    let (right_widths, right_bytes) = one_by_one(packer, kind, values);
    let (blocks, size) = (right_widths.len(), right_bytes.len());
    let packed = |values: &[u32], blocks: usize, room: usize| {
        let (mut widths, mut bytes) = (vec![CANARY; blocks], vec![CANARY; room]);
        let answer = pack_all(packer, kind, values, &mut widths, &mut bytes);
        assert!(widths.iter().chain(&bytes).all(|byte| *byte == CANARY));
        answer
    };
    assert_eq!(packed(values, blocks, size - 1), Err(Error::Short));
    assert_eq!(packed(values, blocks + 1, 4 * size), Err(Error::BadLength));
    assert_eq!(packed(values, blocks - 1, 0), Err(Error::BadLength));
    assert_eq!(packed(&values[1..], blocks, 4 * size), Err(Error::BadLength));
    let unpacked = |widths: &[u8], bytes: &[u8], count: usize| {
        let mut values = vec![CANARY_VALUE; count];
        let answer = unpack_all(packer, kind, widths, bytes, &mut values);
        assert!(values.iter().all(|value| *value == CANARY_VALUE));
        answer
    };
    let mut damaged = right_widths.clone();
    damaged[blocks - 1] = 33;
    assert_eq!(unpacked(&damaged, &[0; 5000], values.len()), Err(Error::BadWidth));
    assert_eq!(unpacked(&right_widths, &right_bytes[1..], values.len()), Err(Error::Short));
    assert_eq!(unpacked(&right_widths, &right_bytes, values.len() - 1), Err(Error::BadLength));
}

/// Values in any order, in order, or increasing: sums of numbers below 300 from a fixed start.
fn values(order: u32, len: usize) -> Vec<u32> {
    let (mut state, mut last) = (5u32, 0);
    let next = |_| {
        state = state.wrapping_mul(1_664_525).wrapping_add(1_013_904_223);
        let number = (state >> 16) % 300;
        last = if order == 0 { number } else { last + number + order - 1 };
        last
    };
    (0..len).map(next).collect()
}

fn chains<P: Packer>(packer: P) {
    for blocks in [0, 1, 2, 5] {
        let values = [0, 1, 2].map(|order| values(order, blocks * P::BLOCK_LEN));
        let kinds = [Kind::Plain, Kind::Sorted(0), Kind::StrictlySorted(None)];
        for (kind, values) in kinds.into_iter().zip(&values) {
            agrees(packer, kind, values);
            if blocks > 0 {
                fails(packer, kind, values);
            }
        }
        // From another start, and out of order: differences are taken modulo 2^32.
        for kind in [Kind::Sorted(77), Kind::StrictlySorted(Some(77)), Kind::StrictlySorted(Some(0))] {
            agrees(packer, kind, &values[0]);
        }
    }
}

#[test]
fn chains_of_each_packer_and_kind() {
    chains(BitPacker1x);
    chains(BitPacker4x);
    chains(BitPacker8x);
}

#[test]
fn each_error_of_a_chain_with_its_number_and_text() {
    let texts = [
        (Error::BadLength, -1, "the values are not as many as blocks of the widths have"),
        (Error::BadWidth, -2, "a width is above 32"),
        (Error::Short, -3, "there are too few bytes"),
    ];
    for (error, number, text) in texts {
        assert_eq!((error.number(), &error.to_string()[..]), (number, text));
    }
}
