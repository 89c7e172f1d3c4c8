//! A posting list to bytes and back: blocks of 128 document numbers, each from the last number of the one before, and the numbers
//! that fill no block.

use bitpacking::{BitPacker, BitPacker4x, Pack};

/// What is stored: a width for each whole block, the bytes of the blocks, and the numbers after them.
struct PostingList {
    widths: Vec<u8>,
    bytes: Vec<u8>,
    tail: Vec<u32>,
}

fn pack(documents: &[u32]) -> PostingList {
    let packer = BitPacker4x::new();
    let blocks = documents.chunks_exact(BitPacker4x::BLOCK_LEN);
    let tail = blocks.remainder().to_vec();
    let (mut widths, mut bytes) = (Vec::new(), Vec::new());
    let mut before = None;
    for block in blocks {
        let mut room = [0; 4 * BitPacker4x::BLOCK_LEN];
        let (size, width) = packer.pack_strictly_sorted(before, block, &mut room);
        widths.push(width);
        bytes.extend_from_slice(&room[..size]);
        before = block.last().copied();
    }
    PostingList { widths, bytes, tail }
}

fn unpack(list: &PostingList) -> Vec<u32> {
    let packer = BitPacker4x::new();
    let (mut documents, mut read) = (Vec::new(), 0);
    let mut before = None;
    for &width in &list.widths {
        let mut block = [0; BitPacker4x::BLOCK_LEN];
        read += packer.decompress_strictly_sorted(before, &list.bytes[read..], &mut block, width);
        documents.extend_from_slice(&block);
        before = block.last().copied();
    }
    documents.extend_from_slice(&list.tail);
    documents
}

fn main() {
    // Gaps of 2 and 4 in turn: in two bits each, since one less than a gap is packed.
    let documents: Vec<u32> = (0..300).map(|k| 3 * k + k % 2).collect();
    let list = pack(&documents);
    assert_eq!(unpack(&list), documents);
    let tail = list.tail.len();
    println!("300 numbers: {:?} bits, {} bytes, {tail} numbers as they are", list.widths, list.bytes.len());
}
