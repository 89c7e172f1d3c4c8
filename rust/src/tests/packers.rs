//! Every block of `vectors/`, with canaries around the buffers; each panic; two threads; little stack.

use alloc::string::{String, ToString};
use alloc::vec::Vec;
use alloc::{format, vec};
use std::fs;
use std::panic::{AssertUnwindSafe, catch_unwind};
use std::thread;

use crate::chain;
use crate::{BitPacker, BitPacker1x, BitPacker4x, BitPacker8x, Pack};

/// The byte and the value around what a call may write.
pub(super) const CANARY: u8 = 0xA5;
pub(super) const CANARY_VALUE: u32 = 0xA5A5_A5A5;

#[derive(Clone, Copy, Debug)]
pub(super) enum Kind {
    Plain,
    Sorted(u32),
    Strict(Option<u32>),
}

pub(super) fn width<P: BitPacker>(packer: &P, kind: Kind, values: &[u32]) -> u8 {
    match kind {
        Kind::Plain => packer.num_bits(values),
        Kind::Sorted(initial) => packer.num_bits_sorted(initial, values),
        Kind::Strict(initial) => packer.num_bits_strictly_sorted(initial, values),
    }
}

fn compress<P: BitPacker>(packer: &P, kind: Kind, values: &[u32], bytes: &mut [u8], width: u8) -> usize {
    match kind {
        Kind::Plain => packer.compress(values, bytes, width),
        Kind::Sorted(initial) => packer.compress_sorted(initial, values, bytes, width),
        Kind::Strict(initial) => packer.compress_strictly_sorted(initial, values, bytes, width),
    }
}

pub(super) fn decompress<P: BitPacker>(packer: &P, kind: Kind, bytes: &[u8], values: &mut [u32], width: u8) -> usize {
    match kind {
        Kind::Plain => packer.decompress(bytes, values, width),
        Kind::Sorted(initial) => packer.decompress_sorted(initial, bytes, values, width),
        Kind::Strict(initial) => packer.decompress_strictly_sorted(initial, bytes, values, width),
    }
}

pub(super) fn pack<P: Pack>(packer: &P, kind: Kind, values: &[u32], bytes: &mut [u8]) -> (usize, u8) {
    match kind {
        Kind::Plain => packer.pack(values, bytes),
        Kind::Sorted(initial) => packer.pack_sorted(initial, values, bytes),
        Kind::Strict(initial) => packer.pack_strictly_sorted(initial, values, bytes),
    }
}

/// A block of `vectors/blocks.tsv`, which the crate `bitpacking` 0.9.3 wrote, or of `vectors/single.tsv`, laid by docs/FORMAT.md.
struct Block {
    packer: String,
    kind: Kind,
    width: u8,
    values: Vec<u32>,
    bytes: Vec<u8>,
}

fn blocks() -> Vec<Block> {
    let texts = ["blocks", "single"]
        .map(|name| fs::read_to_string(format!("{}/vectors/{name}.tsv", env!("CARGO_MANIFEST_DIR"))).unwrap());
    let found: Vec<Block> = texts.iter().flat_map(|text| text.lines().skip(1)).map(block).collect();
    assert_eq!(found.len(), 396 + 381);
    found
}

fn block(line: &str) -> Block {
    let fields: Vec<&str> = line.split('\t').collect();
    let kind = match (fields[1], fields[2]) {
        ("plain", _) => Kind::Plain,
        ("sorted", initial) => Kind::Sorted(initial.parse().unwrap()),
        (_, "none") => Kind::Strict(None),
        (_, initial) => Kind::Strict(Some(initial.parse().unwrap())),
    };
    let digits = fields[5].trim_matches('-');
    Block {
        packer: fields[0].to_string(),
        kind,
        width: fields[3].parse().unwrap(),
        values: fields[4].split(',').map(|value| value.parse().unwrap()).collect(),
        bytes: (0..digits.len() / 2).map(|k| u8::from_str_radix(&digits[2 * k..2 * k + 2], 16).unwrap()).collect(),
    }
}

/// Each call gives what 0.9.3 gave, and writes nothing else: neither beside the bytes that it is handed nor after the block.
fn agrees<P: Pack>(packer: &P, block: &Block) {
    let (kind, len, size) = (block.kind, P::BLOCK_LEN, block.bytes.len());
    assert_eq!(P::compressed_block_size(block.width), size);
    assert_eq!(width(packer, kind, &block.values), block.width);

    let around = |found: &[u8], size: usize| {
        assert_eq!(&found[8..8 + size], &block.bytes[..]);
        assert!(found[..8].iter().chain(&found[8 + size..]).all(|byte| *byte == CANARY));
    };
    let mut buffer = vec![CANARY; size + 16];
    assert_eq!(compress(packer, kind, &block.values, &mut buffer[8..8 + size], block.width), size);
    around(&buffer, size);
    let mut buffer = vec![CANARY; 4 * len + 16];
    assert_eq!(pack(packer, kind, &block.values, &mut buffer[8..8 + 4 * len]), (size, block.width));
    around(&buffer, size);

    let mut values = vec![CANARY_VALUE; len + 16];
    assert_eq!(decompress(packer, kind, &block.bytes, &mut values[8..8 + len], block.width), size);
    assert_eq!(&values[8..8 + len], &block.values[..]);
    assert!(values[..8].iter().chain(&values[8 + len..]).all(|value| *value == CANARY_VALUE));

    for wider in block.width..=32 {
        let mut bytes = vec![CANARY; P::compressed_block_size(wider) + 1];
        let mut values = vec![CANARY_VALUE; len];
        let size = compress(packer, kind, &block.values, &mut bytes, wider);
        assert_eq!((size, bytes[size]), (P::compressed_block_size(wider), CANARY));
        assert_eq!(decompress(packer, kind, &bytes, &mut values, wider), size);
        assert_eq!(values, block.values);
    }
}

/// Each block by its packer.
fn agree(blocks: &[Block]) {
    for block in blocks {
        match &block.packer[..] {
            "1x" => agrees(&BitPacker1x::new(), block),
            "4x" => agrees(&BitPacker4x::new(), block),
            packer => {
                assert_eq!(packer, "8x");
                agrees(&BitPacker8x::new(), block)
            }
        }
    }
}

#[test]
fn each_block_of_the_vectors() {
    agree(&blocks());
}

/// A call takes little stack: an array of more than 64 KiB in it ends the test.
#[test]
fn a_small_stack_is_enough() {
    let blocks = blocks();
    thread::scope(|scope| {
        let small = thread::Builder::new().stack_size(64 * 1024);
        let done = small.spawn_scoped(scope, || agree(&blocks)).unwrap();
        done.join().unwrap();
    });
}

/// The text of the panic of a call.
fn panic_of<R>(call: impl FnOnce() -> R) -> String {
    let payload = catch_unwind(AssertUnwindSafe(call)).err().expect("no panic");
    payload.downcast_ref::<String>().cloned().unwrap_or_else(|| payload.downcast_ref::<&str>().unwrap().to_string())
}

/// Calls with one fault each, or with several: then the first counts. None of them writes.
fn panics<P: Pack>(packer: &P, kind: Kind) {
    let len = P::BLOCK_LEN;
    // 3 more than the value before it: a width of 2 in each kind, but for the plain one.
    let values: Vec<u32> = (0..len as u32 + 1).map(|k| 3 * k + 3).collect();
    let block = &values[..len];
    let least = width(packer, kind, block);
    let mut bytes = vec![CANARY; 4 * len];
    let mut compressed = |values: &[u32], room: usize, width: u8| {
        let text = panic_of(|| compress(packer, kind, values, &mut bytes[..room], width));
        assert!(bytes.iter().all(|byte| *byte == CANARY));
        text
    };
    assert_eq!(compressed(block, 4 * len, 33), "Num bits must be <= 32. Was 33.");
    assert_eq!(compressed(&[], 0, 255), "Num bits must be <= 32. Was 255.");
    for other in [&values[..], &values[..len - 1], &[]] {
        let text = format!("Input block too small {}, (expected {len})", other.len());
        assert_eq!(compressed(other, 4 * len, least), text);
        assert_eq!(compressed(other, 0, 0), text);
    }
    let short = P::compressed_block_size(least) - 1;
    let text = format!("Output array too small (numbits {least}). {short} <= {}", short + 1);
    assert_eq!(compressed(block, short, least), text);
    assert_eq!(compressed(block, 0, 1), format!("Output array too small (numbits 1). 0 <= {}", len / 8));
    if cfg!(debug_assertions) {
        for width in 0..least {
            assert_eq!(compressed(block, 4 * len, width), format!("A value of the block does not fit {width} bits"));
        }
    }

    let mut packed = |values: &[u32], room: usize| {
        let text = panic_of(|| pack(packer, kind, values, &mut bytes[..room]));
        assert!(bytes.iter().all(|byte| *byte == CANARY));
        text
    };
    assert_eq!(packed(&values, 0), format!("`decompressed`'s len is not `BLOCK_LEN={len}`"));
    assert_eq!(packed(block, short), format!("Output array too small for the block: it has {short} bytes"));

    let measured = |values: &[u32]| panic_of(|| width(packer, kind, values));
    for other in [&values[..], &values[..len - 1], &[]] {
        assert_eq!(measured(other), format!("`decompressed`'s len is not `BLOCK_LEN={len}`"));
    }

    let mut room = vec![CANARY_VALUE; len];
    let mut unpacked = |bytes: usize, values: usize, width: u8| {
        let text = panic_of(|| decompress(packer, kind, &vec![0; bytes], &mut room[..values], width));
        assert!(room.iter().all(|value| *value == CANARY_VALUE));
        text
    };
    let too_few = |found: usize| format!("The output array is not large enough : ({found} >= {len})");
    assert_eq!(unpacked(4 * len, len - 1, 32), too_few(len - 1));
    assert_eq!(unpacked(0, 0, 33), too_few(0));
    assert_eq!(unpacked(5 * len, len, 33), "Num bits must be <= 32. Was 33.");
    assert_eq!(unpacked(4 * len - 1, len, 32), format!("Compressed array seems too small. ({} < {}) ", 4 * len - 1, 4 * len));
}

/// The bytes of codes of any size, as 0.9.3 writes them: the bits of a code above the width are set beside the codes after it.
#[cfg(not(debug_assertions))]
fn bytes_of(codes: &[u32], width: usize) -> Vec<u8> {
    let lanes = codes.len() / 32;
    let mut words = vec![0; lanes * width];
    for (k, code) in codes.iter().enumerate() {
        let (lane, bit) = (k % lanes, k / lanes * width);
        let (word, shift) = (bit / 32, bit % 32);
        if width > 0 {
            words[lanes * word + lane] |= code << shift;
        }
        if shift + width > 32 {
            words[lanes * (word + 1) + lane] |= code >> (32 - shift);
        }
    }
    words.iter().flat_map(|word| word.to_le_bytes()).collect()
}

/// What is packed in place of the values of a block.
#[cfg(not(debug_assertions))]
fn codes_of(kind: Kind, block: &[u32]) -> Vec<u32> {
    let (before, step) = match kind {
        Kind::Plain => return block.to_vec(),
        Kind::Sorted(initial) => (initial, 0),
        Kind::Strict(initial) => (initial.unwrap_or(u32::MAX), 1),
    };
    let values_before = [before].into_iter().chain(block.iter().copied());
    block.iter().zip(values_before).map(|(value, before)| value.wrapping_sub(before).wrapping_sub(step)).collect()
}

/// Without assertions a call packs a block that does not fit: it writes the bytes that 0.9.3 does, and no byte after them.
#[cfg(not(debug_assertions))]
fn packs_what_does_not_fit<P: Pack>(packer: &P, kind: Kind) {
    let block: Vec<u32> = (0..P::BLOCK_LEN as u32).map(|k| k.wrapping_mul(0x9E37_79B9)).collect();
    for width in 0..=32 {
        let wanted = bytes_of(&codes_of(kind, &block), width.into());
        let mut bytes = vec![CANARY; 4 * P::BLOCK_LEN + 1];
        assert_eq!(compress(packer, kind, &block, &mut bytes[..], width), wanted.len());
        assert_eq!(bytes[..wanted.len()], wanted[..]);
        assert!(bytes[wanted.len()..].iter().all(|byte| *byte == CANARY));
        assert_eq!(compress(packer, kind, &block, &mut bytes[..wanted.len()], width), wanted.len());
    }
}

#[test]
#[cfg(not(debug_assertions))]
fn each_width_for_values_that_do_not_fit() {
    for kind in [Kind::Plain, Kind::Sorted(7), Kind::Strict(Some(7)), Kind::Strict(None)] {
        packs_what_does_not_fit(&BitPacker1x::new(), kind);
        packs_what_does_not_fit(&BitPacker4x::new(), kind);
        packs_what_does_not_fit(&BitPacker8x::new(), kind);
    }
}

#[test]
fn each_panic_with_its_text() {
    for kind in [Kind::Plain, Kind::Sorted(0), Kind::Strict(Some(0)), Kind::Strict(None)] {
        panics(&BitPacker1x, kind);
        panics(&BitPacker4x, kind);
        panics(&BitPacker8x, kind);
    }
}

/// By hand: 0 to 7 at three bits each, the lowest bit first, are `000 100 010 110 001 101 011 111`, which is `88 C6 FA`.
#[test]
fn bytes_worked_by_hand() {
    let values: Vec<u32> = (0..32).map(|k| k % 8).collect();
    let mut bytes = [0; 128];
    assert_eq!(BitPacker1x::new().pack(&values, &mut bytes), (12, 3));
    assert_eq!(bytes[..12], [0x88, 0xC6, 0xFA].repeat(4)[..]);
}

/// A block out of order is taken, and comes back: differences are taken modulo 2^32.
#[test]
fn a_block_out_of_order_wraps() {
    let values: Vec<u32> = (0..128).rev().collect();
    let packer = BitPacker4x::new();
    let mut bytes = [0; 512];
    let mut unpacked = [0; 128];
    assert_eq!(packer.num_bits_sorted(500, &values), 32);
    assert_eq!(packer.compress_sorted(500, &values, &mut bytes, 32), 512);
    packer.decompress_sorted(500, &bytes, &mut unpacked, 32);
    assert_eq!(unpacked[..], values[..]);
}

/// By hand: 0 is one more than `u32::MAX`, modulo 2^32. So the differences are 1 each, and every bit is set; and a block of
/// `u32::MAX` after `u32::MAX` has no bits.
fn sorted_after_the_greatest_value<P: Pack>(packer: &P) {
    let kind = Kind::Sorted(u32::MAX);
    let size = P::compressed_block_size(1);
    let counted =
        Block { packer: String::new(), kind, width: 1, values: (0..P::BLOCK_LEN as u32).collect(), bytes: vec![0xFF; size] };
    let greatest = Block { packer: String::new(), kind, width: 0, values: vec![u32::MAX; P::BLOCK_LEN], bytes: Vec::new() };
    agrees(packer, &counted);
    agrees(packer, &greatest);
}

#[test]
fn sorted_after_the_greatest_value_of_each_packer() {
    sorted_after_the_greatest_value(&BitPacker1x);
    sorted_after_the_greatest_value(&BitPacker4x);
    sorted_after_the_greatest_value(&BitPacker8x);
}

/// A packer is a constant, as in 0.9.3, and all types may be shared by threads.
#[test]
fn the_types_are_plain_values() {
    const ONE: BitPacker1x = BitPacker1x;
    fn shared<T: Send + Sync + Clone + std::fmt::Debug + Unpin + std::panic::UnwindSafe>() {}
    fn copied<T: Copy>() {}
    assert_eq!(ONE.num_bits(&[3; 32]), 2);
    assert_eq!(format!("{ONE:?} {BitPacker4x:?} {BitPacker8x:?}"), "BitPacker1x BitPacker4x BitPacker8x");
    let _packers = (shared::<BitPacker1x>(), shared::<BitPacker4x>(), shared::<BitPacker8x>());
    let _copied = (copied::<BitPacker1x>(), copied::<BitPacker4x>(), copied::<BitPacker8x>());
    let _chains = (shared::<chain::Error>(), shared::<chain::Kind>());
    let _copied = (copied::<chain::Error>(), copied::<chain::Kind>());
}

#[test]
fn two_threads_at_once() {
    let blocks = blocks();
    thread::scope(|scope| {
        for _ in 0..2 {
            scope.spawn(|| {
                for block in blocks.iter().filter(|block| block.packer == "4x") {
                    agrees(&BitPacker4x::new(), block);
                }
            });
        }
    });
}
