//! The packers: each call tests its arguments, and panics as 0.9.3 does, before it calls the proved code.

use crate::bitpacking::{Kind, Steps, Unmeasured as Proved};
use crate::{BitPacker, Pack, Packer, bitpacking};

/// The proved code of a packer. Users cannot name this trait, so that no other type is a `Packer`.
pub trait Code {
    /// A packer whose calls do not test what they require.
    type Code: Proved;
}

/// Packs a block, or panics as 0.9.3 does.
#[inline]
#[track_caller]
fn compress<P: Proved>(kind: Kind, decompressed: &[u32], compressed: &mut [u8], num_bits: u8) -> usize {
    #[cold]
    #[inline(never)]
    #[track_caller]
    fn fail(decompressed: usize, compressed: usize, num_bits: u8, block_len: usize) -> ! {
        if num_bits > 32 {
            panic!("Num bits must be <= 32. Was {num_bits}.");
        }
        if decompressed != block_len {
            panic!("Input block too small {decompressed}, (expected {block_len})");
        }
        let size = block_len * num_bits as usize / 8;
        panic!("Output array too small (numbits {num_bits}). {compressed} <= {size}");
    }
    if num_bits > 32 || decompressed.len() != P::BLOCK_LEN || compressed.len() < P::compressed_block_size(num_bits) {
        fail(decompressed.len(), compressed.len(), num_bits, P::BLOCK_LEN);
    }
    let packer = P::new();
    // REQUIRES: the block has `BLOCK_LEN` values, as was tested.
    debug_assert!(packer.num_bits_kind(kind, decompressed) <= num_bits, "A value of the block does not fit {num_bits} bits");
    // REQUIRES: the block has `BLOCK_LEN` values, `num_bits` is at most 32, and there is room for them, as was tested.
    packer.pack_unmeasured(kind, decompressed, compressed, num_bits, &mut Steps::new())
}

/// Unpacks a block, or panics as 0.9.3 does.
#[inline]
#[track_caller]
fn decompress<P: Proved>(kind: Kind, compressed: &[u8], decompressed: &mut [u32], num_bits: u8) -> usize {
    #[cold]
    #[inline(never)]
    #[track_caller]
    fn fail(compressed: usize, decompressed: usize, num_bits: u8, block_len: usize) -> ! {
        if decompressed < block_len {
            panic!("The output array is not large enough : ({decompressed} >= {block_len})");
        }
        if num_bits > 32 {
            panic!("Num bits must be <= 32. Was {num_bits}.");
        }
        panic!("Compressed array seems too small. ({compressed} < {}) ", block_len * num_bits as usize / 8);
    }
    if decompressed.len() < P::BLOCK_LEN || num_bits > 32 || compressed.len() < P::compressed_block_size(num_bits) {
        fail(compressed.len(), decompressed.len(), num_bits, P::BLOCK_LEN);
    }
    // REQUIRES: `num_bits` is at most 32, there is room for `BLOCK_LEN` values, and `compressed` has the bytes of a block, as was tested.
    P::new().decompress_kind(kind, compressed, decompressed, num_bits)
}

/// The least width of a block, or the panic of 0.9.3.
#[inline]
#[track_caller]
fn width<P: Proved>(kind: Kind, decompressed: &[u32]) -> u8 {
    #[cold]
    #[inline(never)]
    #[track_caller]
    fn fail(block_len: usize) -> ! {
        panic!("`decompressed`'s len is not `BLOCK_LEN={block_len}`")
    }
    if decompressed.len() != P::BLOCK_LEN {
        fail(P::BLOCK_LEN);
    }
    // REQUIRES: the block has `BLOCK_LEN` values, as was tested.
    P::new().num_bits_kind(kind, decompressed)
}

/// Packs a block at its least width, or panics.
#[inline]
#[track_caller]
fn pack<P: Proved>(kind: Kind, decompressed: &[u32], compressed: &mut [u8]) -> (usize, u8) {
    #[cold]
    #[inline(never)]
    #[track_caller]
    fn fail(compressed: usize) -> ! {
        panic!("Output array too small for the block: it has {compressed} bytes")
    }
    let num_bits = width::<P>(kind, decompressed);
    if compressed.len() < P::compressed_block_size(num_bits) {
        fail(compressed.len());
    }
    // REQUIRES: the block has `BLOCK_LEN` values, or `width` had panicked; `num_bits` is their width, and there is room for them.
    (P::new().compress_kind(kind, decompressed, compressed, num_bits), num_bits)
}

macro_rules! packer {
    ($name:ident, $block_len:literal, $doc:literal) => {
        #[doc = $doc]
        #[derive(Clone, Copy, Debug)]
        pub struct $name;

        impl Code for $name {
            type Code = bitpacking::$name;
        }

        impl Packer for $name {}

        impl BitPacker for $name {
            const BLOCK_LEN: usize = $block_len;

            #[inline]
            fn new() -> Self {
                $name
            }

            #[inline]
            fn compress(&self, decompressed: &[u32], compressed: &mut [u8], num_bits: u8) -> usize {
                compress::<bitpacking::$name>(Kind::Plain, decompressed, compressed, num_bits)
            }

            #[inline]
            fn compress_sorted(&self, initial: u32, decompressed: &[u32], compressed: &mut [u8], num_bits: u8) -> usize {
                compress::<bitpacking::$name>(Kind::Sorted(initial), decompressed, compressed, num_bits)
            }

            #[inline]
            fn compress_strictly_sorted(
                &self,
                initial: Option<u32>,
                decompressed: &[u32],
                compressed: &mut [u8],
                num_bits: u8,
            ) -> usize {
                compress::<bitpacking::$name>(Kind::StrictlySorted(initial), decompressed, compressed, num_bits)
            }

            #[inline]
            fn decompress(&self, compressed: &[u8], decompressed: &mut [u32], num_bits: u8) -> usize {
                decompress::<bitpacking::$name>(Kind::Plain, compressed, decompressed, num_bits)
            }

            #[inline]
            fn decompress_sorted(&self, initial: u32, compressed: &[u8], decompressed: &mut [u32], num_bits: u8) -> usize {
                decompress::<bitpacking::$name>(Kind::Sorted(initial), compressed, decompressed, num_bits)
            }

            #[inline]
            fn decompress_strictly_sorted(
                &self,
                initial: Option<u32>,
                compressed: &[u8],
                decompressed: &mut [u32],
                num_bits: u8,
            ) -> usize {
                decompress::<bitpacking::$name>(Kind::StrictlySorted(initial), compressed, decompressed, num_bits)
            }

            #[inline]
            fn num_bits(&self, decompressed: &[u32]) -> u8 {
                width::<bitpacking::$name>(Kind::Plain, decompressed)
            }

            #[inline]
            fn num_bits_sorted(&self, initial: u32, decompressed: &[u32]) -> u8 {
                width::<bitpacking::$name>(Kind::Sorted(initial), decompressed)
            }

            #[inline]
            fn num_bits_strictly_sorted(&self, initial: Option<u32>, decompressed: &[u32]) -> u8 {
                width::<bitpacking::$name>(Kind::StrictlySorted(initial), decompressed)
            }
        }

        impl Pack for $name {
            #[inline]
            fn pack(&self, decompressed: &[u32], compressed: &mut [u8]) -> (usize, u8) {
                pack::<bitpacking::$name>(Kind::Plain, decompressed, compressed)
            }

            #[inline]
            fn pack_sorted(&self, initial: u32, decompressed: &[u32], compressed: &mut [u8]) -> (usize, u8) {
                pack::<bitpacking::$name>(Kind::Sorted(initial), decompressed, compressed)
            }

            #[inline]
            fn pack_strictly_sorted(&self, initial: Option<u32>, decompressed: &[u32], compressed: &mut [u8]) -> (usize, u8) {
                pack::<bitpacking::$name>(Kind::StrictlySorted(initial), decompressed, compressed)
            }
        }
    };
}

packer!(BitPacker1x, 32, "The packer of blocks of 32 values.");
packer!(BitPacker4x, 128, "The packer of blocks of 128 values. If in doubt, use this one.");
packer!(BitPacker8x, 256, "The packer of blocks of 256 values.");
