//! Sets of ids, columns and blocks of 32-bit integers, each value packed in few bits:
//!
//! - [`set`]: sets of increasing ids, which are searched and combined in place;
//! - [`set::wide`]: sets of increasing 64-bit ids;
//! - [`mod@column`]: numbers beside ids, which are read by position, or searched;
//! - [`ranked`]: the documents of a query with the greatest scores;
//! - [`BitPacker`]: single blocks, with the API and the bytes of the crate `bitpacking` 0.9.3; [`Pack`] and [`chain`] have more calls on blocks.
//!
//! The calls test what they are given, and run proved code: sources with contracts, each function proved to meet its contract, which the build
//! translates into Rust.
//!
//! ```
//! use bitpacking::set::{IdSet, IdSetBuf};
//!
//! let (cats, dogs) = (IdSetBuf::pack(&[7, 9, 10, 300])?, IdSetBuf::pack(&[9, 11, 300])?);
//! assert_eq!((&cats & &dogs).unpack(), [9, 300]);
//! assert_eq!(IdSet::open(cats.as_bytes())?.seek(100), Some((3, 300)));
//! # Ok::<(), bitpacking::set::Error>(())
//! ```
//!
//! A block gives each value as many bits as the greatest needs:
//!
//! ```
//! use bitpacking::{BitPacker, BitPacker4x};
//!
//! let documents: Vec<u32> = (0..128).map(|k| 7 * k).collect();
//! let packer = BitPacker4x::new();
//! let width = packer.num_bits_sorted(0, &documents);
//! let mut bytes = vec![0; BitPacker4x::compressed_block_size(width)];
//! packer.compress_sorted(0, &documents, &mut bytes, width);
//!
//! let mut unpacked = vec![0; BitPacker4x::BLOCK_LEN];
//! packer.decompress_sorted(0, &bytes, &mut unpacked, width);
//! assert_eq!(unpacked, documents);
//! ```
#![no_std]
#![deny(unsafe_op_in_unsafe_fn)]
#![warn(missing_docs)]

extern crate alloc;
#[cfg(any(feature = "std", test))]
extern crate std;

mod buffer;
#[cfg(feature = "c")]
#[doc(hidden)]
pub mod c_functions;
#[cfg(feature = "c")]
mod c_slices;
pub mod chain;
pub mod column;
mod growing;
mod index;
#[cfg(feature = "std")]
mod io_errors;
mod iterator;
#[cfg(level_v3)]
mod level;
mod packers;
pub mod ranked;
mod room;
pub mod set;
// Not each feature calls each operation.
#[allow(dead_code)]
mod simd;
mod stable_bytes;
#[cfg(test)]
mod tests;

// The proved code, as Rust.
include!(concat!(env!("OUT_DIR"), "/modules.rs"));

pub use packers::{BitPacker1x, BitPacker4x, BitPacker8x};
pub use stable_bytes::StableBytes;

/// Packs blocks of `BLOCK_LEN` values, each in as many bits as the greatest of its block needs.
///
/// The bytes hold neither the packer, the width, the kind nor the initial value of a block: the caller stores these. The calls
/// `_sorted` and `_strictly_sorted` pack differences, the first of them from `initial`, the value before the block. They accept a block
/// out of order too: differences are modulo 2^32, and the values come back. 4 bytes a value are always enough room.
///
/// [`Pack::pack`] is faster than `num_bits` and then `compress`.
pub trait BitPacker: Sized + Clone + Copy {
    /// How many values a block has.
    const BLOCK_LEN: usize;

    /// Returns the packer. On x86-64 the calls of `BitPacker8x` use AVX2 if the processor has it; all others use the registers of the target.
    ///
    /// ```
    /// use bitpacking::{BitPacker, BitPacker8x};
    ///
    /// let packer = BitPacker8x::new();
    /// assert_eq!(packer.num_bits(&[5; BitPacker8x::BLOCK_LEN]), 3);
    /// ```
    fn new() -> Self;

    /// Packs a block at `num_bits` bits per value and returns the number of bytes written.
    ///
    /// # Panics
    ///
    /// In this order: if `num_bits` is above 32, if `decompressed` is not `BLOCK_LEN` long, or if `compressed` is shorter than
    /// `compressed_block_size(num_bits)`; with debug assertions also if a value does not fit `num_bits` bits. Nothing is written then.
    /// Without them the bytes of a block with such a value are unspecified; those after them are unchanged.
    ///
    /// ```
    /// use bitpacking::{BitPacker, BitPacker1x};
    ///
    /// // 0 to 7 in three bits each, four times.
    /// let values: Vec<u32> = (0..32).map(|k| k % 8).collect();
    /// let mut bytes = [0; 12];
    /// assert_eq!(BitPacker1x::new().compress(&values, &mut bytes, 3), 12);
    /// assert_eq!(bytes[..6], [0x88, 0xC6, 0xFA, 0x88, 0xC6, 0xFA]);
    /// ```
    #[track_caller]
    fn compress(&self, decompressed: &[u32], compressed: &mut [u8], num_bits: u8) -> usize;

    /// Packs the differences of a block, the first of them from `initial`.
    ///
    /// # Panics
    ///
    /// As `compress`, of the differences.
    ///
    /// ```
    /// use bitpacking::{BitPacker, BitPacker1x};
    ///
    /// // The first difference is 0, and the others are 3: two bits each.
    /// let values: Vec<u32> = (0..32).map(|k| 10 + 3 * k).collect();
    /// let mut bytes = [0; 8];
    /// assert_eq!(BitPacker1x::new().compress_sorted(10, &values, &mut bytes, 2), 8);
    /// assert_eq!(bytes[..2], [0xFC, 0xFF]);
    /// ```
    #[track_caller]
    fn compress_sorted(&self, initial: u32, decompressed: &[u32], compressed: &mut [u8], num_bits: u8) -> usize;

    /// Packs one less than the differences of a block. With `None` the block may begin with 0.
    ///
    /// # Panics
    ///
    /// As `compress`, of the differences less one.
    ///
    /// ```
    /// use bitpacking::{BitPacker, BitPacker1x};
    ///
    /// // Each value is one more than the one before it, and the first is 0: no bits are needed.
    /// let values: Vec<u32> = (0..32).collect();
    /// assert_eq!(BitPacker1x::new().compress_strictly_sorted(None, &values, &mut [], 0), 0);
    /// ```
    #[track_caller]
    fn compress_strictly_sorted(&self, initial: Option<u32>, decompressed: &[u32], compressed: &mut [u8], num_bits: u8) -> usize;

    /// Unpacks a block and returns the number of bytes read. Accepts any bytes; values after the block are unchanged.
    ///
    /// # Panics
    ///
    /// In this order: if `decompressed` is shorter than `BLOCK_LEN`, if `num_bits` is above 32, or if `compressed` is shorter than
    /// `compressed_block_size(num_bits)`. Nothing is written then.
    ///
    /// ```
    /// use bitpacking::{BitPacker, BitPacker1x};
    ///
    /// // 0 to 7 in three bits each, four times.
    /// let (bytes, mut values) = ([0x88, 0xC6, 0xFA].repeat(4), [0; 32]);
    /// assert_eq!(BitPacker1x::new().decompress(&bytes, &mut values, 3), 12);
    /// assert_eq!(values[..9], [0, 1, 2, 3, 4, 5, 6, 7, 0]);
    /// ```
    #[track_caller]
    fn decompress(&self, compressed: &[u8], decompressed: &mut [u32], num_bits: u8) -> usize;

    /// Unpacks a block that was packed with the same `initial`.
    ///
    /// # Panics
    ///
    /// As `decompress`.
    ///
    /// ```
    /// use bitpacking::{BitPacker, BitPacker1x};
    ///
    /// let (bytes, mut values) = ([0xFC, 0xFF, 0xFF, 0xFF, 0xFF, 0xFF, 0xFF, 0xFF], [0; 32]);
    /// assert_eq!(BitPacker1x::new().decompress_sorted(10, &bytes, &mut values, 2), 8);
    /// assert_eq!(values[..4], [10, 13, 16, 19]);
    /// ```
    #[track_caller]
    fn decompress_sorted(&self, initial: u32, compressed: &[u8], decompressed: &mut [u32], num_bits: u8) -> usize;

    /// Unpacks a block that was packed strictly sorted with the same `initial`.
    ///
    /// # Panics
    ///
    /// As `decompress`.
    ///
    /// ```
    /// use bitpacking::{BitPacker, BitPacker1x};
    ///
    /// let mut values = [0; 32];
    /// assert_eq!(BitPacker1x::new().decompress_strictly_sorted(Some(6), &[], &mut values, 0), 0);
    /// assert_eq!(values[..4], [7, 8, 9, 10]);
    /// ```
    #[track_caller]
    fn decompress_strictly_sorted(
        &self,
        initial: Option<u32>,
        compressed: &[u8],
        decompressed: &mut [u32],
        num_bits: u8,
    ) -> usize;

    /// Returns the least width of a block, from 0 to 32.
    ///
    /// # Panics
    ///
    /// If `decompressed` is not `BLOCK_LEN` long.
    ///
    /// ```
    /// use bitpacking::{BitPacker, BitPacker1x};
    ///
    /// let mut values = [1; 32];
    /// values[7] = 1000;
    /// assert_eq!(BitPacker1x::new().num_bits(&values), 10);
    /// ```
    #[track_caller]
    fn num_bits(&self, decompressed: &[u32]) -> u8;

    /// Returns the least width of the differences of a block.
    ///
    /// # Panics
    ///
    /// If `decompressed` is not `BLOCK_LEN` long.
    ///
    /// ```
    /// use bitpacking::{BitPacker, BitPacker1x};
    ///
    /// let values: Vec<u32> = (0..32).map(|k| 1000 + 3 * k).collect();
    /// assert_eq!(BitPacker1x::new().num_bits_sorted(1000, &values), 2);
    /// assert_eq!(BitPacker1x::new().num_bits_sorted(0, &values), 10);
    /// ```
    #[track_caller]
    fn num_bits_sorted(&self, initial: u32, decompressed: &[u32]) -> u8;

    /// Returns the least width of the differences of a block, each one less.
    ///
    /// # Panics
    ///
    /// If `decompressed` is not `BLOCK_LEN` long.
    ///
    /// ```
    /// use bitpacking::{BitPacker, BitPacker1x};
    ///
    /// let values: Vec<u32> = (0..32).collect();
    /// assert_eq!(BitPacker1x::new().num_bits_strictly_sorted(None, &values), 0);
    /// ```
    #[track_caller]
    fn num_bits_strictly_sorted(&self, initial: Option<u32>, decompressed: &[u32]) -> u8;

    /// Returns the number of bytes of a block at `num_bits` bits per value.
    ///
    /// ```
    /// use bitpacking::{BitPacker, BitPacker4x};
    ///
    /// assert_eq!(BitPacker4x::compressed_block_size(7), 112);
    /// ```
    #[must_use]
    fn compressed_block_size(num_bits: u8) -> usize {
        Self::BLOCK_LEN * num_bits as usize / 8
    }
}

/// Packs a block at its least width in one call, which 0.9.3 does not have. It is faster than a width call and then a compress call, which
/// has to test that the values fit and so measures the block once more.
pub trait Pack: BitPacker {
    /// Packs a block at its least width. Returns the number of bytes written, and the width.
    ///
    /// # Panics
    ///
    /// If `decompressed` is not `BLOCK_LEN` long, or if `compressed` is too short for the block; `4 * BLOCK_LEN` bytes are always
    /// enough. Nothing is written then.
    ///
    /// ```
    /// use bitpacking::{BitPacker, BitPacker1x, Pack};
    ///
    /// let values: Vec<u32> = (0..32).map(|k| k % 8).collect();
    /// let mut bytes = [0; 4 * BitPacker1x::BLOCK_LEN];
    /// assert_eq!(BitPacker1x::new().pack(&values, &mut bytes), (12, 3));
    /// assert_eq!(bytes[..3], [0x88, 0xC6, 0xFA]);
    /// ```
    #[track_caller]
    fn pack(&self, decompressed: &[u32], compressed: &mut [u8]) -> (usize, u8);

    /// Packs the differences of a block at their least width.
    ///
    /// # Panics
    ///
    /// As `pack`.
    ///
    /// ```
    /// use bitpacking::{BitPacker, BitPacker1x, Pack};
    ///
    /// let values: Vec<u32> = (0..32).map(|k| 10 + 3 * k).collect();
    /// let mut bytes = [0; 4 * BitPacker1x::BLOCK_LEN];
    /// assert_eq!(BitPacker1x::new().pack_sorted(10, &values, &mut bytes), (8, 2));
    /// ```
    #[track_caller]
    fn pack_sorted(&self, initial: u32, decompressed: &[u32], compressed: &mut [u8]) -> (usize, u8);

    /// Packs one less than the differences of a block at their least width.
    ///
    /// # Panics
    ///
    /// As `pack`.
    ///
    /// ```
    /// use bitpacking::{BitPacker, BitPacker1x, Pack};
    ///
    /// let values: Vec<u32> = (0..32).collect();
    /// let mut bytes = [0; 4 * BitPacker1x::BLOCK_LEN];
    /// assert_eq!(BitPacker1x::new().pack_strictly_sorted(None, &values, &mut bytes), (0, 0));
    /// ```
    #[track_caller]
    fn pack_strictly_sorted(&self, initial: Option<u32>, decompressed: &[u32], compressed: &mut [u8]) -> (usize, u8);
}

/// A packer of this crate, which packs chains and lists too. No other type can be one.
pub trait Packer: Pack + packers::Code {}
