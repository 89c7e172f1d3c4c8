//! Chains: many blocks, packed in one call.
//!
//! Each block is packed at its own least width. The first block has the kind of the call; each one after it begins from the last
//! value of the block before. The caller stores the packer, the kind and the widths beside
//! the bytes.
//!
//! ```
//! use bitpacking::chain::{pack_all, unpack_all, Kind};
//! use bitpacking::BitPacker4x;
//!
//! // Two blocks of 128 values, each 3 more than the one before it: two bits each, or 32 bytes a block.
//! let values: Vec<u32> = (0..256).map(|k| 3 * k).collect();
//! let (mut widths, mut bytes) = ([0; 2], [0; 4 * 256]);
//! let size = pack_all(BitPacker4x, Kind::Sorted(0), &values, &mut widths, &mut bytes)?;
//! assert_eq!((size, widths), (64, [2, 2]));
//!
//! let mut unpacked = [0; 256];
//! unpack_all(BitPacker4x, Kind::Sorted(0), &widths, &bytes[..size], &mut unpacked)?;
//! assert_eq!(unpacked[..], values[..]);
//! # Ok::<(), bitpacking::chain::Error>(())
//! ```

use core::fmt;

use crate::Packer;
use crate::bitpacking::{self, BitPacker};
use crate::lists::chain;

/// What is packed, and the value before the first one.
#[derive(Clone, Copy, PartialEq, Eq, Hash, Debug)]
pub enum Kind {
    /// The values.
    Plain,
    /// The differences of the values, modulo 2^32. The first one is from this value.
    Sorted(u32),
    /// One less than the differences, modulo 2^32. With `None` the values may begin with 0.
    StrictlySorted(Option<u32>),
}

/// Why a chain was not packed or unpacked. Nothing was written then.
#[derive(Clone, Copy, PartialEq, Eq, Hash, Debug)]
#[non_exhaustive]
pub enum Error {
    /// The values are not as many as whole blocks of the widths have, or there is no room for them.
    BadLength,
    /// A width is above 32.
    BadWidth,
    /// There are too few bytes to write to, or to read from.
    Short,
}

impl Error {
    /// The number of the error in `include/bitpacking.h`: from -1 down to -3, in the order of the variants.
    ///
    /// ```
    /// assert_eq!(bitpacking::chain::Error::Short.number(), -3);
    /// ```
    pub fn number(&self) -> i32 {
        match self {
            Error::BadLength => -1,
            Error::BadWidth => -2,
            Error::Short => -3,
        }
    }
}

impl fmt::Display for Error {
    fn fmt(&self, f: &mut fmt::Formatter<'_>) -> fmt::Result {
        f.write_str(match self {
            Error::BadLength => "the values are not as many as blocks of the widths have",
            Error::BadWidth => "a width is above 32",
            Error::Short => "there are too few bytes",
        })
    }
}

impl core::error::Error for Error {}

impl Kind {
    /// The kind of proved code.
    fn proved(self) -> bitpacking::Kind {
        match self {
            Kind::Plain => bitpacking::Kind::Plain,
            Kind::Sorted(initial) => bitpacking::Kind::Sorted(initial),
            Kind::StrictlySorted(initial) => bitpacking::Kind::StrictlySorted(initial),
        }
    }
}

/// Tests that bytes of this length hold blocks of these widths.
fn test_widths<P: BitPacker>(widths: &[u8], bytes: usize) -> Result<(), Error> {
    if widths.iter().any(|&width| width > 32) {
        return Err(Error::BadWidth);
    }
    let size: u64 = widths.iter().map(|&width| P::compressed_block_size(width) as u64).sum();
    if size > bytes as u64 { Err(Error::Short) } else { Ok(()) }
}

/// Packs whole blocks, one for each of `widths`, which get the width of each block. Returns the number of bytes written.
///
/// `4 * values.len()` bytes are always enough.
///
/// # Errors
///
/// The first of: `BadLength`, if `values` does not have as many values as `widths.len()` blocks; `Short`, if `bytes` has no room
/// for the blocks.
///
/// ```
/// use bitpacking::chain::{pack_all, Error, Kind};
/// use bitpacking::BitPacker1x;
///
/// // 32 ones of one bit, and 32 threes of two bits: 4 and 8 bytes.
/// let values = [[1; 32], [3; 32]].concat();
/// let (mut widths, mut bytes) = ([0; 2], [0; 12]);
/// assert_eq!(pack_all(BitPacker1x, Kind::Plain, &values, &mut widths, &mut bytes), Ok(12));
/// assert_eq!((widths, bytes), ([1, 2], [0xFF; 12]));
/// assert_eq!(pack_all(BitPacker1x, Kind::Plain, &values, &mut widths, &mut bytes[..11]), Err(Error::Short));
/// ```
pub fn pack_all<P: Packer>(_packer: P, kind: Kind, values: &[u32], widths: &mut [u8], bytes: &mut [u8]) -> Result<usize, Error> {
    let (packer, kind) = (<P::Code as BitPacker>::new(), kind.proved());
    if values.len() % P::BLOCK_LEN != 0 || values.len() / P::BLOCK_LEN != widths.len() {
        return Err(Error::BadLength);
    }
    if values.len() > bytes.len() / 4 && bytes.len() < chain::packed_len(&packer, kind, values) {
        return Err(Error::Short);
    }
    // REQUIRES: the values are as many as `widths.len()` blocks have, and there is room for their chain, as was tested.
    Ok(chain::pack_measured(&packer, kind, values, widths, bytes))
}

/// Unpacks blocks that were packed with the same packer, kind and widths. Returns the number of bytes read.
///
/// Accepts any bytes, and does not read later ones. Values after the blocks are unchanged.
///
/// # Errors
///
/// `BadWidth`, if a width is above 32; `Short`, if `bytes` is shorter than the blocks; and else `BadLength`, if `values` has no room
/// for the blocks.
///
/// ```
/// use bitpacking::chain::{unpack_all, Error, Kind};
/// use bitpacking::BitPacker1x;
///
/// let mut values = [0; 64];
/// assert_eq!(unpack_all(BitPacker1x, Kind::Plain, &[1, 2], &[0xFF; 12], &mut values), Ok(12));
/// assert_eq!(values[30..34], [1, 1, 3, 3]);
/// assert_eq!(unpack_all(BitPacker1x, Kind::Plain, &[1, 33], &[0xFF; 12], &mut values), Err(Error::BadWidth));
/// ```
pub fn unpack_all<P: Packer>(_packer: P, kind: Kind, widths: &[u8], bytes: &[u8], values: &mut [u32]) -> Result<usize, Error> {
    test_widths::<P::Code>(widths, bytes.len())?;
    if widths.len() > values.len() / P::BLOCK_LEN {
        return Err(Error::BadLength);
    }
    // REQUIRES: each width is at most 32, the bytes have these blocks, and there is room for their values, as was tested.
    Ok(chain::unpack_all(&<P::Code as BitPacker>::new(), kind.proved(), widths, bytes, values))
}
