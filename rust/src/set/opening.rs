//! Many sets, opened by one call; and the length of the set at the front of bytes.

use alloc::vec::Vec;
use core::fmt;

use super::{Error, IdSetBuf};
use crate::sets;
use crate::stable_bytes::StableBytes;

/// Which of the encodings of [`open_many`] was refused, and why.
///
/// ```
/// use bitpacking::set::{Error, OpenError, open_many};
///
/// let error = open_many([&[0x81, 5][..], &[0x81]]).unwrap_err();
/// assert_eq!(error, OpenError { index: 1, error: Error::Short });
/// assert_eq!(error.to_string(), "encoding 1: bytes are missing");
/// ```
#[derive(Clone, Copy, PartialEq, Eq, Debug)]
pub struct OpenError {
    /// The index, among the encodings, of the first with a fault.
    pub index: usize,
    /// Its first fault.
    pub error: Error,
}

impl fmt::Display for OpenError {
    fn fmt(&self, f: &mut fmt::Formatter<'_>) -> fmt::Result {
        write!(f, "encoding {}: {}", self.index, self.error)
    }
}

impl core::error::Error for OpenError {}

/// Opens encodings, and returns their sets in the same order. Tests all bytes of each, as [`open`](IdSetBuf::open) does, and allocates only the
/// vector.
///
/// # Errors
///
/// The first fault, with the index of its encoding. Later ones are not read.
///
/// ```
/// use bitpacking::set::open_many;
///
/// // Two sets in one buffer, and where each begins and the last ends.
/// let (bytes, bounds) = ([0x81, 5, 0x84, 7, 9, 1, 0, 0x84, 4], [0, 2, 9]);
/// let sets = open_many(bounds.windows(2).map(|it| &bytes[it[0]..it[1]]))?;
/// assert_eq!((sets[0].unpack(), sets[1].unpack()), (vec![5], vec![7, 9, 10, 300]));
/// # Ok::<(), bitpacking::set::OpenError>(())
/// ```
pub fn open_many<B: StableBytes>(encodings: impl IntoIterator<Item = B>) -> Result<Vec<IdSetBuf<B>>, OpenError> {
    let encodings = encodings.into_iter().enumerate();
    encodings.map(|(index, bytes)| IdSetBuf::open(bytes).map_err(|error| OpenError { index, error })).collect()
}

impl IdSetBuf {
    /// Returns the length in bytes of the set at the front of some bytes, whatever is after it. Tests the set only as far as that needs: open
    /// these bytes then. Returns `None` if what it reads has a fault, or if the set goes on after the bytes.
    ///
    /// ```
    /// use bitpacking::set::{Error, IdSet, IdSetBuf};
    ///
    /// // Two sets in one buffer, one after the other.
    /// let mut stream = &[0x81, 5, 0x84, 7, 9, 1, 0, 0x84, 4][..];
    /// let mut ids = Vec::new();
    /// while let Some(len) = IdSetBuf::front_len(stream) {
    ///     let (bytes, later) = stream.split_at(len);
    ///     ids.extend(IdSet::open(bytes)?.iter());
    ///     stream = later;
    /// }
    /// assert_eq!((ids, stream), (vec![5, 7, 9, 10, 300], &[][..]));
    /// # Ok::<(), Error>(())
    /// ```
    pub fn front_len(bytes: &[u8]) -> Option<usize> {
        sets::front_len(bytes)
    }
}
