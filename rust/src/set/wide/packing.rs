//! From ids to the bytes of a wide set.

use alloc::vec::Vec;

use super::{Error, WideSetBuf};
use crate::growing::Growing;
use crate::wide;

impl WideSetBuf {
    /// Packs increasing ids. Allocates the bytes of the encoding, and 4 bytes for each id while it runs.
    ///
    /// # Errors
    ///
    /// `TooLong`, if there are more than 268,435,456 ids; `NotSorted`, with the position of the first id that is not above the one before it;
    /// `Memory`, if an allocation fails.
    ///
    /// ```
    /// use bitpacking::set::wide::{Error, WideSetBuf};
    ///
    /// // Eight ids that share their high 32 bits, which are 1.
    /// let ids: Vec<u64> = (5_000_000_000..5_000_000_008).collect();
    /// let set = WideSetBuf::pack(&ids)?;
    /// assert_eq!(set.as_bytes(), [8, 8, 1, 0x11, 1, 0, 0, 0, 7, 8, 0x88, 0x80, 0xE4, 0x97, 0xD0, 2, 0]);
    /// assert_eq!(WideSetBuf::pack(&[7, 9, 8]).err(), Some(Error::NotSorted(2)));
    /// # Ok::<(), Error>(())
    /// ```
    pub fn pack(ids: &[u64]) -> Result<WideSetBuf, Error> {
        let mut space = Vec::new();
        space.try_resize(ids.len(), 0).map_err(|_| Error::Memory)?;
        packed(ids, &mut space)
    }
}

/// The set of increasing ids, with work space of as many numbers or more.
pub(super) fn packed(ids: &[u64], space: &mut [u32]) -> Result<WideSetBuf, Error> {
    let mut bytes = Vec::new();
    // REQUIRES: the work space has as many numbers as there are ids.
    wide::encode(ids, space, &mut bytes)?;
    // SAFETY: the call packed these bytes.
    Ok(unsafe { WideSetBuf::open_unchecked(bytes) })
}

/// Collects ids in any order, and each once if they repeat. Allocates 8 bytes for each id that comes, and what [`pack`](WideSetBuf::pack) does.
///
/// # Panics
///
/// If there are more than 268,435,456 different ids, or an allocation fails. [`WideSetBuf::pack`] returns an error instead.
///
/// ```
/// use bitpacking::set::wide::WideSetBuf;
///
/// let ids: WideSetBuf = [1 << 40, 5, 5].into_iter().collect();
/// assert_eq!(ids.unpack(), [5, 1 << 40]);
/// ```
impl FromIterator<u64> for WideSetBuf {
    fn from_iter<I: IntoIterator<Item = u64>>(ids: I) -> Self {
        let mut ids: Vec<u64> = ids.into_iter().collect();
        ids.sort_unstable();
        ids.dedup();
        WideSetBuf::pack(&ids).unwrap_or_else(|error| panic!("{error}"))
    }
}

/// Collects and panics as from ids that are not borrowed.
impl<'a> FromIterator<&'a u64> for WideSetBuf {
    fn from_iter<I: IntoIterator<Item = &'a u64>>(ids: I) -> Self {
        ids.into_iter().copied().collect()
    }
}

/// Collects and panics as [`from_iter`](FromIterator::from_iter) does.
///
/// ```
/// assert_eq!(bitpacking::set::wide::WideSetBuf::from([1 << 40, 5, 5]).unpack(), [5, 1 << 40]);
/// ```
impl<const N: usize> From<[u64; N]> for WideSetBuf {
    fn from(ids: [u64; N]) -> Self {
        ids.into_iter().collect()
    }
}
