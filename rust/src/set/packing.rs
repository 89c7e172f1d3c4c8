//! From ids to the bytes of a set.

use alloc::vec::Vec;

use super::{Error, IdSet, IdSetBuf};
use crate::sets;

/// Appends the encoding of a set to a vector, and returns the number of bytes. The vector grows at most once; nothing else is allocated.
///
/// # Errors
///
/// The first of: `TooLong`, if there are more than 268,435,456 ids; `NotSorted`, with the position of the first id that is not above the one
/// before it; `Memory`, if the vector cannot grow. The vector is then unchanged.
///
/// ```
/// use bitpacking::set::{Error, IdSet, pack_into};
///
/// // Two sets in one buffer, one after the other.
/// let mut bytes = Vec::new();
/// let ends = [pack_into(&[7, 9, 10, 300], &mut bytes)?, bytes.len() + pack_into(&[5], &mut bytes)?];
/// assert_eq!((ends, IdSet::open(&bytes[7..9])?.unpack()), ([7, 9], vec![5]));
/// assert_eq!(pack_into(&[3, 3], &mut bytes), Err(Error::NotSorted(1)));
/// # Ok::<(), Error>(())
/// ```
pub fn pack_into(ids: &[u32], bytes: &mut Vec<u8>) -> Result<usize, Error> {
    let from = bytes.len();
    sets::encode(ids, bytes)?;
    Ok(bytes.len() - from)
}

/// Writes the encoding of a set at the start of a slice, and returns the number of bytes. The rest of the slice is unchanged. Allocates nothing.
///
/// # Errors
///
/// The first of: `TooLong` and `NotSorted`, as [`pack_into`]; `Short`, if the slice is shorter than [`packed_len`]. Nothing is written then.
///
/// ```
/// use bitpacking::set::{Error, pack_to};
///
/// let mut bytes = [0; 8];
/// assert_eq!(pack_to(&[7, 9, 10, 300], &mut bytes)?, 7);
/// assert_eq!(bytes, [0x84, 7, 9, 1, 0, 0x84, 4, 0]);
/// assert_eq!(pack_to(&[7, 9, 10, 300], &mut bytes[..6]), Err(Error::Short));
/// # Ok::<(), Error>(())
/// ```
pub fn pack_to(ids: &[u32], bytes: &mut [u8]) -> Result<usize, Error> {
    sets::encode_to(ids, bytes)
}

/// Returns the length in bytes of the encoding of a set. Allocates nothing.
///
/// # Errors
///
/// `TooLong` or `NotSorted`, as [`pack_into`].
///
/// ```
/// assert_eq!(bitpacking::set::packed_len(&[7, 9, 10, 300])?, 7);
/// # Ok::<(), bitpacking::set::Error>(())
/// ```
pub fn packed_len(ids: &[u32]) -> Result<usize, Error> {
    sets::encoded_len(ids)
}

/// The set whose encoding a call appends to an empty vector.
pub(super) fn packed(call: impl FnOnce(&mut Vec<u8>) -> Result<(), Error>) -> Result<IdSetBuf, Error> {
    let mut bytes = Vec::new();
    call(&mut bytes)?;
    // SAFETY: the call packed these bytes.
    Ok(unsafe { IdSetBuf::open_unchecked(bytes) })
}

impl IdSetBuf {
    /// Packs increasing ids. Allocates the bytes of the encoding.
    ///
    /// # Errors
    ///
    /// The first of: `TooLong`, if there are more than 268,435,456 ids; `NotSorted`, with the position of the first id that is not above the
    /// one before it; `Memory`.
    ///
    /// ```
    /// use bitpacking::set::{Error, IdSetBuf};
    ///
    /// let ids = IdSetBuf::pack(&[7, 9, 10, 300])?;
    /// assert_eq!(ids.as_bytes(), [0x84, 7, 9, 1, 0, 0x84, 4]);
    /// assert_eq!(IdSetBuf::pack(&[7, 9, 8]).err(), Some(Error::NotSorted(2)));
    /// # Ok::<(), Error>(())
    /// ```
    pub fn pack(ids: &[u32]) -> Result<IdSetBuf, Error> {
        packed(|bytes| sets::encode(ids, bytes))
    }
}

impl IdSet {
    /// Returns the set of these ids and of more ids after them. If both sets are large, it copies all chunks but the last. It allocates the
    /// bytes of the encoding, and 4 bytes for each id that it does not copy.
    ///
    /// # Errors
    ///
    /// The first of: `TooLong`, if there are more than 268,435,456 ids together; `NotSorted`, with the position in the whole set of the first
    /// id that is not above the one before it; `Memory`.
    ///
    /// ```
    /// use bitpacking::set::{Error, IdSetBuf};
    ///
    /// let ids = IdSetBuf::pack(&[1, 4])?;
    /// assert_eq!(ids.append(&[6, 9])?.unpack(), [1, 4, 6, 9]);
    /// assert_eq!(ids.append(&[4]).err(), Some(Error::NotSorted(2)));
    /// # Ok::<(), Error>(())
    /// ```
    pub fn append(&self, ids: &[u32]) -> Result<IdSetBuf, Error> {
        packed(|bytes| sets::append(&self.code(), ids, &mut Vec::new(), bytes))
    }
}

/// Collects ids in any order, and each once if they repeat. Allocates 4 bytes for each id that comes, and the bytes of the encoding.
///
/// # Panics
///
/// If there are more than 268,435,456 different ids, or an allocation fails. [`IdSetBuf::pack`] returns an error instead.
///
/// ```
/// use bitpacking::set::IdSetBuf;
///
/// let ids: IdSetBuf = [9, 4, 1, 4].into_iter().collect();
/// assert_eq!(ids.unpack(), [1, 4, 9]);
/// ```
impl FromIterator<u32> for IdSetBuf {
    fn from_iter<I: IntoIterator<Item = u32>>(ids: I) -> Self {
        let mut ids: Vec<u32> = ids.into_iter().collect();
        ids.sort_unstable();
        ids.dedup();
        IdSetBuf::pack(&ids).unwrap_or_else(|error| panic!("{error}"))
    }
}

/// Collects and panics as from ids that are not borrowed.
impl<'a> FromIterator<&'a u32> for IdSetBuf {
    fn from_iter<I: IntoIterator<Item = &'a u32>>(ids: I) -> Self {
        ids.into_iter().copied().collect()
    }
}

/// Collects and panics as [`from_iter`](FromIterator::from_iter) does.
///
/// ```
/// assert_eq!(bitpacking::set::IdSetBuf::from([9, 4, 1, 4]).unpack(), [1, 4, 9]);
/// ```
impl<const N: usize> From<[u32; N]> for IdSetBuf {
    fn from(ids: [u32; N]) -> Self {
        ids.into_iter().collect()
    }
}

/// Adds ids in any order: collects them, and combines both sets as `|=` does, which packs the whole set again. To push ids one by one, a
/// [`SetBuilder`](super::SetBuilder) is faster.
///
/// # Panics
///
/// If the set would have more than 268,435,456 ids, or an allocation fails. The set is then unchanged.
///
/// ```
/// use bitpacking::set::IdSetBuf;
///
/// let mut ids = IdSetBuf::from([4, 9]);
/// ids.extend([6, 1, 4]);
/// assert_eq!(ids.unpack(), [1, 4, 6, 9]);
/// ```
impl Extend<u32> for IdSetBuf {
    #[track_caller]
    fn extend<I: IntoIterator<Item = u32>>(&mut self, ids: I) {
        *self |= ids.into_iter().collect::<IdSetBuf>();
    }
}

/// Adds and panics as for ids that are not borrowed.
impl<'a> Extend<&'a u32> for IdSetBuf {
    #[track_caller]
    fn extend<I: IntoIterator<Item = &'a u32>>(&mut self, ids: I) {
        self.extend(ids.into_iter().copied());
    }
}
